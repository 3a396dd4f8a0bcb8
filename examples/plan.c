/*
 * plan.c - plans a load book and prints its sheet.
 *
 *     plan [-q | -s] [BOOK]
 *
 * BOOK is a file; without it the book is read from standard input. -q takes the
 * quick planner, -s the strict planner. Exit status: 0 a sheet, 1 a refusal, 2 an
 * error of this program.
 */
#include <errno.h>
#include <stdio.h>
#include <stdlib.h>
#include <string.h>

#include "jadeshuttle.h"
#include "refusals.h"

/* Far more than the longest book, so that a faulty one gets the refusal of its fault. */
enum { BOOK_ROOM = 65536 };

/* The planner or the strict planner. */
typedef jadeshuttle_answer (*planner)(const uint8_t *book, size_t book_len, uint64_t *work, size_t work_len,
                                      uint8_t *sheet, size_t sheet_len);

static int own_error(const char *name, const char *what)
{
    fprintf(stderr, "plan: %s: %s\n", name, what);
    return 2;
}

/* Reads all of an open file. 0, or 2 after a message. */
static int read_from(FILE *file, const char *name, uint8_t *buffer, size_t *length)
{
    *length = fread(buffer, 1, BOOK_ROOM, file);
    if (ferror(file))
        return own_error(name, strerror(errno));
    if (*length == BOOK_ROOM)
        return own_error(name, "too long for a book");
    return 0;
}

static int read_book(const char *name, uint8_t *buffer, size_t *length)
{
    FILE *file;
    int status;

    if (name == NULL)
        return read_from(stdin, "standard input", buffer, length);
    file = fopen(name, "rb");
    if (file == NULL)
        return own_error(name, strerror(errno));
    status = read_from(file, name, buffer, length);
    fclose(file);
    return status;
}

/* Runs a planner with a work area that is large enough for every book. 0, or 2 where there is no memory. */
static int run_planner(planner run, const uint8_t *book, size_t length, uint8_t *sheet, jadeshuttle_answer *answer)
{
    uint64_t *work = (uint64_t *)malloc(JADESHUTTLE_WORK_MAX * sizeof *work);

    if (work == NULL)
        return own_error("work area", "no memory");
    *answer = run(book, length, work, JADESHUTTLE_WORK_MAX, sheet, JADESHUTTLE_SHEET_MAX);
    free(work);
    return 0;
}

/* Whether the sheet reader finds in the sheet what the planner answered. */
static int reads_back(const uint8_t *book, size_t length, const uint8_t *sheet, jadeshuttle_answer answer)
{
    jadeshuttle_reading reading = jadeshuttle_read_sheet(book, length, sheet, (size_t)answer.bytes);

    return reading.number == JADESHUTTLE_SUCCESS && reading.worth == answer.worth && reading.trials == answer.trials;
}

/* Plans with this planner; with the quick planner where there is none. */
static int plan(planner run, const char *name)
{
    static uint8_t book[BOOK_ROOM];
    uint8_t sheet[JADESHUTTLE_SHEET_MAX];
    jadeshuttle_answer answer;
    size_t length;

    if (read_book(name, book, &length) != 0)
        return 2;
    if (run == NULL)
        answer = jadeshuttle_quick(book, length, sheet, sizeof sheet);
    else if (run_planner(run, book, length, sheet, &answer) != 0)
        return 2;
    if (answer.number != JADESHUTTLE_SUCCESS) {
        print_refusal(answer.number, answer.line);
        return 1;
    }
    if (!reads_back(book, length, sheet, answer))
        return own_error("sheet", "does not read back");
    if (fwrite(sheet, 1, (size_t)answer.bytes, stdout) != answer.bytes || fflush(stdout) != 0)
        return own_error("standard output", strerror(errno));
    return 0;
}

int main(int argc, char **argv)
{
    int quick = argc > 1 && strcmp(argv[1], "-q") == 0;
    int strict = argc > 1 && strcmp(argv[1], "-s") == 0;
    int names = argc - 1 - quick - strict;

    if (names > 1 || (names == 1 && argv[argc - 1][0] == '-')) {
        fputs("usage: plan [-q | -s] [BOOK]\n", stderr);
        return 2;
    }
    return plan(quick ? NULL : strict ? jadeshuttle_plan_strict : jadeshuttle_plan, names == 1 ? argv[argc - 1] : NULL);
}
