/*
 * cells.c - how large a work area a book needs, by the numbers of its header.
 *
 *     cells [-r RATIO] N d S...
 *
 * The ratio r, 1 where it is not given, N loads, fineness d, and the limit S of each
 * of the 1 to 4 slots in tenths of a kVA, all decimal. Exit status: 0 the book has at
 * most 1,048,576 cells, 1 it is oversize, 2 an error of this program.
 */
#include <stdio.h>
#include <stdlib.h>
#include <string.h>

#include "jadeshuttle.h"

/* What a header states beside its limits. */
struct header {
    uint64_t ratio, loads, fineness;
};

/* A slot's step L, its R, and its grid pairs. */
struct grid {
    uint64_t step, top, pairs;
};

static struct grid grid_of(struct header h, uint64_t limit)
{
    struct grid g;

    g.step = limit / (h.loads * h.fineness);
    if (g.step == 0)
        g.step = 1;
    g.top = limit / g.step;
    g.pairs = (g.top + 1) * (2 * h.ratio * g.top + (2 * h.ratio - 1) * h.loads + 1);
    return g;
}

/* Prints a line for each slot. The cells, or some number over the bound where there are more. */
static uint64_t print_slots(struct header h, int slots, const uint64_t *limits)
{
    uint64_t cells = 1;
    int s;

    puts("slot    limit     step        R    pairs");
    for (s = 0; s < slots; s++) {
        struct grid g = grid_of(h, limits[s]);

        printf("%4d %8lu %8lu %8lu %8lu\n", s + 1, (unsigned long)limits[s], (unsigned long)g.step,
               (unsigned long)g.top, (unsigned long)g.pairs);
        /* The whole product can pass 64 bits. No factor is 0, so it may stop above the bound. */
        if (cells <= JADESHUTTLE_CELLS_MAX)
            cells *= g.pairs;
    }
    return cells;
}

/* Whether the text is a decimal number from low to high; it is stored. */
static int number_in(const char *text, uint64_t low, uint64_t high, uint64_t *number)
{
    if (text[0] == '\0' || strlen(text) > 5 || strspn(text, "0123456789") != strlen(text))
        return 0;
    *number = strtoul(text, NULL, 10);
    return low <= *number && *number <= high;
}

int main(int argc, char **argv)
{
    struct header h = {1, 0, 0};
    uint64_t limits[4], cells;
    int stated = argc > 2 && strcmp(argv[1], "-r") == 0 ? 2 : 0;
    char **numbers = argv + 1 + stated;
    int slots = argc - 3 - stated;
    int good = 1 <= slots && slots <= 4 && (!stated || number_in(argv[2], 1, 3, &h.ratio)) &&
               number_in(numbers[0], 1, 24, &h.loads) && number_in(numbers[1], 1, 64, &h.fineness);
    int s;

    for (s = 0; good && s < slots; s++)
        good = number_in(numbers[2 + s], 0, 65535, &limits[s]);
    if (!good) {
        fputs("usage: cells [-r RATIO] N d S...\n", stderr);
        return 2;
    }
    cells = print_slots(h, slots, limits);
    if (cells > JADESHUTTLE_CELLS_MAX) {
        printf("over %d cells: oversize\n", JADESHUTTLE_CELLS_MAX);
        return 1;
    }
    printf("%lu cells, %lu words, %lu bytes\n", (unsigned long)cells, (unsigned long)(4 * cells),
           (unsigned long)(32 * cells));
    return 0;
}
