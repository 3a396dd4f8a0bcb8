/* The word of each refusal, for the messages of the examples. C99 and C++. */
#ifndef EXAMPLES_REFUSALS_H
#define EXAMPLES_REFUSALS_H

#include <stdint.h>
#include <stdio.h>

#include "jadeshuttle.h"

static inline const char *refusal_word(uint64_t number)
{
    switch (number) {
    case JADESHUTTLE_UNTERMINATED: return "torn";
    case JADESHUTTLE_NOT_HEX: return "smudged";
    case JADESHUTTLE_WRONG_KIND: return "stray";
    case JADESHUTTLE_SLOTS_OR_OPTIONS_OUT_OF_RANGE: return "crowded";
    case JADESHUTTLE_WRONG_LENGTH: return "misshapen";
    case JADESHUTTLE_LOADS_OR_FINENESS_OUT_OF_RANGE: return "beyond";
    case JADESHUTTLE_REACTIVE_EXCEEDS_ACTIVE: return "slack";
    case JADESHUTTLE_TRAILING_BYTES: return "trailing";
    case JADESHUTTLE_TOO_MANY_CELLS: return "oversize";
    case JADESHUTTLE_WORK_TOO_SMALL: return "cramped";
    case JADESHUTTLE_BUFFER_TOO_SMALL: return "no sheet";
    case JADESHUTTLE_BUDGET_EXCEEDED: return "spent";
    case JADESHUTTLE_FOREIGN_SHEET: return "foreign";
    case JADESHUTTLE_WRONG_PRICE_COUNT: return "prices";
    case JADESHUTTLE_WRONG_NAMES: return "names";
    case JADESHUTTLE_NAMED_LOAD_STANDS: return "blocked";
    case JADESHUTTLE_NO_PLAN: return "no plan";
    case JADESHUTTLE_TOO_MANY_BOOKS: return "too many books";
    case JADESHUTTLE_OUTPUT_TOO_LONG: return "too long";
    case JADESHUTTLE_TOO_COARSE: return "too coarse";
    case JADESHUTTLE_SLOTS_OR_FINENESS_DIFFER: return "unlike";
    case JADESHUTTLE_TOO_MANY_LOADS: return "too many loads";
    case JADESHUTTLE_LIMIT_SUM_TOO_LARGE: return "limit too large";
    default: return "unknown";
    }
}

/* One line, as "refusal 7 (slack) at line 3". */
static inline void write_refusal(FILE *file, uint64_t number, uint64_t line)
{
    fprintf(file, "refusal %u (%s)", (unsigned)number, refusal_word(number));
    if (line != 0)
        fprintf(file, " at line %u", (unsigned)line);
    fputc('\n', file);
}

static inline void print_refusal(uint64_t number, uint64_t line)
{
    write_refusal(stderr, number, line);
}

#endif
