/*
 * jadeshuttle.h - the load planner, for programs in C99 and C++.
 *
 * Each call takes a load book, two of them, or a day's books, and gives an answer by
 * value:
 *
 *   jadeshuttle_plan        the planner: writes the sheet of the best plan
 *   jadeshuttle_plan_strict the strict planner: writes the sheet of a plan that
 *                           keeps every limit
 *   jadeshuttle_quick       the quick planner: level 1 only, smallest loads first
 *   jadeshuttle_read_sheet  the sheet reader: whether a sheet belongs to a book
 *   jadeshuttle_charge      the charge: what a sheet's energy costs
 *   jadeshuttle_order       the order of starting: in which a new sheet's loads start
 *   jadeshuttle_mill_view   the mill's view: a sheet's worth, and what runs
 *   jadeshuttle_supply_view the supply company's view: a sheet's slot lines alone
 *   jadeshuttle_day         the day: plans up to 32 books in one call
 *   jadeshuttle_pool        the pool: writes one book of the books of two mills
 *
 * docs/HANDBOOK.md describes the book and the sheet field by field, what the
 * limits mean for a relay, how large a work area a book needs, what a price is,
 * which loads to name for an order, what each party learns from its view, which
 * loads draw while standing or must run, what can be done where a book has no plan,
 * how a day's books are handed over and their output is read back, which motors need
 * a ratio above 1, when to take the strict planner, and what two mills on one
 * transformer gain by a joint plan.
 *
 * THE BOOK  A header line of kind 01, or of kind 08 where it states a ratio r; then a
 * line for each load: of kind 02, of kind 06 for a load that draws while it stands, or
 * of kind 07 for a load that must run.
 *
 * An 01 header has 16 + 4T digits: the kind, T, N and d (2 each), the budget (8) and
 * the limits S of the slots (4 each). An 08 header has 18 + 4T: two more for r, from 1
 * to 3, between d and the budget. An 01 header means r = 1. Every level has
 * |Q| <= r x P in every slot, and so has standing.
 *
 * A 06 line has, after its number of levels, a P and a Q for each slot, its standing
 * pairs, and then the levels: in all 4 + 8T + o x (4 + 8T) digits, 8T more than a 02
 * or a 07 line. Every sum of P and Q counts the standing pair of a load that stands;
 * on a 02 line it is (0, 0). A load that stands and draws is standing all the same:
 * its level and its worth are 0. A 07 line is laid out as a 02 line, but its load
 * never stands: every choice gives it one of its levels, 1 to o, and its factor in
 * the trials is o, not o + 1.
 *
 * CELLS  A slot with limit S has (R + 1) x (2rR + (2r - 1)N + 1) grid pairs, where R is
 * S div L and L is S div (N x d), but at least 1. Cells is the product over the slots.
 * Beside them r decides only refusals 6 and 7: no sheet depends on it.
 *
 * LINKING  Name target/staticlib/libjadeshuttle.a after your own files. It calls
 * memcpy and memset of the C library, and nothing else.
 *
 * MEMORY THAT YOU LEND
 *   - A call uses the memory only until it returns. It keeps no pointer.
 *   - Lengths are in elements: bytes for a book, a day's books, a sheet, names, an
 *     order, a view, a day's output and a pooled book, 64-bit words for the work area,
 *     16-bit numbers for prices.
 *   - No pointer may be NULL, not even where its length is 0. `work` is aligned
 *     as a uint64_t is, `prices` as a uint16_t.
 *   - All the bytes that a length names are yours to lend. No length names more
 *     than PTRDIFF_MAX bytes.
 *   - What is written may overlap nothing else: `work` and the planners' `sheet`
 *     lie apart from each other and from `book`, `work` and `out` from each other and
 *     from `books`, and `order`, `view` and `pooled` from all that the call reads. What
 *     is only read may overlap, so all that the sheet reader and the charge take, and
 *     the two books of the pool.
 *   - `work`, the planners' `sheet`, `order`, `view`, `out` and `pooled` need no first
 *     values. No answer depends on them.
 *
 * The calls cannot test these points. Where one is broken, nothing is promised.
 * Of the values in book, books, first, second, sheet, prices and names, nothing is
 * asked: every input has an answer.
 *
 * WHAT A CALL LEAVES BEHIND
 *   - With a sheet (number 0): the first `bytes` bytes of the sheet buffer are the
 *     sheet. It is no C string: no 0 byte follows. The rest of the buffer keeps
 *     its values. The same holds for an order, a view, a day's output or a pooled
 *     book and its buffer.
 *   - With a refusal: no byte of the buffer changes. A day is refused with 18 or 19; a
 *     refused book of a day is a line of the output.
 *   - The work area: with a sheet, refusal 12 or refusal 17, the first 4 x cells
 *     words hold anything, and the words past them keep their values. With refusals
 *     1 to 11 and 20 no word changes. With a day's output, and with refusal 19, the
 *     words keep their values that no book with a sheet, 12 or 17 needs; with refusal
 *     18 no word changes.
 *   - The book never changes, nor does anything else that a call only reads.
 *
 * THREADS  There is no state. Calls may run at the same time in several threads,
 * as long as each has its own memory to write: `work`, the planners' `sheet`,
 * `order`, `view`, `out`, and `pooled`. What is only read may be shared.
 *
 * STACK, HEAP  Nothing is allocated. Stack used by a call, as measured on x86-64
 * Linux: planner and strict planner up to 113 KiB, day up to 118 KiB, as its output waits
 * there until it is known to fit, quick planner up to 63 KiB, sheet reader, charge,
 * order, views and pool up to 48 KiB. Leave 192 KiB of stack for a call.
 *
 * ERRORS  A call always returns. It prints nothing, and sets no errno.
 */
#ifndef JADESHUTTLE_H
#define JADESHUTTLE_H

#include <stddef.h>
#include <stdint.h>

#ifdef __cplusplus
extern "C" {
#endif

/* Bounds. Buffers of these sizes are large enough for every book and every day. */
#define JADESHUTTLE_BOOK_MAX 3515     /* bytes of the longest book, also of a pooled one: header 08, T = 4, N = 24,
                                         lines 06 of three levels */
#define JADESHUTTLE_SHEET_MAX 159     /* bytes of the longest sheet: 19 + 2N + 23T for N = 24, T = 4 */
#define JADESHUTTLE_ORDER_MAX 24      /* bytes of the longest order: N = 24 */
#define JADESHUTTLE_VIEW_MAX 107      /* bytes of the longest view: the mill's, 11 + 4N for N = 24 */
#define JADESHUTTLE_CELLS_MAX 1048576 /* cells; a book with more is refused as oversize */
#define JADESHUTTLE_WORK_MAX 4194304  /* words of the work area for that many cells: 4 a cell, 32 MiB */
#define JADESHUTTLE_BOOKS_MAX 32      /* books of a day; more are refused as too many */
#define JADESHUTTLE_DAY_MAX 5088      /* bytes of a day's longest output: 32 sheets of 159 bytes */

/*
 * What `number` says. Lines are read in order, and on each line 1 to 7 are tried
 * in this order, as far as they concern it; then 8 to 17, but the strict planner tries
 * 20 right after 8, and the 11 of an order or a view comes last. The pool tries 1 to 8
 * through its first book, then through its second, then 21 to 23, and 11 last. The
 * first that applies is given. `line` is the number of the line in the book, from 1,
 * for 1 to 8, and in the pool's second book it counts on from the first's last line; it
 * is 0 for success and from 9 on. The day answers only 18, and then 19: what its books
 * are refused with, 1 to 10, 12 and 17, stands in its output. Each comment begins with
 * the handbook's word.
 */
enum jadeshuttle_number {
    JADESHUTTLE_SUCCESS = 0,
    /* All calls but the day: the book. */
    JADESHUTTLE_UNTERMINATED = 1,                   /* torn: a line is due and no LF follows */
    JADESHUTTLE_NOT_HEX = 2,                        /* smudged: a byte of the line is no digit 0-9 A-F */
    JADESHUTTLE_WRONG_KIND = 3,                     /* stray: fewer than 4 digits, or kind not one that is due */
    JADESHUTTLE_SLOTS_OR_OPTIONS_OUT_OF_RANGE = 4,  /* crowded: T not 1 to 4; o not 1 to 3 */
    JADESHUTTLE_WRONG_LENGTH = 5,                   /* misshapen: number of digits not the stated one */
    JADESHUTTLE_LOADS_OR_FINENESS_OUT_OF_RANGE = 6, /* beyond: N not 1 to 24, d not 1 to 64, or r not 1 to 3; line 1
                                                       of its book */
    JADESHUTTLE_REACTIVE_EXCEEDS_ACTIVE = 7,        /* slack: |Q| > r x P in some slot of an option or of standing */
    JADESHUTTLE_TRAILING_BYTES = 8,                 /* trailing: bytes remain after the last load line; line N + 2
                                                       of its book */
    /* The planner and the strict planner. */
    JADESHUTTLE_TOO_MANY_CELLS = 9,  /* oversize: cells over 1,048,576 */
    JADESHUTTLE_WORK_TOO_SMALL = 10, /* cramped: work area under 4 x cells words */
    /* The three planners, the order, the views and the pool. */
    JADESHUTTLE_BUFFER_TOO_SMALL = 11, /* no sheet: buffer shorter than the sheet, order, view or pooled book */
    /* The planner and the strict planner. */
    JADESHUTTLE_BUDGET_EXCEEDED = 12, /* spent: trials over the budget */
    /* The sheet reader, the charge, the order and the views. */
    JADESHUTTLE_FOREIGN_SHEET = 13, /* foreign: no choice and no trials number give this sheet for this book */
    /* The charge only. */
    JADESHUTTLE_WRONG_PRICE_COUNT = 14, /* prices: their number is not T */
    /* The order only. */
    JADESHUTTLE_WRONG_NAMES = 15,       /* names: not N of them, or one is neither 0 nor a higher load's number */
    JADESHUTTLE_NAMED_LOAD_STANDS = 16, /* blocked: a load that starts names one that stands in the new sheet */
    /* The three planners. */
    JADESHUTTLE_NO_PLAN = 17, /* no plan: no choice is admitted; strict planner: none that it compares keeps the
                                 limits; quick planner: what it begins with breaks a limit */
    /* The day only. */
    JADESHUTTLE_TOO_MANY_BOOKS = 18,  /* too many books: more than 32 */
    JADESHUTTLE_OUTPUT_TOO_LONG = 19, /* too long: the output is longer than the buffer */
    /* The strict planner only. */
    JADESHUTTLE_TOO_COARSE = 20, /* too coarse: d is 1 */
    /* The pool only. */
    JADESHUTTLE_SLOTS_OR_FINENESS_DIFFER = 21, /* unlike: T or d of the two books differ */
    JADESHUTTLE_TOO_MANY_LOADS = 22,           /* too many loads: the two books have over 24 together */
    JADESHUTTLE_LIMIT_SUM_TOO_LARGE = 23       /* limit too large: the two limits of a slot are over 65,535 together */
};

/* What the planners, the views, the day and the pool answer. With a refusal, bytes, worth and trials are 0. */
typedef struct jadeshuttle_answer {
    uint64_t number; /* 0, or the refusal's number */
    uint64_t line;   /* the refused line of the book, or 0; for a day, 0; for the pool, counted through both books */
    uint64_t bytes;  /* bytes of the sheet, the view, the day's output or the pooled book that were written */
    uint64_t worth;  /* worth of the sheet's choice; for a view, a day or the pool, 0 */
    uint64_t trials; /* the book's trials; for the quick planner, N; for a view, a day or the pool, 0 */
} jadeshuttle_answer;

/* What the sheet reader answers. With a refusal, all after line is 0. */
typedef struct jadeshuttle_reading {
    uint64_t number;
    uint64_t line;
    uint64_t bytes;  /* always 0: the reader writes nothing */
    uint64_t worth;  /* worth of the sheet's choice */
    uint64_t trials; /* the trials that the sheet states; not compared with the book's */
    uint64_t code;   /* the choice: load k has level (code >> 2 * (k - 1)) & 3, and 0 is standing */
} jadeshuttle_reading;

/* What the charge answers. With a refusal, all after line is 0. */
typedef struct jadeshuttle_charge_answer {
    uint64_t number;
    uint64_t line;
    uint64_t bytes;  /* always 0: nothing is written */
    uint64_t worth;  /* always 0: nothing is planned */
    uint64_t trials; /* always 0 */
    uint64_t charge; /* in hundredths of a unit of money; at most 10,307,606,940 */
} jadeshuttle_charge_answer;

/* What the order of starting answers. With a refusal, all after line is 0. */
typedef struct jadeshuttle_order_answer {
    uint64_t number;
    uint64_t line;
    uint64_t bytes;  /* bytes of the order that were written, one for each load that starts */
    uint64_t worth;  /* always 0: nothing is planned */
    uint64_t trials; /* always 0 */
    uint64_t starts; /* how many loads stand in the running sheet and run in the new one */
    uint64_t stops;  /* how many loads run in the running sheet and stand in the new one */
} jadeshuttle_order_answer;

/*
 * The planner. Writes the sheet of the plan: the admitted choice of greatest
 * worth, and among equals the one with the smallest code. Every choice runs the
 * loads that must run. Gives 1 to 12, and then 17. There is a sheet exactly where no
 * refusal applies, and 17 exactly where none of 1 to 12 applies and no choice is
 * admitted. Where 17 is given, no choice keeps P*P + Q*Q <= S*S in every slot. Where
 * the loads that must run, at level 1, keep the limits with all others standing, 17
 * is not given; in a book with 02 lines only, that is always so.
 *
 * Of every sheet it gives, for each r, with P and Q the true sums in a slot and S its
 * limit:
 *   - no choice that keeps P*P + Q*Q <= S*S in every slot is worth more;
 *   - 4*d*d * (P*P + Q*Q) <= (2*d+3)*(2*d+3) * S*S in every slot, so that the
 *     apparent power is at most (1 + 3/(2*d)) * S;
 *   - P*P + Q*Q <= S*S in every slot where S < 2*N*d.
 * The sums count standing pairs, in other choices too. The last two hold whether or
 * not any other choice keeps the limits.
 *
 * 4 x cells words of work area are needed. The budget in the book bounds the
 * number of trials, not the time. The time depends on the trials and on the
 * stretches of the table between reached cells, so on the cells too. Measured on
 * x86-64: about 1.5 ns a trial for dense books of millions of trials, about 300 ns
 * for sparse books of a few hundred, and more for books of a few. Nothing is
 * promised about time.
 */
jadeshuttle_answer jadeshuttle_plan(const uint8_t *book, size_t book_len,
                                    uint64_t *work, size_t work_len,
                                    uint8_t *sheet, size_t sheet_len);

/*
 * The strict planner: never above the limit. It takes what jadeshuttle_plan takes, and
 * answers in the same form. A choice's grid pair in a slot is the sum of its P and the
 * sum of its Q in steps of L, each P and Q, standing pairs too, rounded toward minus
 * infinity before adding. The strict planner compares one choice for each list of grid
 * pairs, one pair a slot: of the choices that have those pairs, the one of greatest
 * worth, and among equals the one with the smallest code. Every choice runs the loads
 * that must run. Of the compared choices, it writes the sheet of the best, by the same
 * two rules, that has P*P + Q*Q <= S*S in every slot, with P and Q the true sums. The
 * trials are the book's, as with jadeshuttle_plan.
 *
 * Gives 1 to 8; 20 where d is 1; 9 to 12; and then 17. There is a sheet exactly where
 * no refusal applies, and 17 exactly where none of those before it does and none of the
 * compared choices keeps the limits. Another choice may keep them all the same: one
 * with the pairs of a compared choice, that is worth less, or as much and has a larger
 * code.
 *
 * Of every sheet it gives, for each r:
 *   - P*P + Q*Q <= S*S in every slot;
 *   - no choice that has d*d * (P*P + Q*Q) <= (d-2)*(d-2) * S*S in every slot is worth
 *     more;
 *   - jadeshuttle_plan, with as many words and as long a buffer, gives a sheet too,
 *     and it is worth at least as much.
 * Where some choice has the margin of the second point, 17 is not given; in a book with
 * 02 lines only, all standing has it. With d of 2 or more, and where the sheet of
 * jadeshuttle_plan keeps the limits, both calls, with as many words and as long a
 * buffer, give the same answer and the same sheet.
 *
 * STRICT OR PLAIN  Where S must not be exceeded, as where it is a relay's setting, take
 * this call, with d as large as the cells allow: the margin is 2/d of S.
 * jadeshuttle_plan with S lowered to 2*d/(2*d+3) of it, rounded down, keeps S too, and
 * promises more about worth; its sheet may be worth less or more. This call may pass
 * over a choice that keeps the limits and is worth more, and the smaller d is, the more
 * such choices there can be. Where it gives 17, jadeshuttle_quick may still give a
 * sheet, which keeps the limits. Where S was chosen so that (1 + 3/(2*d)) * S may flow,
 * take jadeshuttle_plan, which passes over none of these choices.
 *
 * Words, and which of them are free afterwards, are as with jadeshuttle_plan; 20
 * changes no word. Where jadeshuttle_plan asks whether a cell is admitted, this call
 * adds up the true sums of the cell's choice. Measured on x86-64: four books of up to
 * 17 million trials took 1.0 to 1.2 times as long as with jadeshuttle_plan, and the
 * worst that were found, in which every cell that is reached has to be tested, so two
 * books of harness/, 4 to 7 times. Nothing is promised about time.
 */
jadeshuttle_answer jadeshuttle_plan_strict(const uint8_t *book, size_t book_len,
                                           uint64_t *work, size_t work_len,
                                           uint8_t *sheet, size_t sheet_len);

/*
 * The quick planner. Its start has the loads that must run at level 1 and all others
 * standing. Then it takes level 1 of a load or leaves it so: smallest P*P + Q*Q of
 * level 1 (summed over the slots) first, each load once. Level 1 replaces the
 * standing pair; a load that must run stays at level 1. A load once passed over is
 * never tried again, even where it would fit later: once another has left its
 * standing pair or, with r above 1, once one runs whose Q offsets that of the others.
 * The sheet keeps P*P + Q*Q <= S*S in every slot, whatever d is, but may be worth far
 * less than the plan. It needs no work area and has no bound on cells or trials.
 *
 * Gives 1 to 8, 11, and then 17 where the true sums of its start break a limit, even
 * where another level, or running some load, would draw less. So it can give 17 where
 * the planner has a sheet. Where the planner gives 17, this call gives 17 too, for a
 * buffer of the same length.
 */
jadeshuttle_answer jadeshuttle_quick(const uint8_t *book, size_t book_len,
                                     uint8_t *sheet, size_t sheet_len);

/*
 * The sheet reader. Accepts a sheet whose bytes are exactly those that some choice
 * and some trials number give for this book; all `sheet_len` bytes count. So a sheet
 * on which a load stands that must run is foreign, here and to every call below. It
 * does not judge whether the choice is good. Gives 1 to 8 for the book, and 13.
 */
jadeshuttle_reading jadeshuttle_read_sheet(const uint8_t *book, size_t book_len,
                                           const uint8_t *sheet, size_t sheet_len);

/*
 * The charge for the plan on a sheet. `prices` has one price for each slot, in
 * hundredths of a unit of money per kWh. A slot is a quarter hour, and P is in
 * tenths of a kW: with P its sum on the sheet, a slot costs P * price / 40
 * hundredths, exactly. The charge is the sum over the slots, rounded once, to the
 * nearest hundredth; an exact half goes to the even hundredth, so 20 / 40 gives 0
 * and 60 / 40 gives 2. What loads draw while they stand is in P, so it is charged
 * too. The sheet has to belong to the book, as for the sheet reader. Gives 1 to 8
 * for the book, 13, and then 14.
 */
jadeshuttle_charge_answer jadeshuttle_charge(const uint8_t *book, size_t book_len,
                                             const uint8_t *sheet, size_t sheet_len,
                                             const uint16_t *prices, size_t prices_len);

/*
 * The order of starting, from the running sheet to the new one, `planned`; both have
 * to belong to the book, as for the sheet reader. `names` has a byte for each load:
 * the number of a load that has to run ahead of it, a higher one than its own, or 0
 * for none. Writes the numbers of the loads that start, 1 to 24, a byte each, in
 * order: each time, of those left that name none, or whose named load runs in the
 * running sheet or has been started, the lowest number. A load that runs in both,
 * at whatever levels, neither starts nor stops. So no load that must run does, and a
 * load that names one is never blocked by it. A load that draws while it stands is
 * standing.
 *
 * Of every order it gives:
 *   - every load that starts stands in it once, and no other;
 *   - a load comes after the load that it names, where that starts too;
 *   - where a lower load comes after a higher one, it names a load that stands in
 *     the running sheet and is not among those before the higher one.
 *
 * Gives 1 to 8 for the book, 13 for the running sheet and then for the new one, 15,
 * 16, and last 11. An order of nothing fits a buffer of 0 bytes.
 */
jadeshuttle_order_answer jadeshuttle_order(const uint8_t *book, size_t book_len,
                                           const uint8_t *running, size_t running_len,
                                           const uint8_t *planned, size_t planned_len,
                                           const uint8_t *names, size_t names_len,
                                           uint8_t *order, size_t order_len);

/*
 * The mill's view of a sheet. Writes one line: 09, the worth (8 digits), then number
 * and level (2 digits each) of every load that runs, lowest number first; all
 * hexadecimal, ended by LF. That is 11 bytes, and 4 for each load that runs; a load
 * that draws while it stands is left out. The sheet has to belong to the book, as for
 * the sheet reader. Gives 1 to 8 for the book, 13, and last 11.
 */
jadeshuttle_answer jadeshuttle_mill_view(const uint8_t *book, size_t book_len,
                                         const uint8_t *sheet, size_t sheet_len,
                                         uint8_t *view, size_t view_len);

/*
 * The supply company's view of a sheet. Writes the sheet's slot lines, those of kind
 * 05, as they stand there: 23T bytes, at most 92. Their sums count what loads draw
 * while they stand. The sheet has to belong to the book, and refusals come as for the
 * mill's view.
 *
 * Of every two accepted sheets (no 1 to 8, no 13), of one book or of two:
 *   - with equal sums and limits in the slots and buffers of equal length, answer and
 *     written bytes are the same, though loads, worths and trials differ;
 *   - with other sums or limits the bytes differ, where both views fit.
 *
 * That does not cover what a refusal tells about book and sheet, the time that a call
 * takes, or the bytes past the view. So call it at the mill, and send the supply
 * company only the `bytes` bytes of a view, and no refusal.
 */
jadeshuttle_answer jadeshuttle_supply_view(const uint8_t *book, size_t book_len,
                                           const uint8_t *sheet, size_t sheet_len,
                                           uint8_t *view, size_t view_len);

/*
 * A day's books at once, 1 to 32 of them, parted by empty lines. An empty line is an
 * LF at the start of `books` or right after an LF; CR LF is none. Each empty line ends
 * a book just before it, and its LF belongs to no book. What follows the last one,
 * even nothing, is the last book. So there is one book more than empty lines: no
 * bytes at all are one empty book, and an LF too many at the end is one book more.
 *
 * Each book, with all its bytes, goes to the planner alone, with the whole work area
 * and a sheet buffer that suffices. What the program loadplan would print of the
 * planner's answers is written in the order of the books: the sheet, or for a refused
 * book one line: FF, its number (2 digits), its line (4 digits), all hexadecimal,
 * ended by LF. The line is counted within the book. An empty book gives FF010001.
 *
 * To read the output back, look at the first two digits of each line: 04 begins a
 * sheet, 05 is a slot line of the sheet that was begun, and FF is a refused book. So
 * the k-th line that begins with 04 or FF begins what book k has. A sheet has T + 1
 * lines and 19 + 2N + 23T bytes; its worth and its trials stand on its first line.
 *
 * The work area serves one book after the other: it has to be as large as the largest
 * of them needs. A book that needs more is refused (10), and the others are planned
 * all the same.
 *
 * Gives 18, before any book is planned, or 19, after all of them are.
 * JADESHUTTLE_DAY_MAX bytes always suffice.
 *
 * Of every list of 1 to 32 books that each end in LF and hold no empty line, joined by
 * an LF between each and the next, and whose outputs fit:
 *   - the number is 0, and the written bytes are the answers of jadeshuttle_plan to the
 *     books, one by one, in that form and joined;
 *   - a refused book does not touch its neighbours: whatever one book holds, what is
 *     written for those before it and after it is the same.
 */
jadeshuttle_answer jadeshuttle_day(const uint8_t *books, size_t books_len,
                                   uint64_t *work, size_t work_len,
                                   uint8_t *out, size_t out_len);

/*
 * The pool: two mills on one transformer. Writes one book of two: a header of kind 08,
 * always, with the T and the d that both have, the number of all loads, the larger r,
 * the larger budget, and for each slot the sum of the two limits; then the load lines of
 * `first` as they stand, digit for digit, and then those of `second`. With N1 the number
 * of the first's loads, load k of the second is load N1 + k of the pooled book: on its
 * sheets the levels of the first mill come first, and then those of the second. To split
 * a sheet, take the code that jadeshuttle_read_sheet gives for it: the first mill's is
 * its lowest 2 * N1 bits, and the second's is code >> 2 * N1.
 *
 * Every call takes the pooled book as any other. Plan it for a joint plan; pool it with
 * the book of a third mill.
 *
 * A book has no time and no unit of worth: the call compares only T and d. Hand over
 * books of the same quarter hours, with worths in one unit. The joint plan weighs a load
 * of one mill against a load of the other, and may leave one mill standing.
 *
 * Gives 1 to 8 for the first book, all of them before anything of the second; then 1 to
 * 8 for the second, whose lines count on from the first's last: its line j is line
 * N1 + 1 + j, and its 8, with N2 loads, is at N1 + N2 + 3; then 21, 22, 23, and last 11.
 * The pooled book has 19 + 4T bytes and those of all load lines. JADESHUTTLE_BOOK_MAX
 * bytes always suffice: with them 11 is not given.
 *
 * Of every pooled book:
 *   - it is read, with no refusal of 1 to 8, and says what is said above;
 *   - where one choice keeps P*P + Q*Q <= S*S in every slot of the first book, and
 *     another in every slot of the second, each sheet that jadeshuttle_plan gives for
 *     the pooled book is worth at least both together, and it does not give 17 for it;
 *   - these two, one after the other, are then a choice that keeps P*P + Q*Q <= S*S in
 *     every slot of the pooled book. So with a third book that has such a choice, too,
 *     the same holds of all three pooled.
 * The sheets of jadeshuttle_plan_strict and jadeshuttle_quick for the two books are of
 * such choices. Those of jadeshuttle_plan may exceed a limit, and then they are not.
 *
 * NOT PROMISED  Nothing is said about each mill by itself. What jadeshuttle_plan
 * promises of the apparent power is of the summed limits, and these are the limits that
 * jadeshuttle_plan_strict and jadeshuttle_quick keep; so a joint plan may have one mill
 * draw more than its own limit. Where each mill has a relay of its own that trips at
 * that limit, do not pool. Of the sheets of jadeshuttle_plan_strict and
 * jadeshuttle_quick for the pooled book it is not promised that they are worth both
 * together. And the pooled book may be oversize (9), need more words (10) or have more
 * trials than the larger budget (12), though each book alone is planned; so write a
 * budget that suffices for both, such as FFFFFFFF, into one of them. Where a sheet of
 * jadeshuttle_plan for one of them exceeds a limit, the joint plan may be worth less
 * than both sheets, or there may be none (17).
 */
jadeshuttle_answer jadeshuttle_pool(const uint8_t *first, size_t first_len,
                                    const uint8_t *second, size_t second_len,
                                    uint8_t *pooled, size_t pooled_len);

#ifdef __cplusplus
}
#endif

#endif
