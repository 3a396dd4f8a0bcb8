//! Shows that the comparison can fail: calls that went right are altered in one place each, and references are given a
//! mistake each, which must be reported; what is as it was must not be. Each call and run, altered or not, and each
//! reference in each of its calls, is one check.

mod charge;
mod days;
mod pool;
mod ratios;
mod strict;

use crate::call::{Call, Function, Input};
use crate::damage::fault;
use crate::draw;
use crate::kinds::{self, SMALL};
use crate::random::Random;
use crate::reference::book::{self, Book, Load};
use crate::reference::plan::{self, Plan, Planned};
use crate::reference::{must_run, quick, ratio, sheet, written, Case, Outcome, EXAMPLE};
use crate::session::Session;
use crate::{Answer, DAY_MAX, SHEET_MAX};
use std::cmp::Reverse;

/// The words that the bench book needs: L = 1 and R = 10, so cells are 11 × 24.
const NEED: usize = 4 * 11 * 24;

/// The sheet of its plan, the bytes of the sheet, and the bytes lent for it.
const BENCH_SHEET: &[u8] = b"040000000A0000000E010100\n050000000900000001000A\n";
const SHEET: usize = BENCH_SHEET.len();
const BUFFER: usize = SHEET + 5;

/// The quick planner's sheet of the bench book.
const BENCH_QUICK: &[u8] = b"040000000900000003000101\n0500000008FFFFFFFC000A\n";

/// A book with other loads and worths than the bench book, and a sheet of it with other trials; but limit and sums are those of
/// the bench book's plan.
const TWIN: (&[u8], &[u8]) = (
    b"0101020100000000000A\n0201000300020000\n0201000700090001\n",
    b"04000000070000000F0001\n050000000900000001000A\n",
);

/// The bench book, but load 3 draws (1, -1) standing. Its plan has the same choice, worth and trials, and sums of (10, 0).
const STANDING: &[u8] = b"0101030400000064000A\n0201000500050005\n020100050004FFFC\n06010001FFFF000400040000\n";

/// The bench book, but each load draws (6, 0) standing: no choice is admitted, as the least sum of P is 13.
const OVER: &[u8] =
    b"0101030400000064000A\n060100060000000500050005\n06010006000000050004FFFC\n060100060000000400040000\n";

/// The trials of that book: 2 + 4 + 4, as two of the lists of loads 1 and 2 are above R.
const OVER_TRIALS: u64 = 10;

/// The bench book, but load 3 must run, which leaves no room for load 1. Its plan is that of loads 2 and 3, worth 9, with sums of
/// (8, -4) and trials of 2 + 4 + 4.
const MUST_RUN: &[u8] = b"0101030400000064000A\n0201000500050005\n020100050004FFFC\n0701000400040000\n";

/// The bench book, but load 1 must run, and so the quick planner has no room for load 3. Its sheet has the plan's choice.
const MUST_START: &[u8] = b"0101030400000064000A\n0701000500050005\n020100050004FFFC\n0201000400040000\n";

/// The bench book, but load 1 must run and draws (8, 8): no choice is admitted.
const TOO_LARGE: &[u8] = b"0101030400000064000A\n0701000500080008\n020100050004FFFC\n0201000400040000\n";

/// The trials of that book: 1 + 2 + 2, as load 2 beside load 1 is above R.
const TOO_LARGE_TRIALS: u64 = 5;

/// A call that went right and what it has to leave.
struct Base {
    name: &'static str,
    call: Call,
    expected: Outcome,
    /// For this call alone.
    own: &'static [Alteration],
}

/// An alteration of a call.
type Alteration = (&'static str, fn(&mut Call));

/// The answer of any call.
const FIELDS: &[Alteration] = &[
    ("number", |call| call.answer.first.number ^= 1),
    ("line", |call| call.answer.first.line ^= 1),
    ("bytes", |call| call.answer.first.bytes ^= 1),
    ("worth", |call| call.answer.first.worth ^= 1),
    ("trials", |call| call.answer.first.trials ^= 1),
    ("number of numbers", |call| call.answer.further.push(0)),
];

/// For calls whose answer has more: the sheet reader's code, the charge, the starts.
const FURTHER: &[Alteration] = &[("further number", |call| call.answer.further[0] ^= 1)];

/// The memory that was lent and around it.
const MEMORY: &[Alteration] = &[
    ("first byte of the sheet", |call| call.sheet.flip(0)),
    ("last byte of the sheet", |call| call.sheet.flip(SHEET as isize - 1)),
    ("byte past the sheet", |call| call.sheet.flip(SHEET as isize)),
    ("last byte lent", |call| call.sheet.flip_from_end(-1)),
    ("byte before the buffer", |call| call.sheet.flip(-1)),
    ("byte past the buffer", |call| call.sheet.flip_from_end(0)),
    ("word before the work area", |call| call.work.flip(-1)),
    ("word past the work area", |call| call.work.flip_from_end(0)),
    ("book byte", |call| call.book.flip(0)),
    ("byte before the book", |call| call.book.flip(-1)),
    ("byte past the book", |call| call.book.flip_from_end(0)),
    ("byte before the second book", |call| call.second.flip(-1)),
    ("byte past the second book", |call| call.second.flip_from_end(0)),
    ("price before the prices", |call| call.prices.flip(-1)),
    ("price past the prices", |call| call.prices.flip_from_end(0)),
    ("byte before the running sheet", |call| call.running.flip(-1)),
    ("byte past the running sheet", |call| call.running.flip_from_end(0)),
    ("byte before the new sheet", |call| call.planned.flip(-1)),
    ("byte past the new sheet", |call| call.planned.flip_from_end(0)),
    ("byte before the names", |call| call.names.flip(-1)),
    ("byte past the names", |call| call.names.flip_from_end(0)),
];

/// For the pool alone.
const SECOND_BOOK: &[Alteration] = &[
    ("first byte of the second book", |call| call.second.flip(0)),
    ("last byte of the second book", |call| call.second.flip_from_end(-1)),
];

/// For the charge alone.
const PRICES: &[Alteration] = &[("first price", |call| call.prices.flip(0))];

/// For the order alone.
const ORDERED: &[Alteration] = &[
    ("stops", |call| call.answer.further[1] ^= 1),
    ("last byte of the order", |call| call.sheet.flip(1)),
    ("byte past the order", |call| call.sheet.flip(2)),
    ("last byte of the running sheet", |call| call.running.flip_from_end(-1)),
    ("last byte of the new sheet", |call| call.planned.flip_from_end(-1)),
    ("last name", |call| call.names.flip_from_end(-1)),
];

/// For both views.
const SHOWN: &[Alteration] = &[("last byte of the shown sheet", |call| call.planned.flip_from_end(-1))];

/// For the mill's view alone: 090000000A01010201 for the bench book's plan.
const MILL: &[Alteration] = &[
    ("last byte of the mill's view", |call| call.sheet.flip(18)),
    ("byte past the mill's view", |call| call.sheet.flip(19)),
    ("standing load listed", |call| {
        call.sheet.put(b"090000000A010102010300\n")
    }),
    ("levels without numbers", |call| call.sheet.put(b"090000000A0101\n")),
    ("highest load first", |call| call.sheet.put(b"090000000A02010101\n")),
];

/// For the supply company's view alone: 050000000900000001000A for the bench book's plan.
const SUPPLY: &[Alteration] = &[
    ("last byte of the supply company's view", |call| call.sheet.flip(22)),
    ("byte past the supply company's view", |call| call.sheet.flip(23)),
    ("first line of the sheet shown", |call| call.sheet.put(BENCH_SHEET)),
];

/// For the planner, the strict planner and a day: words of the work area that no call may change.
const KEPT_WORDS: &[Alteration] = &[
    ("word past the needed ones", |call| call.work.flip(NEED as isize)),
    ("last word lent", |call| call.work.flip_from_end(-1)),
];

/// For the planner, the strict planner and a day: free after a sheet and after refusals 12 and 17, so where one of a day's books
/// has them, also with 19; and to be reported after any other.
const NEEDED_WORDS: &[Alteration] = &[
    ("first needed word", |call| call.work.flip(0)),
    ("last needed word", |call| call.work.flip(NEED as isize - 1)),
];

/// For the bench book with a load that draws standing.
const NOT_SUMMED: &[Alteration] = &[("standing left out of the sums", |call| call.sheet.put(BENCH_SHEET))];

const NOT_CHARGED: &[Alteration] = &[("standing left out of the charge", |call| call.answer.further[0] = 9)];

const NOT_SHOWN: &[Alteration] = &[("standing left out of the view", |call| {
    call.sheet.put(b"050000000900000001000A\n")
})];

const NOT_TAKEN_OFF: &[Alteration] = &[("standing not taken off where a load runs", |call| {
    call.sheet.put(b"040000000400000003000001\n0500000005FFFFFFFF000A\n");
    call.answer.first.worth = 4;
})];

/// For refusal 17.
const SPENT: Alteration = ("refusal 12 in place of 17", |call| call.answer.first.number = 12);

/// For the bench book whose loads draw too much standing.
const NOT_REFUSED: &[Alteration] = &[
    SPENT,
    ("standing left out of the limit", |call| {
        succeeded(call, 10, 14, BENCH_SHEET)
    }),
];

const NOT_REFUSED_QUICKLY: &[Alteration] = &[
    SPENT,
    ("standing left out of the limit", |call| {
        succeeded(call, 9, 3, BENCH_QUICK)
    }),
];

const NOT_SPENT: &[Alteration] = &[("17 before 12", |call| call.answer.first.number = 17)];

/// For the bench book with a load that must run.
const PLANNED_STANDING: &[Alteration] = &[
    ("a better choice without the load", |call| {
        call.sheet.put(b"040000000A0000000A010100\n050000000900000001000A\n");
        call.answer.first.worth = 10;
    }),
    ("trials with a factor of o + 1", |call| {
        call.sheet.put(b"04000000090000000E000101\n");
        call.answer.first.trials = 14;
    }),
];

const STARTED_STANDING: &[Alteration] = &[
    ("the load standing at the start", |call| {
        succeeded(call, 9, 3, BENCH_QUICK)
    }),
    ("trials without the load", |call| {
        call.sheet.put(b"040000000A00000002010100\n");
        call.answer.first.trials = 2;
    }),
];

/// For the bench book whose load 1 draws too much and must run.
const LEFT_STANDING: &[Alteration] = &[
    SPENT,
    ("the load standing", |call| {
        let sheet = b"040000000900000005000101\n0500000008FFFFFFFC000A\n";
        succeeded(call, 9, 5, sheet);
    }),
];

const LEFT_STANDING_QUICKLY: &[Alteration] = &[SPENT, ("the load standing", |call| succeeded(call, 9, 3, BENCH_QUICK))];

const TRIED_TOO_SOON: &[Alteration] = &[("17 before 11", |call| call.answer.first.number = 17)];

/// For sheets on which a load stands that must run.
const FOREIGN_READ: &[Alteration] = &[("the sheet taken", |call| {
    succeeded(call, 10, 14, b"");
    call.answer.further[0] = 5;
})];

const FOREIGN_CHARGED: &[Alteration] = &[("the sheet taken", |call| {
    succeeded(call, 0, 0, b"");
    call.answer.further[0] = 9;
})];

/// Load 3 stands on the running sheet: it starts, and load 1 stops.
const FOREIGN_RUNNING: &[Alteration] = &[("the sheet taken", |call| ordered(call, 3))];

/// Load 3 stands on the new sheet: it stops, and load 1 starts.
const FOREIGN_PLANNED: &[Alteration] = &[("the sheet taken", |call| ordered(call, 1))];

const FOREIGN_LISTED: &[Alteration] = &[("the sheet taken", |call| succeeded(call, 0, 0, b"090000000A01010201\n"))];

const FOREIGN_SHOWN: &[Alteration] = &[("the sheet taken", |call| {
    succeeded(call, 0, 0, b"050000000900000001000A\n")
})];

/// Makes an order of a refusal: this load starts, and one stops.
fn ordered(call: &mut Call, load: u8) {
    succeeded(call, 0, 0, &[load]);
    call.answer.further = vec![1, 1];
}

/// Makes a success of the call, with these numbers and bytes.
fn succeeded(call: &mut Call, worth: u64, trials: u64, written: &[u8]) {
    call.sheet.put(written);
    call.answer.first = Answer {
        bytes: written.len() as u64,
        worth,
        trials,
        ..Answer::default()
    };
}

/// Makes a refusal of the call.
fn refuse(call: &mut Call, number: u64, line: u64) {
    call.answer.first = Answer {
        number,
        line,
        ..Answer::default()
    };
}

/// Counts of checks, and a line for each that failed.
#[derive(Default)]
pub struct Checks {
    pub passed: u64,
    pub failed: u64,
}

impl Checks {
    fn check(&mut self, holds: bool, what: &str) {
        if holds {
            self.passed += 1;
        } else {
            self.failed += 1;
            println!("{what}");
        }
    }

    fn reported(&mut self, base: &Base, (name, alter): &Alteration, expected: bool) {
        let mut call = base.call.clone();
        alter(&mut call);
        let reported = !call.complaints(&base.expected).is_empty();
        let verb = if expected { "is not" } else { "must not be" };
        self.check(reported == expected, &format!("{}: {name} {verb} reported", base.name));
    }
}

/// Makes every check.
pub fn run() -> Checks {
    let mut checks = Checks::default();
    let bases = [bases(), view_bases(), standing_plan_bases(), standing_sheet_bases()];
    let later_bases = [
        must_run_plan_bases(),
        must_run_sheet_bases(),
        days::bases(),
        ratios::plan_bases(),
        ratios::sheet_bases(),
        strict::bases(),
        pool::bases(),
    ];
    for base in bases.iter().chain(&later_bases).flatten() {
        check_base(&mut checks, base);
    }
    for (name, alter) in FIELDS {
        check_session(&mut checks, name, *alter);
    }
    strict::check_promises(&mut checks);
    pool::check_promises(&mut checks);
    for (books, mistakes) in GROUPS {
        check_reference(&mut checks, books, &NO_MISTAKE, false);
        for mistake in mistakes.iter().copied().flatten() {
            check_reference(&mut checks, books, mistake, true);
        }
    }
    checks
}

fn check_base(checks: &mut Checks, base: &Base) {
    checks.reported(base, &("nothing", |_| ()), false);
    let more: &[&[Alteration]] = match base.call.function {
        Function::Plan | Function::PlanStrict => &[KEPT_WORDS],
        Function::Quick => &[],
        Function::ReadSheet => &[FURTHER],
        Function::Charge => &[FURTHER, PRICES],
        Function::Order => &[FURTHER, ORDERED],
        Function::MillView => &[SHOWN, MILL],
        Function::SupplyView => &[SHOWN, SUPPLY],
        Function::Day => &[KEPT_WORDS],
        Function::Pool => &[SECOND_BOOK],
    };
    let more = more.iter().copied().flatten().chain(base.own);
    for alteration in FIELDS.iter().chain(MEMORY).chain(more) {
        checks.reported(base, alteration, true);
    }
    if [Function::Plan, Function::PlanStrict, Function::Day].contains(&base.call.function) {
        let kept = base.expected.free_words == 0;
        for alteration in NEEDED_WORDS {
            checks.reported(base, alteration, kept);
        }
    }
}

/// A whole run in which every answer is altered: every input has to fail.
fn check_session(checks: &mut Checks, name: &str, alter: fn(&mut Call)) {
    let mut session = Session::new(1, alter);
    kinds::run(&mut session, 500);
    let noticed = session.passed == 0 && session.failed >= 500 && !session.differences.is_empty();
    checks.check(noticed, &format!("a run with every {name} altered is not noticed"));
}

/// Books, and the mistakes that calls on them have to show.
const GROUPS: &[(Books, &[&[Mistake]])] = &[
    (
        RIGHT,
        &[STANDING_MISTAKES, MUST_RUN_MISTAKES, charge::ROUNDING_MISTAKES],
    ),
    (SLACK, &[READING_MISTAKES]),
    (ratios::STATED, &[ratios::CELL_MISTAKES, ratios::CANCEL_MISTAKES]),
    (ratios::OVERSIZE, &[ratios::OVERSIZE_MISTAKES]),
    (ratios::NEAR, &[ratios::SLACK_MISTAKES]),
    (ratios::HEADERS, &[ratios::HEADER_MISTAKES]),
    (strict::FINE_BOOKS, &[strict::COMPARED_MISTAKES, strict::LIMIT_MISTAKES]),
    (strict::COARSE_BOOKS, &[strict::COARSE_MISTAKES]),
    (strict::FAULTY_BOOKS, &[strict::FAULT_MISTAKES]),
    (days::DAYS, &[days::PARTING_MISTAKES, days::ANSWER_MISTAKES]),
    (
        pool::FIRST_BOOKS,
        &[
            pool::HEADER_MISTAKES,
            pool::LINE_MISTAKES,
            pool::RULE_MISTAKES,
            pool::FAULT_MISTAKES,
        ],
    ),
    (pool::FAULTY_BOOKS, &[pool::ORDER_MISTAKES]),
];

/// The planners, then the calls that take a sheet, then the day and the pool.
const EVERY: &[Function] = &[
    Function::Plan,
    Function::PlanStrict,
    Function::Quick,
    Function::ReadSheet,
    Function::Charge,
    Function::Order,
    Function::MillView,
    Function::SupplyView,
    Function::Day,
    Function::Pool,
];

const PLANNERS: &[Function] = EVERY.split_at(3).0;
const READERS: &[Function] = EVERY.split_at(3).1.split_at(5).0;
const CHARGE: &[Function] = &[Function::Charge];
const DAY: &[Function] = &[Function::Day];
const POOL: &[Function] = &[Function::Pool];
const PLAN: &[Function] = &[Function::Plan];
const STRICT: &[Function] = &[Function::PlanStrict];
const PLAN_STRICT_AND_DAY: &[Function] = &[Function::Plan, Function::PlanStrict, Function::Day];
const QUICK: &[Function] = &[Function::Quick];

/// A reference with a mistake: the calls that the mistake bears on, and what a call would have to leave.
type Mistake = (&'static str, &'static [Function], fn(&Case, Input) -> Outcome);

const NO_MISTAKE: Mistake = ("no mistake", EVERY, Case::outcome);

/// M-104's.
const STANDING_MISTAKES: &[Mistake] = &[
    ("standing draws nothing", EVERY, |case, input| {
        without_standing(case).outcome(input)
    }),
    ("standing left out of the sums", PLANNERS, |case, input| {
        written_for(case, &without_standing(case), input)
    }),
    (
        "standing left out of grid values and limits",
        PLANNERS,
        |case, input| written_for(&without_standing(case), case, input),
    ),
    ("standing not taken off where a load is tried", QUICK, |case, input| {
        quick_tried_in(case, input, with_option_added)
    }),
    ("17 before 12", PLAN, |case, input| {
        let mut outcome = case.outcome(input);
        let number = &mut outcome.answer.first.number;
        if *number == 12 && case.planned().plan.is_none() {
            *number = 17;
        }
        outcome
    }),
    ("17 wherever all standing breaks a limit", PLAN, |case, input| {
        planned_where(case, input, |book| quick::fits(book, &all_standing(book)))
    }),
];

/// M-105's.
const MUST_RUN_MISTAKES: &[Mistake] = &[
    ("a load that must run has a factor of o + 1", PLAN, |case, input| {
        let lists = plan::lists_met(book_of(case));
        with_trials(case, input, &lists, |load| load.levels.len() as u64 + 1)
    }),
    (
        "H counts choices in which a load stands that must run",
        PLAN,
        |case, input| {
            let lists = plan::lists_met(book_of(&case.free_to_stand()));
            with_trials(case, input, &lists, must_run::factor)
        },
    ),
    ("a load that must run stands in the plan", PLAN, |case, input| {
        let plan = case.free_to_stand().planned().plan.clone();
        with_plan(case, input, plan)
    }),
    (
        "17 wherever a load that must run stands in the best choice of all",
        PLAN,
        |case, input| {
            let best = case.free_to_stand().planned().plan.clone();
            let plan = case.planned().plan.clone();
            with_plan(case, input, plan.filter(|plan| best.as_ref() == Some(plan)))
        },
    ),
    (
        "17 wherever the choice of greatest worth is not admitted",
        PLAN,
        |case, input| planned_where(case, input, |book| plan::admits(book, &of_most_worth(book))),
    ),
    (
        "17 wherever the quick planner's start breaks a limit",
        PLAN,
        |case, input| planned_where(case, input, |book| quick::choice(book).is_some()),
    ),
    ("a load that must run stands at the start", QUICK, |case, input| {
        case.free_to_stand().outcome(input)
    }),
    ("17 before 11", QUICK, |case, input| {
        let mut outcome = case.outcome(input);
        if quick::choice(book_of(case)).is_none() {
            outcome.answer.first.number = 17;
        }
        outcome
    }),
    ("17 only where all standing breaks a limit", QUICK, |case, input| {
        let (book, outcome) = (book_of(case), case.outcome(input));
        match outcome.answer.first.number {
            17 if quick::fits(book, &all_standing(book)) => quick_sheet(book, &quick::tried(book, &quick::order(book))),
            _ => outcome,
        }
    }),
    (
        "trying a load that must run counts its option 1 a second time",
        QUICK,
        |case, input| quick_tried_in(case, input, with_option_twice),
    ),
    ("the trials leave out loads that must run", QUICK, |case, input| {
        let (book, outcome) = (book_of(case), case.outcome(input));
        let others = book.loads.iter().filter(|load| !load.must_run).count();
        match sheet::read(book, &outcome.sheet) {
            Some((choice, _)) => written(book, &choice, others as u64),
            None => outcome,
        }
    }),
    (
        "a sheet is taken on which a load stands that must run",
        READERS,
        |case, input| case.free_to_stand().outcome(input),
    ),
];

/// To be seen on books with a |Q| above r × P.
const READING_MISTAKES: &[Mistake] = &[
    ("standing left out of refusal 7", EVERY, |case, input| {
        read_where(case, |load, r| load.options_all(|p, q| ratio::kept(r, p, q))).outcome(input)
    }),
    ("loads that must run left out of refusal 7", EVERY, |case, input| {
        read_where(case, |load, r| load.must_run || load.keeps(r)).outcome(input)
    }),
];

/// Books that a reference is compared on.
type Books = (&'static str, fn(&mut Random) -> Case);

/// With budgets that suffice and that do not.
const RIGHT: Books = ("right books", |random| {
    let book = draw::book(random, SMALL);
    with_some_budget(random, &book)
});

fn with_some_budget(random: &mut Random, book: &Book) -> Case {
    let case = Case::new(draw::text(book));
    case.with_budget(random.pick(&[0xFFFF_FFFF, case.planned().trials - 1]))
}

/// With a |Q| above r × P, in an option or standing.
const SLACK: Books = ("slack books", |random| {
    let mut text = draw::text(&draw::book(random, SMALL));
    fault(random, &mut text, 7);
    Case::new(text)
});

/// The most books that are drawn for a mistake to show.
const MOST_BOOKS: usize = 500;

/// Compares each of its calls with a reference.
fn check_reference(checks: &mut Checks, (books, draw): &Books, (name, functions, reference): &Mistake, expected: bool) {
    for &function in *functions {
        let random = &mut Random::new(1);
        let reported = (0..MOST_BOOKS).any(|_| {
            let case = draw(random);
            differs(random, &case, function, *reference)
        });
        let verb = if expected { "is not" } else { "must not be" };
        checks.check(
            reported == expected,
            &format!("reference of {function:?} on {books}, {name}: {verb} reported"),
        );
    }
}

/// Whether this call on the book, or on a day's books, or on the book and a second, differs from a reference. On the sheets, loads
/// that must run may stand.
fn differs(random: &mut Random, case: &Case, function: Function, reference: fn(&Case, Input) -> Outcome) -> bool {
    let text = &case.text;
    let (words, room) = (vec![7; 4 * SMALL.cells as usize], [0; DAY_MAX]);
    let lent = lent(case, &words, &room);
    let [(_, free), (_, short), ..] = lent;
    let [running, planned] = [(); 2].map(|_| sheet_of_any(random, case));
    let (slots, loads) = case
        .book
        .as_ref()
        .map_or((0, 0), |book| (book.limits.len(), book.loads.len()));
    // Prices at which a hundredth is a tenth of a kW, at which an odd sum of P over all slots gives an exact half, and that differ.
    let (prices, names) = ([[40; 4], [20; 4], [7, 13, 21, 33]], vec![0; loads]);
    let seconds = match function {
        Function::Pool => pool::seconds(random, case),
        _ => Vec::new(),
    };
    let inputs: Vec<Input> = match function {
        Function::Plan => lent.map(|(words, sheet)| Input::plan(text, words, sheet)).into(),
        Function::PlanStrict => lent.map(|(words, sheet)| Input::plan_strict(text, words, sheet)).into(),
        Function::Quick => vec![Input::quick(text, free), Input::quick(text, short)],
        Function::ReadSheet => vec![Input::read_sheet(text, &planned)],
        Function::Charge => prices
            .each_ref()
            .map(|prices| Input::charge(text, &planned, &prices[..slots]))
            .into(),
        Function::Order => vec![Input::order(text, &running, &planned, &names, free)],
        Function::MillView => vec![Input::mill_view(text, &planned, free)],
        Function::SupplyView => vec![Input::supply_view(text, &planned, free)],
        Function::Day => days::inputs(random, case, &words, &room),
        Function::Pool => pool::inputs(case, &seconds, &room),
    };
    inputs.into_iter().any(|input| {
        let complaints = Call::new(random, input).complaints(&reference(case, input));
        !complaints.is_empty()
    })
}

/// What is lent to a planner: a buffer that suffices and one that does not; and where it has a work area, with the first of them also
/// just the words that the book needs, and one less.
fn lent<'a>(case: &Case, words: &'a [u64], room: &'a [u8]) -> [(&'a [u64], &'a [u8]); 4] {
    let free = &room[..SHEET_MAX];
    let short = &free[..case.sheet_bytes().saturating_sub(1)];
    let need = (4 * case.cells()).min(words.len() as u128) as usize;
    [
        (words, free),
        (words, short),
        (&words[..need], free),
        (&words[..need.saturating_sub(1)], free),
    ]
}

/// A sheet of the book with any levels, or standing, for all loads; of no book, no sheet.
fn sheet_of_any(random: &mut Random, case: &Case) -> Vec<u8> {
    let Ok(book) = &case.book else { return Vec::new() };
    let levels = book.loads.iter().map(|load| random.below(load.levels.len() + 1));
    sheet::write(book, &levels.collect::<Vec<_>>(), 0)
}

fn book_of(case: &Case) -> &Book {
    case.book.as_ref().expect("a valid book")
}

/// The case of the book with lines of kind `02` in place of those of kind `06`.
fn without_standing(case: &Case) -> Case {
    Case::new(draw::text(&draw::with_standing(book_of(case), None)))
}

fn all_standing(book: &Book) -> Vec<usize> {
    vec![0; book.loads.len()]
}

/// The choice of greatest worth, and of the smallest code, whatever it draws.
fn of_most_worth(book: &Book) -> Vec<usize> {
    let best = |load: &Load| {
        let settings = must_run::settings(load);
        settings
            .max_by_key(|&c| (load.worth(c), Reverse(c)))
            .expect("a load has an option")
    };
    book.loads.iter().map(best).collect()
}

/// What a call has to leave, with another answer.
fn changed(case: &Case, input: Input, change: fn(&Case, &mut Answer)) -> Outcome {
    let mut outcome = case.outcome(input);
    change(case, &mut outcome.answer.first);
    outcome
}

/// What a call has to leave where this is the plan.
fn with_plan(case: &Case, input: Input, plan: Option<Plan>) -> Outcome {
    let trials = case.planned().trials;
    case.with_planned(Planned { plan, trials }).outcome(input)
}

/// What a call has to leave where there is no plan unless this holds.
fn planned_where(case: &Case, input: Input, holds: fn(&Book) -> bool) -> Outcome {
    let plan = case.planned().plan.clone();
    with_plan(case, input, plan.filter(|_| holds(book_of(case))))
}

/// What a call has to leave where the trials are of these lists and factors.
fn with_trials(case: &Case, input: Input, lists: &[u64], factor: fn(&Load) -> u64) -> Outcome {
    let factors = book_of(case).loads.iter().map(factor);
    let planned = Planned {
        trials: lists.iter().zip(factors).map(|(lists, factor)| lists * factor).sum(),
        ..case.planned().clone()
    };
    case.with_planned(planned).outcome(input)
}

/// What the quick planner leaves with this choice.
fn quick_sheet(book: &Book, choice: &[usize]) -> Outcome {
    written(book, choice, book.loads.len() as u64)
}

/// What the quick planner has to leave, but the sums that are tried are those of another book, which begins with the
/// same ones. The order of trying, the loads that run from the start, and the sums on the sheet are right.
fn quick_tried_in(case: &Case, input: Input, other: fn(&Book) -> Book) -> Outcome {
    let (book, outcome) = (book_of(case), case.outcome(input));
    if outcome.answer.first.number != 0 {
        return outcome;
    }
    let tried = quick::tried(&other(book), &quick::order(book));
    let choice: Vec<usize> = tried
        .into_iter()
        .zip(must_run::start(book))
        .map(|(c, first)| c.max(first))
        .collect();
    quick_sheet(book, &choice)
}

/// The book in which option 1 of each load has what the load draws standing added.
fn with_option_added(book: &Book) -> Book {
    let mut book = book.clone();
    for load in &mut book.loads {
        let powers = load.levels[0].powers.iter_mut();
        for ((p, q), (standing_p, standing_q)) in powers.zip(load.standing.iter().flatten()) {
            *p += standing_p;
            *q += standing_q;
        }
    }
    book
}

/// The book in which each load that must run can stand, draws its option 1 standing, and twice as much at option 1.
fn with_option_twice(book: &Book) -> Book {
    let mut book = book.clone();
    for load in book.loads.iter_mut().filter(|load| load.must_run) {
        let powers = &mut load.levels[0].powers;
        (load.must_run, load.standing) = (false, Some(powers.clone()));
        powers.iter_mut().for_each(|(p, q)| (*p, *q) = (2 * *p, 2 * *q));
    }
    book
}

/// The case of the book as it is read where refusal 7 is given unless this holds of a load and r.
fn read_where(case: &Case, holds: impl Fn(&Load, i64) -> bool) -> Case {
    Case::read_as(case.text.clone(), book::read_where(&case.text, holds))
}

/// What a call has to leave for the first book, but the sheet is of the second book with the same choice.
fn written_for(first: &Case, second: &Case, input: Input) -> Outcome {
    let outcome = first.outcome(input);
    match sheet::read(book_of(first), &outcome.sheet) {
        None => outcome,
        Some((choice, trials)) => Outcome {
            sheet: sheet::write(book_of(second), &choice, trials),
            ..outcome
        },
    }
}

/// Each call but the views with and without a refusal, on memory with guards.
fn bases() -> Vec<Base> {
    let good = Case::new(EXAMPLE.to_vec());
    let unterminated = Case::new(EXAMPLE[..EXAMPLE.len() - 1].to_vec());
    let budget_exceeded = good.with_budget(13);
    let sheet = good.plan(NEED, BUFFER).sheet;
    let foreign_sheet = [b"04", &sheet[..]].concat();
    let free = [0; BUFFER];
    let read = |name, sheet| base(name, &good, Input::read_sheet(&good.text, sheet));
    let charge = |name, sheet, prices| base(name, &good, Input::charge(&good.text, sheet, prices));
    let running = sheet::write(good.book.as_ref().expect("a valid book"), &[0, 0, 1], 0);
    let order = |name, planned, names| base(name, &good, Input::order(&good.text, &running, planned, names, &free));
    vec![
        plan_base("plan, a sheet", &good, &[]),
        plan_base("plan, refusal 1", &unterminated, &[]),
        plan_base("plan, refusal 12", &budget_exceeded, &[]),
        quick_base("quick, a sheet", &good, &[]),
        quick_base("quick, refusal 1", &unterminated, &[]),
        read("read_sheet, a sheet", &sheet),
        read("read_sheet, refusal 13", &foreign_sheet),
        charge("charge, a charge", &sheet, &[25]),
        charge("charge, refusal 13", &foreign_sheet, &[25]),
        charge("charge, refusal 14", &sheet, &[25, 30]),
        order("order, an order", &sheet, &[2, 0, 0]),
        order("order, refusal 13", &foreign_sheet, &[2, 0, 0]),
        order("order, refusal 15", &sheet, &[2, 2, 0]),
        order("order, refusal 16", &sheet, &[2, 3, 0]),
    ]
}

/// Each view with and without a refusal, and the supply company's of the twin's sheet, which has to leave the same. The longest
/// views do not fit the buffer.
fn view_bases() -> Vec<Base> {
    let good = Case::new(EXAMPLE.to_vec());
    let unterminated = Case::new(EXAMPLE[..EXAMPLE.len() - 1].to_vec());
    let twin = Case::new(TWIN.0.to_vec());
    let long = Case::new(draw::text(&draw::longest_views()));
    let sheet = good.plan(NEED, BUFFER).sheet;
    let long_sheet = sheet::write(&draw::longest_views(), &[1; 24], 0);
    let free = [0; BUFFER];
    let mill = |name, case: &Case, sheet: &[u8]| base(name, case, Input::mill_view(&case.text, sheet, &free));
    let supply = |name, case: &Case, sheet: &[u8]| base(name, case, Input::supply_view(&case.text, sheet, &free));
    vec![
        mill("mill_view, a view", &good, &sheet),
        mill("mill_view, refusal 1 before 13", &unterminated, &sheet[1..]),
        mill("mill_view, refusal 11", &long, &long_sheet),
        mill("mill_view, refusal 13 before 11", &long, &long_sheet[1..]),
        supply("supply_view, a view", &good, &sheet),
        supply("supply_view, refusal 1 before 13", &unterminated, &sheet[1..]),
        supply("supply_view, refusal 11", &long, &long_sheet),
        supply("supply_view, refusal 13 before 11", &long, &long_sheet[1..]),
        Base {
            expected: good.supply_view(&sheet, BUFFER),
            ..supply("supply_view, the twin's", &twin, TWIN.1)
        },
    ]
}

/// Both planners on a book with a load that draws standing; and 17 in both, with 12 before it.
fn standing_plan_bases() -> Vec<Base> {
    let [good, over] = [STANDING, OVER].map(|book| Case::new(book.to_vec()));
    let [last, spent] = [OVER_TRIALS, OVER_TRIALS - 1].map(|budget| over.with_budget(budget));
    vec![
        plan_base("plan, a load draws standing", &good, NOT_SUMMED),
        plan_base("plan, refusal 17", &last, NOT_REFUSED),
        plan_base("plan, refusal 12 before 17", &spent, NOT_SPENT),
        quick_base("quick, a load draws standing", &good, NOT_TAKEN_OFF),
        quick_base("quick, refusal 17", &over, NOT_REFUSED_QUICKLY),
    ]
}

/// Each call that takes a sheet, on the same book.
fn standing_sheet_bases() -> Vec<Base> {
    let good = Case::new(STANDING.to_vec());
    let (text, sheet) = (&good.text, good.plan(NEED, BUFFER).sheet);
    let [running, planned] = [[1, 0, 0], [0, 1, 1]].map(|choice| sheet::write(book_of(&good), &choice, 0));
    let free = [0; BUFFER];
    let [read, not_summed] = [&sheet, BENCH_SHEET].map(|sheet| Input::read_sheet(text, sheet));
    let charge = Input::charge(text, &sheet, &[40]);
    let order = Input::order(text, &running, &planned, &[0; 3], &free);
    let mill = Input::mill_view(text, &sheet, &free);
    let supply = Input::supply_view(text, &sheet, &free);
    let of = |name, input, own| of_own(own, base(name, &good, input));
    vec![
        of("read_sheet, a load draws standing", read, &[]),
        of("read_sheet, standing not summed", not_summed, &[]),
        of("charge, a load draws standing", charge, NOT_CHARGED),
        of("order, a load draws standing", order, &[]),
        of("mill_view, a load draws standing", mill, &[]),
        of("supply_view, a load draws standing", supply, NOT_SHOWN),
    ]
}

/// Both planners on books with a load that must run; and 17 in both, with 12 and 11 before it.
fn must_run_plan_bases() -> Vec<Base> {
    let [good, start, over] = [MUST_RUN, MUST_START, TOO_LARGE].map(|book| Case::new(book.to_vec()));
    let [last, spent] = [TOO_LARGE_TRIALS, TOO_LARGE_TRIALS - 1].map(|budget| over.with_budget(budget));
    // Its sheet does not fit the buffer.
    let long = Case::new(format!("01011801000000000001\n{}", "0701000000010000\n".repeat(24)).into());
    vec![
        plan_base("plan, a load must run", &good, PLANNED_STANDING),
        plan_base("plan, refusal 17 for a load that must run", &last, LEFT_STANDING),
        plan_base("plan, refusal 12 before 17 for a load that must run", &spent, NOT_SPENT),
        quick_base("quick, a load must run", &start, STARTED_STANDING),
        quick_base(
            "quick, refusal 17 for a load that must run",
            &over,
            LEFT_STANDING_QUICKLY,
        ),
        quick_base("quick, refusal 11 before 17", &long, TRIED_TOO_SOON),
    ]
}

/// Each call that takes a sheet, on a book with a load that must run, and a sheet on which it stands.
fn must_run_sheet_bases() -> Vec<Base> {
    let good = Case::new(MUST_RUN.to_vec());
    let (text, sheet) = (&good.text, good.plan(NEED, BUFFER).sheet);
    let free = [0; BUFFER];
    let read = |sheet| Input::read_sheet(text, sheet);
    let order = |running, planned| Input::order(text, running, planned, &[0; 3], &free);
    let charge = Input::charge(text, BENCH_SHEET, &[40]);
    let mill = Input::mill_view(text, BENCH_SHEET, &free);
    let supply = Input::supply_view(text, BENCH_SHEET, &free);
    let of = |name, input, own| of_own(own, base(name, &good, input));
    vec![
        of("read_sheet, a load must run", read(&sheet), &[]),
        of(
            "read_sheet, a load stands that must run",
            read(BENCH_SHEET),
            FOREIGN_READ,
        ),
        of("charge, a load stands that must run", charge, FOREIGN_CHARGED),
        of(
            "order, a load that must run stands on the running sheet",
            order(BENCH_SHEET, &sheet),
            FOREIGN_RUNNING,
        ),
        of(
            "order, a load that must run stands on the new sheet",
            order(&sheet, BENCH_SHEET),
            FOREIGN_PLANNED,
        ),
        of("mill_view, a load stands that must run", mill, FOREIGN_LISTED),
        of("supply_view, a load stands that must run", supply, FOREIGN_SHOWN),
    ]
}

/// The planner, with more lent than the bench book needs.
fn plan_base(name: &'static str, case: &Case, own: &'static [Alteration]) -> Base {
    let input = Input::plan(&case.text, &[7; NEED + 9], &[0; BUFFER]);
    of_own(own, base(name, case, input))
}

/// The quick planner, with the same buffer.
fn quick_base(name: &'static str, case: &Case, own: &'static [Alteration]) -> Base {
    of_own(own, base(name, case, Input::quick(&case.text, &[0; BUFFER])))
}

/// A base with alterations of its own.
fn of_own(own: &'static [Alteration], base: Base) -> Base {
    Base { own, ..base }
}

fn base(name: &'static str, case: &Case, input: Input) -> Base {
    // Seeds are tried until every piece of memory has guards, which the alterations reach for.
    let call = (0..)
        .map(|seed| Call::new(&mut Random::new(seed), input))
        .find(Call::has_guards)
        .expect("most seeds give guards");
    Base {
        name,
        call,
        expected: case.outcome(input),
        own: &[],
    }
}
