//! The strict planner: calls that are altered, promises that are broken, and references with M-109's mistakes.

use super::{
    base, book_of, changed, of_own, refuse, succeeded, with_some_budget, Alteration, Base, Books, Checks, Mistake,
    BENCH_SHEET, BUFFER, NEED, NOT_SPENT, SPENT, STRICT,
};
use crate::call::Input;
use crate::damage::fault;
use crate::draw::{self, steps, Bounds};
use crate::kinds::{FINE, SMALL};
use crate::random::Random;
use crate::reference::book::Book;
use crate::reference::plan::{self, Plan, Planned};
use crate::reference::{grid, quick, strict, written, Case, Outcome, EXAMPLE};

/// A book of 11 × 24 cells, as the bench book: N = 3, d = 3 and S = 80, so L is 8 and R is 10. Loads 1 and 2, (47, 0) each, have
/// a = 10 together, and are over the limit; loads 1 and 3, (79, 0), keep it. Trials are 2 + 4 + 6.
const OVER: &[u8] = b"01010303000000640050\n02010005002F0000\n02010004002F0000\n0201000300200000\n";

/// The sheet of its plan.
const OVER_PLAN: &[u8] = b"04000000090000000C010100\n050000005E000000000050\n";

/// The same, but load 1 must run, at (80, 0) or, for more worth, at (87, 0), and the others have a = 12. Both levels have a = 10:
/// the second is compared, and does not fit. Trials are 2 + 2 + 2.
const NOT_COMPARED: &[u8] = b"01010303000000640050\n0702000100500000000200570000\n0201000500600000\n0201000500600000\n";
const NOT_COMPARED_TRIALS: u64 = 6;

/// N = 2, d = 8 and S = 100, so L is 6. Both loads, (53, 0) each, have a = 16 and are over the limit; each by itself has the margin,
/// as 53 is under three quarters of 100.
const MARGIN: &[u8] = b"01010208000000640064\n0201000500350000\n0201000400350000\n";

/// The bench book with d = 1.
fn coarse(budget: u64) -> Case {
    let text = [&EXAMPLE[..6], b"01", &EXAMPLE[8..]].concat();
    Case::new(text).with_budget(budget)
}

/// For a book whose plan is over the limit.
const EXCEEDED: &[Alteration] = &[
    ("the plan's sheet", |call| succeeded(call, 9, 12, OVER_PLAN)),
    ("the plan refused", |call| refuse(call, 17, 0)),
    ("trials of the choices that were tested", |call| {
        call.sheet.put(b"040000000800000002010001\n");
        call.answer.first.trials = 2;
    }),
];

/// For a book with one choice that keeps the limit and is not compared.
const TAKEN: &[Alteration] = &[
    SPENT,
    ("the choice that fits", |call| {
        let sheet = b"040000000100000006010000\n0500000050000000000050\n";
        succeeded(call, 1, 6, sheet);
    }),
    ("the choice that is compared", |call| {
        let sheet = b"040000000200000006020000\n0500000057000000000050\n";
        succeeded(call, 2, 6, sheet);
    }),
];

/// For d = 1.
const PLANNED: &[Alteration] = &[
    ("the plan's sheet", |call| succeeded(call, 10, 14, BENCH_SHEET)),
    ("6 in place of 20", |call| call.answer.first.number = 6),
    ("line 1", |call| call.answer.first.line = 1),
];

/// The strict planner with a sheet, with each refusal of its own, and with two at once.
pub fn bases() -> Vec<Base> {
    let [over, hidden] = [OVER, NOT_COMPARED].map(|book| Case::new(book.to_vec()));
    let [last, spent] = [NOT_COMPARED_TRIALS, NOT_COMPARED_TRIALS - 1].map(|budget| hidden.with_budget(budget));
    let [plenty, little] = [100, 0].map(coarse);
    let trailing = Case::new([&plenty.text[..], b"\n"].concat());
    let large = Case::new(draw::text(&draw::longest_views()));
    vec![
        strict_base("plan_strict, the plan", &Case::new(EXAMPLE.to_vec()), &[]),
        strict_base("plan_strict, below the plan", &over, EXCEEDED),
        strict_base("plan_strict, refusal 12", &over.with_budget(11), &[]),
        strict_base("plan_strict, refusal 17", &last, TAKEN),
        strict_base("plan_strict, refusal 12 before 17", &spent, NOT_SPENT),
        strict_base("plan_strict, refusal 20", &plenty, PLANNED),
        strict_base("plan_strict, refusal 20 before 12", &little, &[]),
        // Oversize too, with a sheet that is longer than the buffer.
        strict_base("plan_strict, refusal 20 before 9 and 11", &large, &[]),
        strict_base("plan_strict, refusal 8 before 20", &trailing, &[]),
    ]
}

/// The strict planner, with more lent than the bench book needs.
fn strict_base(name: &'static str, case: &Case, own: &'static [Alteration]) -> Base {
    let input = Input::plan_strict(&case.text, &[7; NEED + 9], &[0; BUFFER]);
    of_own(own, base(name, case, input))
}

/// The words of any of these books.
const WORDS: usize = 4 * SMALL.cells as usize;

/// Both planners' answers to a book, as they are and as no book may have them, and the promise that each breaks.
pub fn check_promises(checks: &mut Checks) {
    let [over, margin, hidden, bench] =
        [OVER, MARGIN, NOT_COMPARED, EXAMPLE].map(|book| Answered::new(Case::new(book.to_vec())));
    for answered in [&over, &margin, &hidden, &bench] {
        answered.check(checks, &answered.plain, &answered.strict, None);
    }
    let refusal = &hidden.strict;
    let (standing, other) = (margin.sheet(&[0, 0]), bench.sheet(&[0, 1, 1]));
    let mut poorer = over.plain.clone();
    poorer.answer.first.worth = 7;
    for (answered, plain, strict, broken) in [
        (&over, &over.plain, &over.plain, strict::EXCEEDS),
        (&margin, &margin.plain, refusal, strict::NONE_WITH_MARGIN),
        (&margin, &margin.plain, &standing, strict::LESS_THAN_MARGIN),
        (&over, refusal, &over.strict, strict::NO_PLAN),
        (&over, &poorer, &over.strict, strict::MORE_THAN_PLAN),
        (&bench, &bench.plain, &other, strict::OTHER_THAN_PLAN),
    ] {
        answered.check(checks, plain, strict, Some(broken));
    }
}

/// A book, and what both planners have to leave for it.
struct Answered {
    case: Case,
    plain: Outcome,
    strict: Outcome,
}

impl Answered {
    fn new(case: Case) -> Answered {
        Answered {
            plain: case.plan(WORDS, BUFFER),
            strict: case.plan_strict(WORDS, BUFFER),
            case,
        }
    }

    /// A planner's sheet of this choice.
    fn sheet(&self, choice: &[usize]) -> Outcome {
        written(book_of(&self.case), choice, self.case.planned().trials)
    }

    /// Whether this promise is reported as broken, and no other.
    fn check(&self, checks: &mut Checks, plain: &Outcome, strict: &Outcome, broken: Option<&str>) {
        let reported = self.case.broken_promises(plain, strict);
        let wrong = format!("promises: reported is {reported:?}, and due is {broken:?}");
        checks.check(reported == Vec::from_iter(broken), &wrong);
    }
}

/// Ways to draw a book.
const DRAWS: [fn(&mut Random, Bounds) -> Book; 3] = [draw::book, steps::at_ends, steps::shared];

/// With d of 2 or more; with budgets that suffice and that do not.
pub const FINE_BOOKS: Books = ("fine books", |random| {
    let draw = random.pick(&DRAWS);
    let book = draw(random, FINE);
    with_some_budget(random, &book)
});

/// With d of 1 or 2: oversize ones, and others with budgets that suffice and that do not, of which some have no plan.
pub const COARSE_BOOKS: Books = ("coarse books", |random| {
    let fineness = random.pick(&[1, 1, 2]);
    let with_fineness = |book: Book| Book { fineness, ..book };
    match random.below(3) {
        0 => Case::new(draw::text(&with_fineness(draw::too_many_cells(random)))),
        1 => {
            let book = draw::heated(random, FINE, &[8..=16], &(8..=16));
            with_some_budget(random, &with_fineness(book))
        }
        _ => {
            let book = draw::book(random, FINE);
            with_some_budget(random, &with_fineness(book))
        }
    }
});

/// With d = 1 and a fault of 1 to 8.
pub const FAULTY_BOOKS: Books = ("coarse books with a fault", |random| {
    let book = Book {
        fineness: 1,
        ..draw::book(random, SMALL)
    };
    let mut text = draw::text(&book);
    let refusal = random.pick(&[1, 2, 3, 4, 5, 6, 7, 8]);
    fault(random, &mut text, refusal);
    Case::new(text)
});

/// Of which choices are compared.
pub const COMPARED_MISTAKES: &[Mistake] = &[
    ("of each list the largest code", STRICT, |case, input| {
        with_compared(case, input, |worth, code| (worth, code))
    }),
    (
        "of each list the smallest code, whatever its worth",
        STRICT,
        |case, input| with_compared(case, input, |_, code| u64::MAX - code),
    ),
    ("of each list the least worth", STRICT, |case, input| {
        with_compared(case, input, |worth, code| strict::rank(u64::MAX - worth, code))
    }),
    ("of the best the largest code", STRICT, |case, input| {
        let book = book_of(case);
        let mut choices = strict::compared(book, strict::rank);
        choices.retain(|choice| quick::fits(book, choice));
        let best = strict::best_of(book, choices, |worth, code| (worth, code));
        with_strict(case, input, best)
    }),
    ("every choice that fits is compared", STRICT, |case, input| {
        let book = book_of(case);
        with_strict(case, input, plan::best_where(book, |choice| quick::fits(book, choice)))
    }),
    ("the plan alone is compared", STRICT, |case, input| {
        let mut plan = case.planned().plan.clone();
        plan = plan.filter(|plan| quick::fits(book_of(case), &plan.choice));
        with_strict(case, input, plan)
    }),
    ("a load that must run stands", STRICT, |case, input| {
        with_strict(case, input, case.free_to_stand().strict().cloned())
    }),
];

/// Of what is asked of a compared choice, and of what is answered.
pub const LIMIT_MISTAKES: &[Mistake] = &[
    ("the compared choices are tested by admission", STRICT, |case, input| {
        with_strict(case, input, case.planned().plan.clone())
    }),
    (
        "the compared choices are tested by whole steps",
        STRICT,
        |case, input| {
            let book = book_of(case);
            let slots = grid::slots(book);
            with_test(case, input, |choice| {
                let pairs = plan::pairs(book, &slots, choice);
                let sums = pairs
                    .iter()
                    .zip(&slots)
                    .map(|((a, b), slot)| (a * slot.step, b * slot.step));
                sums.zip(&book.limits)
                    .all(|((p, q), limit)| p * p + q * q <= limit * limit)
            })
        },
    ),
    (
        "P² + Q² = S² does not fit, unless both are 0",
        STRICT,
        |case, input| {
            let book = book_of(case);
            with_test(case, input, |choice| {
                book.limits.iter().enumerate().all(|(slot, limit)| {
                    let (p, q) = book.sums(choice, slot);
                    p * p + q * q < (limit * limit).max(1)
                })
            })
        },
    ),
    ("the first slot alone is asked", STRICT, |case, input| {
        let mut book = book_of(case).clone();
        book.limits.truncate(1);
        with_test(case, input, |choice| quick::fits(&book, choice))
    }),
    ("Q is left out", STRICT, |case, input| {
        let book = book_of(case);
        with_test(case, input, |choice| {
            let mut slots = book.limits.iter().enumerate();
            slots.all(|(slot, limit)| book.sums(choice, slot).0 <= *limit)
        })
    }),
    ("standing is left out", STRICT, |case, input| {
        let book = draw::with_standing(book_of(case), None);
        with_test(case, input, |choice| quick::fits(&book, choice))
    }),
    ("only choices with the margin fit", STRICT, |case, input| {
        let book = book_of(case);
        with_test(case, input, |choice| strict::has_margin(book, choice))
    }),
    ("17 before 12", STRICT, |case, input| {
        changed(case, input, |case, answer| {
            if answer.number == 12 && case.strict().is_none() {
                answer.number = 17;
            }
        })
    }),
    ("the worth of the plan", STRICT, |case, input| {
        changed(case, input, |case, answer| {
            if let (0, Some(plan)) = (answer.number, &case.planned().plan) {
                answer.worth = plan.worth;
            }
        })
    }),
];

/// Of refusal 20.
pub const COARSE_MISTAKES: &[Mistake] = &[
    ("no 20", STRICT, |case, input| unless_tried(case, input, |_| true)),
    ("20 after 9", STRICT, |case, input| {
        unless_tried(case, input, |number| number == 9)
    }),
    ("20 after 10", STRICT, |case, input| {
        unless_tried(case, input, |number| number == 10)
    }),
    ("20 after 11", STRICT, |case, input| {
        unless_tried(case, input, |number| number == 11)
    }),
    ("20 after 12", STRICT, |case, input| {
        unless_tried(case, input, |number| number == 12)
    }),
    ("20 after 17", STRICT, |case, input| {
        unless_tried(case, input, |number| number == 17)
    }),
    ("20 at line 1", STRICT, |case, input| {
        changed(case, input, |_, answer| answer.line |= u64::from(answer.number == 20))
    }),
    ("20 with d = 2", STRICT, |case, input| {
        let book = book_of(case).clone();
        match book.fineness {
            2 => Case::read_as(case.text.clone(), Ok(Book { fineness: 1, ..book })).outcome(input),
            _ => case.outcome(input),
        }
    }),
];

/// Of refusal 20 beside the book's own: as if it were tried once the header is read.
pub const FAULT_MISTAKES: &[Mistake] = &[("20 before the book's own", STRICT, |case, input| {
    changed(case, input, |case, answer| {
        if answer.line > 1 && case.text.get(6..8) == Some(b"01") {
            (answer.number, answer.line) = (20, 0);
        }
    })
})];

/// What the strict planner has to leave where this is its plan.
fn with_strict(case: &Case, input: Input, plan: Option<Plan>) -> Outcome {
    case.with_strict(plan).outcome(input)
}

/// What it has to leave where the choice of a list is compared that ranks highest by this.
fn with_compared<R: Ord>(case: &Case, input: Input, rank: fn(u64, u64) -> R) -> Outcome {
    let book = book_of(case);
    with_best(case, input, strict::compared(book, rank), |choice| {
        quick::fits(book, choice)
    })
}

/// What it has to leave where this is asked of a compared choice.
fn with_test(case: &Case, input: Input, holds: impl Fn(&[usize]) -> bool) -> Outcome {
    with_best(case, input, strict::compared(book_of(case), strict::rank), holds)
}

/// What it has to leave where its plan is the best of these choices of which this holds.
fn with_best(case: &Case, input: Input, mut choices: Vec<Vec<usize>>, holds: impl Fn(&[usize]) -> bool) -> Outcome {
    choices.retain(|choice| holds(choice));
    with_strict(case, input, strict::best_of(book_of(case), choices, strict::rank))
}

/// What it has to leave; but in place of 20, what it would leave without that refusal, where it is one of these numbers.
fn unless_tried(case: &Case, input: Input, tried: fn(u64) -> bool) -> Outcome {
    let outcome = case.outcome(input);
    if outcome.answer.first.number != 20 {
        return outcome;
    }
    let without = without_20(case, input);
    match tried(without.answer.first.number) {
        true => without,
        false => outcome,
    }
}

/// What it would leave without refusal 20: what the planner leaves, but of the strict plan.
fn without_20(case: &Case, input: Input) -> Outcome {
    let plan = |case: &Case| case.plan(input.words.len(), input.sheet.len());
    let plain = plan(case);
    match plain.answer.first.number {
        0 | 17 => plan(&case.with_planned(Planned {
            plan: case.strict().cloned(),
            ..case.planned().clone()
        })),
        _ => plain,
    }
}
