//! Books that state a ratio: calls that are altered, and references with M-108's mistakes.

use super::{
    base, book_of, of_own, plan_base, quick_base, quick_sheet, read_where, refuse, succeeded, with_plan,
    with_some_budget, Alteration, Base, Books, Mistake, BENCH_QUICK, BENCH_SHEET, BUFFER, EVERY, NEED, PLAN,
    PLAN_STRICT_AND_DAY, QUICK,
};
use crate::call::Input;
use crate::damage::fault_at;
use crate::draw::{self, ratios};
use crate::kinds::SMALL;
use crate::reference::book::{self, Book};
use crate::reference::ratio::{self, CANCELLING, CANCELLING_QUICK, CANCELLING_SHEET};
use crate::reference::{grid, plan, quick, sheet, Case, Outcome, Refusal, EXAMPLE};

/// The bench book's header of kind `08` up to its ratio, and all that follows the ratio.
const HEADER: &[u8] = b"08010304";
const REST: &[u8] = EXAMPLE.split_at(8).1;

/// For a book that is read.
const REFUSED: &[Alteration] = &[
    ("a header of kind 08 refused", |call| refuse(call, 3, 1)),
    ("r refused", |call| refuse(call, 6, 1)),
    ("slack refused", |call| refuse(call, 7, 2)),
];

/// For the bench book with r = 3, which needs more words than are lent.
const FEWER_CELLS: &[Alteration] = &[
    ("cells of r = 1", |call| succeeded(call, 10, 14, BENCH_SHEET)),
    ("9 in place of 10", |call| call.answer.first.number = 9),
];

/// The same as the second book of a day; the first has r = 1.
const FEWER_CELLS_IN_A_DAY: &[Alteration] = &[("cells of r = 1", |call| succeeded(call, 0, 0, &BENCH_SHEET.repeat(2)))];

/// For r = 4, with which the planner would lack words.
const TAKEN: &[Alteration] = &[
    ("r taken", |call| refuse(call, 10, 0)),
    ("5 in place of 6", |call| call.answer.first.number = 5),
];

const TAKEN_QUICKLY: &[Alteration] = &[("r taken", |call| succeeded(call, 9, 3, BENCH_QUICK))];

const RANGE_FIRST: &[Alteration] = &[("6 before 5", |call| call.answer.first.number = 6)];

const LOADS_FIRST: &[Alteration] = &[("7 before 6", |call| refuse(call, 7, 2))];

/// For a |Q| of r × P + 1, with which the planner would lack words.
const NOT_SLACK: &[Alteration] = &[("the pair taken", |call| refuse(call, 10, 0))];

/// For the quick planner on loads that cancel.
const TRIED_AGAIN: &[Alteration] = &[("the motor tried again", |call| {
    let sheet = b"040000000D00000003010101\n050000000A00000000000A\n";
    succeeded(call, 13, 3, sheet);
})];

/// The bench book with these digits for the ratio.
fn bench(ratio: &[u8]) -> Case {
    Case::new([HEADER, ratio, REST].concat())
}

/// Both planners and the day: with r = 1 the bench book needs no more words; and refusals 5, 6, 7 and 10 where r bears on them.
pub fn plan_bases() -> Vec<Base> {
    let [one, three, four] = [b"01", b"03", b"04"].map(|ratio| bench(ratio));
    // r = 0 where a digit is missing; then r = 4, and r = 2, where |Q| is 2 × P + 1.
    let short = Case::new([HEADER, b"00", &REST[1..]].concat());
    let [later, slack] =
        ["04", "02"].map(|ratio| Case::new(format!("08010105{ratio}00000064000A\n0201000500020005\n").into()));
    let cancelling = Case::new(CANCELLING.to_vec());
    let day = [&one.text[..], &three.text].join(&b'\n');
    let input = Input::day(&day, &[7; NEED + 9], &[0; 2 * BUFFER]);
    vec![
        plan_base("plan, r = 1", &one, REFUSED),
        plan_base("plan, refusal 10 for r = 3", &three, FEWER_CELLS),
        plan_base("plan, refusal 6 for r = 4", &four, TAKEN),
        plan_base("plan, refusal 5 before 6 for r = 0", &short, RANGE_FIRST),
        plan_base("plan, refusal 6 for r = 4 before 7", &later, LOADS_FIRST),
        plan_base("plan, refusal 7 for r = 2", &slack, NOT_SLACK),
        quick_base("quick, loads that cancel", &cancelling, TRIED_AGAIN),
        quick_base("quick, refusal 6 for r = 4", &four, TAKEN_QUICKLY),
        of_own(
            FEWER_CELLS_IN_A_DAY,
            base("day, r = 1 and r = 3", &Case::new(day.clone()), input),
        ),
    ]
}

/// Each call that takes a sheet, on a book of loads that cancel.
pub fn sheet_bases() -> Vec<Base> {
    let case = Case::new(CANCELLING.to_vec());
    let (text, planned, running) = (&case.text, CANCELLING_SHEET, CANCELLING_QUICK);
    let free = [0; BUFFER];
    let inputs = [
        ("read_sheet, r = 3", Input::read_sheet(text, planned)),
        ("charge, r = 3", Input::charge(text, planned, &[40])),
        ("order, r = 3", Input::order(text, running, planned, &[0; 3], &free)),
        ("mill_view, r = 3", Input::mill_view(text, planned, &free)),
        ("supply_view, r = 3", Input::supply_view(text, planned, &free)),
    ];
    inputs
        .map(|(name, input)| of_own(REFUSED, base(name, &case, input)))
        .into()
}

/// With headers of both kinds, and with loads that cancel; with budgets that suffice and that do not.
pub const STATED: Books = ("books of both headers", |random| {
    let book = match random.one_in(3) {
        true => ratios::cancelling(random, SMALL),
        false => draw::book(random, SMALL),
    };
    with_some_budget(random, &book)
});

/// Oversize, some by their r alone.
pub const OVERSIZE: Books = ("oversize books", |random| {
    Case::new(draw::text(&draw::too_many_cells(random)))
});

/// With a |Q| of r × P, or of one more.
pub const NEAR: Books = ("books near their ratio", |random| {
    let (book, beyond) = (draw::book(random, SMALL), random.pick(&[0, 1]));
    Case::new(draw::text(&ratios::near(random, &book, beyond)))
});

/// With headers of kind `08`, right or with r outside its range, alone or with digits too many or too few, or with slack on a later
/// line.
pub const HEADERS: Books = ("headers of kind 08", |random| {
    let ratio = Some(random.pick(&[0, 1, 3, 4]));
    let book = ratios::with_ratio(&draw::book(random, SMALL), Some(1));
    let mut text = draw::text(&Book { ratio, ..book });
    match random.below(3) {
        0 => fault_at(random, &mut text, 5, 0),
        1 => fault_at(random, &mut text, 7, 1),
        _ => (),
    }
    Case::new(text)
});

/// Of the grid pairs of a slot, by r, R and N.
pub const CELL_MISTAKES: &[Mistake] = &[
    ("grid pairs of r = 1", PLAN_STRICT_AND_DAY, |case, input| {
        with_pairs(case, input, |_, bound, loads| ratio::pairs(1, bound, loads))
    }),
    ("grid pairs of r = 3", PLAN_STRICT_AND_DAY, |case, input| {
        with_pairs(case, input, |_, bound, loads| ratio::pairs(3, bound, loads))
    }),
    ("grid pairs with N once", PLAN_STRICT_AND_DAY, |case, input| {
        with_pairs(case, input, |r, bound, loads| (bound + 1) * (2 * r * bound + loads + 1))
    }),
    ("grid pairs with N 2r times", PLAN_STRICT_AND_DAY, |case, input| {
        with_pairs(case, input, |r, bound, loads| {
            (bound + 1) * (2 * r * (bound + loads) + 1)
        })
    }),
    ("grid pairs with R twice", PLAN_STRICT_AND_DAY, |case, input| {
        with_pairs(case, input, |r, bound, loads| {
            (bound + 1) * (2 * bound + (2 * r - 1) * loads + 1)
        })
    }),
];

/// Of refusal 9: where it is not given, 10 is, as the words are few.
pub const OVERSIZE_MISTAKES: &[Mistake] = &[("9 by the cells of r = 1", PLAN_STRICT_AND_DAY, |case, input| {
    with_pairs(case, input, |_, bound, loads| ratio::pairs(1, bound, loads))
})];

/// Of loads whose Q cancel.
pub const CANCEL_MISTAKES: &[Mistake] = &[
    (
        "a choice is dropped whose first loads exceed a limit",
        PLAN,
        |case, input| {
            let book = book_of(case);
            let throughout = |choice: &[usize]| (1..=choice.len()).all(|k| plan::admits(book, &choice[..k]));
            with_plan(case, input, plan::best_where(book, throughout))
        },
    ),
    ("a load that was passed over is tried again", QUICK, |case, input| {
        let (book, outcome) = (book_of(case), case.outcome(input));
        match sheet::read(book, &outcome.sheet) {
            Some((choice, _)) => quick_sheet(book, &tried_again(book, choice)),
            None => outcome,
        }
    }),
];

/// Of refusal 7.
pub const SLACK_MISTAKES: &[Mistake] = &[
    ("|Q| above P is slack, whatever r", EVERY, |case, input| {
        read_where(case, |load, _| load.keeps(1)).outcome(input)
    }),
    ("|Q| up to 3P is not slack, whatever r", EVERY, |case, input| {
        read_where(case, |load, _| load.keeps(3)).outcome(input)
    }),
    ("r is for options alone", EVERY, |case, input| {
        read_where(case, |load, r| {
            load.options_all(|p, q| ratio::kept(r, p, q)) && load.standing_all(|p, q| ratio::kept(1, p, q))
        })
        .outcome(input)
    }),
    ("r is for Q above 0 alone", EVERY, |case, input| {
        slack_unless(case, |r, p, q| (-p..=r * p).contains(&q)).outcome(input)
    }),
    ("|Q| = r x P is slack", EVERY, |case, input| {
        slack_unless(case, |r, p, q| q.abs() < r * p || (p, q) == (0, 0)).outcome(input)
    }),
    ("|Q| = r x P + 1 is not slack", EVERY, |case, input| {
        slack_unless(case, |r, p, q| q.abs() <= r * p + 1).outcome(input)
    }),
    ("Q = -(r x P + 1) is not slack", EVERY, |case, input| {
        slack_unless(case, |r, p, q| (-r * p - 1..=r * p).contains(&q)).outcome(input)
    }),
    ("|Q| = r x P + 1 is not slack standing", EVERY, |case, input| {
        read_where(case, |load, r| {
            load.options_all(|p, q| ratio::kept(r, p, q)) && load.standing_all(|p, q| q.abs() <= r * p + 1)
        })
        .outcome(input)
    }),
];

/// Of the header.
pub const HEADER_MISTAKES: &[Mistake] = &[
    ("a header of kind 08 is stray", EVERY, |case, input| {
        with_header(case, input, |text| text[1] = b'3')
    }),
    ("a header of kind 08 is read as one of kind 01", EVERY, |case, input| {
        with_header(case, input, |text| text[1] = b'1')
    }),
    ("the ratio stands before d", EVERY, |case, input| {
        with_header(case, input, |text| text[6..10].rotate_left(2))
    }),
    ("the ratio stands after the budget", EVERY, |case, input| {
        with_header(case, input, |text| text[8..18].rotate_right(2))
    }),
    ("r = 0 is taken as 1", EVERY, |case, input| {
        with_header(case, input, |text| taken_as(text, b"00", b"01"))
    }),
    ("r = 4 is taken as 3", EVERY, |case, input| {
        with_header(case, input, |text| taken_as(text, b"04", b"03"))
    }),
    ("r outside its range is misshapen", EVERY, |case, input| {
        refused_otherwise(case, input, |_, refusal| match refusal.number {
            6 => Refusal { number: 5, ..refusal },
            _ => refusal,
        })
    }),
    ("6 before 5", EVERY, |case, input| {
        refused_otherwise(case, input, |case, refusal| match (refusal.number, refusal.line) {
            (5, 1) if matches!(case.text.get(8..10), Some(b"00" | b"04")) => Refusal { number: 6, ..refusal },
            _ => refusal,
        })
    }),
    ("r is tried after the load lines", EVERY, |case, input| {
        refused_otherwise(case, input, |case, refusal| {
            let with_three = with_digits(case, |text| text[8..10].copy_from_slice(b"03"));
            match refusal.number {
                6 => with_three.err().unwrap_or(refusal),
                _ => refusal,
            }
        })
    }),
];

/// The case of the book as it is read where refusal 7 is given unless this holds of r and each P and Q.
fn slack_unless(case: &Case, holds: fn(i64, i64, i64) -> bool) -> Case {
    read_where(case, |load, r| {
        let holds = |p, q| holds(r, p, q);
        load.options_all(holds) && load.standing_all(holds)
    })
}

/// What a call has to leave where a slot has so many grid pairs, by r, R and N.
fn with_pairs(case: &Case, input: Input, pairs: fn(i64, i64, i64) -> i64) -> Outcome {
    let book = book_of(case);
    let (r, loads) = (ratio::of(book.ratio), book.loads.len() as i64);
    let slots = grid::slots(book);
    let cells = slots.iter().map(|slot| pairs(r, slot.bound, loads) as u128).product();
    case.with_cells(cells).outcome(input)
}

/// The choice after a second round of trying.
fn tried_again(book: &Book, choice: Vec<usize>) -> Vec<usize> {
    let order = quick::order(book).into_iter();
    order.fold(choice, |choice, k| quick::taken(book, &choice, k).unwrap_or(choice))
}

/// What the book is read as where its digits are changed, unless it is shorter than a header.
fn with_digits(case: &Case, change: fn(&mut [u8])) -> Result<Book, Refusal> {
    let mut text = case.text.clone();
    text.get_mut(..18).map(change);
    book::read(&text)
}

/// Puts other digits in the place of these for the ratio.
fn taken_as(text: &mut [u8], stated: &[u8], taken: &[u8]) {
    if text[8..10] == *stated {
        text[8..10].copy_from_slice(taken);
    }
}

/// What a call has to leave where the digits of a header of kind `08` are read so.
fn with_header(case: &Case, input: Input, change: fn(&mut [u8])) -> Outcome {
    match ratio::stated_in(&case.text) {
        true => Case::read_as(case.text.clone(), with_digits(case, change)).outcome(input),
        false => case.outcome(input),
    }
}

/// What a call has to leave where a refused book is refused otherwise.
fn refused_otherwise(case: &Case, input: Input, change: fn(&Case, Refusal) -> Refusal) -> Outcome {
    let book = case.book.clone().map_err(|refusal| change(case, refusal));
    Case::read_as(case.text.clone(), book).outcome(input)
}
