//! Two books that are pooled: calls that are altered, a promise that is broken, and references with M-110's mistakes.

use super::{base, changed, of_own, refuse, succeeded, Alteration, Base, Books, Checks, Mistake, BUFFER, POOL};
use crate::call::Input;
use crate::damage::fault;
use crate::draw::pairs::{self, Faults};
use crate::draw::{self, text};
use crate::kinds::pool::{beside, need_of};
use crate::kinds::SMALL;
use crate::random::Random;
use crate::reference::book::{self, Book, MOST_LOADS};
use crate::reference::pool::{self, Rule, LIMIT, LOADS, MOST_LIMIT, POOLED, SECOND, UNLIKE};
use crate::reference::{fitting, ratio, refused, Case, Outcome, Refusal, EXAMPLE};
use crate::Answer;
use std::ops::Range;

/// The bytes that are lent for a pooled book.
const ROOM: usize = POOLED.len() + 30;

/// The pooled book's load lines: those of the bench book and the other one's.
const LINES: (&[u8], &[u8]) = POOLED.split_at(23).1.split_at(51);

/// For the bench book and the other one.
const WRITTEN: &[Alteration] = &[
    ("last byte of the pooled book", |call| {
        call.sheet.flip(POOLED.len() as isize - 1)
    }),
    ("byte past the pooled book", |call| {
        call.sheet.flip(POOLED.len() as isize)
    }),
    ("the smaller budget", |call| call.sheet.put(b"08010404030000000A001E")),
    ("the first book's ratio", |call| {
        call.sheet.put(b"080104040100000064001E")
    }),
    ("the first book's limit", |call| {
        call.sheet.put(b"080104040300000064000A")
    }),
    ("the first book's number of loads", |call| {
        call.sheet.put(b"080103040300000064001E")
    }),
    ("a header of kind 01", |call| {
        let header = b"0101040400000064001E\n";
        succeeded(call, 0, 0, &[header, LINES.0, LINES.1].concat());
    }),
    ("the second book's lines first", |call| {
        let header = &POOLED[..23];
        call.sheet.put(&[header, LINES.1, LINES.0].concat());
    }),
    ("both books one after the other", |call| {
        succeeded(call, 0, 0, &[EXAMPLE, SECOND].concat())
    }),
    ("the first book alone", |call| succeeded(call, 0, 0, EXAMPLE)),
    ("the pooled book's trials", |call| call.answer.first.trials = 30),
];

/// For the first book's own fault, where the second has one too.
const SECOND_TRIED: &[Alteration] = &[("the second book's fault", |call| refuse(call, 1, 5))];

/// For the second book's fault on its second line.
const COUNTED: &[Alteration] = &[
    ("a line that starts again", |call| call.answer.first.line = 2),
    ("a line that leaves out a header", |call| call.answer.first.line = 5),
    ("line 0", |call| call.answer.first.line = 0),
];

/// For refusals that have no line.
const LINED: &[Alteration] = &[
    ("the second book's first line", |call| call.answer.first.line = 5),
    ("pooled all the same", |call| succeeded(call, 0, 0, &POOLED[..BUFFER])),
];

const LOADS_FIRST: &[Alteration] = &[("22 before 21", |call| refuse(call, 22, 0))];
const LIMIT_FIRST: &[Alteration] = &[("23 before 22", |call| refuse(call, 23, 0))];
const BUFFER_FIRST: &[Alteration] = &[("11 before 23", |call| refuse(call, 11, 0))];

/// For a pooled book that is longer than the buffer.
const BEGUN: &[Alteration] = &[("the pooled book begun", |call| call.sheet.put(&POOLED[..BUFFER]))];

/// A pooled book, and each refusal, alone and before another.
pub fn bases() -> Vec<Base> {
    let cut = |book: &[u8]| book[..book.len() - 1].to_vec();
    let longer = |book: &[u8]| [book, b"\n"].concat();
    // The bench book with d = 5, 24 loads, and the largest limit.
    let finer = [&EXAMPLE[..6], b"05", &EXAMPLE[8..]].concat();
    let many = |fineness: &str, limit: &str| {
        let load = "0201000400040000\n";
        format!("010118{fineness}00000064{limit}\n{}", load.repeat(24)).into_bytes()
    };
    let large = [&EXAMPLE[..16], b"FFFF", &EXAMPLE[20..]].concat();
    vec![
        pool_base("pool, a book", EXAMPLE, SECOND, ROOM, WRITTEN),
        pool_base("pool, refusal 1", &cut(EXAMPLE), b"", ROOM, SECOND_TRIED),
        pool_base("pool, refusal 8", &longer(EXAMPLE), b"", ROOM, SECOND_TRIED),
        pool_base("pool, refusal 1 in the second", EXAMPLE, &cut(SECOND), ROOM, COUNTED),
        pool_base("pool, refusal 8 in the second", EXAMPLE, &longer(SECOND), ROOM, &[]),
        pool_base("pool, refusal 8 before 21", EXAMPLE, &longer(&finer), ROOM, &[]),
        pool_base("pool, refusal 21", EXAMPLE, &finer, ROOM, LINED),
        pool_base(
            "pool, refusal 21 before 22",
            EXAMPLE,
            &many("05", "000A"),
            ROOM,
            LOADS_FIRST,
        ),
        pool_base("pool, refusal 22", EXAMPLE, &many("04", "000A"), ROOM, LINED),
        pool_base(
            "pool, refusal 22 before 23",
            EXAMPLE,
            &many("04", "FFFF"),
            BUFFER,
            LIMIT_FIRST,
        ),
        pool_base("pool, refusal 23", EXAMPLE, &large, 2 * ROOM, LINED),
        pool_base("pool, refusal 23 before 11", EXAMPLE, &large, BUFFER, BUFFER_FIRST),
        pool_base("pool, refusal 11", EXAMPLE, SECOND, BUFFER, BEGUN),
    ]
}

/// The pool, with so many bytes lent.
fn pool_base(name: &'static str, first: &[u8], second: &[u8], buffer: usize, own: &'static [Alteration]) -> Base {
    let input = Input::pool(first, second, &[0; 2 * ROOM][..buffer]);
    of_own(own, base(name, &Case::new(first.to_vec()), input))
}

/// The planner's answer to the pooled book, as it is and as it may not be, and what is broken: the bench book's plan is worth 10, and
/// the other book's 7.
pub fn check_promises(checks: &mut Checks) {
    let [first, second] = [EXAMPLE, SECOND].map(|book| book::read(book).expect("a valid book"));
    let both = pool::worth_of_both(&first, &second);
    let answer = |number, worth| Answer {
        number,
        worth,
        ..Answer::default()
    };
    let plan = Case::new(POOLED.to_vec()).plan(usize::MAX, BUFFER).answer.first;
    for (answer, due) in [
        (plan, None),
        (answer(0, 17), None),
        (answer(0, 16), Some(pool::LESS_THAN_BOTH)),
        (answer(12, 0), None),
        (answer(17, 0), Some(pool::NONE_FOR_BOTH)),
    ] {
        let reported = pool::broken(both, &answer);
        let wrong = format!("promise of the pooled plan: reported is {reported:?}, and due is {due:?}");
        checks.check(reported == Vec::from_iter(due), &wrong);
    }
}

/// First books of two.
pub const FIRST_BOOKS: Books = ("first books", |random| {
    let loads = 1 + random.below(MOST_LOADS);
    Case::new(text(&pairs::of_loads(random, loads)))
});

/// First books with a fault of 1 to 8, often the last.
pub const FAULTY_BOOKS: Books = ("first books with a fault", |random| {
    let mut text = text(&draw::book(random, SMALL));
    let refusal = random.pick(&[1, 2, 3, 4, 5, 6, 7, 8, 8, 8]);
    fault(random, &mut text, refusal);
    Case::new(text)
});

/// Second books: right ones that go with this one, or do not (21 to 23), some with a fault of 1 to 8, and none at all.
pub fn seconds(random: &mut Random, case: &Case) -> Vec<Vec<u8>> {
    let second = |random: &mut Random| {
        let faults = Faults::one_in(random, 3);
        let mut second = match &case.book {
            Ok(book) => text(&pairs::second(random, book, faults)),
            Err(_) => beside(random, case),
        };
        match random.below(20) {
            0 => second.clear(),
            refusal @ 1..=8 => fault(random, &mut second, refusal),
            _ => (),
        }
        second
    };
    (0..3).map(|_| second(random)).collect()
}

/// The book pooled with each of these, with buffers that suffice and that do not.
pub fn inputs<'a>(case: &'a Case, seconds: &'a [Vec<u8>], room: &'a [u8]) -> Vec<Input<'a>> {
    let mut inputs = Vec::new();
    for second in seconds {
        let need = need_of(case, second);
        for buffer in [room.len(), need, need.saturating_sub(1)] {
            inputs.push(Input::pool(&case.text, second, &room[..buffer]));
        }
    }
    inputs
}

/// M-110's, of the pooled book's header.
pub const HEADER_MISTAKES: &[Mistake] = &[
    ("the smaller budget", POOL, |case, input| {
        with_header(case, input, |first, second, pooled| {
            pooled.budget = first.budget.min(second.budget)
        })
    }),
    ("the first book's budget", POOL, |case, input| {
        with_header(case, input, |first, _, pooled| pooled.budget = first.budget)
    }),
    ("the second book's budget", POOL, |case, input| {
        with_header(case, input, |_, second, pooled| pooled.budget = second.budget)
    }),
    ("the budgets added", POOL, |case, input| {
        with_header(case, input, |first, second, pooled| {
            pooled.budget = (first.budget + second.budget).min(0xFFFF_FFFF)
        })
    }),
    ("the smaller r", POOL, |case, input| {
        with_header(case, input, |first, second, pooled| {
            pooled.ratio = Some(ratio::of(first.ratio).min(ratio::of(second.ratio)))
        })
    }),
    ("the first book's r", POOL, |case, input| {
        with_header(case, input, |first, _, pooled| {
            pooled.ratio = Some(ratio::of(first.ratio))
        })
    }),
    ("the second book's r", POOL, |case, input| {
        with_header(case, input, |_, second, pooled| {
            pooled.ratio = Some(ratio::of(second.ratio))
        })
    }),
    ("a header of kind 01", POOL, |case, input| {
        with_header(case, input, |_, _, pooled| pooled.ratio = None)
    }),
    ("a header of kind 01 for r = 1", POOL, |case, input| {
        with_header(case, input, |_, _, pooled| {
            pooled.ratio = pooled.ratio.filter(|&r| r > 1)
        })
    }),
    ("a header of kind 01 where both books have one", POOL, |case, input| {
        with_header(case, input, |first, second, pooled| {
            pooled.ratio = first.ratio.or(second.ratio).and(pooled.ratio)
        })
    }),
    ("the limits not added in the last slot", POOL, |case, input| {
        with_header(case, input, |first, _, pooled| {
            let last = first.limits.len() - 1;
            pooled.limits[last] = first.limits[last];
        })
    }),
    ("the larger limit", POOL, |case, input| {
        with_header(case, input, |first, second, pooled| {
            let limits = first.limits.iter().zip(&second.limits);
            pooled.limits = limits.map(|(one, other)| *one.max(other)).collect();
        })
    }),
    ("the limits added over all slots", POOL, |case, input| {
        with_header(case, input, |_, _, pooled| {
            let all = pooled.limits.iter().sum::<i64>().min(MOST_LIMIT);
            pooled.limits.fill(all);
        })
    }),
    ("the first book's number of loads", POOL, |case, input| {
        with_header(case, input, |first, _, pooled| pooled.loads = first.loads.clone())
    }),
];

/// Of its load lines.
pub const LINE_MISTAKES: &[Mistake] = &[
    ("the second book's lines before the first's", POOL, |case, input| {
        with_text(case, input, |pooled| pool::text(pooled, [input.second, &case.text]))
    }),
    ("the second book's header left in", POOL, |case, input| {
        with_text(case, input, |pooled| {
            let first = pool::text(pooled, [&case.text, b""]);
            [&first, input.second].concat()
        })
    }),
    ("the first book's lines alone", POOL, |case, input| {
        with_text(case, input, |pooled| pool::text(pooled, [&case.text, b""]))
    }),
    ("an empty line between the books' lines", POOL, |case, input| {
        with_text(case, input, |pooled| {
            let first = pool::text(pooled, [&case.text, b""]);
            [&first[..], b"\n", pool::load_lines(input.second)].concat()
        })
    }),
    ("lines of kind 06 as lines of kind 02", POOL, |case, input| {
        with_text(case, input, |pooled| text(&draw::with_standing(pooled, None)))
    }),
    ("lines of kind 07 as lines of kind 02", POOL, |case, input| {
        with_text(case, input, |pooled| {
            Case::new(pool::text(pooled, [&case.text, input.second]))
                .free_to_stand()
                .text
        })
    }),
    ("the buffer is written as far as it goes", POOL, |case, input| {
        let mut outcome = case.outcome(input);
        if outcome.answer.first.number == 11 {
            outcome.sheet = case.pool(input.second, usize::MAX).sheet;
            outcome.sheet.truncate(input.sheet.len());
        }
        outcome
    }),
];

/// Of refusals 21 to 23.
pub const RULE_MISTAKES: &[Mistake] = &[
    ("22 before 21", POOL, |case, input| {
        by(case, input, &[LOADS, UNLIKE, LIMIT])
    }),
    ("23 before 21", POOL, |case, input| {
        by(case, input, &[LIMIT, UNLIKE, LOADS])
    }),
    ("23 before 22", POOL, |case, input| {
        by(case, input, &[UNLIKE, LIMIT, LOADS])
    }),
    ("no 21", POOL, |case, input| by(case, input, &[LOADS, LIMIT])),
    ("no 22", POOL, |case, input| by(case, input, &[UNLIKE, LIMIT])),
    ("21 by T alone", POOL, |case, input| {
        let slots: Rule = (21, |first, second| first.limits.len() != second.limits.len());
        by(case, input, &[slots, LOADS, LIMIT])
    }),
    ("21 by d alone", POOL, |case, input| {
        let fineness: Rule = (21, |first, second| first.fineness != second.fineness);
        by(case, input, &[fineness, LOADS, LIMIT])
    }),
    ("22 from 24 loads on", POOL, |case, input| {
        by(
            case,
            input,
            &[UNLIKE, (22, |one, other| loads(one, other) >= 24), LIMIT],
        )
    }),
    ("22 from 26 loads on", POOL, |case, input| {
        by(
            case,
            input,
            &[UNLIKE, (22, |one, other| loads(one, other) >= 26), LIMIT],
        )
    }),
    ("23 from 65,535 on", POOL, |case, input| {
        let from: Rule = (23, |one, other| {
            pool::limit_sums(one, other).iter().any(|&sum| sum >= MOST_LIMIT)
        });
        by(case, input, &[UNLIKE, LOADS, from])
    }),
    ("23 by the first slot alone", POOL, |case, input| {
        let first: Rule = (23, |one, other| pool::limit_sums(one, other)[0] > MOST_LIMIT);
        by(case, input, &[UNLIKE, LOADS, first])
    }),
    ("no 23, and the sums wrap around", POOL, |case, input| {
        with_pooled(case, input, &[0, 11, 23], |pooled| {
            let mut pooled = pooled.clone();
            pooled.limits.iter_mut().for_each(|limit| *limit %= MOST_LIMIT + 1);
            pool::text(&pooled, [&case.text, input.second])
        })
    }),
    ("11 before 21 to 23", POOL, |case, input| {
        match by(case, input, &[]).answer.first.number {
            11 => refused::<0>(Refusal { number: 11, line: 0 }),
            _ => case.outcome(input),
        }
    }),
    ("21 to 23 at the second book's first line", POOL, |case, input| {
        changed(case, input, |case, answer| {
            if answer.number > 20 {
                answer.line = 1 + above(case);
            }
        })
    }),
];

/// Of the faults in both books.
pub const FAULT_MISTAKES: &[Mistake] = &[
    ("the second book's lines start again", POOL, |case, input| {
        with_line(case, input, |_, line| line)
    }),
    (
        "the second book's lines count on from the first's loads",
        POOL,
        |case, input| with_line(case, input, |above, line| above - 1 + line),
    ),
    (
        "the second book's lines count on from an empty line",
        POOL,
        |case, input| with_line(case, input, |above, line| above + 1 + line),
    ),
    ("21 before the second book's load lines", POOL, |case, input| {
        let outcome = case.outcome(input);
        let unlike = |field: Range<usize>| case.text.get(field.clone()) != input.second.get(field);
        let in_loads = outcome.answer.first.line > above(case) + 1;
        match case.book.is_ok() && in_loads && (unlike(2..4) || unlike(6..8)) {
            true => refused::<0>(Refusal { number: 21, line: 0 }),
            false => outcome,
        }
    }),
];

/// Of the order of the books, to be seen where the first has a fault.
pub const ORDER_MISTAKES: &[Mistake] = &[
    ("the second book is tried first", POOL, |case, input| {
        match book::read(input.second) {
            Err(refusal) => refused::<0>(refusal),
            Ok(_) => case.outcome(input),
        }
    }),
    ("the first book's 8 comes after the second's", POOL, |case, input| {
        let trailing = case.book.as_ref().is_err_and(|refusal| refusal.number == 8);
        match pool::both(&before_refused(case), input.second) {
            Err(refusal) if trailing => refused::<0>(refusal),
            _ => case.outcome(input),
        }
    }),
];

/// The case of the lines before the one at which the book is refused.
fn before_refused(case: &Case) -> Case {
    let refused = case.book.as_ref().map_or_else(|refusal| refusal.line, |_| 1);
    let lines = case.text.split_inclusive(|&byte| byte == b'\n');
    let kept: Vec<&[u8]> = lines.take(refused as usize - 1).collect();
    Case::new(kept.concat())
}

fn loads(first: &Book, second: &Book) -> usize {
    first.loads.len() + second.loads.len()
}

/// The lines of the first book, where it was read.
fn above(case: &Case) -> u64 {
    case.book.as_ref().map_or(0, pool::lines)
}

/// What the pool has to leave where 21 to 23 are given by these rules.
fn by(case: &Case, input: Input, rules: &[Rule]) -> Outcome {
    pool::by(rules, case, input.second, input.sheet.len()).unwrap_or_else(refused::<0>)
}

/// What it has to leave where the header is of a pooled book that is changed.
fn with_header(case: &Case, input: Input, change: fn(&Book, &Book, &mut Book)) -> Outcome {
    with_text(case, input, |pooled| {
        let (first, second) = pool::both(case, input.second).expect("two valid books");
        let mut pooled = pooled.clone();
        change(first, &second, &mut pooled);
        pool::text(&pooled, [&case.text, input.second])
    })
}

/// What it has to leave where these are the bytes of a pooled book.
fn with_text(case: &Case, input: Input, text: impl Fn(&Book) -> Vec<u8>) -> Outcome {
    with_pooled(case, input, &[0, 11], text)
}

/// The same, where a pooled book is written in place of these numbers.
fn with_pooled(case: &Case, input: Input, numbers: &[u64], text: impl Fn(&Book) -> Vec<u8>) -> Outcome {
    let outcome = case.outcome(input);
    match pool::both(case, input.second) {
        Ok((first, second)) if numbers.contains(&outcome.answer.first.number) => {
            let text = text(&pool::pooled(first, &second));
            fitting(text, input.sheet.len(), 11, Vec::new()).unwrap_or_else(refused::<0>)
        }
        _ => outcome,
    }
}

/// What it has to leave where the line of the second book's fault is this, by the first's lines and its own.
fn with_line(case: &Case, input: Input, line: fn(u64, u64) -> u64) -> Outcome {
    let mut outcome = case.outcome(input);
    if let (Ok(_), Err(refusal)) = (&case.book, book::read(input.second)) {
        outcome.answer.first.line = line(above(case), refusal.line);
    }
    outcome
}
