//! A day's books: calls that are altered, and references with M-107's mistakes.

use super::{base, of_own, succeeded, Alteration, Base, Books, Mistake, BENCH_SHEET, BUFFER, DAY, MUST_RUN, NEED};
use crate::call::{Call, Input};
use crate::draw::days;
use crate::kinds::days::words_of;
use crate::random::Random;
use crate::reference::day::{self, MOST_BOOKS, SMALLER, SMALLER_SHEET};
use crate::reference::{Case, Outcome, EXAMPLE};
use crate::Answer;

/// What the planner writes for the bench book with a load that must run.
const MUST_RUN_SHEET: &[u8] = b"04000000090000000A000101\n0500000008FFFFFFFC000A\n";

/// The bytes that are lent for an output that fits, and for that of a book more than a call takes.
const ROOM: usize = 120;
const MOST_ROOM: usize = 9 * MOST_BOOKS + BUFFER;

/// For a day of the bench book, its header alone, and the bench book with a load that must run: 48, 9 and 48 bytes.
const PUT_OUT: &[Alteration] = &[
    ("last byte of the output", |call| call.sheet.flip(104)),
    ("byte past the output", |call| call.sheet.flip(105)),
    ("worths added", |call| call.answer.first.worth = 10 + 9),
    ("trials added", |call| call.answer.first.trials = 14 + 10),
    ("the refused book's number", |call| call.answer.first.number = 1),
    ("the refused book's line", |call| call.answer.first.line = 2),
    ("a line that counts from the day's start", |call| {
        call.sheet.put(&[BENCH_SHEET, b"FF010007\n"].concat())
    }),
    ("the refused book left out", |call| {
        succeeded(call, 0, 0, &[BENCH_SHEET, MUST_RUN_SHEET].concat())
    }),
    ("the day ended by the refused book", |call| {
        succeeded(call, 0, 0, &[BENCH_SHEET, b"FF010002\n"].concat())
    }),
];

/// For a day of the smaller book and the bench book, which needs more words.
const CRAMPED: &[Alteration] = &[("the larger book cramped", |call| {
    succeeded(call, 0, 0, &[SMALLER_SHEET, b"FF0A0000\n"].concat())
})];

/// For a day of more books than a call takes.
const TAKEN: &[Alteration] = &[
    ("19 before 18", |call| call.answer.first.number = 19),
    ("the first books put out", |call| {
        succeeded(call, 0, 0, &b"FF010001\n".repeat(BUFFER / 9))
    }),
];

/// For a day whose output is longer than the buffer.
const BEGUN: &[Alteration] = &[
    ("11 in place of 19", |call| call.answer.first.number = 11),
    ("the first sheet written", |call| call.sheet.put(BENCH_SHEET)),
];

/// Days that are put out, of right and of refused books, also with what the planner leaves for them one by one; and both
/// refusals.
pub fn bases() -> Vec<Base> {
    let books = [EXAMPLE, &EXAMPLE[..21], MUST_RUN];
    let mixed = books.join(&b'\n');
    let growing = [SMALLER, EXAMPLE].join(&b'\n');
    let many = [&[b'\n'; MOST_BOOKS], EXAMPLE].concat();
    vec![
        day_base("day, sheets and a refusal", &mixed, ROOM, PUT_OUT),
        Base {
            expected: day::output(&books.map(planned_alone), ROOM),
            ..day_base("day, sheets and a refusal one by one", &mixed, ROOM, PUT_OUT)
        },
        day_base("day, a larger book after a smaller one", &growing, ROOM, CRAMPED),
        day_base("day, empty books", b"\n\n", ROOM, &[]),
        day_base("day, refusal 18", &many, MOST_ROOM, TAKEN),
        day_base("day, refusal 18 before 19", &many, BUFFER, TAKEN),
        day_base("day, refusal 19", &mixed, BUFFER, BEGUN),
    ]
}

/// What the archive's planner leaves for this book alone.
fn planned_alone(book: &[u8]) -> Outcome {
    let input = Input::plan(book, &[7; NEED], &[0; BUFFER]);
    let call = Call::new(&mut Random::new(1), input);
    Outcome {
        free_words: Case::new(book.to_vec()).outcome(input).free_words,
        ..call.left()
    }
}

/// A day, with more words than the bench book needs.
fn day_base(name: &'static str, books: &[u8], buffer: usize, own: &'static [Alteration]) -> Base {
    let input = Input::day(books, &[7; NEED + 9], &[0; MOST_ROOM][..buffer]);
    of_own(own, base(name, &Case::new(books.to_vec()), input))
}

/// Of right and refused books, of about 32, with empty lines anywhere, and of more than 4,096 bytes.
pub const DAYS: Books = ("days", |random| {
    Case::new(match random.below(6) {
        0 => days::scattered(random),
        1 => {
            let count = random.pick(&[31, 32, 33, 34]);
            days::of_many(random, count)
        }
        2 => days::of_long(random),
        3 => days::of_right(random),
        _ => days::of_any(random),
    })
});

/// A day with the work area that its largest book needs and with a smaller one, and with buffers that suffice and that do not.
pub fn inputs<'a>(random: &mut Random, case: &'a Case, words: &'a [u64], room: &'a [u8]) -> Vec<Input<'a>> {
    let need = words_of(case).min(words.len());
    let fewer = random.below(need + 1);
    let mut inputs = Vec::new();
    for words in [&words[..need], &words[..fewer]] {
        let due = case.day(words.len(), room.len()).sheet.len();
        for buffer in [room.len(), due, due.saturating_sub(1), 0] {
            inputs.push(Input::day(&case.text, words, &room[..buffer]));
        }
    }
    inputs
}

/// M-107's, of where a book begins and ends.
pub const PARTING_MISTAKES: &[Mistake] = &[
    ("a book begins a byte late", DAY, |case, input| {
        with_books(case, input, |books| {
            for book in books.iter_mut().skip(1) {
                *book = book.split_off(book.len().min(1));
            }
        })
    }),
    ("a book begins a byte early", DAY, |case, input| {
        with_books(case, input, |books| {
            books.iter_mut().skip(1).for_each(|book| book.insert(0, b'\n'));
        })
    }),
    ("the empty line is the end of the book before it", DAY, |case, input| {
        with_books(case, input, |books| {
            books.iter_mut().rev().skip(1).for_each(|book| book.push(b'\n'));
        })
    }),
    ("CR LF is an empty line", DAY, |case, input| {
        let books = day::parted(&case.text, |line| [b"\n" as &[u8], b"\r\n"].contains(&line));
        of_books(books, input)
    }),
    ("an LF at the start is no empty line", DAY, |case, input| {
        with_books(case, input, |books| {
            if books.len() > 1 && books[0].is_empty() {
                books.remove(0);
            }
        })
    }),
    ("empty lines in a row are one", DAY, |case, input| {
        with_books(case, input, |books| {
            let last = books.len() - 1;
            let kept = (0..=last).filter(|&i| i == 0 || i == last || !books[i].is_empty());
            *books = kept.map(|i| books[i].clone()).collect();
        })
    }),
    ("a last empty book is left out", DAY, |case, input| {
        with_books(case, input, |books| {
            if books.last().is_some_and(Vec::is_empty) {
                books.pop();
            }
        })
    }),
    ("a book is cut at 4,096 bytes", DAY, |case, input| {
        with_books(case, input, |books| {
            books.iter_mut().for_each(|book| book.truncate(4_096));
        })
    }),
    ("the day is cut at 4,096 bytes", DAY, |case, input| {
        let cut = case.text.len().min(4_096);
        Case::new(case.text[..cut].to_vec()).outcome(input)
    }),
];

/// M-107's, of what is answered and lent.
pub const ANSWER_MISTAKES: &[Mistake] = &[
    ("31 books are the most", DAY, |case, input| of_most(case, input, 31)),
    ("33 books are the most", DAY, |case, input| of_most(case, input, 33)),
    ("19 before 18", DAY, |case, input| {
        let put_out = of_most(case, input, usize::MAX);
        match put_out.answer.first.number {
            19 => put_out,
            _ => case.outcome(input),
        }
    }),
    ("a refused book ends the day", DAY, |case, input| {
        with_plans(case, input, |books, words| {
            let mut plans = day::one_by_one(books, words);
            let refused = plans.iter().position(|plan| plan.answer.first.number != 0);
            plans.truncate(refused.map_or(plans.len(), |at| at + 1));
            plans
        })
    }),
    ("a refused book is left out", DAY, |case, input| {
        with_plans(case, input, |books, words| {
            let mut plans = day::one_by_one(books, words);
            plans.retain(|plan| plan.answer.first.number == 0);
            plans
        })
    }),
    ("lines count on from book to book", DAY, |case, input| {
        with_plans(case, input, |books, words| {
            let mut above = 0;
            let count_on = |book: &&Case| {
                let mut plan = book.plan(words, usize::MAX);
                let line = &mut plan.answer.first.line;
                *line += if *line == 0 { 0 } else { above };
                above += 1 + book.text.iter().filter(|&&byte| byte == b'\n').count() as u64;
                plan
            };
            books.iter().map(count_on).collect()
        })
    }),
    ("refusals are in decimal", DAY, |case, input| {
        with_plans(case, input, |books, words| {
            let mut plans = day::one_by_one(books, words);
            let numbers = plans.iter_mut().map(|plan| &mut plan.answer.first.number);
            numbers.for_each(|number| *number += 6 * (*number / 10));
            plans
        })
    }),
    (
        "the work area is as large as the first book needs",
        DAY,
        |case, input| {
            let books = case.books();
            let words = input.words.len().min(4 * books[0].cells() as usize);
            day::of(&books, words, input.sheet.len())
        },
    ),
    (
        "a book has what those before it leave of the work area",
        DAY,
        |case, input| {
            with_plans(case, input, |books, mut words| {
                let plan = |book: &&Case| {
                    let plan = book.plan(words, usize::MAX);
                    words -= plan.free_words;
                    plan
                };
                books.iter().map(plan).collect()
            })
        },
    ),
    (
        "a book has what those before it leave of the buffer",
        DAY,
        |case, input| {
            let mut buffer = input.sheet.len();
            with_plans(case, input, |books, words| {
                let plan = |book: &&Case| {
                    let plan = book.plan(words, buffer);
                    buffer = buffer.saturating_sub(day::printed(&plan).len());
                    plan
                };
                books.iter().map(plan).collect()
            })
        },
    ),
    ("words past the first book's need are kept", DAY, |case, input| {
        let first = case.books()[0].plan(input.words.len(), usize::MAX);
        Outcome {
            free_words: first.free_words,
            ..case.outcome(input)
        }
    }),
    ("the buffer is written as far as it goes", DAY, |case, input| {
        let mut outcome = case.outcome(input);
        if outcome.answer.first.number == 19 {
            outcome.sheet = case.day(input.words.len(), usize::MAX).sheet;
            outcome.sheet.truncate(input.sheet.len());
        }
        outcome
    }),
    ("the worths are added", DAY, |case, input| {
        with_answer(case, input, |answer, plans| {
            answer.worth = plans.iter().map(|plan| plan.answer.first.worth).sum();
        })
    }),
    ("the trials are added", DAY, |case, input| {
        with_answer(case, input, |answer, plans| {
            answer.trials = plans.iter().map(|plan| plan.answer.first.trials).sum();
        })
    }),
    ("a refused book's number is the day's", DAY, |case, input| {
        with_answer(case, input, |answer, plans| {
            let numbers = plans.iter().map(|plan| plan.answer.first.number);
            answer.number = numbers.max().unwrap_or(0);
        })
    }),
];

/// What a day has to leave where so many books are the most.
fn of_most(case: &Case, input: Input, most: usize) -> Outcome {
    day::of_most(most, &case.books(), input.words.len(), input.sheet.len())
}

/// What a day has to leave where its books are changed.
fn with_books(case: &Case, input: Input, change: fn(&mut Vec<Vec<u8>>)) -> Outcome {
    let mut books = day::books(&case.text);
    change(&mut books);
    of_books(books, input)
}

/// What a day of these books has to leave.
fn of_books(books: Vec<Vec<u8>>, input: Input) -> Outcome {
    let books: Vec<Case> = books.into_iter().map(Case::new).collect();
    day::of(&books.iter().collect::<Vec<_>>(), input.words.len(), input.sheet.len())
}

/// What a day has to leave, unless there are too many books, where the planner, with so many words, leaves this for them.
fn with_plans(case: &Case, input: Input, plan: impl FnOnce(&[&Case], usize) -> Vec<Outcome>) -> Outcome {
    let outcome = case.outcome(input);
    match outcome.answer.first.number {
        18 => outcome,
        _ => day::output(&plan(&case.books(), input.words.len()), input.sheet.len()),
    }
}

/// What a day has to leave, but where its output fits, its answer is changed.
fn with_answer(case: &Case, input: Input, change: fn(&mut Answer, &[Outcome])) -> Outcome {
    let mut outcome = case.outcome(input);
    let first = &mut outcome.answer.first;
    if first.number == 0 {
        change(first, &day::one_by_one(&case.books(), input.words.len()));
    }
    outcome
}
