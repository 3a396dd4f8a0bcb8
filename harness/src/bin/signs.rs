//! Plans a sample of books for `tests/signs.rs` to count the instructions of each call: `signs plus`, or `signs minus` for the
//! same books with -Q in place of every Q. With a budget of 0 a call ends (12) once all grid values are known, before any search.

use harness::random::Random;
use harness::reference::book::{Book, Level, Load};
use harness::reference::{grid, ratio};
use harness::{draw, plan, SHEET_MAX};
use std::collections::BTreeSet;
use std::process::ExitCode;

const SEED: u64 = 1;
const BOOKS: usize = 120;

/// N, T and the largest r of the sample's books. With d = 1 their tables are small enough for any limit above 0.
const SHAPES: [(usize, usize, i64); 6] = [(1, 4, 3), (1, 3, 3), (2, 3, 2), (3, 2, 3), (6, 2, 2), (24, 1, 3)];

fn main() -> ExitCode {
    let arguments: Vec<String> = std::env::args().skip(1).collect();
    let words: Vec<&str> = arguments.iter().map(String::as_str).collect();
    let sign = match words.as_slice() {
        ["plus"] => 1,
        ["minus"] => -1,
        _ => {
            eprintln!("usage: signs plus | signs minus");
            return ExitCode::from(2);
        }
    };
    let random = &mut Random::new(SEED);
    let shapes = SHAPES.iter().cycle().take(BOOKS);
    let books: Vec<Book> = shapes.map(|&shape| book(random, shape, sign)).collect();
    println!("{}", size(&books));
    ExitCode::from(u8::from(!books.iter().all(budget_exceeded)))
}

/// What the powers of a book are drawn by: the steps of its slots, r, and the sign of every Q.
struct Drawn {
    steps: Vec<i64>,
    ratio: i64,
    sign: i64,
}

/// A book with a budget of 0 whose every Q has the sign.
fn book(random: &mut Random, (loads, slots, most): (usize, usize, i64), sign: i64) -> Book {
    let limits: Vec<i64> = (0..slots).map(|_| limit(random)).collect();
    let step = |&limit: &i64| grid::Slot::new(limit, loads, 1).step;
    let steps: Vec<i64> = limits.iter().map(step).collect();
    let stated = Some(random.within(1..=most));
    let ratio = random.pick(&[None, stated]);
    let drawn = Drawn {
        steps,
        ratio: ratio::of(ratio),
        sign,
    };
    Book {
        fineness: 1,
        ratio,
        budget: 0,
        limits,
        loads: (0..loads).map(|_| load(random, &drawn)).collect(),
    }
}

/// 1 to 65,535, each of the two ends now and then: with one load and d = 1 the limit is the step.
fn limit(random: &mut Random) -> i64 {
    let largest = random.pick(&[20, 1_000, 65_535]);
    let any = random.within(1..=largest);
    random.pick(&[any, any, any, 1, 65_535])
}

fn load(random: &mut Random, drawn: &Drawn) -> Load {
    let levels = 1 + random.below(3);
    let draws_standing = random.one_in(2);
    Load {
        must_run: !draws_standing && random.one_in(2),
        standing: draws_standing.then(|| powers(random, drawn)),
        levels: (0..levels).map(|_| level(random, drawn)).collect(),
    }
}

fn level(random: &mut Random, drawn: &Drawn) -> Level {
    Level {
        worth: 1,
        powers: powers(random, drawn),
    }
}

/// P and Q of each slot.
fn powers(random: &mut Random, drawn: &Drawn) -> Vec<(i64, i64)> {
    let power = |&step: &i64| {
        let q = reactive(random, step);
        let least = (q + drawn.ratio - 1) / drawn.ratio;
        (random.within(least..=65_535), drawn.sign * q)
    };
    drawn.steps.iter().map(power).collect()
}

/// A Q above 0: any, or at or beside a multiple of the step, where the grid value of -Q changes.
fn reactive(random: &mut Random, step: i64) -> i64 {
    let any = random.within(1..=32_767);
    let multiple = any / step * step;
    let q = random.pick(&[any, any, multiple - 1, multiple, multiple + 1, 1, 32_767]);
    q.clamp(1, 32_767)
}

/// How many books, Q and steps the sample has.
fn size(books: &[Book]) -> String {
    let loads = books.iter().flat_map(|book| &book.loads);
    let powers = loads.flat_map(|load| load.levels.iter().map(|level| &level.powers).chain(&load.standing));
    let powers: usize = powers.map(Vec::len).sum();
    let steps: BTreeSet<i64> = books.iter().flat_map(grid::slots).map(|slot| slot.step).collect();
    let (first, last) = (steps.first().unwrap_or(&0), steps.last().unwrap_or(&0));
    format!(
        "{} books, {powers} Q, {} steps from {first} to {last}",
        books.len(),
        steps.len()
    )
}

/// Whether a call is refused for its budget (12, spent).
fn budget_exceeded(book: &Book) -> bool {
    let words = 4 * grid::cells_of(book) as usize;
    let answer = plan(&draw::text(book), &mut vec![0; words], &mut [0; SHEET_MAX]);
    if answer.number != 12 {
        eprintln!("refusal 12 was due, and the answer is {answer:?}");
    }
    answer.number == 12
}
