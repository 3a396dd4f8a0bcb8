//! Random days: books in a row, right and refused, and inputs with empty lines anywhere.

use super::{book, heated, longest, longest_views, text, too_many_cells, Bounds, ANY_RATIO};
use crate::damage::fault;
use crate::random::Random;
use crate::reference::book::Book;
use crate::reference::day::{books, joined, MOST_BOOKS};
use crate::reference::plan::by_map;
use std::iter::repeat_with;

/// Books of which a day's are soon planned.
const TINY: Bounds = Bounds {
    fewest_loads: 1,
    least_fineness: 1,
    loads: 6,
    choices: 200,
    cells: 800,
    ratios: ANY_RATIO,
};

/// What the planner can refuse a book with, whatever it is lent.
const REFUSALS: [usize; 11] = [1, 2, 3, 4, 5, 6, 7, 8, 9, 12, 17];

/// A way to draw a book's bytes.
type Draw = fn(&mut Random) -> Vec<u8>;

pub fn right(random: &mut Random) -> Vec<u8> {
    text(&book(random, TINY))
}

/// A book that the planner refuses, whatever it is lent.
pub fn refused(random: &mut Random) -> Vec<u8> {
    match random.pick(&REFUSALS) {
        1 => torn(random),
        9 => text(&too_many_cells(random)),
        12 => text(&spent(random)),
        17 => text(&none_admitted(random)),
        refusal => {
            let mut text = right(random);
            fault(random, &mut text, refusal);
            text
        }
    }
}

/// A book that lacks load lines at its end. Of all that is torn, this alone ends in LF.
fn torn(random: &mut Random) -> Vec<u8> {
    let mut text = right(random);
    let ends = line_ends(&text);
    text.truncate(1 + random.pick(&ends[..ends.len() - 1]));
    text
}

fn line_ends(text: &[u8]) -> Vec<usize> {
    (0..text.len()).filter(|&at| text[at] == b'\n').collect()
}

/// A book with a budget of nothing, or of a trial too few.
fn spent(random: &mut Random) -> Book {
    let book = book(random, TINY);
    let budget = random.pick(&[0, by_map(&book).trials - 1]);
    Book { budget, ..book }
}

fn none_admitted(random: &mut Random) -> Book {
    loop {
        let book = heated(random, TINY, &[12..=64], &(12..=64));
        if by_map(&book).plan.is_none() {
            return book;
        }
    }
}

/// A book of about 4,096 bytes or more, one line of which has digits too many, and now and then a byte at its end that is none.
fn long(random: &mut Random) -> Vec<u8> {
    let mut text = right(random);
    let length = random.pick(&[4_095, 4_096, 4_097, 5_000, 9_000]);
    let mut digits = vec![b'0'; length - text.len()];
    digits[length - text.len() - 1] = random.pick(b"00x");
    let at = random.pick(&line_ends(&text));
    text.splice(at..at, digits);
    text
}

/// A book of the most bytes.
fn of_most_bytes(random: &mut Random) -> Vec<u8> {
    text(&longest(random))
}

/// So many books that end in LF and hold no empty line, each drawn in one of these ways.
pub fn whole(random: &mut Random, count: usize, ways: &[Draw]) -> Vec<Vec<u8>> {
    let drawn = repeat_with(|| {
        let way = random.pick(ways);
        way(random)
    });
    let is_whole = |book: &Vec<u8>| book.ends_with(b"\n") && books(book).len() == 1;
    drawn.filter(is_whole).take(count).collect()
}

/// A day of up to six right books.
pub fn of_right(random: &mut Random) -> Vec<u8> {
    let count = 1 + random.below(6);
    joined(&whole(random, count, &[right]))
}

/// A day of right and refused books.
pub fn of_any(random: &mut Random) -> Vec<u8> {
    let count = 2 + random.below(7);
    joined(&whole(random, count, &[right, refused]))
}

/// A day of more than 4,096 bytes, mostly: of a long book, or a few, and others before and after it.
pub fn of_long(random: &mut Random) -> Vec<u8> {
    let [before, after] = [(); 2].map(|_| random.below(3));
    let day = [
        whole(random, before, &[right, of_most_bytes]),
        whole(random, 1, &[long]),
        whole(random, after, &[right, right, long]),
    ];
    joined(&day.concat())
}

/// A day of so many books, most of which are empty.
pub fn of_many(random: &mut Random, count: usize) -> Vec<u8> {
    let mut drawn = || match random.below(12) {
        0 => whole(random, 1, &[right, refused]).concat(),
        1 => b"0101\n".to_vec(),
        _ => Vec::new(),
    };
    let day: Vec<Vec<u8>> = (0..count).map(|_| drawn()).collect();
    joined(&day)
}

/// Ends of lines: with empty lines or none, and with CR.
const ENDS: [&[u8]; 9] = [
    b"", b"\n", b"\n", b"\n\n", b"\n\n\n", b"\r\n", b"\n\r\n", b"\r\n\n", b"\r",
];

/// Books, some of which lack their last LF, with ends of lines before, between and after them.
pub fn scattered(random: &mut Random) -> Vec<u8> {
    let mut input = random.pick(&ENDS).to_vec();
    for _ in 0..random.below(6) {
        let mut book = random.pick::<Draw>(&[right, right, refused, |_| Vec::new()])(random);
        if random.one_in(4) {
            book.pop();
        }
        input.extend(book);
        input.extend(random.pick(&ENDS));
    }
    input
}

/// A day with the most bytes of output.
pub fn of_most_output() -> Vec<u8> {
    let book = Book {
        budget: 0xFFFF_FFFF,
        limits: vec![0; 4],
        ..longest_views()
    };
    joined(&vec![text(&book); MOST_BOOKS])
}

#[cfg(test)]
mod tests {
    use super::*;
    use crate::reference::{day, Case};
    use crate::DAY_MAX;
    use std::collections::BTreeSet;

    /// What a book can be refused with is among the answers to a day's books, 10 where the work area is small.
    #[test]
    fn every_refusal_is_put_out() {
        let random = &mut Random::new(8);
        let mut numbers = BTreeSet::new();
        for _ in 0..100 {
            let case = Case::new(of_any(random));
            for words in [100, usize::MAX] {
                let plans = day::one_by_one(&case.books(), words);
                numbers.extend(plans.iter().map(|plan| plan.answer.first.number as usize));
            }
        }
        let due: BTreeSet<usize> = REFUSALS.into_iter().chain([0, 10]).collect();
        assert_eq!(numbers, due);
    }

    #[test]
    fn whole_books_come_back() {
        let random = &mut Random::new(9);
        for count in 1..=40 {
            let drawn = whole(random, count, &[right, refused, long]);
            assert_eq!(books(&joined(&drawn)), drawn);
            assert_eq!(books(&of_many(random, count)).len(), count);
        }
    }

    /// A cut at 4,096 bytes changes the answer to many long books, and days go past it.
    #[test]
    fn long_days_are_long() {
        let random = &mut Random::new(10);
        let answer = |text: &[u8]| Case::new(text.to_vec()).plan(usize::MAX, usize::MAX).answer;
        let cut = (0..100).filter(|_| {
            let book = long(random);
            answer(&book) != answer(&book[..book.len().min(4_096)])
        });
        assert!(cut.count() > 20);
        let random = &mut Random::new(11);
        assert!((0..100).filter(|_| of_long(random).len() > 4_096).count() > 80);
    }

    #[test]
    fn the_most_output() {
        let outcome = Case::new(of_most_output()).day(usize::MAX, DAY_MAX);
        assert_eq!((outcome.answer.first.number, outcome.sheet.len()), (0, DAY_MAX));
    }
}
