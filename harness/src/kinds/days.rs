//! The kinds of inputs of a day's books.

use super::needed_words;
use crate::damage::{changed, shift, STYLES};
use crate::draw::days::{self, refused, right, whole};
use crate::reference::day::{self, MOST_BOOKS};
use crate::reference::Case;
use crate::session::Session;
use crate::DAY_MAX;

/// The words that the largest book of a day needs; books that grew large by damage get few.
pub fn words_of(case: &Case) -> usize {
    let needs = case.books().into_iter().map(needed_words);
    needs.max().unwrap_or(0)
}

/// The bytes that a day with so many words needs, and one less; no bytes at all where it is refused (18).
fn around_need(case: &Case, words: usize) -> [usize; 2] {
    let need = case.day(words, usize::MAX).sheet.len();
    [need, need.saturating_sub(1)]
}

/// Right books, with buffers that suffice and that do not (19).
pub fn right_books(session: &mut Session) {
    let case = Case::new(days::of_right(&mut session.random));
    let words = words_of(&case) + session.random.below(50);
    let [need, less] = around_need(&case, words);
    let (below, more) = (session.random.below(need), session.random.below(300));
    for buffer in [need, less, need + 1, need + more, below, 0] {
        session.day(&case, words, buffer);
    }
}

/// Refused books among right ones; some are refused for want of words (10).
pub fn refused_books(session: &mut Session) {
    let case = Case::new(days::of_any(&mut session.random));
    let need = words_of(&case);
    let fewer = session.random.below(need + 1);
    for words in [need, fewer] {
        for buffer in around_need(&case, words) {
            session.day(&case, words, buffer);
        }
    }
}

/// Empty books at the start, in runs and at the end, lines that end in CR LF, and books without their last LF.
pub fn empty_lines(session: &mut Session) {
    let case = Case::new(days::scattered(&mut session.random));
    with_any_buffer(session, &case);
}

/// A day whose largest book just fits the work area, with buffers that suffice and one that does not.
fn with_any_buffer(session: &mut Session, case: &Case) {
    let words = words_of(case);
    let [need, less] = around_need(case, words);
    for buffer in [need, less, DAY_MAX] {
        session.day(case, words, buffer);
    }
}

/// About 32 books, and many more: 18 comes before 19, so also where the output would not fit and where no byte is lent.
pub fn numbers_of_books(session: &mut Session) {
    let more = 34 + session.random.below(70);
    for count in [31, 32] {
        let case = Case::new(days::of_many(&mut session.random, count));
        with_any_buffer(session, &case);
    }
    for count in [33, more] {
        let case = Case::new(days::of_many(&mut session.random, count));
        // A refused book has a line of 9 bytes, and a sheet is longer.
        let short = session.random.below(9 * count);
        for buffer in [0, short, DAY_MAX] {
            session.day(&case, words_of(&case), buffer);
        }
    }
}

/// Books and days of more than 4,096 bytes.
pub fn long_books(session: &mut Session) {
    let case = Case::new(days::of_long(&mut session.random));
    with_any_buffer(session, &case);
}

/// Work areas around what each book needs: where they lie between two needs, the larger book is cramped (10), before or after
/// the smaller one.
pub fn work_areas(session: &mut Session) {
    let count = 2 + session.random.below(3);
    let case = Case::new(day::joined(&whole(&mut session.random, count, &[right])));
    for need in case.books().into_iter().map(needed_words) {
        for words in [need, need - 1, need + 1] {
            session.day(&case, words, DAY_MAX);
        }
    }
}

/// Books that end in LF and hold no empty line, one by one and as a day, which leaves what they left, printed and joined.
pub fn one_by_one(session: &mut Session) {
    let count = session.random.pick(&[1, 2, 3, 4, 6, MOST_BOOKS]);
    let texts = whole(&mut session.random, count, &[right, right, refused]);
    let case = Case::new(day::joined(&texts));
    let books: Vec<Case> = texts.into_iter().map(Case::new).collect();
    let need = words_of(&case);
    let fewer = session.random.below(need + 1);
    let words = session.random.pick(&[need, need, fewer]);
    let plans = session.plan_each(&books, words);
    let bytes = day::output(&plans, usize::MAX).sheet.len();
    for buffer in [bytes, bytes - 1, bytes + session.random.below(100)] {
        session.day_leaving(&day::output(&plans, buffer), &case, words, buffer);
    }
}

/// Every LF of a day changed in turn, in one style, and bytes inserted and deleted anywhere.
pub fn changed_days(session: &mut Session) {
    let text = days::of_right(&mut session.random);
    let style = session.random.below(STYLES);
    for at in (0..text.len()).filter(|&at| text[at] == b'\n') {
        let mut text = text.clone();
        text[at] = changed(&mut session.random, text[at], style);
        day_any(session, &Case::new(text));
    }
    for _ in 0..4 {
        let mut text = text.clone();
        shift(&mut session.random, &mut text);
        day_any(session, &Case::new(text));
    }
}

/// A day of bytes that may be anything.
pub fn day_any(session: &mut Session, case: &Case) {
    let words = words_of(case) + session.random.below(20);
    let [need, less] = around_need(case, words);
    let buffer = session.random.pick(&[need, need, need + 20, less]);
    session.day(case, words, buffer);
}

/// As many bytes of output as a day can have.
pub fn most_output(session: &mut Session) {
    let case = Case::new(days::of_most_output());
    let words = 4 * case.books()[0].cells() as usize;
    for buffer in [DAY_MAX, DAY_MAX - 1] {
        session.day(&case, words, buffer);
    }
}
