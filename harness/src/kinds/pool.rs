//! The kinds of inputs of two books that are pooled.

use super::{all_calls, case, needed_words, LARGER, MANY, SMALL};
use crate::damage::fault;
use crate::draw::pairs::{self, Faults};
use crate::draw::ratios::{self, EVERY};
use crate::draw::{self, text};
use crate::random::Random;
use crate::reference::book::{Book, MOST_LOADS};
use crate::reference::pool::{self, MOST_LIMIT};
use crate::reference::Case;
use crate::session::Session;
use crate::BOOK_MAX;

/// The bytes that the pooled book needs; none where there is no such book.
pub fn need_of(first: &Case, second: &[u8]) -> usize {
    first.pool(second, usize::MAX).sheet.len()
}

/// The pool of two books, with a buffer at the need or a little longer.
fn pool_right(session: &mut Session, [first, second]: &[Book; 2]) {
    let (first, second) = (case(first), text(second));
    let buffer = need_of(&first, &second) + session.random.pick(&[0, 0, 1, 30]);
    session.pool(&first, &second, buffer);
}

/// Books whose pooled book every call then takes; its plan is worth at least both together. With budgets of the pooled book's trials
/// and of one less, in either book.
pub fn planned(session: &mut Session) {
    let bounds = session.random.pick(&[SMALL, SMALL, SMALL, MANY, LARGER]);
    let whole = pairs::whole(&mut session.random, bounds);
    let [mut first, mut second] = pairs::parted(&mut session.random, &whole);
    let trials = case(&pool::pooled(&first, &second)).planned().trials;
    let budget = session.random.pick(&[0xFFFF_FFFF, trials, trials, trials - 1]);
    [first.budget, second.budget] = pairs::two_budgets(&mut session.random, budget);
    let (one, other) = (case(&first), text(&second));
    let room = need_of(&one, &other) + session.random.below(50);
    // The bytes that the archive wrote.
    let pooled = Case::new(session.pool(&one, &other, room).left().sheet);
    let (words, buffer) = (needed_words(&pooled), pooled.sheet_bytes());
    session.plan_pooled(&pooled, pool::worth_of_both(&first, &second), words, buffer);
    all_calls(session, &pooled);
}

/// Buffers around the need.
pub fn buffers(session: &mut Session) {
    let [first, second] = pairs::right(&mut session.random);
    let (first, second) = (case(&first), text(&second));
    let need = need_of(&first, &second);
    let (below, more) = (session.random.below(need), session.random.below(300));
    for buffer in [need, need - 1, need + 1, need + more, below, 0, BOOK_MAX] {
        session.pool(&first, &second, buffer);
    }
}

/// T or d that differ (21), too many loads (22), a limit sum that is too large (23) and a short buffer (11), in all mixtures: which
/// comes first?
pub fn refusals(session: &mut Session) {
    for mixture in 0..8 {
        let bit = |bit: usize| mixture >> bit & 1 != 0;
        let (unlike, loads, limit) = (bit(0), bit(1), bit(2));
        let [first, second] = pairs::refused(&mut session.random, Faults { unlike, loads, limit });
        let (first, second) = (case(&first), text(&second));
        for buffer in [BOOK_MAX, need_of(&first, &second).saturating_sub(1)] {
            session.pool(&first, &second, buffer);
        }
    }
}

/// A fault of 1 to 8 in the first book, in the second and in both, or nothing in its place; alone, and with 21, 22 and 23, which come
/// after them.
pub fn faults(session: &mut Session) {
    let faults = Faults::one_in(&mut session.random, 3);
    let right = pairs::refused(&mut session.random, faults).map(|book| text(&book));
    for faulty in [[true, false], [false, true], [true, true]] {
        let mut texts = right.clone();
        for (text, _) in texts.iter_mut().zip(faulty).filter(|(_, faulty)| *faulty) {
            match session.random.below(9) {
                0 => text.clear(),
                refusal => fault(&mut session.random, text, refusal),
            }
        }
        let [first, second] = texts;
        let buffer = session.random.pick(&[BOOK_MAX, 0]);
        session.pool(&Case::new(first), &second, buffer);
    }
}

/// 24 loads and 25, parted in several ways.
pub fn load_counts(session: &mut Session) {
    let one = 1 + session.random.below(MOST_LOADS - 1);
    let most = MOST_LOADS;
    for counts in [
        [one, most - one],
        [one, most + 1 - one],
        [1, most - 1],
        [1, most],
        [most - 1, 1],
        [most, 1],
        [most, most],
    ] {
        let first = pairs::of_loads(&mut session.random, counts[0]);
        let second = pairs::partner(&mut session.random, &first, counts[1]);
        pool_right(session, &[first, second]);
    }
}

/// Limit sums of 65,535 and of one more (23) in the first slot and in the last, and of twice as much.
pub fn limit_sums(session: &mut Session) {
    let [mut first, mut second] = pairs::right(&mut session.random);
    let last = first.limits.len() - 1;
    for slot in [0, last] {
        let before = [first.limits[slot], second.limits[slot]];
        for sum in [MOST_LIMIT, MOST_LIMIT + 1, 2 * MOST_LIMIT, 0] {
            pairs::set_limit_sum(&mut session.random, [&mut first, &mut second], slot, sum);
            pool_right(session, &[first.clone(), second.clone()]);
        }
        [first.limits[slot], second.limits[slot]] = before;
    }
}

/// The same books under every two headers, of both kinds and with each r, and with the larger budget in either. A header of kind `01`
/// leaves what one of kind `08` with r = 1 leaves.
pub fn headers(session: &mut Session) {
    let right = pairs::right(&mut session.random);
    for (one, other) in EVERY.iter().flat_map(|one| EVERY.map(|other| (*one, other))) {
        let budget = session.random.word() >> 32;
        let budgets = pairs::two_budgets(&mut session.random, budget);
        let with = |i: usize, ratio| Book {
            budget: budgets[i],
            ..ratios::with_ratio(&right[i], ratio)
        };
        let pair = [with(0, one), with(1, other)];
        let stated = pair.clone().map(|book| Book {
            ratio: book.ratio.or(Some(1)),
            ..book
        });
        let expected = case(&stated[0]).pool(&text(&stated[1]), BOOK_MAX);
        for [first, second] in [pair, stated] {
            session.pool_leaving(&expected, &case(&first), &text(&second), BOOK_MAX);
        }
    }
}

/// Three books: the first two pooled and the third, and the first and the last two pooled, leave the same.
pub fn three(session: &mut Session) {
    let loads = 3 + session.random.below(MOST_LOADS - 2);
    let whole = pairs::of_loads(&mut session.random, loads);
    let [front, last] = loop {
        let pair = pairs::parted(&mut session.random, &whole);
        if pair[0].loads.len() > 1 {
            break pair;
        }
    };
    let [first, middle] = pairs::parted(&mut session.random, &front).map(|book| text(&book));
    let last = text(&last);
    let mut pooled = |first: &[u8], second: &[u8]| {
        let first = Case::new(first.to_vec());
        session.pool(&first, second, BOOK_MAX).left().sheet
    };
    let (front, back) = (pooled(&first, &middle), pooled(&middle, &last));
    let cases = [(Case::new(front), &last), (Case::new(first), &back)];
    let expected = cases[0].0.pool(cases[0].1, BOOK_MAX);
    for (first, second) in &cases {
        session.pool_leaving(&expected, first, second, BOOK_MAX);
    }
}

/// Books whose pooled book has as many bytes as a book can have.
pub fn longest(session: &mut Session) {
    let whole = draw::longest(&mut session.random);
    let [first, second] = pairs::parted(&mut session.random, &whole);
    let (first, second) = (case(&first), text(&second));
    for buffer in [BOOK_MAX, BOOK_MAX - 1, 4_096] {
        session.pool(&first, &second, buffer);
    }
}

/// A right book, mostly one that goes with this one.
pub fn beside(random: &mut Random, case: &Case) -> Vec<u8> {
    let loads = 1 + random.below(3);
    text(&match &case.book {
        Ok(book) if !random.one_in(8) => pairs::partner(random, book, loads),
        _ => draw::book(random, SMALL),
    })
}

/// Bytes that may be no book as the first or as the second.
pub fn pool_any(session: &mut Session, case: &Case) {
    let other = Case::new(beside(&mut session.random, case));
    let (first, second) = session.random.pick(&[(case, &other), (&other, case)]);
    let need = need_of(first, &second.text);
    let buffer = session.random.pick(&[need, need, need + 20, need.saturating_sub(1)]);
    session.pool(first, &second.text, buffer);
}
