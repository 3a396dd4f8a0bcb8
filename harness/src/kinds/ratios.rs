//! The kinds of inputs of books that state a ratio.

use super::{all_alike, all_calls, case, each_call, found, needed_words, some_fits_later, SMALL};
use crate::damage::{fault, fault_at};
use crate::draw::ratios::{self, ABOVE_ONE, EVERY};
use crate::draw::{self, Bounds};
use crate::random::Random;
use crate::reference::book::Book;
use crate::reference::{plan, Case};
use crate::session::Session;

/// Books with a ratio above 1.
const ABOVE: Bounds = Bounds {
    ratios: ABOVE_ONE,
    ..SMALL
};

/// Books that are small for r = 3.
const THREE: Bounds = Bounds {
    ratios: &[Some(3)],
    ..SMALL
};

/// The same loads under every header: slack (7) where r is too small for them, and right where it is not.
pub fn every_header(session: &mut Session) {
    let book = draw::book(&mut session.random, ABOVE);
    for ratio in EVERY {
        each_call(session, &case(&Book { ratio, ..book.clone() }));
    }
}

/// A header of kind `01`, and one of kind `08` with r = 1: every call leaves the same.
pub fn one_by_both_kinds(session: &mut Session) {
    let book = draw::book(&mut session.random, SMALL);
    let [first, second] = [None, Some(1)].map(|ratio| ratios::with_ratio(&book, ratio));
    all_alike(session, &first, &second);
}

/// A |Q| of r × P, and one that is higher by 1 (7), in an option or standing, and of either sign.
pub fn near_ratio(session: &mut Session) {
    let book = draw::book(&mut session.random, SMALL);
    for beyond in [0, 1] {
        let book = ratios::near(&mut session.random, &book, beyond);
        each_call(session, &case(&book));
    }
}

/// r outside 1 to 3 (6), alone and with each other fault: 1 to 5 on the header come before it, 7 and 8 after it.
pub fn out_of_range(session: &mut Session) {
    let random = &mut session.random;
    let book = draw::book(random, SMALL);
    let ratio = Some(random.pick(&[0, 0, 4, 4, 5, 16, 255]));
    let load = 1 + random.below(book.loads.len());
    let alone = draw::text(&Book { ratio, ..book });
    let mut texts = vec![alone.clone()];
    for (refusal, line) in [(2, 0), (3, 0), (4, 0), (5, 0), (7, load)] {
        let mut text = alone.clone();
        fault_at(random, &mut text, refusal, line);
        texts.push(text);
    }
    for refusal in [1, 6, 8] {
        let mut text = alone.clone();
        fault(random, &mut text, refusal);
        texts.push(text);
    }
    for text in texts {
        each_call(session, &Case::new(text));
    }
}

/// The same book with every r, with the words that it needs and with one less (10).
pub fn work_areas(session: &mut Session) {
    let book = draw::book(&mut session.random, THREE);
    let book = ratios::with_ratio(&book, None);
    for ratio in EVERY {
        let case = case(&Book { ratio, ..book.clone() });
        let (need, buffer) = (needed_words(&case), case.sheet_bytes());
        for words in [need, need - 1] {
            session.plan_both(&case, words, buffer);
            session.day(&case, words, buffer);
        }
    }
}

/// Loads whose Q cancel: one runs in the plan without which the others exceed a limit; or the quick planner passes over one that
/// fits later, though none draws standing.
pub fn cancelling(session: &mut Session) {
    let any = |random: &mut Random| ratios::cancelling(random, SMALL);
    let plain = |random: &mut Random| draw::with_standing(&any(random), None);
    let cases = [
        found(session, any, some_must_cancel),
        found(session, plain, |_, book| some_fits_later(book)),
    ];
    for case in &cases {
        all_calls(session, case);
    }
}

/// Whether the plan runs a load without which it would not be admitted, and which draws nothing standing.
fn some_must_cancel(case: &Case, book: &Book) -> bool {
    let choice = case.planned().plan.as_ref().map(|plan| &plan.choice);
    choice.is_some_and(|choice| {
        let without = |k: usize| {
            let mut choice = choice.clone();
            choice[k] = 0;
            choice
        };
        let cancels = |k: usize| choice[k] > 0 && book.loads[k].standing.is_none();
        (0..choice.len()).any(|k| cancels(k) && !plan::admits(book, &without(k)))
    })
}
