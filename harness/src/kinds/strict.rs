//! The kinds of inputs of the strict planner.

use super::{all_calls, all_shortages, case, found, needed_words, refused_last, strict_any, FINE, LARGER, SMALL};
use crate::damage::fault;
use crate::draw::{self, ratios, steps, Bounds};
use crate::random::Random;
use crate::reference::book::Book;
use crate::reference::{grid, quick, Case, MOST_CELLS};
use crate::session::Session;

/// Books of the finest d.
const FINEST: Bounds = Bounds {
    least_fineness: 64,
    ..LARGER
};

/// Ways to draw a book; of most of them rounding hides much.
const DRAWS: [fn(&mut Random, Bounds) -> Book; 4] = [draw::book, ratios::cancelling, steps::at_ends, steps::shared];

/// A book that is not too coarse.
fn fine(random: &mut Random) -> Book {
    let draw = random.pick(&DRAWS);
    draw(random, FINE)
}

/// Books with a strict plan that is worth less than the plan; with budgets of the trials and of one less, and with a work area and
/// a buffer at the need and one less.
pub fn below_the_plan(session: &mut Session) {
    let case = found(session, fine, |case, _| {
        let [strict, plan] = [case.strict(), case.planned().plan.as_ref()].map(|plan| plan.map(|plan| plan.worth));
        strict.is_some() && strict < plan
    });
    all_calls(session, &case);
    all_shortages(session, &case);
    let sheet = case.plan_strict(needed_words(&case), case.sheet_bytes()).sheet;
    session.read_sheet(&case, &sheet);
}

/// Books with a plan and no strict plan (17), also where words, buffer or budget are short too: 10, 11 and 12 come before it.
pub fn none_fits(session: &mut Session) {
    let case = found(session, fine, |case, _| {
        case.planned().plan.is_some() && case.strict().is_none()
    });
    refused_last(session, &case);
}

/// Books in which some choice keeps the limits that is not compared, as a better one with the same grid pairs does not: there is no
/// strict plan (17), or the choice is worth more.
pub fn not_compared(session: &mut Session) {
    let shared = |random: &mut Random| steps::shared(random, FINE);
    let cases = [
        found(session, shared, |case, book| {
            case.strict().is_none() && quick::best_that_fits(book).is_some()
        }),
        found(session, shared, |case, book| {
            let worth = case.strict().map(|plan| plan.worth);
            worth.is_some() && worth < quick::best_that_fits(book)
        }),
    ];
    for case in &cases {
        all_calls(session, case);
        all_shortages(session, case);
    }
}

/// d = 1 (20), alone and with each other fault: 1 to 8 come before it; 9 to 12, and 17 where no choice is admitted, after it.
pub fn too_coarse(session: &mut Session) {
    let coarse = |book: Book| Book { fineness: 1, ..book };
    let book = coarse(draw::book(&mut session.random, SMALL));
    all_shortages(session, &case(&book));
    for refusal in 1..=8 {
        let mut text = draw::text(&book);
        fault(&mut session.random, &mut text, refusal);
        strict_any(session, &Case::new(text));
    }
    let large = |random: &mut Random| coarse(draw::too_many_cells(random));
    let large = found(session, large, |_, book| grid::cells_of(book) > MOST_CELLS);
    let heated = |random: &mut Random| coarse(draw::heated(random, SMALL, &[8..=16], &(8..=16)));
    let refused = found(session, heated, |case, _| case.planned().plan.is_none());
    for case in [large, refused] {
        for words in [needed_words(&case), 0] {
            for buffer in [case.sheet_bytes(), 0] {
                session.plan_both(&case, words, buffer);
            }
        }
    }
}

/// The same limits and loads with d = 64, 3, 2 and 1.
pub fn by_fineness(session: &mut Session) {
    let draw = session.random.pick(&DRAWS);
    let book = draw(&mut session.random, FINEST);
    for fineness in [64, 3, 2, 1] {
        let book = Book {
            fineness,
            ..book.clone()
        };
        let case = case(&book);
        session.plan_both(&case, needed_words(&case), case.sheet_bytes());
    }
}
