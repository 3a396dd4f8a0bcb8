//! What the tests of `standing`, `must_run` and `ratio` share.

use super::Case;

/// A book with one slot, a limit of 10, these two loads and d = 5: L = 1, so that the grid values are the powers.
pub fn two(loads: [&str; 2]) -> Case {
    Case::new(format!("01010205FFFFFFFF000A\n{}\n{}\n", loads[0], loads[1]).into())
}

/// The words and the bytes that it needs: cells are 11 × 23.
pub const WORDS: usize = 4 * 11 * 23;
pub const SHEET: usize = 46;

/// The number and the line of the planner's answer, and the words that it leaves free.
pub fn planned(case: &Case, words: usize, buffer: usize) -> (u64, u64, usize) {
    let outcome = case.plan(words, buffer);
    (
        outcome.answer.first.number,
        outcome.answer.first.line,
        outcome.free_words,
    )
}

pub fn quick_number(case: &Case, buffer: usize) -> u64 {
    case.quick(buffer).answer.first.number
}

/// The number and the line at which a book of this header and this load line is refused, zeros where it is read.
pub fn refused_at(header: &str, load: &str) -> (u64, u64) {
    let case = Case::new(format!("{header}\n{load}\n").into());
    case.book
        .map_or_else(|refusal| (refusal.number, refusal.line), |_| (0, 0))
}

/// The same with a right header.
pub fn load_refused_at(load: &str) -> (u64, u64) {
    refused_at("01010101FFFFFFFF0010", load)
}
