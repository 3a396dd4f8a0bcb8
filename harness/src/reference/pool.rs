//! Two mills on one transformer: document 02, M-110.

use super::book::{self, header_text, Book, MOST_LOADS};
use super::plan::ENUMERATED;
use super::{fitting, quick, ratio, refuse_if, Case, Outcome, Refusal};
use crate::Answer;

/// The largest limit.
pub const MOST_LIMIT: i64 = 65_535;

/// A book to be pooled after document 01's: T and d are as there, and all else in the header is another.
pub const SECOND: &[u8] = b"08010104030000000A0014\n06010001FFFF000700020006\n";

/// The two pooled.
pub const POOLED: &[u8] =
    b"080104040300000064001E\n0201000500050005\n020100050004FFFC\n0201000400040000\n06010001FFFF000700020006\n";

/// A refusal's number, and of which two books it is given.
pub type Rule = (u64, fn(&Book, &Book) -> bool);

/// "21 when T or d differ".
pub const UNLIKE: Rule = (21, |first, second| {
    first.limits.len() != second.limits.len() || first.fineness != second.fineness
});

/// "22 when the loads exceed 24".
pub const LOADS: Rule = (22, |first, second| first.loads.len() + second.loads.len() > MOST_LOADS);

/// "23 when a limit sum exceeds 65,535".
pub const LIMIT: Rule = (23, |first, second| {
    limit_sums(first, second).iter().any(|&sum| sum > MOST_LIMIT)
});

/// "they come in that order after 8".
pub const RULES: [Rule; 3] = [UNLIKE, LOADS, LIMIT];

/// The sums of the limits, in the slots that both books have.
pub fn limit_sums(first: &Book, second: &Book) -> Vec<i64> {
    let limits = first.limits.iter().zip(&second.limits);
    limits.map(|(one, other)| one + other).collect()
}

/// What the call has to leave for these books.
pub fn of(first: &Case, second: &[u8], buffer: usize) -> Result<Outcome, Refusal> {
    by(&RULES, first, second, buffer)
}

/// The same, where refusals after 8 and before 11 are given by these rules.
pub fn by(rules: &[Rule], first: &Case, second: &[u8], buffer: usize) -> Result<Outcome, Refusal> {
    let (one, other) = both(first, second)?;
    for (number, applies) in rules {
        refuse_if(applies(one, &other), *number)?;
    }
    let text = text(&pooled(one, &other), [&first.text, second]);
    fitting(text, buffer, 11, Vec::new())
}

/// Both books: "Faults are tried through the first book, then the second, whose lines count on from the first's last".
pub fn both<'a>(first: &'a Case, second: &[u8]) -> Result<(&'a Book, Book), Refusal> {
    let one = first.read()?;
    let counted_on = |refusal: Refusal| Refusal {
        line: lines(one) + refusal.line,
        ..refusal
    };
    Ok((one, book::read(second).map_err(counted_on)?))
}

/// The number of a book's lines: its header and its load lines.
pub fn lines(book: &Book) -> u64 {
    1 + book.loads.len() as u64
}

/// "each slot's limit the sum of the two, the larger budget, the larger r, header kind `08`".
pub fn pooled(first: &Book, second: &Book) -> Book {
    let r = ratio::of(first.ratio).max(ratio::of(second.ratio));
    Book {
        fineness: first.fineness,
        ratio: Some(r),
        budget: first.budget.max(second.budget),
        limits: limit_sums(first, second),
        loads: [&first.loads[..], &second.loads].concat(),
    }
}

/// The bytes of a pooled book: its header, and "the load lines of the first as they stand, then those of the second".
pub fn text(pooled: &Book, parts: [&[u8]; 2]) -> Vec<u8> {
    let [first, second] = parts.map(load_lines);
    [header_text(pooled).as_bytes(), first, second].concat()
}

/// What follows the header of a book that was read.
pub fn load_lines(book: &[u8]) -> &[u8] {
    let end = book.iter().position(|&byte| byte == b'\n');
    end.map_or(&[], |end| &book[end + 1..])
}

/// What the planner's answer to a pooled book can break of M-110's promise.
pub const LESS_THAN_BOTH: &str = "worth less than both together";

/// And of what follows: a choice that keeps every limit is admitted.
pub const NONE_FOR_BOTH: &str = "17, though a choice keeps every limit in each book";

/// What two choices are worth together at most, of which one keeps every limit in the first book and another in the second, where
/// there are such; for books of few choices.
pub fn worth_of_both(first: &Book, second: &Book) -> Option<u64> {
    let worth = |book: &Book| {
        (book.choices() <= ENUMERATED)
            .then(|| quick::best_that_fits(book))
            .flatten()
    };
    Some(worth(first)? + worth(second)?)
}

/// What the planner's answer to a pooled book breaks, where two such choices are worth this together.
pub fn broken(both: Option<u64>, plan: &Answer) -> Vec<&'static str> {
    let less = both.is_some_and(|worth| plan.worth < worth);
    match plan.number {
        0 if less => vec![LESS_THAN_BOTH],
        17 if both.is_some() => vec![NONE_FOR_BOTH],
        _ => Vec::new(),
    }
}

#[cfg(test)]
mod tests {
    use super::*;
    use crate::draw::{self, pairs};
    use crate::kinds::SMALL;
    use crate::random::Random;
    use crate::reference::EXAMPLE;
    use crate::BOOK_MAX;

    const ENOUGH: usize = 100_000;

    /// The number and the line of the answer.
    fn pooled_at(first: &[u8], second: &[u8], buffer: usize) -> (u64, u64) {
        let outcome = Case::new(first.to_vec()).pool(second, buffer);
        let answer = outcome.answer.first;
        assert_eq!((answer.worth, answer.trials), (0, 0));
        assert_eq!(answer.bytes, outcome.sheet.len() as u64);
        (answer.number, answer.line)
    }

    /// A book of so many loads, with this T, d and limit of each slot.
    fn of(slots: usize, loads: usize, fineness: u64, limit: i64) -> Vec<u8> {
        let level = book::Level {
            worth: 1,
            powers: vec![(1, 0); slots],
        };
        let load = book::Load {
            must_run: false,
            standing: None,
            levels: vec![level],
        };
        draw::text(&Book {
            fineness,
            ratio: None,
            budget: 0,
            limits: vec![limit; slots],
            loads: vec![load; loads],
        })
    }

    #[test]
    fn the_bench_book_and_another() {
        let outcome = Case::new(EXAMPLE.to_vec()).pool(SECOND, POOLED.len());
        assert_eq!((outcome.answer.first.number, outcome.sheet), (0, POOLED.to_vec()));
        assert_eq!(pooled_at(EXAMPLE, SECOND, POOLED.len() - 1), (11, 0));
    }

    /// The other way round only the load lines change their places.
    #[test]
    fn the_first_books_lines_come_first() {
        let outcome = Case::new(SECOND.to_vec()).pool(EXAMPLE, ENOUGH);
        let (header, lines) = POOLED.split_at(23);
        let (first, second) = lines.split_at(51);
        assert_eq!(outcome.sheet, [header, second, first].concat());
    }

    /// A header of kind `08` also where neither book has one.
    #[test]
    fn the_header_states_a_ratio() {
        let outcome = Case::new(EXAMPLE.to_vec()).pool(EXAMPLE, ENOUGH);
        assert!(outcome.sheet.starts_with(b"0801060401000000640014\n"));
    }

    #[test]
    fn lines_count_on() {
        let cut = |book: &[u8]| book[..book.len() - 1].to_vec();
        assert_eq!(pooled_at(b"", b"", 0), (1, 1));
        assert_eq!(pooled_at(EXAMPLE, b"", 0), (1, 5));
        assert_eq!(pooled_at(EXAMPLE, b"01\n", 0), (3, 5));
        assert_eq!(pooled_at(EXAMPLE, &cut(SECOND), 0), (1, 6));
        assert_eq!(pooled_at(EXAMPLE, &cut(EXAMPLE), 0), (1, 8));
        assert_eq!(pooled_at(&cut(EXAMPLE), b"", 0), (1, 4));
        let longer = |book: &[u8]| [book, b"\n"].concat();
        assert_eq!(pooled_at(&longer(EXAMPLE), b"", 0), (8, 5));
        assert_eq!(pooled_at(EXAMPLE, &longer(SECOND), 0), (8, 7));
    }

    #[test]
    fn refusals_in_their_order() {
        let right = of(2, 12, 3, 100);
        assert_eq!(pooled_at(&right, &of(2, 12, 3, 65_435), ENOUGH), (0, 0));
        assert_eq!(pooled_at(&right, &of(2, 12, 3, 65_436), ENOUGH), (23, 0));
        assert_eq!(pooled_at(&right, &of(2, 12, 3, 65_436), 0), (23, 0));
        assert_eq!(pooled_at(&right, &of(2, 13, 3, 100), ENOUGH), (22, 0));
        assert_eq!(pooled_at(&right, &of(2, 13, 3, 65_436), 0), (22, 0));
        assert_eq!(pooled_at(&right, &of(2, 12, 4, 100), ENOUGH), (21, 0));
        assert_eq!(pooled_at(&right, &of(3, 12, 3, 100), ENOUGH), (21, 0));
        assert_eq!(pooled_at(&right, &of(1, 13, 4, 65_436), 0), (21, 0));
        let trailing = [of(1, 13, 4, 65_436), b"0".to_vec()].concat();
        assert_eq!(pooled_at(&right, &trailing, 0), (8, 13 + 15));
    }

    /// A limit sum is too large in the last slot alone.
    #[test]
    fn every_slot_counts() {
        let text = |limits: &str| format!("01020101FFFFFFFF{limits}\n020100010001000000010000\n").into_bytes();
        assert_eq!(pooled_at(&text("FFFF0001"), &text("0000FFFE"), ENOUGH), (0, 0));
        assert_eq!(pooled_at(&text("FFFF0001"), &text("0000FFFF"), ENOUGH), (23, 0));
    }

    /// Reading the pooled bytes gives the pooled book, whose bytes those are.
    #[test]
    fn the_pooled_book_is_read_back() {
        let random = &mut Random::new(18);
        for _ in 0..300 {
            let [first, second] = pairs::right(random);
            let due = pooled(&first, &second);
            let outcome = Case::new(draw::text(&first)).pool(&draw::text(&second), BOOK_MAX);
            assert_eq!(outcome.sheet, draw::text(&due));
            assert_eq!(book::read(&outcome.sheet), Ok(due));
        }
    }

    /// The promise, of the reference itself; of some pairs the plan is worth more than both.
    #[test]
    fn the_pooled_plan_is_worth_both() {
        let random = &mut Random::new(19);
        let (mut as_much, mut more) = (0, 0);
        for _ in 0..500 {
            let whole = pairs::whole(random, SMALL);
            let [first, second] = pairs::parted(random, &whole);
            let case = Case::new(draw::text(&pooled(&first, &second)));
            let both = worth_of_both(&first, &second);
            let plan = case.with_budget(0xFFFF_FFFF).plan(ENOUGH, ENOUGH).answer.first;
            assert_eq!(broken(both, &plan), [""; 0]);
            as_much += usize::from(both == Some(plan.worth));
            more += usize::from(both.is_some_and(|worth| worth < plan.worth));
        }
        assert!(as_much > 50 && more > 50, "{as_much}, {more}");
    }
}
