//! The strict planner, "Never above the limit": document 02, M-109.

use super::book::{code, Book};
use super::plan::{best_where, each_choice, pairs, ranks_by_list, Pairs, Plan, Rank, ENUMERATED};
use super::{grid, quick, sheet, Outcome};
use std::cmp::Reverse;
use std::collections::hash_map::{Entry, HashMap};

/// "20 when d is 1".
pub fn too_coarse(book: &Book) -> bool {
    book.fineness == 1
}

/// "the greatest worth, then smallest code": the better choice ranks higher.
pub fn rank(worth: u64, code: u64) -> Rank {
    (worth, Reverse(code))
}

/// By going through every choice, as the text has it: "Of these it returns the best, by the same two rules, that has P² + Q² ≤ S²
/// in every slot".
pub fn by_enumeration(book: &Book) -> Option<Plan> {
    let mut choices = compared(book, rank);
    choices.retain(|choice| quick::fits(book, choice));
    best_of(book, choices, rank)
}

/// "one choice for each list of grid pairs": of those that have the pairs the one that ranks highest, by its worth and its code.
pub fn compared<R: Ord>(book: &Book, rank: fn(u64, u64) -> R) -> Vec<Vec<usize>> {
    let slots = grid::slots(book);
    let mut compared: HashMap<Pairs, (R, Vec<usize>)> = HashMap::new();
    each_choice(book, book.loads.len(), |choice| {
        let ranked = (rank(book.worth(choice), code(choice)), choice.to_vec());
        match compared.entry(pairs(book, &slots, choice)) {
            Entry::Vacant(list) => drop(list.insert(ranked)),
            Entry::Occupied(mut list) if list.get().0 < ranked.0 => drop(list.insert(ranked)),
            Entry::Occupied(_) => (),
        }
    });
    compared.into_values().map(|(_, choice)| choice).collect()
}

/// Of these choices the one that ranks highest.
pub fn best_of<R: Ord>(book: &Book, choices: Vec<Vec<usize>>, rank: fn(u64, u64) -> R) -> Option<Plan> {
    let ranked = |choice: &Vec<usize>| rank(book.worth(choice), code(choice));
    let best = choices.into_iter().max_by_key(ranked)?;
    Some(Plan {
        worth: book.worth(&best),
        choice: best,
    })
}

/// By the map of the lists of grid pairs, for books of many choices.
pub fn by_map(book: &Book) -> Option<Plan> {
    let mut ranks: Vec<_> = ranks_by_list(book).0.into_values().collect();
    ranks.sort_unstable();
    let mut plans = ranks.into_iter().rev().map(|rank| Plan::of(book, rank));
    plans.find(|plan| quick::fits(book, &plan.choice))
}

/// "d² × (P² + Q²) ≤ (d - 2)² × S² in every slot"; d is at least 2.
pub fn has_margin(book: &Book, choice: &[usize]) -> bool {
    let d = book.fineness as i64;
    book.limits.iter().enumerate().all(|(slot, limit)| {
        let (p, q) = book.sums(choice, slot);
        d * d * (p * p + q * q) <= (d - 2) * (d - 2) * limit * limit
    })
}

/// The most that a choice with this margin is worth, if there is one, for a book of few choices.
pub fn worth_with_margin(book: &Book) -> Option<u64> {
    let few = !too_coarse(book) && book.choices() <= ENUMERATED;
    let best = few.then(|| best_where(book, |choice| has_margin(book, choice)));
    best.flatten().map(|plan| plan.worth)
}

/// What a strict call can break of M-109's promises, beside a plain call on the same book with as many words and as much room.
pub const EXCEEDS: &str = "a limit is exceeded";
pub const NONE_WITH_MARGIN: &str = "17, though a choice has the margin";
pub const LESS_THAN_MARGIN: &str = "a choice with the margin is worth more";
pub const NO_PLAN: &str = "a sheet, and none from the planner";
pub const MORE_THAN_PLAN: &str = "worth more than the plan";

/// And of what follows from the definition: a plan that keeps the limits is compared, and no compared choice that fits is better.
pub const OTHER_THAN_PLAN: &str = "not the plan's sheet, though that keeps the limits";

/// What two such calls on this book break. `margin` is the most that a choice with the margin is worth, where there is one.
pub fn broken(book: &Book, margin: Option<u64>, plain: &Outcome, strict: &Outcome) -> Vec<&'static str> {
    let [plan, first] = [plain, strict].map(|outcome| outcome.answer.first);
    let (planned, given) = (plan.number == 0, first.number == 0);
    let keeps = |sheet: &[u8]| sheet::read(book, sheet).is_some_and(|(choice, _)| quick::fits(book, &choice));
    let kept = planned && keeps(&plain.sheet);
    let points = [
        (EXCEEDS, given && !keeps(&strict.sheet)),
        (NONE_WITH_MARGIN, first.number == 17 && margin.is_some()),
        (
            LESS_THAN_MARGIN,
            given && margin.is_some_and(|worth| first.worth < worth),
        ),
        (NO_PLAN, given && !planned),
        (MORE_THAN_PLAN, given && planned && plan.worth < first.worth),
        (
            OTHER_THAN_PLAN,
            kept && first.number != 20 && strict.sheet != plain.sheet,
        ),
    ];
    let broken = points.into_iter().filter(|(_, breaks)| *breaks);
    broken.map(|(point, _)| point).collect()
}

#[cfg(test)]
mod tests {
    use super::*;
    use crate::reference::{Case, EXAMPLE};

    const ENOUGH: usize = 100_000;

    /// A book whose load must run, at (100, 0) or, for more worth, at (149, 0). N = 1, d = 2 and S = 100, so L is 50 and both have
    /// a = 2: the second is compared, and does not fit.
    const HIDDEN: &[u8] = b"010101020000000A0064\n0702000100640000000200950000\n";

    /// The number, the line and the free words of the strict planner's answer.
    fn strict(text: &str, words: usize, buffer: usize) -> (u64, u64, usize) {
        let outcome = Case::new(text.into()).plan_strict(words, buffer);
        let first = outcome.answer.first;
        (first.number, first.line, outcome.free_words)
    }

    /// A book of two loads with d = 2 and S = 100: L is 25, R is 4, and cells are 5 × 11.
    fn two(loads: [&str; 2]) -> String {
        format!("0101020200000064{:04X}\n{}\n{}\n", 100, loads[0], loads[1])
    }

    const WORDS: usize = 4 * 5 * 11;

    fn sheets(text: &str) -> [String; 2] {
        let case = Case::new(text.into());
        let outcomes = [case.plan(ENOUGH, ENOUGH), case.plan_strict(ENOUGH, ENOUGH)];
        outcomes.map(|outcome| String::from_utf8(outcome.sheet).expect("digits"))
    }

    /// (64, 0) each: together a = 4 is admitted, and 128 is above the limit.
    #[test]
    fn only_the_plan_exceeds_the_limit() {
        let text = two(["0201000500400000", "0201000400400000"]);
        let [plain, strict] = sheets(&text);
        assert_eq!(plain, "0400000009000000060101\n0500000080000000000064\n");
        assert_eq!(strict, "0400000005000000060100\n0500000040000000000064\n");
    }

    /// Either load alone has a = 4 and is worth 5: of these two, load 1 is compared. It fits at (100, 0), and not at (101, 0).
    #[test]
    fn of_each_list_the_greatest_worth_then_the_smallest_code() {
        let text = two(["0201000500640000", "0201000500650000"]);
        assert_eq!(sheets(&text)[1], "0400000005000000060100\n0500000064000000000064\n");
        let text = two(["0201000500650000", "0201000500640000"]);
        assert_eq!(sheets(&text)[1], "0400000000000000060000\n0500000000000000000064\n");
    }

    #[test]
    fn another_choice_with_the_same_pairs_fits() {
        let case = Case::new(HIDDEN.to_vec());
        let book = case.book.as_ref().expect("a valid book");
        assert!(quick::fits(book, &[1]));
        assert_eq!(case.plan(ENOUGH, 44).answer.first.worth, 2);
        assert_eq!(case.plan_strict(ENOUGH, 44).answer.first.number, 17);
    }

    #[test]
    fn a_plan_that_keeps_the_limits_is_the_strict_plan() {
        let case = Case::new(EXAMPLE.to_vec());
        let outcomes = [case.plan(ENOUGH, ENOUGH), case.plan_strict(ENOUGH, ENOUGH)];
        let [plain, strict] = outcomes.map(|outcome| (outcome.answer, outcome.sheet, outcome.free_words));
        assert_eq!(plain, strict);
    }

    /// The load draws (101, 0) where a = 4 is admitted; the book has 3 trials.
    #[test]
    fn refusals_in_their_order() {
        let text = |d: u64, budget: u64| format!("010102{d:02X}{budget:08X}0064\n0701000500650000\n0201000500010000\n");
        assert_eq!(strict(&text(2, 3), WORDS, 46), (17, 0, WORDS));
        assert_eq!(strict(&text(2, 2), WORDS, 46), (12, 0, WORDS));
        assert_eq!(strict(&text(2, 2), WORDS, 45), (11, 0, 0));
        assert_eq!(strict(&text(2, 2), WORDS - 1, 45), (10, 0, 0));
        assert_eq!(strict(&text(1, 2), 0, 0), (20, 0, 0));
        assert_eq!(strict(&(text(1, 2) + "0"), 0, 0), (8, 4, 0));
        let large = |d: u64| {
            let (limits, load) = ("FFFF".repeat(4), format!("02010001{}\n", "00000000".repeat(4)));
            format!("010418{d:02X}00000000{limits}\n{}", load.repeat(24))
        };
        assert_eq!([1, 2].map(|d| strict(&large(d), 0, 0)), [(20, 0, 0), (9, 0, 0)]);
    }

    /// L = 50 and limits of 100 in both slots; the second is exceeded by 1.
    #[test]
    fn every_slot_counts() {
        let text = "010201020000006400640064\n020100050064000000650000\n";
        let [plain, strict] = sheets(text);
        assert!(plain.starts_with("040000000500000002") && strict.starts_with("040000000000000002"));
    }

    #[test]
    fn promises() {
        let case = Case::new(two(["0201000500400000", "0201000400400000"]).into());
        let book = Book {
            fineness: 8,
            ..case.book.clone().expect("a valid book")
        };
        // (64, 0) is within 6 / 8 of 100, and both together are not.
        assert_eq!(worth_with_margin(&book), Some(5));
        assert_eq!(
            worth_with_margin(&Book {
                fineness: 2,
                ..book.clone()
            }),
            Some(0)
        );
        assert_eq!(worth_with_margin(&Book { fineness: 1, ..book }), None);
    }
}
