//! Loads that must run: document 02, M-105.

use super::book::{Book, Load};
use std::ops::RangeInclusive;

/// Whether a load on a line of this kind has no choice 0.
pub fn declared_by(kind: u64) -> bool {
    kind == 0x07
}

/// Every c that a load can have.
pub fn settings(load: &Load) -> RangeInclusive<usize> {
    usize::from(load.must_run)..=load.levels.len()
}

/// A load's factor in the trials: "o, not o + 1".
pub fn factor(load: &Load) -> u64 {
    let options = load.levels.len() as u64;
    match load.must_run {
        true => options,
        false => options + 1,
    }
}

/// Whether a choice of the first loads runs every one of them that must run.
pub fn all_run(book: &Book, choice: &[usize]) -> bool {
    book.chosen(choice).all(|(load, c)| c > 0 || !load.must_run)
}

/// What the quick planner begins with: "these at option 1 and all others standing".
pub fn start(book: &Book) -> Vec<usize> {
    book.loads.iter().map(|load| usize::from(load.must_run)).collect()
}

#[cfg(test)]
mod tests {
    use crate::reference::test_books::*;
    use crate::reference::{Case, EXAMPLE};

    /// Document 01's book, but this load must run.
    fn bench_with(k: usize) -> Case {
        let lines = EXAMPLE.split_inclusive(|&byte| byte == b'\n');
        let of_kind = |(i, line): (usize, &[u8])| match i == k {
            true => [b"07", &line[2..]].concat(),
            false => line.to_vec(),
        };
        Case::new(lines.enumerate().flat_map(of_kind).collect())
    }

    /// Load 3 leaves no room for loads 1 and 2 together, which are worth more. Trials are 2 + 4 + 4: load 3 has one
    /// option and no more.
    #[test]
    fn a_better_choice_is_crowded_out() {
        let case = bench_with(3);
        let sheet = b"04000000090000000A000101\n0500000008FFFFFFFC000A\n";
        assert_eq!(case.plan(100_000, 100_000).sheet, sheet);
        let number = |budget| planned(&case.with_budget(budget), 100_000, 100_000).0;
        assert_eq!((number(10), number(9)), (0, 12));
    }

    /// The quick planner begins with load 1, beside which load 3, the smallest, does not fit.
    #[test]
    fn the_quick_planner_begins_with_it() {
        let case = bench_with(1);
        let sheet = b"040000000A00000003010100\n050000000900000001000A\n";
        assert_eq!(case.quick(100).sheet, sheet);
        assert_eq!(case.planned().trials, 1 + 2 + 4);
    }

    /// Load 1 runs with (5, 0) from the start: tried first, it is not counted again, and load 2 fits beside it.
    #[test]
    fn trying_it_changes_nothing() {
        let case = two(["0701000100050000", "0201000100050000"]);
        let sheet = b"0400000002000000020101\n050000000A00000000000A\n";
        assert_eq!(case.quick(SHEET).sheet, sheet);
    }

    /// (8, 8) breaks the limit, and load 2 draws nothing. Trials are 1 + 2.
    #[test]
    fn none_of_the_choices_is_admitted() {
        let case = two(["0701000500080008", "0201000100000000"]);
        assert_eq!(case.planned().trials, 3);
        let of_budget = |budget| planned(&case.with_budget(budget), WORDS, SHEET);
        assert_eq!(of_budget(3), (17, 0, WORDS));
        assert_eq!(of_budget(2), (12, 0, WORDS));
        assert_eq!(planned(&case, WORDS - 1, SHEET - 1), (10, 0, 0));
        assert_eq!(planned(&case, WORDS, SHEET - 1), (11, 0, 0));
        assert_eq!([SHEET, SHEET - 1].map(|buffer| quick_number(&case, buffer)), [17, 11]);
    }

    /// 11 is above R = 10: no list is left, and load 2 adds nothing to the trials.
    #[test]
    fn no_list_is_left() {
        let case = two(["07010005000B0000", "0201000500010000"]);
        let of_budget = |budget| planned(&case.with_budget(budget), WORDS, SHEET);
        assert_eq!((of_budget(1), of_budget(0)), ((17, 0, WORDS), (12, 0, WORDS)));
    }

    /// Option 1, (8, 8), breaks the limit, and option 2, (5, 5), does not: a sheet from the planner only.
    #[test]
    fn another_option_is_admitted() {
        let case = two(["0702000100080008000000050005", "0201000100000000"]);
        let sheet = b"0400000001000000060201\n050000000500000005000A\n";
        assert_eq!(case.plan(WORDS, SHEET).sheet, sheet);
        assert_eq!(quick_number(&case, SHEET), 17);
    }

    /// L = 50, (99, 0) each: a = 2 is admitted, though the true sum of 198 is above the limit of 100.
    #[test]
    fn the_start_is_not_rounded() {
        let load = "0701000300630000";
        let case = Case::new(format!("01010201FFFFFFFF0064\n{load}\n{load}\n").into());
        let sheet = b"0400000006000000020101\n05000000C6000000000064\n";
        assert_eq!(case.plan(100_000, SHEET).sheet, sheet);
        assert_eq!(quick_number(&case, SHEET), 17);
    }

    /// Load 1 runs with (6, 0), and load 2 draws (5, 0) standing but (4, 0) running: only both running is admitted.
    #[test]
    fn the_others_draw_standing() {
        let case = two(["0701000100060000", "060100050000000000040000"]);
        let sheet = b"0400000001000000030101\n050000000A00000000000A\n";
        assert_eq!(case.plan(WORDS, SHEET).sheet, sheet);
        assert_eq!(quick_number(&case, SHEET), 17);
    }

    /// Both options of load 1 draw (1, 0), one list; standing would be a second, and a third factor.
    #[test]
    fn lists_are_of_running_only() {
        let trials = |kind: &str| {
            let load = format!("{kind}02000100010000000200010000");
            two([&load, "0201000100010000"]).planned().trials
        };
        assert_eq!((trials("07"), trials("02")), (2 + 2, 3 + 2 * 2));
    }

    /// Load 3 must run: loads 1 and 2 alone are on no sheet of the book.
    #[test]
    fn a_sheet_on_which_it_stands_is_foreign() {
        let case = bench_with(3);
        let standing = b"040000000A0000000E010100\n050000000900000001000A\n";
        let running = case.plan(100_000, 100_000).sheet;
        assert_eq!(case.read_sheet(&running).answer.further, [20]);
        let numbers = [
            case.read_sheet(standing),
            case.charge(standing, &[]),
            case.order(standing, &running, &[], 0),
            case.order(&running, standing, &[], 0),
            case.mill_view(standing, 0),
            case.supply_view(standing, 0),
        ];
        assert_eq!(numbers.map(|outcome| outcome.answer.first.number), [13; 6]);
    }

    #[test]
    fn refusals_of_lines() {
        assert_eq!(load_refused_at("070100010004FFFC"), (0, 0));
        assert_eq!(load_refused_at("070100010004FFFB"), (7, 2));
        assert_eq!(load_refused_at("070200010000000000010004FFFB"), (7, 2));
        assert_eq!(load_refused_at("070100000000000100000000"), (5, 2));
        assert_eq!(load_refused_at("0702000100000000"), (5, 2));
        assert_eq!((load_refused_at("0700"), load_refused_at("0704")), ((4, 2), (4, 2)));
        for kind in ["08", "17", "70"] {
            assert_eq!(load_refused_at(&format!("{kind}01000100000000")), (3, 2));
        }
        assert_eq!(refused_at("07010101FFFFFFFF0010", "0701000100000000"), (3, 1));
    }
}
