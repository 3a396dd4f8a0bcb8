//! What a load draws while it stands: document 02, M-104.

/// P and Q of each slot, where the load's line is of kind `06` and carries them; lines of other kinds carry none.
pub type Standing = Option<Vec<(i64, i64)>>;

/// Whether a line of this kind carries them.
pub fn carried_by(kind: u64) -> bool {
    kind == 0x06
}

/// P and Q in a slot: "a `02` line has zeros there".
pub fn power(standing: &Standing, slot: usize) -> (i64, i64) {
    standing.as_ref().map_or((0, 0), |powers| powers[slot])
}

#[cfg(test)]
mod tests {
    use crate::reference::test_books::*;
    use crate::reference::{Case, EXAMPLE};

    /// Standing (6, 0) and (5, 0), running (6, 0) and (7, 1): every choice has 11 or more. Both pairs of load 1 are one list, so
    /// trials are 2 + 2.
    #[test]
    fn no_choice_is_admitted() {
        let case = two(["060100060000000100060000", "060100050000000100070001"]);
        assert_eq!(case.planned().trials, 4);
        let of_budget = |budget| planned(&case.with_budget(budget), WORDS, SHEET);
        assert_eq!(of_budget(4), (17, 0, WORDS));
        assert_eq!(of_budget(3), (12, 0, WORDS));
        assert_eq!(planned(&case, WORDS - 1, SHEET - 1), (10, 0, 0));
        assert_eq!(planned(&case, WORDS, SHEET - 1), (11, 0, 0));
        assert_eq!([SHEET, SHEET - 1].map(|buffer| quick_number(&case, buffer)), [17, 11]);
    }

    /// Load 1 has 11 standing and 12 running, both above R = 10: no list is left, and load 2 adds nothing to the trials.
    #[test]
    fn no_list_is_left() {
        let case = two(["0601000B00000001000C0000", "0201000500010000"]);
        assert_eq!(case.planned().trials, 2);
        let of_budget = |budget| planned(&case.with_budget(budget), WORDS, SHEET);
        assert_eq!((of_budget(2), of_budget(1)), ((17, 0, WORDS), (12, 0, WORDS)));
    }

    /// Standing (9, 0) and (4, 0), running (3, 0) and (8, 0): only 3 + 4 is within the limit.
    #[test]
    fn only_running_is_admitted() {
        let case = two(["060100090000000000030000", "060100040000000500080000"]);
        let sheet = b"0400000000000000060100\n050000000700000000000A\n";
        assert_eq!(case.plan(WORDS, SHEET).sheet, sheet);
        assert_eq!(quick_number(&case, SHEET), 17);
    }

    /// L = 50, standing (99, 0) each: a = 2 is admitted, though the true sum of 198 is above the limit of 100.
    #[test]
    fn standing_is_rounded_as_running_is() {
        let load = "060100630000000300640000";
        let case = Case::new(format!("01010201FFFFFFFF0064\n{load}\n{load}\n").into());
        let sheet = b"0400000000000000060000\n05000000C6000000000064\n";
        assert_eq!(case.plan(100_000, SHEET).sheet, sheet);
        assert_eq!(quick_number(&case, SHEET), 17);
    }

    #[test]
    fn zeros_are_a_line_of_kind_02() {
        let zeros = String::from_utf8_lossy(EXAMPLE).replace("\n0201", "\n060100000000");
        let [plain, zeros] = [EXAMPLE.to_vec(), zeros.into()].map(Case::new);
        for outcome in [Case::plan as fn(&Case, usize, usize) -> _, |case, _, buffer| {
            case.quick(buffer)
        }] {
            let [plain, zeros] = [&plain, &zeros].map(|case| outcome(case, 100_000, 100_000));
            assert_eq!((plain.answer, plain.sheet), (zeros.answer, zeros.sheet));
        }
    }

    /// Load 1, of size 16, is passed over beside 8; load 2, of size 25, takes 5 in place of its 8, and 4 would fit beside that.
    #[test]
    fn a_load_passed_over_would_fit_later() {
        let case = two(["0201000500040000", "060100080000000100050000"]);
        let sheet = b"0400000001000000020001\n050000000500000000000A\n";
        assert_eq!(case.quick(SHEET).sheet, sheet);
        assert_eq!(case.plan(WORDS, SHEET).answer.first.worth, 6);
    }

    /// Load 2 stands and draws (4, -3): so say its sheet, the charge and the supply company's view; it starts, and is not listed.
    #[test]
    fn a_load_that_draws_stands() {
        let case = two(["0201000500010001", "06010004FFFD000700050000"]);
        let sheet = b"0400000005000000000100\n0500000005FFFFFFFE000A\n";
        let both = b"040000000C000000000101\n050000000600000001000A\n";
        assert_eq!(case.read_sheet(sheet).answer.further, [1]);
        assert_eq!(case.charge(sheet, &[40]).answer.further, [5]);
        assert_eq!(case.order(sheet, both, &[0, 0], 1).sheet, [2]);
        assert_eq!(case.mill_view(sheet, 100).sheet, b"09000000050101\n");
        assert_eq!(case.supply_view(sheet, 100).sheet, sheet[23..]);
    }

    #[test]
    fn refusals_of_lines() {
        assert_eq!(load_refused_at("06010004FFFC000100000000"), (0, 0));
        assert_eq!(load_refused_at("06010004FFFB000100000000"), (7, 2));
        assert_eq!(load_refused_at("060100000000000100040005"), (7, 2));
        assert_eq!(load_refused_at("0201000100000000"), (0, 0));
        assert_eq!(load_refused_at("0601000100000000"), (5, 2));
        assert_eq!(load_refused_at("02010004FFFB000100000000"), (5, 2));
        assert_eq!(load_refused_at("060000000000"), (4, 2));
        for kind in ["01", "03", "05", "08", "16", "60"] {
            assert_eq!(load_refused_at(&format!("{kind}0100000000000100000000")), (3, 2));
        }
        assert_eq!(refused_at("06010101FFFFFFFF0010", "0201000100000000"), (3, 1));
    }
}
