//! Poorer power factors: document 02, M-108.

use std::ops::RangeInclusive;

/// The ratio r that the header states, where it is of kind `08`; a header of kind `01` states none.
pub type Ratio = Option<i64>;

/// "a ratio r from 1 to 3".
pub const RANGE: RangeInclusive<i64> = 1..=3;

/// Whether these bytes begin with a header that states one.
pub fn stated_in(text: &[u8]) -> bool {
    text.starts_with(b"08")
}

/// How many digits a header of this kind has for it, after d.
pub fn digits(kind: u64) -> usize {
    match kind {
        0x08 => 2,
        _ => 0,
    }
}

/// r: "kind `01` means r = 1".
pub fn of(stated: Ratio) -> i64 {
    stated.unwrap_or(1)
}

/// "|Q| ≤ r × P".
pub fn kept(r: i64, p: i64, q: i64) -> bool {
    q.abs() <= r * p
}

/// The grid pairs of a slot with bound R in a book of N loads.
pub fn pairs(r: i64, bound: i64, loads: i64) -> i64 {
    (bound + 1) * (2 * r * bound + (2 * r - 1) * loads + 1)
}

/// A book with an old motor (4, 8), a capacitor bank (3, -9) and a fan (3, 1), of which all three keep the limit of 10: (10, 0).
pub const CANCELLING: &[u8] = b"080103050300000064000A\n0201000900040008\n020100000003FFF7\n0201000400030001\n";

/// The sheet of its plan.
pub const CANCELLING_SHEET: &[u8] = b"040000000D0000000E010101\n050000000A00000000000A\n";

/// The quick planner's: it takes the fan, passes over the motor, as (7, 9) is above the limit, and takes the bank: (6, -8).
pub const CANCELLING_QUICK: &[u8] = b"040000000400000003000101\n0500000006FFFFFFF8000A\n";

#[cfg(test)]
mod tests {
    use super::{CANCELLING, CANCELLING_QUICK, CANCELLING_SHEET};
    use crate::reference::test_books::*;
    use crate::reference::{Case, EXAMPLE};

    /// Document 01's book with a header of kind `08`.
    fn bench_with(r: i64) -> Case {
        let ratio = format!("{r:02X}");
        Case::new([b"08", &EXAMPLE[2..8], ratio.as_bytes(), &EXAMPLE[8..]].concat())
    }

    /// A right header with r in place of its ratio.
    fn header(r: &str) -> String {
        format!("08010101{r}FFFFFFFF0010")
    }

    #[test]
    fn r_of_1_is_a_header_of_kind_01() {
        let cases = [Case::new(EXAMPLE.to_vec()), bench_with(1)];
        let [plain, stated] = cases.each_ref().map(|case| case.plan(100_000, 100_000));
        assert_eq!(
            (plain.answer, plain.sheet, plain.free_words),
            (stated.answer, stated.sheet, stated.free_words)
        );
        let [plain, stated] = cases.map(|case| case.quick(100_000));
        assert_eq!((plain.answer, plain.sheet), (stated.answer, stated.sheet));
    }

    /// R = 10 and N = 3. The sheet is the same for each r.
    #[test]
    fn cells_are_by_r() {
        for (r, pairs) in [(1, 11 * 24), (2, 11 * 50), (3, 11 * 76)] {
            let (case, words) = (bench_with(r), 4 * pairs);
            assert_eq!(planned(&case, words, 48), (0, 0, words));
            assert_eq!(planned(&case, words - 1, 48), (10, 0, 0));
            let sheet = b"040000000A0000000E010100\n050000000900000001000A\n";
            assert_eq!(case.plan(words, 48).sheet, sheet);
        }
    }

    /// N = 1, and R = 15 in both slots: 2^20 cells with r = 2.
    #[test]
    fn too_many_cells_by_r() {
        let number = |r: &str| {
            let text = format!("0802010F{r}FFFFFFFFFFFF000F\n020100010001000000010000\n");
            planned(&Case::new(text.into()), 1 << 22, 67).0
        };
        assert_eq!(["01", "02", "03"].map(number), [0, 0, 9]);
    }

    #[test]
    fn the_budget_stands_after_it() {
        let number = |budget| planned(&bench_with(3).with_budget(budget), 100_000, 48).0;
        assert_eq!((number(14), number(13)), (0, 12));
    }

    #[test]
    fn refusals_of_headers() {
        let load = "0201000100010000";
        let refused = |header: &str| refused_at(header, load);
        assert_eq!(["01", "02", "03"].map(|r| refused(&header(r))), [(0, 0); 3]);
        assert_eq!(["00", "04", "10", "FF"].map(|r| refused(&header(r))), [(6, 1); 4]);
        // As long as a header of kind `01`, and that one as long as this.
        assert_eq!(refused("08010101FFFFFFFF0010"), (5, 1));
        assert_eq!(refused("0101010101FFFFFFFF0010"), (5, 1));
        assert_eq!(refused("0801010100FFFFFFFF001"), (5, 1));
        assert_eq!(refused("0800010100FFFFFFFF0010"), (4, 1));
        assert_eq!((refused("0801"), refused("080")), ((5, 1), (3, 1)));
        assert_eq!(
            ["18", "80", "09"].map(|kind| refused(&format!("{kind}01010101FFFFFFFF0010"))),
            [(3, 1); 3]
        );
    }

    /// r outside its range comes before a later line's slack, which comes before the cells.
    #[test]
    fn refusals_in_their_order() {
        let slack = "0201000100000001";
        assert_eq!(refused_at(&header("04"), slack), (6, 1));
        assert_eq!(refused_at(&header("03"), slack), (7, 2));
        let large = format!(
            "080401400300000000{}\n02010001{}\n",
            "FFFF".repeat(4),
            "00000001".repeat(4)
        );
        assert_eq!(planned(&Case::new(large.into()), 0, 0), (7, 2, 0));
    }

    #[test]
    fn slack_is_by_r() {
        let refused = |r: &str, load: &str| refused_at(&header(r), load).0;
        let by_r = |load: &str| ["01", "02", "03"].map(|r| refused(r, load));
        for (powers, due) in [
            ("00040004", [0, 0, 0]),
            ("00040005", [7, 0, 0]),
            ("0004FFF8", [7, 0, 0]),
            ("0004FFF7", [7, 7, 0]),
            ("0004000C", [7, 7, 0]),
            ("0004000D", [7, 7, 7]),
            ("0004FFF4", [7, 7, 0]),
            ("0004FFF3", [7, 7, 7]),
            ("00000001", [7, 7, 7]),
            ("2AAB8000", [7, 7, 0]),
            ("2AAA8000", [7, 7, 7]),
            ("2AAA7FFE", [7, 7, 0]),
            ("2AAA7FFF", [7, 7, 7]),
        ] {
            let [option, standing, must_run] = [
                format!("02010001{powers}"),
                format!("0601{powers}000100000000"),
                format!("07010001{powers}"),
            ];
            assert_eq!([option, standing, must_run].map(|load| by_r(&load)), [due; 3]);
        }
    }

    #[test]
    fn loads_that_cancel() {
        let case = Case::new(CANCELLING.to_vec());
        assert_eq!(case.plan(4 * 11 * 76, 48).sheet, CANCELLING_SHEET);
        assert_eq!(case.quick(48).sheet, CANCELLING_QUICK);
    }
}
