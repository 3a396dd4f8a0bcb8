//! The views of a sheet: document 02, M-103.

use super::book::Book;

/// The mill's: one line of the worth, and of number and level of every running load, lowest first.
pub fn mill(book: &Book, choice: &[usize]) -> Vec<u8> {
    let mut view = format!("09{:08X}", book.worth(choice));
    for (k, c) in (1..).zip(choice).filter(|(_, &c)| c != 0) {
        view += &format!("{k:02X}{c:02X}");
    }
    view += "\n";
    view.into_bytes()
}

/// The supply company's: of the sheet's lines, those of kind `05`.
pub fn supply(sheet: &[u8]) -> Vec<u8> {
    let lines = sheet.split_inclusive(|&byte| byte == b'\n');
    lines
        .filter(|line| line.starts_with(b"05"))
        .flatten()
        .copied()
        .collect()
}

#[cfg(test)]
mod tests {
    use super::*;
    use crate::draw::longest_views;
    use crate::reference::{sheet, Case, EXAMPLE};
    use crate::VIEW_MAX;

    #[test]
    fn the_bench_book() {
        let case = Case::new(EXAMPLE.to_vec());
        let sheet = case.plan(100_000, 100_000).sheet;
        let mill = case.mill_view(&sheet, 19);
        assert_eq!(mill.sheet, b"090000000A01010201\n");
        let supply = case.supply_view(&sheet, 23);
        assert_eq!(supply.sheet, b"050000000900000001000A\n");
        for (outcome, bytes) in [(mill, 19), (supply, 23)] {
            let first = outcome.answer.first;
            assert_eq!((first.number, first.bytes, first.worth, first.trials), (0, bytes, 0, 0));
        }
        let numbers = |sheet, mill, supply| {
            [case.mill_view(sheet, mill), case.supply_view(sheet, supply)].map(|outcome| outcome.answer.first.number)
        };
        assert_eq!(numbers(&sheet, 18, 22), [11, 11]);
        assert_eq!(numbers(&sheet[1..], 18, 22), [13, 13]);
    }

    #[test]
    fn loads_that_stand_are_left_out() {
        let mut choice = [0; 24];
        assert_eq!(mill(&longest_views(), &choice), b"0900000000\n");
        (choice[9], choice[23]) = (2, 1);
        assert_eq!(mill(&longest_views(), &choice), b"09000000030A021801\n");
    }

    #[test]
    fn the_longest_views() {
        let (book, choice) = (longest_views(), [2; 24]);
        assert_eq!(mill(&book, &choice).len(), VIEW_MAX);
        assert_eq!(supply(&sheet::write(&book, &choice, 0)).len(), 92);
    }
}
