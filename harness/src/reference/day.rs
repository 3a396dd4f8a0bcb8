//! A day's books at once: document 02, M-107.

use super::{fitting, refuse_if, refused, Case, Outcome};
use crate::Answer;

/// "up to 32 of them come in one call".
pub const MOST_BOOKS: usize = 32;

/// A book that needs fewer words than document 01's: its cells are 2 × 4.
pub const SMALLER: &[u8] = b"0101010100000002000A\n0201000100090001\n";

/// The sheet of its plan.
pub const SMALLER_SHEET: &[u8] = b"04000000010000000201\n050000000900000001000A\n";

/// The books of an input: "parted by an empty line (LF alone)".
pub fn books(input: &[u8]) -> Vec<Vec<u8>> {
    parted(input, |line| line == b"\n")
}

/// What stands before, between and after the lines of which this holds; a line has its LF with it.
pub fn parted(input: &[u8], parts: fn(&[u8]) -> bool) -> Vec<Vec<u8>> {
    let lines: Vec<&[u8]> = input.split_inclusive(|&byte| byte == b'\n').collect();
    let books = lines.split(|line| parts(line));
    books.map(<[&[u8]]>::concat).collect()
}

/// The bytes of these books, with an empty line between each and the next.
pub fn joined(books: &[Vec<u8>]) -> Vec<u8> {
    books.join(&b'\n')
}

/// A planner's answer "in the form in which the program prints it".
pub fn printed(plan: &Outcome) -> Vec<u8> {
    match plan.answer.first {
        Answer { number: 0, .. } => plan.sheet.clone(),
        Answer { number, line, .. } => format!("FF{number:02X}{line:04X}\n").into_bytes(),
    }
}

/// What the call has to leave for these books.
pub fn of(books: &[&Case], words: usize, buffer: usize) -> Outcome {
    of_most(MOST_BOOKS, books, words, buffer)
}

/// The same, where so many books are the most.
pub fn of_most(most: usize, books: &[&Case], words: usize, buffer: usize) -> Outcome {
    let few_enough = refuse_if(books.len() > most, 18);
    few_enough.map_or_else(refused::<0>, |()| output(&one_by_one(books, words), buffer))
}

/// What the planner has to leave for each book alone, with a buffer that suffices.
pub fn one_by_one(books: &[&Case], words: usize) -> Vec<Outcome> {
    books.iter().map(|book| book.plan(words, usize::MAX)).collect()
}

/// What a day has to leave where the planner leaves this for its books, one by one.
pub fn output(plans: &[Outcome], buffer: usize) -> Outcome {
    let bytes = plans.iter().flat_map(printed).collect();
    let free_words = plans.iter().map(|plan| plan.free_words).max();
    Outcome {
        free_words: free_words.unwrap_or(0),
        ..fitting(bytes, buffer, 19, Vec::new()).unwrap_or_else(refused::<0>)
    }
}

#[cfg(test)]
mod tests {
    use super::*;
    use crate::reference::EXAMPLE;
    use crate::{BOOKS_MAX, DAY_MAX, SHEET_MAX};

    const ENOUGH: usize = 100_000;

    /// The words that document 01's book needs.
    const NEED: usize = 4 * 11 * 24;

    const SHEET: &[u8] = b"040000000A0000000E010100\n050000000900000001000A\n";

    const SMALLER_NEED: usize = 4 * 2 * 4;

    /// What is put out for these bytes where words and bytes suffice.
    fn put_out(input: &[u8]) -> Vec<u8> {
        Case::new(input.to_vec()).day(ENOUGH, ENOUGH).sheet
    }

    #[test]
    fn empty_lines_part_books() {
        for (input, due) in [
            ("", &[""][..]),
            ("A\n", &["A\n"]),
            ("A\nB", &["A\nB"]),
            ("\n", &["", ""]),
            ("\nA", &["", "A"]),
            ("A\n\nB\n", &["A\n", "B\n"]),
            ("A\n\n", &["A\n", ""]),
            ("A\n\n\n\nB", &["A\n", "", "", "B"]),
            ("A\r\n\r\nB\n", &["A\r\n\r\nB\n"]),
            ("A\n\r\n\nB\n", &["A\n\r\n", "B\n"]),
        ] {
            let found = books(input.as_bytes());
            assert_eq!(found, due.iter().map(|book| book.as_bytes()).collect::<Vec<_>>());
            assert_eq!(joined(&found), input.as_bytes());
        }
    }

    /// The second book has no load line: torn at line 2.
    #[test]
    fn a_refused_book_does_not_touch_its_neighbours() {
        let header = &EXAMPLE[..21];
        let case = Case::new([EXAMPLE, header, SMALLER].join(&b'\n'));
        let outcome = case.day(ENOUGH, ENOUGH);
        assert_eq!(outcome.sheet, [SHEET, b"FF010002\n", SMALLER_SHEET].concat());
        let first = outcome.answer.first;
        assert_eq!((first.number, first.line, first.bytes), (0, 0, 48 + 9 + 44));
        assert_eq!((first.worth, first.trials, outcome.free_words), (0, 0, NEED));
    }

    #[test]
    fn an_empty_book_is_torn() {
        assert_eq!(put_out(b""), b"FF010001\n");
        assert_eq!(put_out(b"\n"), b"FF010001\nFF010001\n");
        assert_eq!(put_out(&[EXAMPLE, b"\n"].concat()), [SHEET, b"FF010001\n"].concat());
        assert_eq!(
            put_out(&[b"\n\n", EXAMPLE].concat()),
            [b"FF010001\nFF010001\n", SHEET].concat()
        );
    }

    /// One book: its second line is smudged. A book that lacks its last LF is torn at its last line.
    #[test]
    fn ends_of_lines() {
        assert_eq!(put_out(&[&EXAMPLE[..21], b"\r\n", EXAMPLE].concat()), b"FF020002\n");
        assert_eq!(put_out(&[EXAMPLE, b"\r\n", EXAMPLE].concat()), b"FF080005\n");
        let cut = [EXAMPLE, b"\n", &EXAMPLE[..EXAMPLE.len() - 1]].concat();
        assert_eq!(put_out(&cut), [SHEET, b"FF010004\n"].concat());
    }

    /// A line of 5,000 digits is misshapen; cut at 4,096 bytes it would be torn.
    #[test]
    fn books_are_not_cut() {
        let long = [EXAMPLE[..20].to_vec(), vec![b'0'; 4_980], b"\n".to_vec()].concat();
        let input = joined(&[long, EXAMPLE.to_vec()]);
        assert_eq!(put_out(&input), [b"FF050001\n", SHEET].concat());
    }

    #[test]
    fn the_most_books() {
        assert_eq!((MOST_BOOKS, MOST_BOOKS * SHEET_MAX), (BOOKS_MAX, DAY_MAX));
        let number = |books: usize, buffer| {
            let outcome = Case::new(vec![b'\n'; books - 1]).day(0, buffer);
            assert!(outcome.sheet.is_empty() || outcome.sheet.len() == 9 * books);
            outcome.answer.first.number
        };
        assert_eq!([number(32, 9 * 32), number(32, 9 * 32 - 1)], [0, 19]);
        assert_eq!([number(33, ENOUGH), number(33, 0)], [18, 18]);
    }

    /// The larger book comes second. With a word less it is cramped, and the first is planned all the same.
    #[test]
    fn books_share_the_work_area() {
        let case = Case::new([SMALLER, EXAMPLE].join(&b'\n'));
        let outcome = |words, buffer| {
            let outcome = case.day(words, buffer);
            (outcome.answer.first.number, outcome.sheet, outcome.free_words)
        };
        assert_eq!(outcome(NEED, 92), (0, [SMALLER_SHEET, SHEET].concat(), NEED));
        assert_eq!(outcome(NEED, 91), (19, Vec::new(), NEED));
        let cramped = [SMALLER_SHEET, b"FF0A0000\n"].concat();
        assert_eq!(outcome(NEED - 1, 92), (0, cramped, SMALLER_NEED));
        assert_eq!(outcome(0, 18), (0, b"FF0A0000\nFF0A0000\n".to_vec(), 0));
        let many = Case::new([&[b'\n'; 32], EXAMPLE].concat());
        assert_eq!(many.day(NEED, ENOUGH).free_words, 0);
    }
}
