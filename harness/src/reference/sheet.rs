//! The sheet's writer and reader: document 01, "The sheet" and "Quick planner and sheet reader"; M-105: a sheet is foreign on which
//! a load stands that must run.

use super::book::{number, Book};
use super::must_run;

/// The sheet of a choice with a trials number.
pub fn write(book: &Book, choice: &[usize], trials: u64) -> Vec<u8> {
    let mut sheet = format!("04{:08X}{trials:08X}", book.worth(choice));
    for c in choice {
        sheet += &format!("{c:02X}");
    }
    sheet += "\n";
    for (slot, limit) in book.limits.iter().enumerate() {
        let (p, q) = book.sums(choice, slot);
        sheet += &format!("05{p:08X}{:08X}{limit:04X}\n", q as i32);
    }
    sheet.into_bytes()
}

/// The bytes of a sheet of this book; every choice gives the same number.
pub fn length(book: &Book) -> usize {
    write(book, &vec![1; book.loads.len()], 0).len()
}

/// The choice and the trials number whose sheet has exactly these bytes.
pub fn read(book: &Book, sheet: &[u8]) -> Option<(Vec<usize>, u64)> {
    let trials = number(sheet.get(10..18)?)?;
    let choice = book
        .loads
        .iter()
        .zip(sheet.get(18..)?.chunks(2))
        .map(|(load, digits)| {
            let c = number(digits)? as usize;
            must_run::settings(load).contains(&c).then_some(c)
        })
        .collect::<Option<Vec<usize>>>()?;
    let whole = choice.len() == book.loads.len();
    (whole && write(book, &choice, trials) == sheet).then_some((choice, trials))
}
