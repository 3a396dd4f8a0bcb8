//! The book and its reader: document 01, "The book", and refusals 1 to 8; with document 02's kinds of headers and load lines.

use super::must_run;
use super::ratio::{self, Ratio};
use super::standing::{self, Standing};
use super::Refusal;

/// The kinds of headers.
const HEADER_KINDS: [u64; 2] = [0x01, 0x08];

/// The kinds of load lines.
const LOAD_KINDS: [u64; 3] = [0x02, 0x06, 0x07];

/// The most loads.
pub const MOST_LOADS: usize = 24;

#[derive(Clone, Debug, PartialEq, Eq)]
pub struct Book {
    pub fineness: u64,
    pub ratio: Ratio,
    pub budget: u64,
    pub limits: Vec<i64>,
    pub loads: Vec<Load>,
}

/// Whether a load must run, what it draws standing, and its levels: level c is `levels[c - 1]`.
#[derive(Clone, Debug, PartialEq, Eq)]
pub struct Load {
    pub must_run: bool,
    pub standing: Standing,
    pub levels: Vec<Level>,
}

/// An option: its worth, and P and Q of each slot.
#[derive(Clone, Debug, PartialEq, Eq)]
pub struct Level {
    pub worth: u64,
    pub powers: Vec<(i64, i64)>,
}

impl Load {
    /// The option that level c is; standing (0) is none.
    fn level(&self, c: usize) -> Option<&Level> {
        Some(&self.levels[c.checked_sub(1)?])
    }

    pub fn worth(&self, c: usize) -> u64 {
        self.level(c).map_or(0, |level| level.worth)
    }

    /// P and Q in a slot at level c, or standing.
    pub fn power(&self, c: usize, slot: usize) -> (i64, i64) {
        match self.level(c) {
            Some(level) => level.powers[slot],
            None => standing::power(&self.standing, slot),
        }
    }

    /// Whether this holds of P and Q in every slot of every option.
    pub fn options_all(&self, holds: impl Fn(i64, i64) -> bool) -> bool {
        let mut pairs = self.levels.iter().flat_map(|level| &level.powers);
        pairs.all(|&(p, q)| holds(p, q))
    }

    /// Whether this holds of P and Q of standing in every slot, where the line carries them.
    pub fn standing_all(&self, holds: impl Fn(i64, i64) -> bool) -> bool {
        self.standing.iter().flatten().all(|&(p, q)| holds(p, q))
    }

    /// Whether |Q| ≤ r × P in every slot, in every option and standing.
    pub fn keeps(&self, r: i64) -> bool {
        let kept = |p, q| ratio::kept(r, p, q);
        self.options_all(kept) && self.standing_all(kept)
    }
}

impl Book {
    /// The first loads, each with the level that a choice of them gives it.
    pub fn chosen<'a>(&'a self, choice: &'a [usize]) -> impl Iterator<Item = (&'a Load, usize)> {
        self.loads.iter().zip(choice.iter().copied())
    }

    pub fn worth(&self, choice: &[usize]) -> u64 {
        self.chosen(choice).map(|(load, c)| load.worth(c)).sum()
    }

    /// The true sums of P and Q in a slot; a load that stands counts with what it draws standing.
    pub fn sums(&self, choice: &[usize], slot: usize) -> (i64, i64) {
        self.chosen(choice)
            .map(|(load, c)| load.power(c, slot))
            .fold((0, 0), |(p, q), (dp, dq)| (p + dp, q + dq))
    }

    /// The number of choices, those too in which a load stands that must run; stopped at the largest number.
    pub fn choices(&self) -> u64 {
        self.loads.iter().fold(1, |product: u64, load| {
            product.saturating_mul(load.levels.len() as u64 + 1)
        })
    }
}

/// The sum of c × 4^(k-1).
pub fn code(choice: &[usize]) -> u64 {
    choice.iter().rev().fold(0, |code, &c| 4 * code + c as u64)
}

/// The value of one digit, or nothing where the byte is none of 0-9 A-F.
fn digit(byte: u8) -> Option<u64> {
    match byte {
        b'0'..=b'9' => Some(u64::from(byte - b'0')),
        b'A'..=b'F' => Some(u64::from(byte - b'A') + 10),
        _ => None,
    }
}

/// The value of up to 16 digits.
pub fn number(digits: &[u8]) -> Option<u64> {
    digits
        .iter()
        .try_fold(0, |value, &byte| Some(16 * value + digit(byte)?))
}

/// The book in these bytes, or the first refusal of 1 to 8.
pub fn read(bytes: &[u8]) -> Result<Book, Refusal> {
    read_where(bytes, Load::keeps)
}

/// The same with another rule for refusal 7, which is given unless this holds of a load and r.
pub fn read_where(bytes: &[u8], holds: impl Fn(&Load, i64) -> bool) -> Result<Book, Refusal> {
    let (line, mut rest) = next_line(bytes, 1, &HEADER_KINDS)?;
    let (load_count, mut book) = header(&line)?;
    let r = ratio::of(book.ratio);
    for k in 1..=load_count {
        let (line, after) = next_line(rest, k + 1, &LOAD_KINDS)?;
        let load = load(&line, book.limits.len())?;
        line.refuse_unless(holds(&load, r), 7)?;
        book.loads.push(load);
        rest = after;
    }
    match rest {
        [] => Ok(book),
        _ => Err(Refusal {
            number: 8,
            line: load_count + 2,
        }),
    }
}

/// The header of a book as text, with its LF; of kind `08` where the book states a ratio.
pub fn header_text(book: &Book) -> String {
    let (slots, loads) = (book.limits.len(), book.loads.len());
    let (kind, ratio) = match book.ratio {
        None => ("01", String::new()),
        Some(r) => ("08", format!("{r:02X}")),
    };
    let start = format!("{kind}{slots:02X}{loads:02X}{:02X}{ratio}", book.fineness);
    let limits: String = book.limits.iter().map(|limit| format!("{limit:04X}")).collect();
    format!("{start}{:08X}{limits}\n", book.budget)
}

/// A line without its LF; all bytes are digits, four or more.
struct Line<'a> {
    number: u64,
    digits: &'a [u8],
}

impl Line<'_> {
    fn field(&self, at: usize, count: usize) -> u64 {
        number(&self.digits[at..at + count]).expect("the line is all digits")
    }

    fn refuse_unless(&self, holds: bool, number: u64) -> Result<(), Refusal> {
        let line = self.number;
        holds.then_some(()).ok_or(Refusal { number, line })
    }
}

/// The line that is due at the start of `rest`, of one of these kinds, and what follows it; refusals 1 to 3.
fn next_line<'a>(rest: &'a [u8], number: u64, kinds: &[u64]) -> Result<(Line<'a>, &'a [u8]), Refusal> {
    let end = rest.iter().position(|&byte| byte == b'\n');
    let end = end.ok_or(Refusal {
        number: 1,
        line: number,
    })?;
    let digits = &rest[..end];
    let line = Line { number, digits };
    line.refuse_unless(digits.iter().all(|&byte| digit(byte).is_some()), 2)?;
    line.refuse_unless(digits.len() >= 4 && kinds.contains(&line.field(0, 2)), 3)?;
    Ok((line, &rest[end + 1..]))
}

/// N, and the book without its loads; refusals 4 to 6.
fn header(line: &Line) -> Result<(u64, Book), Refusal> {
    let slots = line.field(2, 2) as usize;
    line.refuse_unless((1..=4).contains(&slots), 4)?;
    let more = ratio::digits(line.field(0, 2));
    line.refuse_unless(line.digits.len() == 16 + more + 4 * slots, 5)?;
    let load_count = line.field(4, 2);
    let fineness = line.field(6, 2);
    let ratio = (more > 0).then(|| line.field(8, more) as i64);
    let in_range = (1..=MOST_LOADS as u64).contains(&load_count) && (1..=64).contains(&fineness);
    line.refuse_unless(in_range && ratio.is_none_or(|r| ratio::RANGE.contains(&r)), 6)?;
    let budget = 8 + more;
    let book = Book {
        fineness,
        ratio,
        budget: line.field(budget, 8),
        limits: (0..slots).map(|s| line.field(budget + 8 + 4 * s, 4) as i64).collect(),
        loads: Vec::new(),
    };
    Ok((load_count, book))
}

/// A load; refusals 4 and 5.
fn load(line: &Line, slots: usize) -> Result<Load, Refusal> {
    let options = line.field(2, 2) as usize;
    line.refuse_unless((1..=3).contains(&options), 4)?;
    let kind = line.field(0, 2);
    let carried = standing::carried_by(kind);
    let first = 4 + if carried { 8 * slots } else { 0 };
    let digits = 4 + 8 * slots;
    line.refuse_unless(line.digits.len() == first + options * digits, 5)?;
    Ok(Load {
        must_run: must_run::declared_by(kind),
        standing: carried.then(|| powers(line, 4, slots)),
        levels: (0..options).map(|i| level(line, first + i * digits, slots)).collect(),
    })
}

fn level(line: &Line, at: usize, slots: usize) -> Level {
    Level {
        worth: line.field(at, 4),
        powers: powers(line, at + 4, slots),
    }
}

/// P and Q of each slot.
fn powers(line: &Line, at: usize, slots: usize) -> Vec<(i64, i64)> {
    let power = |at: usize| {
        let q = line.field(at + 4, 4) as u16 as i16;
        (line.field(at, 4) as i64, i64::from(q))
    };
    (0..slots).map(|s| power(at + 8 * s)).collect()
}
