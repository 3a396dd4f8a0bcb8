//! Books read and sheets written without a heap, for the table planner.

use crate::reference::Refusal;

pub const SLOTS: usize = 4;
pub const LOADS: usize = 24;

/// What a load can do: a worth, and P and Q of each slot.
#[derive(Clone, Copy, Default)]
pub struct Level {
    pub worth: u64,
    pub active: [i64; SLOTS],
    pub reactive: [i64; SLOTS],
}

/// A load's levels from 0, standing, on; on a line of kind `02` standing draws nothing, and on one of kind `07` it is no choice.
#[derive(Clone, Copy, Default)]
pub struct Load {
    levels: [Level; 4],
    count: usize,
    pub must_run: bool,
}

impl Load {
    pub fn levels(&self) -> &[Level] {
        &self.levels[..self.count]
    }

    /// How many levels can be chosen.
    pub fn choices(&self) -> u64 {
        (self.count - usize::from(self.must_run)) as u64
    }
}

#[derive(Default)]
pub struct Book {
    pub slots: usize,
    pub fineness: i64,
    pub ratio: i64,
    pub budget: u64,
    pub limits: [i64; SLOTS],
    loads: [Load; LOADS],
    count: usize,
}

impl Book {
    pub fn loads(&self) -> &[Load] {
        &self.loads[..self.count]
    }

    pub fn sheet_bytes(&self) -> usize {
        19 + 2 * self.count + 23 * self.slots
    }
}

const NO_DIGIT: u8 = 0xFF;

/// The value of each byte as a digit.
const DIGITS: [u8; 256] = {
    let mut values = [NO_DIGIT; 256];
    let mut value = 0;
    while value < 16 {
        values[b"0123456789ABCDEF"[value] as usize] = value as u8;
        value += 1;
    }
    values
};

fn value(byte: u8) -> u8 {
    DIGITS[byte as usize]
}

/// A line's digits that are still to be read.
struct Fields<'a> {
    digits: &'a [u8],
    line: u64,
}

impl Fields<'_> {
    fn next(&mut self, count: usize) -> u64 {
        let (field, rest) = self.digits.split_at(count);
        self.digits = rest;
        field
            .iter()
            .fold(0, |number, &byte| number << 4 | u64::from(value(byte)))
    }

    /// Reads P and Q of each slot; gives whether all have |Q| ≤ r × P.
    fn powers(&mut self, level: &mut Level, book: &Book) -> bool {
        let mut kept = true;
        for slot in 0..book.slots {
            level.active[slot] = self.next(4) as i64;
            level.reactive[slot] = i64::from(self.next(4) as u16 as i16);
            kept &= level.reactive[slot].abs() <= book.ratio * level.active[slot];
        }
        kept
    }

    fn refuse_unless(&self, holds: bool, number: u64) -> Result<(), Refusal> {
        match holds {
            true => Ok(()),
            false => Err(Refusal {
                number,
                line: self.line,
            }),
        }
    }
}

/// The book in these bytes, or the first refusal of 1 to 8.
pub fn read(bytes: &[u8]) -> Result<Book, Refusal> {
    let mut rest = bytes;
    let (kind, fields) = next_line(&mut rest, 1, &[0x01, 0x08])?;
    let mut book = header(fields, kind)?;
    for k in 0..book.count {
        let (kind, fields) = next_line(&mut rest, k as u64 + 2, &[0x02, 0x06, 0x07])?;
        book.loads[k] = load(fields, kind, &book)?;
    }
    let end = Fields {
        digits: rest,
        line: book.count as u64 + 2,
    };
    end.refuse_unless(rest.is_empty(), 8)?;
    Ok(book)
}

/// Takes the line that is due from `rest`, of one of these kinds: its kind, and the fields after it.
fn next_line<'a>(rest: &mut &'a [u8], line: u64, kinds: &[u64]) -> Result<(u64, Fields<'a>), Refusal> {
    let end = rest
        .iter()
        .position(|&byte| byte == b'\n')
        .ok_or(Refusal { number: 1, line })?;
    let mut fields = Fields {
        digits: &rest[..end],
        line,
    };
    *rest = &rest[end + 1..];
    fields.refuse_unless(fields.digits.iter().all(|&byte| value(byte) != NO_DIGIT), 2)?;
    fields.refuse_unless(fields.digits.len() >= 4, 3)?;
    let kind = fields.next(2);
    fields.refuse_unless(kinds.contains(&kind), 3)?;
    Ok((kind, fields))
}

fn header(mut fields: Fields, kind: u64) -> Result<Book, Refusal> {
    let states_ratio = kind == 0x08;
    let mut book = Book {
        slots: fields.next(2) as usize,
        ratio: 1,
        ..Book::default()
    };
    fields.refuse_unless((1..=SLOTS).contains(&book.slots), 4)?;
    let ratio = if states_ratio { 2 } else { 0 };
    fields.refuse_unless(fields.digits.len() == 12 + ratio + 4 * book.slots, 5)?;
    book.count = fields.next(2) as usize;
    book.fineness = fields.next(2) as i64;
    if states_ratio {
        book.ratio = fields.next(2) as i64;
    }
    let in_range = (1..=LOADS).contains(&book.count) && (1..=64).contains(&book.fineness);
    fields.refuse_unless(in_range && (1..=3).contains(&book.ratio), 6)?;
    book.budget = fields.next(8);
    for limit in &mut book.limits[..book.slots] {
        *limit = fields.next(4) as i64;
    }
    Ok(book)
}

fn load(mut fields: Fields, kind: u64, book: &Book) -> Result<Load, Refusal> {
    let (draws_standing, slots) = (kind == 0x06, book.slots);
    let options = fields.next(2) as usize;
    fields.refuse_unless((1..=3).contains(&options), 4)?;
    let standing = if draws_standing { 8 * slots } else { 0 };
    fields.refuse_unless(fields.digits.len() == standing + options * (4 + 8 * slots), 5)?;
    let mut load = Load {
        count: options + 1,
        must_run: kind == 0x07,
        ..Load::default()
    };
    let mut kept = true;
    if draws_standing {
        kept &= fields.powers(&mut load.levels[0], book);
    }
    for level in &mut load.levels[1..=options] {
        level.worth = fields.next(4);
        kept &= fields.powers(level, book);
    }
    fields.refuse_unless(kept, 7)?;
    Ok(load)
}

/// Writes digits and LFs one after the other.
struct Writer<'a> {
    rest: &'a mut [u8],
}

impl Writer<'_> {
    fn put(&mut self, number: u64, count: usize) {
        let (field, rest) = std::mem::take(&mut self.rest).split_at_mut(count);
        for (i, byte) in field.iter_mut().rev().enumerate() {
            *byte = b"0123456789ABCDEF"[(number >> (4 * i)) as usize & 15];
        }
        self.rest = rest;
    }

    fn end_line(&mut self) {
        let (end, rest) = std::mem::take(&mut self.rest).split_at_mut(1);
        end[0] = b'\n';
        self.rest = rest;
    }
}

/// Writes the sheet of the choice with this code into a buffer that is long enough.
pub fn write(book: &Book, code: u64, worth: u64, trials: u64, sheet: &mut [u8]) {
    let mut writer = Writer { rest: sheet };
    writer.put(0x04, 2);
    writer.put(worth, 8);
    writer.put(trials, 8);
    let mut sums = Level::default();
    for (k, load) in book.loads().iter().enumerate() {
        let c = (code >> (2 * k)) as usize & 3;
        writer.put(c as u64, 2);
        for slot in 0..book.slots {
            sums.active[slot] += load.levels[c].active[slot];
            sums.reactive[slot] += load.levels[c].reactive[slot];
        }
    }
    writer.end_line();
    for slot in 0..book.slots {
        writer.put(0x05, 2);
        writer.put(sums.active[slot] as u64, 8);
        writer.put(sums.reactive[slot] as u64, 8);
        writer.put(book.limits[slot] as u64, 4);
        writer.end_line();
    }
}
