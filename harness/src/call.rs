//! One call of the archive with memory lent to it, and the comparison of all that it left with what it has to leave.

use crate::damage::plausible;
use crate::random::Random;
use crate::reference::Outcome;
use crate::Numbers;
use std::ops::BitXorAssign;

/// Memory lent to a call: a part of a larger vector, with what all of it held before.
#[derive(Clone)]
pub struct Lent<T> {
    before: Vec<T>,
    now: Vec<T>,
    start: usize,
    end: usize,
}

impl<T: Copy + PartialEq> Lent<T> {
    /// Lends `content` with guards drawn around it; now and then without, so that a memory checker sees its bounds. Guards
    /// of bytes look like more of the same, so that reading past an end shows in the answer.
    fn new(random: &mut Random, content: &[T], draw: fn(&mut Random) -> T) -> Lent<T> {
        let guard = if random.one_in(4) { 0 } else { 1 + random.below(40) };
        let mut before = Vec::with_capacity(content.len() + 2 * guard);
        before.extend((0..guard).map(|_| draw(random)));
        before.extend_from_slice(content);
        before.extend((0..guard).map(|_| draw(random)));
        Lent {
            now: before.clone(),
            before,
            start: guard,
            end: guard + content.len(),
        }
    }

    pub fn part(&self) -> &[T] {
        &self.now[self.start..self.end]
    }

    fn part_mut(&mut self) -> &mut [T] {
        &mut self.now[self.start..self.end]
    }

    /// Where the memory changed outside the first `free` entries of the part, counted from the part's start.
    fn change(&self, free: usize) -> Option<isize> {
        let free = (self.start + free).min(self.end);
        [0..self.start, free..self.now.len()]
            .into_iter()
            .filter(|kept| self.now[kept.clone()] != self.before[kept.clone()])
            .flatten()
            .find(|&i| self.now[i] != self.before[i])
            .map(|i| i as isize - self.start as isize)
    }

    fn has_guards(&self) -> bool {
        self.start > 0
    }
}

/// For the self-check: changes, which a comparison has to see.
impl<T: BitXorAssign + From<u8> + Copy> Lent<T> {
    /// Counted from the part's start.
    pub fn flip(&mut self, at: isize) {
        self.now[self.start.wrapping_add_signed(at)] ^= T::from(1);
    }

    /// Counted from the part's end.
    pub fn flip_from_end(&mut self, at: isize) {
        self.now[self.end.wrapping_add_signed(at)] ^= T::from(1);
    }

    /// Writes entries at the part's start.
    pub fn put(&mut self, entries: &[T]) {
        self.now[self.start..][..entries.len()].copy_from_slice(entries);
    }
}

#[derive(Clone, Copy, Debug, PartialEq, Eq)]
pub enum Function {
    Plan,
    PlanStrict,
    Quick,
    ReadSheet,
    Charge,
    Order,
    MillView,
    SupplyView,
    Day,
    Pool,
}

/// A function and what it is given; what it does not take is empty. `book` is a book, the first of two, or a day's books; `sheet`
/// is a sheet that is read, or the buffer; `planned` is the order's new sheet, or the sheet that a view shows.
#[derive(Clone, Copy)]
pub struct Input<'a> {
    pub function: Function,
    pub book: &'a [u8],
    pub second: &'a [u8],
    pub words: &'a [u64],
    pub sheet: &'a [u8],
    pub prices: &'a [u16],
    pub running: &'a [u8],
    pub planned: &'a [u8],
    pub names: &'a [u8],
}

impl<'a> Input<'a> {
    pub fn plan(book: &'a [u8], words: &'a [u64], sheet: &'a [u8]) -> Input<'a> {
        Input {
            function: Function::Plan,
            words,
            ..Input::quick(book, sheet)
        }
    }

    pub fn plan_strict(book: &'a [u8], words: &'a [u64], sheet: &'a [u8]) -> Input<'a> {
        Input {
            function: Function::PlanStrict,
            ..Input::plan(book, words, sheet)
        }
    }

    pub fn quick(book: &'a [u8], sheet: &'a [u8]) -> Input<'a> {
        Input {
            function: Function::Quick,
            book,
            second: &[],
            words: &[],
            sheet,
            prices: &[],
            running: &[],
            planned: &[],
            names: &[],
        }
    }

    pub fn read_sheet(book: &'a [u8], sheet: &'a [u8]) -> Input<'a> {
        Input {
            function: Function::ReadSheet,
            ..Input::quick(book, sheet)
        }
    }

    pub fn charge(book: &'a [u8], sheet: &'a [u8], prices: &'a [u16]) -> Input<'a> {
        Input {
            function: Function::Charge,
            prices,
            ..Input::quick(book, sheet)
        }
    }

    pub fn order(book: &'a [u8], running: &'a [u8], planned: &'a [u8], names: &'a [u8], buffer: &'a [u8]) -> Input<'a> {
        Input {
            function: Function::Order,
            running,
            planned,
            names,
            ..Input::quick(book, buffer)
        }
    }

    pub fn mill_view(book: &'a [u8], shown: &'a [u8], buffer: &'a [u8]) -> Input<'a> {
        Input {
            function: Function::MillView,
            planned: shown,
            ..Input::quick(book, buffer)
        }
    }

    pub fn supply_view(book: &'a [u8], shown: &'a [u8], buffer: &'a [u8]) -> Input<'a> {
        Input {
            function: Function::SupplyView,
            ..Input::mill_view(book, shown, buffer)
        }
    }

    pub fn day(books: &'a [u8], words: &'a [u64], buffer: &'a [u8]) -> Input<'a> {
        Input {
            function: Function::Day,
            ..Input::plan(books, words, buffer)
        }
    }

    pub fn pool(first: &'a [u8], second: &'a [u8], buffer: &'a [u8]) -> Input<'a> {
        Input {
            function: Function::Pool,
            second,
            ..Input::quick(first, buffer)
        }
    }
}

/// A call that was made, and all memory that it could reach.
#[derive(Clone)]
pub struct Call {
    pub function: Function,
    pub book: Lent<u8>,
    pub second: Lent<u8>,
    pub work: Lent<u64>,
    pub sheet: Lent<u8>,
    pub prices: Lent<u16>,
    pub running: Lent<u8>,
    pub planned: Lent<u8>,
    pub names: Lent<u8>,
    pub answer: Numbers,
}

impl Call {
    /// Makes the call, with guards around what is lent.
    pub fn new(random: &mut Random, input: Input) -> Call {
        let book = Lent::new(random, input.book, plausible);
        let mut work = Lent::new(random, input.words, Random::word);
        let mut sheet = Lent::new(random, input.sheet, plausible);
        let prices = Lent::new(random, input.prices, |random| random.word() as u16);
        let running = Lent::new(random, input.running, plausible);
        let planned = Lent::new(random, input.planned, plausible);
        let names = Lent::new(random, input.names, |random| random.below(25) as u8);
        let second = Lent::new(random, input.second, plausible);
        let answer = match input.function {
            Function::Plan => crate::plan(book.part(), work.part_mut(), sheet.part_mut()).into(),
            Function::PlanStrict => crate::plan_strict(book.part(), work.part_mut(), sheet.part_mut()).into(),
            Function::Quick => crate::quick(book.part(), sheet.part_mut()).into(),
            Function::ReadSheet => crate::read_sheet(book.part(), sheet.part()).into(),
            Function::Charge => crate::charge(book.part(), sheet.part(), prices.part()).into(),
            Function::Order => {
                let read = [&book, &running, &planned, &names].map(Lent::part);
                crate::order(read[0], read[1], read[2], read[3], sheet.part_mut()).into()
            }
            Function::MillView => crate::mill_view(book.part(), planned.part(), sheet.part_mut()).into(),
            Function::SupplyView => crate::supply_view(book.part(), planned.part(), sheet.part_mut()).into(),
            Function::Day => crate::day(book.part(), work.part_mut(), sheet.part_mut()).into(),
            Function::Pool => crate::pool(book.part(), second.part(), sheet.part_mut()).into(),
        };
        Call {
            function: input.function,
            book,
            second,
            work,
            sheet,
            prices,
            running,
            planned,
            names,
            answer,
        }
    }

    /// Whether everything that is lent has guards.
    pub fn has_guards(&self) -> bool {
        let books = [&self.book, &self.second];
        let bytes = [&self.sheet, &self.running, &self.planned, &self.names];
        let all = books.into_iter().chain(bytes).all(Lent::has_guards);
        all && self.work.has_guards() && self.prices.has_guards()
    }

    /// The answer, and the bytes that it says were written.
    pub fn left(&self) -> Outcome {
        let (answer, buffer) = (self.answer.clone(), self.sheet.part());
        let written = buffer.len().min(answer.first.bytes as usize);
        Outcome {
            answer,
            sheet: buffer[..written].to_vec(),
            ..Outcome::default()
        }
    }

    /// Everything in which the call left something else than it has to.
    pub fn complaints(&self, expected: &Outcome) -> Vec<String> {
        let mut complaints = Vec::new();
        if self.answer != expected.answer {
            complaints.push(format!("answer: expected {:?}, got {:?}", expected.answer, self.answer));
        }
        let written = expected.sheet.len();
        let got = self.sheet.part().get(..written);
        if got != Some(expected.sheet.as_slice()) {
            let got = got.unwrap_or_default().escape_ascii();
            complaints.push(format!(
                "written: expected {}, got {got}",
                expected.sheet.escape_ascii()
            ));
        }
        let changes = [
            ("book", self.book.change(0)),
            ("second book", self.second.change(0)),
            ("sheet or buffer", self.sheet.change(written)),
            ("work area", self.work.change(expected.free_words)),
            ("prices", self.prices.change(0)),
            ("running sheet", self.running.change(0)),
            ("new or shown sheet", self.planned.change(0)),
            ("names", self.names.change(0)),
        ];
        for (name, change) in changes {
            complaints.extend(change.map(|at| format!("{name}: changed at {at}")));
        }
        complaints
    }

    /// The call's input as text.
    pub fn input(&self) -> String {
        let start = format!("{:?}, book \"{}\"", self.function, self.book.part().escape_ascii());
        let (words, bytes) = (self.work.part().len(), self.sheet.part().len());
        let [sheet, running, planned] =
            [&self.sheet, &self.running, &self.planned].map(|lent| lent.part().escape_ascii());
        match self.function {
            Function::Plan | Function::PlanStrict | Function::Day => {
                format!("{start}, {words} words, buffer of {bytes}")
            }
            Function::Quick => format!("{start}, buffer of {bytes}"),
            Function::ReadSheet => format!("{start}, sheet \"{sheet}\""),
            Function::Charge => format!("{start}, sheet \"{sheet}\", prices {:?}", self.prices.part()),
            Function::Order => format!(
                "{start}, running \"{running}\", planned \"{planned}\", names {:?}, buffer of {bytes}",
                self.names.part()
            ),
            Function::MillView | Function::SupplyView => {
                format!("{start}, sheet \"{planned}\", buffer of {bytes}")
            }
            Function::Pool => {
                let second = self.second.part().escape_ascii();
                format!("{start}, second \"{second}\", buffer of {bytes}")
            }
        }
    }
}
