//! Documents 01 and 02 in plain Rust, written from their text, for the archive's calls to be compared with.

pub mod book;
pub mod charge;
pub mod day;
pub mod grid;
pub mod must_run;
pub mod order;
pub mod plan;
pub mod pool;
pub mod quick;
pub mod ratio;
pub mod sheet;
pub mod standing;
pub mod strict;
#[cfg(test)]
mod test_books;
pub mod views;

use crate::call::{Function, Input};
use crate::{Answer, Numbers};
use book::{code, Book};
use plan::{Plan, Planned, ENUMERATED};
use std::cell::OnceCell;
use std::fmt::Debug;
use std::rc::Rc;

/// The book of document 01, "Trials at the bench".
pub const EXAMPLE: &[u8] = b"0101030400000064000A\n0201000500050005\n020100050004FFFC\n0201000400040000\n";

/// The most cells that a book may have.
pub const MOST_CELLS: u128 = 1 << 20;

#[derive(Clone, Copy, Debug, PartialEq, Eq)]
pub struct Refusal {
    pub number: u64,
    pub line: u64,
}

/// No choice that runs what must run is admitted, or none of those that the strict planner compares keeps the limits, or what the
/// quick planner begins with breaks one.
const NONE_ADMITTED: Refusal = Refusal { number: 17, line: 0 };

/// What a call has to leave: its answer, the bytes at the start of the buffer (none on a refusal), and the number
/// of words at the start of the work area that may hold anything afterwards.
#[derive(Clone, Debug, Default)]
pub struct Outcome {
    pub answer: Numbers,
    pub sheet: Vec<u8>,
    pub free_words: usize,
}

/// The bytes of a book, right or wrong, or of a day's books, and what the calls have to leave for them.
pub struct Case {
    pub text: Vec<u8>,
    pub book: Result<Book, Refusal>,
    cells: u128,
    /// Of this book, whatever its budget: so cases that differ in it alone share these.
    planned: Found<Compared<Planned>>,
    strict: Found<Compared<Option<Plan>>>,
    /// The most that a choice with M-109's margin is worth.
    margin: Found<Option<u64>>,
    /// The books of a day; none where these bytes are one book.
    parts: OnceCell<Vec<Case>>,
}

/// What is found when it is first asked for.
type Found<T> = Rc<OnceCell<T>>;

/// A plan, and what is wrong with the reference itself if its two ways to a plan differ.
struct Compared<T> {
    found: T,
    doubt: Option<String>,
}

impl<T: Debug + PartialEq> Compared<T> {
    fn new(book: &Book, by_map: fn(&Book) -> T, by_enumeration: fn(&Book) -> T) -> Compared<T> {
        let found = by_map(book);
        let other = (book.choices() <= ENUMERATED).then(|| by_enumeration(book));
        let doubt = other
            .filter(|other| *other != found)
            .map(|other| format!("the reference's two ways differ: {found:?}, {other:?}"));
        Compared { found, doubt }
    }
}

impl<T> From<T> for Compared<T> {
    /// What is given, for the self-check.
    fn from(found: T) -> Compared<T> {
        Compared { found, doubt: None }
    }
}

impl Case {
    pub fn new(text: Vec<u8>) -> Case {
        let book = book::read(&text);
        Case::read_as(text, book)
    }

    /// The case of bytes that are read so.
    pub fn read_as(text: Vec<u8>, book: Result<Book, Refusal>) -> Case {
        Case {
            text,
            cells: book.as_ref().map_or(0, grid::cells_of),
            book,
            planned: Found::default(),
            strict: Found::default(),
            margin: Found::default(),
            parts: OnceCell::new(),
        }
    }

    /// The case of the same book with another budget. No plan depends on the budget, and each is found once.
    pub fn with_budget(&self, budget: u64) -> Case {
        let mut text = self.text.clone();
        // After d, and after the ratio where the header states one.
        let at = if ratio::stated_in(&text) { 10 } else { 8 };
        text[at..at + 8].copy_from_slice(format!("{budget:08X}").as_bytes());
        Case {
            planned: self.planned.clone(),
            strict: self.strict.clone(),
            margin: self.margin.clone(),
            ..Case::new(text)
        }
    }

    /// The case of the same book with every load free to stand: lines of kind `07` become lines of kind `02`.
    pub fn free_to_stand(&self) -> Case {
        let mut text = self.text.clone();
        let lines = text.split_mut(|&byte| byte == b'\n');
        for line in lines.filter(|line| line.starts_with(b"07")) {
            line[1] = b'2';
        }
        Case::new(text)
    }

    /// The case of the same book with a plan and trials that are given: for the self-check, whose are wrong.
    pub fn with_planned(&self, planned: Planned) -> Case {
        Case {
            planned: Rc::new(OnceCell::from(Compared::from(planned))),
            ..Case::new(self.text.clone())
        }
    }

    /// The case of the same book with a strict plan that is given: for the self-check, whose is wrong.
    pub fn with_strict(&self, plan: Option<Plan>) -> Case {
        Case {
            planned: self.planned.clone(),
            strict: Rc::new(OnceCell::from(Compared::from(plan))),
            ..Case::new(self.text.clone())
        }
    }

    /// The case of the same book with cells that are given: for the self-check, whose are wrong.
    pub fn with_cells(&self, cells: u128) -> Case {
        Case {
            cells,
            planned: self.planned.clone(),
            strict: self.strict.clone(),
            ..Case::new(self.text.clone())
        }
    }

    /// The plan, if there is one, and the trials of a book that was read.
    pub fn planned(&self) -> &Planned {
        let compared = || Compared::new(self.valid(), plan::by_map, plan::by_enumeration);
        &self.planned.get_or_init(compared).found
    }

    /// The strict plan, if there is one, of a book that was read; whatever d is.
    pub fn strict(&self) -> Option<&Plan> {
        let compared = || Compared::new(self.valid(), strict::by_map, strict::by_enumeration);
        self.strict.get_or_init(compared).found.as_ref()
    }

    /// What two calls on a book that was read break of M-109's promises, the plain planner's and the strict one's.
    pub fn broken_promises(&self, plain: &Outcome, strict: &Outcome) -> Vec<&'static str> {
        let margin = self.margin.get_or_init(|| strict::worth_with_margin(self.valid()));
        strict::broken(self.valid(), *margin, plain, strict)
    }

    fn valid(&self) -> &Book {
        self.book.as_ref().expect("a valid book")
    }

    pub fn doubt(&self) -> Option<&str> {
        let planned = self.planned.get().and_then(|compared| compared.doubt.as_deref());
        let strict = self.strict.get().and_then(|compared| compared.doubt.as_deref());
        let mut parts = self.parts.get().into_iter().flatten();
        planned.or(strict).or_else(|| parts.find_map(Case::doubt))
    }

    /// The books of the day that these bytes are. Where they hold no empty line, they are one book, whose plan is found once.
    pub fn books(&self) -> Vec<&Case> {
        let parts = self.parts.get_or_init(|| match day::books(&self.text) {
            books if books.len() == 1 => Vec::new(),
            books => books.into_iter().map(Case::new).collect(),
        });
        match parts.is_empty() {
            true => vec![self],
            false => parts.iter().collect(),
        }
    }

    /// The cells of a book that was read, 0 for another.
    pub fn cells(&self) -> u128 {
        self.cells
    }

    /// The bytes of a sheet of a book that was read, 0 for another.
    pub fn sheet_bytes(&self) -> usize {
        self.book.as_ref().map_or(0, sheet::length)
    }

    /// What a call on this book has to leave.
    pub fn outcome(&self, input: Input) -> Outcome {
        match input.function {
            Function::Plan => self.plan(input.words.len(), input.sheet.len()),
            Function::PlanStrict => self.plan_strict(input.words.len(), input.sheet.len()),
            Function::Quick => self.quick(input.sheet.len()),
            Function::ReadSheet => self.read_sheet(input.sheet),
            Function::Charge => self.charge(input.sheet, input.prices),
            Function::Order => self.order(input.running, input.planned, input.names, input.sheet.len()),
            Function::MillView => self.mill_view(input.planned, input.sheet.len()),
            Function::SupplyView => self.supply_view(input.planned, input.sheet.len()),
            Function::Day => self.day(input.words.len(), input.sheet.len()),
            Function::Pool => self.pool(input.second, input.sheet.len()),
        }
    }

    pub fn plan(&self, words: usize, buffer: usize) -> Outcome {
        self.searched(self.plan_or_refusal(words, buffer))
    }

    fn plan_or_refusal(&self, words: usize, buffer: usize) -> Result<Outcome, Refusal> {
        let book = self.read()?;
        self.sheet_of(book, words, buffer, || self.planned().plan.as_ref())
    }

    pub fn plan_strict(&self, words: usize, buffer: usize) -> Outcome {
        self.searched(self.strict_or_refusal(words, buffer))
    }

    fn strict_or_refusal(&self, words: usize, buffer: usize) -> Result<Outcome, Refusal> {
        let book = self.read()?;
        refuse_if(strict::too_coarse(book), 20)?;
        self.sheet_of(book, words, buffer, || self.strict())
    }

    /// The sheet of this plan with the book's trials, after refusals 9 to 12 and 17.
    fn sheet_of<'a>(
        &'a self,
        book: &Book,
        words: usize,
        buffer: usize,
        plan: impl FnOnce() -> Option<&'a Plan>,
    ) -> Result<Outcome, Refusal> {
        refuse_if(self.cells() > MOST_CELLS, 9)?;
        refuse_if((words as u128) < 4 * self.cells(), 10)?;
        refuse_if(buffer < self.sheet_bytes(), 11)?;
        let trials = self.planned().trials;
        refuse_if(trials > book.budget, 12)?;
        let plan = plan().ok_or(NONE_ADMITTED)?;
        Ok(written(book, &plan.choice, trials))
    }

    /// What a planner with a work area leaves: the needed words are free after a sheet, 12 and 17.
    fn searched(&self, answered: Result<Outcome, Refusal>) -> Outcome {
        let mut outcome = answered.unwrap_or_else(refused::<0>);
        if [0, 12, 17].contains(&outcome.answer.first.number) {
            outcome.free_words = 4 * self.cells() as usize;
        }
        outcome
    }

    pub fn quick(&self, buffer: usize) -> Outcome {
        self.quick_or_refusal(buffer).unwrap_or_else(refused::<0>)
    }

    fn quick_or_refusal(&self, buffer: usize) -> Result<Outcome, Refusal> {
        let book = self.read()?;
        refuse_if(buffer < self.sheet_bytes(), 11)?;
        let choice = quick::choice(book).ok_or(NONE_ADMITTED)?;
        Ok(written(book, &choice, book.loads.len() as u64))
    }

    pub fn read_sheet(&self, sheet: &[u8]) -> Outcome {
        self.reading_or_refusal(sheet).unwrap_or_else(refused::<1>)
    }

    fn reading_or_refusal(&self, sheet: &[u8]) -> Result<Outcome, Refusal> {
        let (book, choice, trials) = self.read_with(sheet)?;
        let worth = book.worth(&choice);
        let first = Answer {
            worth,
            trials,
            ..Answer::default()
        };
        Ok(answered(first, vec![code(&choice)]))
    }

    pub fn charge(&self, sheet: &[u8], prices: &[u16]) -> Outcome {
        self.charge_or_refusal(sheet, prices).unwrap_or_else(refused::<1>)
    }

    fn charge_or_refusal(&self, sheet: &[u8], prices: &[u16]) -> Result<Outcome, Refusal> {
        let (book, choice, _) = self.read_with(sheet)?;
        refuse_if(prices.len() != book.limits.len(), 14)?;
        Ok(answered(Answer::default(), vec![charge::of(book, &choice, prices)]))
    }

    pub fn order(&self, running: &[u8], planned: &[u8], names: &[u8], buffer: usize) -> Outcome {
        self.order_or_refusal(running, planned, names, buffer)
            .unwrap_or_else(refused::<2>)
    }

    fn order_or_refusal(
        &self,
        running: &[u8],
        planned: &[u8],
        names: &[u8],
        buffer: usize,
    ) -> Result<Outcome, Refusal> {
        let (book, old, _) = self.read_with(running)?;
        let (_, new, _) = self.read_with(planned)?;
        refuse_if(!order::names_are_right(names, book.loads.len()), 15)?;
        refuse_if(order::some_named_load_stands(&old, &new, names), 16)?;
        let counts = [(&old, &new), (&new, &old)].map(|(from, to)| order::starting(from, to).count() as u64);
        fitting(order::of(&old, &new, names), buffer, 11, counts.to_vec())
    }

    pub fn mill_view(&self, sheet: &[u8], buffer: usize) -> Outcome {
        self.read_with(sheet)
            .and_then(|(book, choice, _)| fitting(views::mill(book, &choice), buffer, 11, Vec::new()))
            .unwrap_or_else(refused::<0>)
    }

    pub fn supply_view(&self, sheet: &[u8], buffer: usize) -> Outcome {
        self.read_with(sheet)
            .and_then(|_| fitting(views::supply(sheet), buffer, 11, Vec::new()))
            .unwrap_or_else(refused::<0>)
    }

    pub fn day(&self, words: usize, buffer: usize) -> Outcome {
        day::of(&self.books(), words, buffer)
    }

    /// This book pooled with a second.
    pub fn pool(&self, second: &[u8], buffer: usize) -> Outcome {
        pool::of(self, second, buffer).unwrap_or_else(refused::<0>)
    }

    /// The book, after refusals 1 to 8.
    fn read(&self) -> Result<&Book, Refusal> {
        self.book.as_ref().map_err(|refusal| *refusal)
    }

    /// The book, and the choice and trials on a sheet of it; after refusals 1 to 8 and 13.
    fn read_with(&self, sheet: &[u8]) -> Result<(&Book, Vec<usize>, u64), Refusal> {
        let book = self.read()?;
        let foreign_sheet = Refusal { number: 13, line: 0 };
        let (choice, trials) = sheet::read(book, sheet).ok_or(foreign_sheet)?;
        Ok((book, choice, trials))
    }
}

fn refuse_if(applies: bool, number: u64) -> Result<(), Refusal> {
    (!applies).then_some(()).ok_or(Refusal { number, line: 0 })
}

/// A refusal of a call whose answer has so many numbers after the first five: they are 0.
pub fn refused<const FURTHER: usize>(refusal: Refusal) -> Outcome {
    let first = Answer {
        number: refusal.number,
        line: refusal.line,
        ..Answer::default()
    };
    answered(first, vec![0; FURTHER])
}

/// An answer with nothing written.
fn answered(first: Answer, further: Vec<u64>) -> Outcome {
    Outcome {
        answer: Numbers { first, further },
        ..Outcome::default()
    }
}

/// A planner's sheet of this choice.
pub fn written(book: &Book, choice: &[usize], trials: u64) -> Outcome {
    let sheet = sheet::write(book, choice, trials);
    let first = Answer {
        bytes: sheet.len() as u64,
        worth: book.worth(choice),
        trials,
        ..Answer::default()
    };
    Outcome {
        sheet,
        ..answered(first, Vec::new())
    }
}

/// An order, a view, a day's output or a pooled book, and the numbers after the first five; a refusal with this number where it is
/// longer than the buffer.
pub fn fitting(bytes: Vec<u8>, buffer: usize, number: u64, further: Vec<u64>) -> Result<Outcome, Refusal> {
    refuse_if(buffer < bytes.len(), number)?;
    let first = Answer {
        bytes: bytes.len() as u64,
        ..Answer::default()
    };
    Ok(Outcome {
        sheet: bytes,
        ..answered(first, further)
    })
}

/// The cases of "Trials at the bench"; those of steps and grid values stand in `grid`, those of document 02 with their part.
#[cfg(test)]
mod tests {
    use super::*;

    const ENOUGH: usize = 100_000;

    fn planned(text: &str) -> Plan {
        let planned = Case::new(text.into()).planned().clone();
        planned.plan.expect("some choice is admitted")
    }

    fn refused_at(text: &str) -> (u64, u64) {
        let answer = Case::new(text.into()).plan(ENOUGH, ENOUGH).answer.first;
        (answer.number, answer.line)
    }

    #[test]
    fn the_bench_book() {
        let outcome = Case::new(EXAMPLE.to_vec()).plan(ENOUGH, ENOUGH);
        assert_eq!(outcome.sheet, b"040000000A0000000E010100\n050000000900000001000A\n");
        assert_eq!((outcome.answer.first.worth, outcome.answer.first.trials), (10, 14));
    }

    #[test]
    fn the_bench_book_planned_quickly() {
        let outcome = Case::new(EXAMPLE.to_vec()).quick(ENOUGH);
        assert_eq!(outcome.sheet, b"040000000900000003000101\n0500000008FFFFFFFC000A\n");
    }

    #[test]
    fn budgets() {
        let case = Case::new(EXAMPLE.to_vec());
        let number = |budget| case.with_budget(budget).plan(ENOUGH, ENOUGH).answer.first.number;
        assert_eq!((number(14), number(13)), (0, 12));
    }

    #[test]
    fn both_run_within_the_spread() {
        let plan = planned("01010201FFFFFFFF0064\n0201000300630000\n0201000300630000\n");
        assert_eq!((plan.choice, plan.worth), (vec![1, 1], 6));
    }

    #[test]
    fn among_equals_the_smaller_code() {
        let plan = planned("01010201FFFFFFFF0064\n0201000300640000\n0201000300640000\n");
        assert_eq!((plan.choice, plan.worth), (vec![1, 0], 3));
    }

    #[test]
    fn a_limit_of_nothing() {
        let plan = planned("01010201FFFFFFFF0000\n0201000100000000\n0201000100010000\n");
        assert_eq!((plan.choice, plan.worth), (vec![1, 0], 1));
    }

    #[test]
    fn refusals() {
        assert_eq!(refused_at(""), (1, 1));
        assert_eq!(refused_at("01010101FFFFFFFF0010\n020100010004FFFC\n"), (0, 0));
        assert_eq!(refused_at("01010101FFFFFFFF0010\n020100010004FFFB\n"), (7, 2));
    }

    #[test]
    fn a_sheet_is_read_back() {
        let case = Case::new(EXAMPLE.to_vec());
        let sheet = case.plan(ENOUGH, ENOUGH).sheet;
        let answer = case.read_sheet(&sheet).answer;
        let first = answer.first;
        assert_eq!((first.number, first.worth, first.trials), (0, 10, 14));
        assert_eq!(answer.further, [5]);
        assert_eq!(case.read_sheet(&sheet[1..]).answer.first.number, 13);
    }
}
