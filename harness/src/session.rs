//! A run of the differential tests: makes calls, compares each with the reference and counts.

use crate::call::{Call, Function, Input};
use crate::random::Random;
use crate::reference::{pool, Case, Outcome};
use crate::NUMBERS;

/// How many differences are kept for printing.
const MOST_DIFFERENCES: usize = 20;

/// The functions with their names, in the order of `enum Function`.
const FUNCTIONS: [(Function, &str); 10] = [
    (Function::Plan, "plan"),
    (Function::PlanStrict, "plan_strict"),
    (Function::Quick, "quick"),
    (Function::ReadSheet, "read_sheet"),
    (Function::Charge, "charge"),
    (Function::Order, "order"),
    (Function::MillView, "mill_view"),
    (Function::SupplyView, "supply_view"),
    (Function::Day, "day"),
    (Function::Pool, "pool"),
];

pub struct Session {
    pub random: Random,
    /// Done to every call before it is compared: nothing, but for the self-check.
    alter: fn(&mut Call),
    pub passed: u64,
    pub failed: u64,
    /// Inputs by function and by the number that was expected.
    refusals: [[u64; NUMBERS]; FUNCTIONS.len()],
    pub differences: Vec<String>,
}

impl Session {
    pub fn new(seed: u64, alter: fn(&mut Call)) -> Session {
        Session {
            random: Random::new(seed),
            alter,
            passed: 0,
            failed: 0,
            refusals: [[0; NUMBERS]; FUNCTIONS.len()],
            differences: Vec::new(),
        }
    }

    /// The number of calls made so far.
    pub fn inputs(&self) -> u64 {
        self.passed + self.failed
    }

    /// The planner, with so many words and bytes lent, which hold anything.
    pub fn plan(&mut self, case: &Case, words: usize, buffer: usize) -> Call {
        let words = self.words(words);
        self.plan_over(case, &words, buffer)
    }

    /// The planner, with these words in the work area.
    pub fn plan_over(&mut self, case: &Case, words: &[u64], buffer: usize) -> Call {
        let sheet = self.bytes(buffer);
        self.call(case, Input::plan(&case.text, words, &sheet))
    }

    /// The strict planner, with so many words and bytes lent, which hold anything.
    pub fn plan_strict(&mut self, case: &Case, words: usize, buffer: usize) -> Call {
        let words = self.words(words);
        self.strict_over(case, &words, buffer)
    }

    /// The strict planner, with these words in the work area.
    pub fn strict_over(&mut self, case: &Case, words: &[u64], buffer: usize) -> Call {
        let sheet = self.bytes(buffer);
        self.call(case, Input::plan_strict(&case.text, words, &sheet))
    }

    /// The planner, and then the strict planner, with so many words and bytes lent to each; of a book that was read, what they left
    /// has to keep M-109's promises too.
    pub fn plan_both(&mut self, case: &Case, words: usize, buffer: usize) {
        let plain = self.plan(case, words, buffer).left();
        let (words, sheet) = (self.words(words), self.bytes(buffer));
        let input = Input::plan_strict(&case.text, &words, &sheet);
        self.call_keeping(&case.outcome(input), case, input, |call| match case.book {
            Ok(_) => case.broken_promises(&plain, &call.left()),
            Err(_) => Vec::new(),
        });
    }

    pub fn quick(&mut self, case: &Case, buffer: usize) {
        let sheet = self.bytes(buffer);
        self.call(case, Input::quick(&case.text, &sheet));
    }

    pub fn read_sheet(&mut self, case: &Case, sheet: &[u8]) {
        self.call(case, Input::read_sheet(&case.text, sheet));
    }

    pub fn charge(&mut self, case: &Case, sheet: &[u8], prices: &[u16]) {
        self.call(case, Input::charge(&case.text, sheet, prices));
    }

    /// The order of starting, with so many bytes lent for it.
    pub fn order(&mut self, case: &Case, [running, planned]: [&[u8]; 2], names: &[u8], buffer: usize) {
        let buffer = self.bytes(buffer);
        self.call(case, Input::order(&case.text, running, planned, names, &buffer));
    }

    /// The mill's view of a sheet, with so many bytes lent for it.
    pub fn mill_view(&mut self, case: &Case, sheet: &[u8], buffer: usize) {
        let buffer = self.bytes(buffer);
        self.call(case, Input::mill_view(&case.text, sheet, &buffer));
    }

    /// The supply company's view of a sheet, with so many bytes lent for it.
    pub fn supply_view(&mut self, case: &Case, sheet: &[u8], buffer: usize) {
        let buffer = self.bytes(buffer);
        self.call(case, Input::supply_view(&case.text, sheet, &buffer));
    }

    /// The supply company's views of two sheets that it must not tell apart: both have to leave what the first has to.
    pub fn supply_views(&mut self, sheets: &[(Case, Vec<u8>); 2], buffer: usize) {
        let [(first, sheet), _] = sheets;
        let expected = first.supply_view(sheet, buffer);
        for (case, sheet) in sheets {
            let buffer = self.bytes(buffer);
            self.call_leaving(&expected, case, Input::supply_view(&case.text, sheet, &buffer));
        }
    }

    /// The planner on each of these books, in one work area; what the calls left.
    pub fn plan_each(&mut self, books: &[Case], words: usize) -> Vec<Outcome> {
        let mut work = self.words(words);
        let mut plans = Vec::new();
        for book in books {
            let buffer = book.sheet_bytes() + self.random.below(20);
            let call = self.plan_over(book, &work, buffer);
            work.copy_from_slice(call.work.part());
            plans.push(Outcome {
                free_words: book.plan(words, buffer).free_words,
                ..call.left()
            });
        }
        plans
    }

    /// A day's books, with so many words and bytes lent, which hold anything.
    pub fn day(&mut self, case: &Case, words: usize, buffer: usize) {
        self.day_leaving(&case.day(words, buffer), case, words, buffer);
    }

    /// A day's books, which have to leave this.
    pub fn day_leaving(&mut self, expected: &Outcome, case: &Case, words: usize, buffer: usize) {
        let (words, buffer) = (self.words(words), self.bytes(buffer));
        self.call_leaving(expected, case, Input::day(&case.text, &words, &buffer));
    }

    /// The pool of two books, with so many bytes lent for the pooled one.
    pub fn pool(&mut self, first: &Case, second: &[u8], buffer: usize) -> Call {
        self.pool_leaving(&first.pool(second, buffer), first, second, buffer)
    }

    /// The pool of two books, which has to leave this.
    pub fn pool_leaving(&mut self, expected: &Outcome, first: &Case, second: &[u8], buffer: usize) -> Call {
        let buffer = self.bytes(buffer);
        self.call_leaving(expected, first, Input::pool(&first.text, second, &buffer))
    }

    /// The planner on a pooled book, whose plan has to keep M-110's promise: `both` is what two choices are worth together that keep
    /// every limit in the one book and in the other, where there are such.
    pub fn plan_pooled(&mut self, case: &Case, both: Option<u64>, words: usize, buffer: usize) {
        let (words, sheet) = (self.words(words), self.bytes(buffer));
        let input = Input::plan(&case.text, &words, &sheet);
        self.call_keeping(&case.outcome(input), case, input, |call| {
            pool::broken(both, &call.answer.first)
        });
    }

    /// A call on two books that mean the same: both have to leave what the first has to.
    pub fn call_alike(&mut self, cases: &[Case; 2], input: Input) {
        let expected = cases[0].outcome(input);
        for case in cases {
            let book = &case.text;
            self.call_leaving(&expected, case, Input { book, ..input });
        }
    }

    /// A call on the case's book.
    fn call(&mut self, case: &Case, input: Input) -> Call {
        self.call_leaving(&case.outcome(input), case, input)
    }

    /// A call on the case's book that has to leave this.
    fn call_leaving(&mut self, expected: &Outcome, case: &Case, input: Input) -> Call {
        self.call_keeping(expected, case, input, |_| Vec::new())
    }

    /// A call on the case's book that has to leave this, and of which nothing may be broken.
    fn call_keeping(
        &mut self,
        expected: &Outcome,
        case: &Case,
        input: Input,
        broken: impl Fn(&Call) -> Vec<&'static str>,
    ) -> Call {
        let mut call = Call::new(&mut self.random, input);
        (self.alter)(&mut call);
        let mut complaints = call.complaints(expected);
        complaints.extend(case.doubt().map(str::to_string));
        complaints.extend(broken(&call).into_iter().map(str::to_string));
        self.refusals[input.function as usize][expected.answer.first.number as usize] += 1;
        self.count(&call, &complaints);
        call
    }

    fn count(&mut self, call: &Call, complaints: &[String]) {
        if complaints.is_empty() {
            self.passed += 1;
            return;
        }
        self.failed += 1;
        if self.differences.len() < MOST_DIFFERENCES {
            self.differences
                .push(format!("{}\n  {}", call.input(), complaints.join("\n  ")));
        }
    }

    /// Bytes of any value for a buffer.
    pub fn bytes(&mut self, count: usize) -> Vec<u8> {
        (0..count).map(|_| self.random.word() as u8).collect()
    }

    /// Words for a work area: of any value, all alike, or small ones as an earlier plan leaves them.
    pub fn words(&mut self, count: usize) -> Vec<u64> {
        match self.random.below(5) {
            0 => vec![0; count],
            1 => vec![u64::MAX; count],
            2 => (0..count).map(|_| self.random.word() % 40).collect(),
            _ => (0..count).map(|_| self.random.word()).collect(),
        }
    }

    /// Inputs by function and number, as lines of text.
    pub fn refusal_table(&self) -> String {
        let mut table = format!("{:<12}", "number");
        (0..NUMBERS).for_each(|number| table += &format!("{number:>7}"));
        for (function, name) in FUNCTIONS {
            table += &format!("\n{name:<12}");
            for count in self.refusals[function as usize] {
                table += &format!("{:>7}", if count == 0 { "-".into() } else { count.to_string() });
            }
        }
        table
    }
}
