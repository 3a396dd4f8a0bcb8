//! Times the archive's planner beside a table planner written by hand in Rust, and its strict planner beside the planner:
//! `speed [ROUNDS]`, built with the profile `speed`.

use harness::reference::{Case, MOST_CELLS};
use harness::{plan, plan_strict, table, Answer, SHEET_MAX};
use std::process::ExitCode;
use std::time::{Duration, Instant};

const ROUNDS: u32 = 20;

/// Short plans get more rounds, until this has passed.
const LEAST: Duration = Duration::from_millis(200);

const BOOKS: [(&str, &[u8]); 6] = [
    ("a: T=1 N=24 o=3 d=20", include_bytes!("../../books/a_T1_N24_d20.book")),
    ("b: T=2 N=12 o=3", include_bytes!("../../books/b_T2_N12.book")),
    ("c: T=4 N=6", include_bytes!("../../books/c_T4_N6.book")),
    ("d: sparse, T=1 N=24 d=29", include_bytes!("../../books/d_sparse.book")),
    ("e: T=1 N=24 o=3 d=29", include_bytes!("../../books/e_T1_N24_d29.book")),
    (
        "f: as a, worth follows P",
        include_bytes!("../../books/f_correlated.book"),
    ),
];

/// The book that the second table is made from.
const GROWN: &[u8] = BOOKS[4].1;

/// Books of which the strict planner has to test every cell that is reached in the end: in g each is worth more than those before
/// it, and in h, whose first load must run and breaks the limit by itself, none fits.
const TESTED: [(&str, &[u8]); 2] = [
    ("g: T=1 N=24 r=3, rising", include_bytes!("../../books/g_rising.book")),
    (
        "h: T=1 N=12 r=3, none fits",
        include_bytes!("../../books/h_none_fits.book"),
    ),
];

fn main() -> ExitCode {
    let arguments: Vec<String> = std::env::args().skip(1).collect();
    let rounds = match arguments.as_slice() {
        [] => Some(ROUNDS),
        [rounds] => rounds.parse().ok().filter(|&rounds| rounds > 0),
        _ => None,
    };
    let Some(rounds) = rounds else {
        eprintln!("usage: speed [ROUNDS]");
        return ExitCode::from(2);
    };
    let mut timings = Timings::new(rounds);
    println!("best of {rounds} rounds or more; ours is the archive's planner, Rust the one written by hand\n");
    heading("book");
    for (name, book) in BOOKS {
        timings.row(name, book);
    }
    println!();
    grow(&mut timings);
    println!();
    strict_heading("strict, beside the planner");
    let fine = |(_, book): &&(&str, &[u8])| &book[6..8] != b"01";
    for (name, book) in BOOKS.iter().filter(fine).chain(&TESTED) {
        timings.strict_row(name, book);
    }
    if timings.different {
        println!("\nDIFFERENT answers or sheets");
    }
    ExitCode::from(u8::from(timings.different))
}

/// How the time grows with the cells and with the trials.
fn grow(timings: &mut Timings) {
    heading("e with other d");
    for fineness in [1, 2, 4, 8, 16, 29] {
        timings.row(&format!("d = {fineness}"), &with_fineness(GROWN, fineness));
    }
    let book = with_fineness(GROWN, 16);
    println!();
    heading("e, d = 16, some loads draw");
    for loads in [4, 8, 12, 16, 20, 24] {
        timings.row(&format!("{loads} loads draw"), &with_idle_loads(&book, loads));
    }
    println!();
    heading("e, d = 16, spent (12)");
    let trials = timings.measure(&book, BOTH).answers[0].trials;
    for part in [64, 16, 4, 2] {
        timings.row(&format!("budget = trials / {part}"), &with_budget(&book, trials / part));
    }
}

fn heading(name: &str) {
    println!(
        "{name:<28}{:>9}{:>11}{:>11}{:>11}{:>11}{:>12}{:>11}",
        "cells", "trials", "ms ours", "ms Rust", "ours/Rust", "ns a trial", "ns a cell"
    );
}

fn strict_heading(name: &str) {
    println!(
        "{name:<28}{:>9}{:>11}{:>12}{:>11}{:>16}{:>8}",
        "cells", "trials", "ms planner", "ms strict", "strict/planner", "number"
    );
}

/// The answers of two planners, and the best time of each.
struct Timing {
    answers: [Answer; 2],
    times: [Duration; 2],
    /// Whether the two planners gave different answers or sheets in any round.
    different: bool,
}

struct Timings {
    rounds: u32,
    /// The work area of both planners, large enough for every book and touched before any timing.
    work: Vec<u64>,
    /// Whether any timing was of different answers or sheets.
    different: bool,
}

type Planner = fn(&[u8], &mut [u64], &mut [u8]) -> Answer;

/// The archive's planner, and the one written by hand.
const BOTH: [Planner; 2] = [plan, table::plan];

impl Timings {
    fn new(rounds: u32) -> Timings {
        let mut work = vec![1; 4 * MOST_CELLS as usize];
        work.fill(0);
        Timings {
            rounds,
            work,
            different: false,
        }
    }

    /// Both planners in turn, round by round, so that a slow moment of the machine meets both.
    fn measure(&mut self, book: &[u8], planners: [Planner; 2]) -> Timing {
        let mut timing = Timing {
            answers: [Answer::default(); 2],
            times: [Duration::MAX; 2],
            different: false,
        };
        let start = Instant::now();
        let mut rounds = 0;
        while rounds < self.rounds || start.elapsed() < LEAST {
            rounds += 1;
            // Cleared in every round, so that no sheet of an earlier one can pass.
            let mut sheets = [[0; SHEET_MAX]; 2];
            for (i, planner) in planners.into_iter().enumerate() {
                let (answer, time) = self.time(planner, book, &mut sheets[i]);
                timing.answers[i] = answer;
                timing.times[i] = timing.times[i].min(time);
            }
            timing.different |= timing.answers[0] != timing.answers[1] || sheets[0] != sheets[1];
        }
        timing
    }

    fn time(&mut self, plan: Planner, book: &[u8], sheet: &mut [u8]) -> (Answer, Duration) {
        let start = Instant::now();
        let answer = plan(book, &mut self.work, sheet);
        (answer, start.elapsed())
    }

    /// Measures and prints.
    fn row(&mut self, name: &str, book: &[u8]) {
        let timing = self.measure(book, BOTH);
        self.different |= timing.different;
        let (cells, trials) = sizes(book, timing.answers[0]);
        let [ours, rust] = timing.times.map(|time| time.as_secs_f64());
        println!(
            "{name:<28}{cells:>9}{trials:>11}{:>11.3}{:>11.3}{:>11.2}{:>12.2}{:>11.2}{}",
            ours * 1e3,
            rust * 1e3,
            ours / rust,
            ours * 1e9 / trials as f64,
            ours * 1e9 / cells as f64,
            if timing.different { "  DIFFERENT" } else { "" }
        );
    }

    /// Measures the strict planner beside the planner, and prints. Their sheets may differ.
    fn strict_row(&mut self, name: &str, book: &[u8]) {
        let timing = self.measure(book, [plan, plan_strict]);
        let (cells, trials) = sizes(book, timing.answers[0]);
        let [plain, strict] = timing.times.map(|time| time.as_secs_f64());
        println!(
            "{name:<28}{cells:>9}{trials:>11}{:>12.3}{:>11.3}{:>16.2}{:>8}",
            plain * 1e3,
            strict * 1e3,
            strict / plain,
            timing.answers[1].number
        );
    }
}

/// The cells and the trials of a book. A book that is refused has no trials in its answer, so the budget stands for them.
fn sizes(book: &[u8], answer: Answer) -> (u128, u64) {
    let case = Case::new(book.to_vec());
    let trials = match answer.number {
        0 => answer.trials,
        _ => case.book.as_ref().map_or(0, |book| book.budget),
    };
    (case.cells(), trials)
}

/// The book with other digits at a place of its header.
fn with_digits(book: &[u8], at: usize, digits: &str) -> Vec<u8> {
    let mut book = book.to_vec();
    book[at..at + digits.len()].copy_from_slice(digits.as_bytes());
    book
}

fn with_fineness(book: &[u8], fineness: u64) -> Vec<u8> {
    with_digits(book, 6, &format!("{fineness:02X}"))
}

fn with_budget(book: &[u8], budget: u64) -> Vec<u8> {
    with_digits(book, 8, &format!("{budget:08X}"))
}

/// The book, of one slot, with its first loads only; those after them have one level that draws nothing.
fn with_idle_loads(book: &[u8], loads: usize) -> Vec<u8> {
    let lines = book.split_inclusive(|&byte| byte == b'\n');
    let kept = |(k, line): (usize, &[u8])| match k {
        k if k <= loads => line.to_vec(),
        _ => b"0201000000000000\n".to_vec(),
    };
    lines.enumerate().flat_map(kept).collect()
}
