//! M-102: on the way from a book that is read to the start of the search, on which every Q gets its grid value, the planner
//! executes the same instructions for Q and for -Q. Callgrind counts how often each instruction of each call of the program
//! `signs` is executed, and the two counts are compared book by book.

use harness::project;
use harness::trials::{Trials, Verdict};
use std::collections::BTreeMap;
use std::path::Path;
use std::process::{Command, ExitCode};
use std::thread;

const CALLGRIND: [&str; 6] = [
    "--command-line-only=yes",
    "--tool=callgrind",
    "--dump-instr=yes",
    "--compress-strings=no",
    "--compress-pos=no",
    "--dump-after=jadeshuttle_plan",
];

fn main() -> ExitCode {
    let mut trials = Trials::from_arguments();
    let scratch = project::scratch(env!("CARGO_TARGET_TMPDIR"), "signs");
    match sample(&scratch) {
        Ok(sample) => sample.check(&mut trials),
        Err(wrong) => trials.fail("the sample under callgrind", &wrong),
    }
    trials.finish()
}

/// The crates of the reader, on whose way the digits of Q and of -Q differ.
const READER: [&str; 4] = ["hexadecimal", "header", "loadline", "book"];

/// The crates that both ways share.
const SHARED: [&str; 1] = ["model"];

/// The functions of that way, of which the compiler makes one or more: those of every crate but the reader's and the shared ones.
fn of_planner(function: &str, crates: &[String]) -> bool {
    let apart = |name: &str| READER.contains(&name) || SHARED.contains(&name);
    function == "jadeshuttle_plan" || crate_of(function, crates).is_some_and(|name| !apart(name))
}

/// Those of the reader before it.
fn of_reader(function: &str, crates: &[String]) -> bool {
    crate_of(function, crates).is_some_and(|name| READER.contains(&name))
}

fn crate_of<'a>(function: &'a str, crates: &[String]) -> Option<&'a str> {
    let (name, _) = function.split_once("::")?;
    crates.iter().any(|known| known == name).then_some(name)
}

/// How often each instruction was executed, by its address.
type Counts = BTreeMap<String, u64>;

/// The planner's counts of a book with Q and with -Q, and whether the reader's differ.
struct Planned {
    with: Counts,
    against: Counts,
    read_otherwise: bool,
}

struct Sample {
    size: String,
    books: Vec<Planned>,
}

/// Runs the sample with Q and with -Q, at the same time, and reads the profiles that each run left.
fn sample(scratch: &Path) -> Result<Sample, String> {
    let (plus, minus) = thread::scope(|scope| {
        let plus = scope.spawn(|| run(scratch, "plus"));
        let minus = run(scratch, "minus");
        (plus.join().expect("the run ends"), minus)
    });
    let (size, other) = (plus?, minus?);
    if size != other {
        return Err(format!("the two runs are of different samples\n- {size}\n+ {other}"));
    }
    let books = size.split(' ').next().and_then(|count| count.parse().ok());
    let books = 1..=books.ok_or(format!("no number of books: {size}"))?;
    let crates = project::names("crates")?;
    let books: Result<_, String> = books.map(|book| planned(scratch, book, &crates)).collect();
    Ok(Sample { size, books: books? })
}

/// What the program prints of its sample; callgrind leaves one profile for each call.
fn run(scratch: &Path, sign: &str) -> Result<String, String> {
    let mut command = Command::new("valgrind");
    let profiles = scratch.join(sign);
    command
        .args(CALLGRIND)
        .arg(format!("--callgrind-out-file={}", profiles.display()));
    let output = project::output(command.args([env!("CARGO_BIN_EXE_signs"), sign]))?;
    let printed = String::from_utf8_lossy(&output.stdout).trim_end().to_string();
    match output.status.success() {
        true => Ok(printed),
        false => Err(format!(
            "signs {sign}: {printed}\n{}",
            String::from_utf8_lossy(&output.stderr)
        )),
    }
}

fn planned(scratch: &Path, book: usize, crates: &[String]) -> Result<Planned, String> {
    let plus = project::text(scratch.join(format!("plus.{book}")))?;
    let minus = project::text(scratch.join(format!("minus.{book}")))?;
    let planner = |function: &str| of_planner(function, crates);
    let reader = |function: &str| of_reader(function, crates);
    Ok(Planned {
        with: own(&plus, planner)?,
        against: own(&minus, planner)?,
        read_otherwise: own(&plus, reader)? != own(&minus, reader)?,
    })
}

/// The own instructions of these functions. The costs of what a function calls follow lines that begin with `calls=` and are
/// not its own.
fn own(profile: &str, counted: impl Fn(&str) -> bool) -> Result<Counts, String> {
    let mut counts = Counts::new();
    let mut inside = false;
    let mut lines = profile.lines();
    while let Some(line) = lines.next() {
        if let Some(function) = line.strip_prefix("fn=") {
            inside = counted(function);
        } else if line.starts_with("calls=") {
            lines.next();
        } else if inside && line.starts_with("0x") {
            let columns: Vec<&str> = line.split(' ').collect();
            let count = columns.get(2).and_then(|count| count.parse::<u64>().ok());
            *counts.entry(columns[0].to_string()).or_default() += count.ok_or(format!("no count: {line}"))?;
        }
    }
    Ok(counts)
}

impl Sample {
    fn check(&self, trials: &mut Trials) {
        for (planned, book) in self.books.iter().zip(1..) {
            trials.check(&format!("book {book} for Q and for -Q"), || planned.check());
        }
        let totals = || self.books.iter().map(|planned| total(&planned.with));
        let (least, most) = (totals().min().unwrap_or(0), totals().max().unwrap_or(0));
        // If only what is the same for every book were counted, all counts would be equal.
        trials.check("books differ in their counts", || {
            (least < most).then_some(()).ok_or(format!("all have the count {most}"))
        });
        // The reader reads other digits for -Q; if it executed the same instructions, the runs would not be of Q and of -Q.
        trials.check("the reader executes other instructions for -Q", || {
            let (calls, read) = (
                self.books.len(),
                self.books.iter().filter(|planned| planned.read_otherwise).count(),
            );
            let all = read == calls && calls > 0;
            all.then_some(()).ok_or(format!("in only {read} of {calls} calls"))
        });
        println!("{}; {least} to {most} instructions a call before the search", self.size);
    }
}

impl Planned {
    fn check(&self) -> Verdict {
        let (with, against) = (total(&self.with), total(&self.against));
        match self.with == self.against {
            _ if with == 0 => Err("no instruction of the planner was counted".into()),
            true => Ok(()),
            false => Err(format!("{with} instructions with Q, {against} with -Q")),
        }
    }
}

fn total(counts: &Counts) -> u64 {
    counts.values().sum()
}
