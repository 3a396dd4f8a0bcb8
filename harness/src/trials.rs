//! Runs named checks as `cargo test` runs its own tests, and counts each of them: for the tests in `tests/`, which do without
//! libtest. Words on the command line choose the checks whose names contain one of them.

use std::env;
use std::process::ExitCode;
use std::time::Instant;

/// What a check found: nothing wrong, or what is wrong.
pub type Verdict = Result<(), String>;

pub struct Trials {
    start: Instant,
    words: Vec<String>,
    passed: usize,
    failed: usize,
    filtered_out: usize,
}

impl Trials {
    /// Options are for libtest, and are passed over.
    pub fn from_arguments() -> Trials {
        let words = env::args().skip(1).filter(|word| !word.starts_with('-'));
        Trials {
            start: Instant::now(),
            words: words.collect(),
            passed: 0,
            failed: 0,
            filtered_out: 0,
        }
    }

    /// Makes a check, if its name was chosen.
    pub fn check(&mut self, name: &str, check: impl FnOnce() -> Verdict) {
        if !self.words.is_empty() && !self.words.iter().any(|word| name.contains(word)) {
            self.filtered_out += 1;
            return;
        }
        match check() {
            Ok(()) => {
                println!("test {name} ... ok");
                self.passed += 1;
            }
            Err(wrong) => self.fail(name, &wrong),
        }
    }

    /// A failure, whatever was chosen: what the checks need is not there.
    pub fn fail(&mut self, name: &str, wrong: &str) {
        println!("test {name} ... FAILED");
        for line in wrong.lines() {
            println!("    {line}");
        }
        self.failed += 1;
    }

    pub fn all_passed(&self) -> bool {
        self.failed == 0
    }

    /// Prints the counts in libtest's form. No check at all is a failure.
    pub fn finish(mut self) -> ExitCode {
        if self.passed + self.failed + self.filtered_out == 0 {
            self.fail("some check is made", "there was none");
        }
        println!(
            "\ntest result: {}. {} passed; {} failed; 0 ignored; 0 measured; {} filtered out; finished in {:.2}s\n",
            if self.all_passed() { "ok" } else { "FAILED" },
            self.passed,
            self.failed,
            self.filtered_out,
            self.start.elapsed().as_secs_f64()
        );
        ExitCode::from(if self.all_passed() { 0 } else { 101 })
    }
}
