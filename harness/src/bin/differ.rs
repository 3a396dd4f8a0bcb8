//! Compares the archive with the reference on many inputs: `differ [SEED [INPUTS]]`, or `differ --self-check`.

use harness::kinds::{self, KINDS};
use harness::self_check;
use harness::session::Session;
use std::process::ExitCode;

const SEED: u64 = 1;
const INPUTS: u64 = 200_000;

fn main() -> ExitCode {
    let arguments: Vec<String> = std::env::args().skip(1).collect();
    let numbers: Option<Vec<u64>> = arguments.iter().map(|word| word.parse().ok()).collect();
    match (arguments.as_slice(), numbers.as_deref()) {
        ([word], _) if word == "--self-check" => check_self(),
        (_, Some([])) => compare(SEED, INPUTS),
        (_, Some(&[seed])) => compare(seed, INPUTS),
        (_, Some(&[seed, inputs])) => compare(seed, inputs),
        _ => {
            eprintln!("usage: differ [SEED [INPUTS]] | differ --self-check");
            ExitCode::from(2)
        }
    }
}

fn compare(seed: u64, inputs: u64) -> ExitCode {
    println!("seed {seed}\n");
    let mut session = Session::new(seed, |_| ());
    let by_kind = kinds::run(&mut session, inputs);
    println!("{:<26}{:>10}", "kind", "inputs");
    for (kind, count) in KINDS.iter().zip(by_kind) {
        println!("{:<26}{count:>10}", kind.name);
    }
    println!("\n{}\n", session.refusal_table());
    for difference in &session.differences {
        println!("DIFFERENT: {difference}\n");
    }
    finish(session.passed, session.failed)
}

fn check_self() -> ExitCode {
    let checks = self_check::run();
    finish(checks.passed, checks.failed)
}

fn finish(passed: u64, failed: u64) -> ExitCode {
    println!("{passed} passed, {failed} failed");
    ExitCode::from(u8::from(failed > 0))
}
