//! The project's files and commands, for the tests in `tests/`. A path is named from the project's folder.

use crate::trials::{Trials, Verdict};
use std::fs;
use std::path::{Path, PathBuf};
use std::process::{Command, Output, Stdio};

/// The archive that the harness is linked with.
pub const ARCHIVE: &str = env!("JADESHUTTLE_ARCHIVE");

pub fn folder() -> &'static Path {
    let harness = Path::new(env!("CARGO_MANIFEST_DIR"));
    harness.parent().expect("the harness is a folder of the project")
}

/// Whether all of these files are there; a failure for each that is not.
pub fn has(trials: &mut Trials, files: &[&str]) -> bool {
    for file in files.iter().filter(|file| !folder().join(file).is_file()) {
        trials.fail(file, "is missing");
    }
    trials.all_passed()
}

pub fn bytes(path: impl AsRef<Path>) -> Result<Vec<u8>, String> {
    let path = path.as_ref();
    fs::read(folder().join(path)).map_err(|error| format!("{}: {error}", path.display()))
}

pub fn text(path: impl AsRef<Path>) -> Result<String, String> {
    let path = path.as_ref();
    String::from_utf8(bytes(path)?).map_err(|error| format!("{}: {error}", path.display()))
}

/// The files of a folder whose names end like this, in order; at least one.
pub fn files(path: &str, end: &str) -> Result<Vec<String>, String> {
    let mut names = names(path)?;
    names.retain(|name| name.ends_with(end));
    match names.is_empty() {
        true => Err(format!("{path} has no file *{end}")),
        false => Ok(names.iter().map(|name| format!("{path}/{name}")).collect()),
    }
}

/// What a folder holds, in order.
pub fn names(path: &str) -> Result<Vec<String>, String> {
    let wrong = |error| format!("{path}: {error}");
    let entries = fs::read_dir(folder().join(path)).map_err(wrong)?;
    let names = entries.map(|entry| Ok(entry.map_err(wrong)?.file_name().to_string_lossy().into_owned()));
    let mut names: Vec<String> = names.collect::<Result<_, String>>()?;
    names.sort();
    Ok(names)
}

/// An empty folder for what a test writes; `within` is cargo's folder for that.
pub fn scratch(within: &str, name: &str) -> PathBuf {
    let path = Path::new(within).join(name);
    let _ = fs::remove_dir_all(&path);
    fs::create_dir_all(&path).unwrap_or_else(|error| panic!("{}: {error}", path.display()));
    path
}

pub fn write(path: &Path, text: &str) -> Verdict {
    fs::write(path, text).map_err(|error| format!("{}: {error}", path.display()))
}

/// What becomes of a command, run in the project's folder with nothing to read.
pub fn output(command: &mut Command) -> Result<Output, String> {
    let command = command.current_dir(folder()).env("LC_ALL", "C").stdin(Stdio::null());
    let output = command.output();
    output.map_err(|error| format!("{}: {error}", command.get_program().to_string_lossy()))
}

/// Whether a command succeeds, and all that it prints.
pub fn run(command: &mut Command) -> Result<(bool, Vec<u8>), String> {
    let output = output(command)?;
    Ok((output.status.success(), [output.stdout, output.stderr].concat()))
}

/// The command succeeds and prints nothing.
pub fn silent(command: &mut Command) -> Verdict {
    match run(command)? {
        (true, printed) if printed.is_empty() => Ok(()),
        (_, printed) => Err(format!("{command:?}\n{}", String::from_utf8_lossy(&printed))),
    }
}

/// What is has the bytes that it should have; else the lines that differ: - as it should be, + as it is.
pub fn same(want: impl AsRef<[u8]>, got: impl AsRef<[u8]>) -> Verdict {
    let (want, got) = (want.as_ref(), got.as_ref());
    if want == got {
        return Ok(());
    }
    let (want, got) = (String::from_utf8_lossy(want), String::from_utf8_lossy(got));
    let (want, got): (Vec<&str>, Vec<&str>) = (want.lines().collect(), got.lines().collect());
    let mut wrong = Vec::new();
    for i in 0..want.len().max(got.len()) {
        if want.get(i) != got.get(i) {
            wrong.extend(want.get(i).map(|line| format!("- {line}")));
            wrong.extend(got.get(i).map(|line| format!("+ {line}")));
        }
    }
    if wrong.is_empty() {
        wrong.push("the lines agree, but not the bytes: the end of a line, or a byte that is no text".into());
    }
    Err(wrong.join("\n"))
}
