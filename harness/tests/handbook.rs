//! The handbook: runs and compares what `docs/HANDBOOK.md` shows, computes its tables anew, and looks for what it names: its
//! examples, its worked books in the proved table, and its paths.

#[path = "handbook/tables.rs"]
mod tables;

use harness::project::{self, same};
use harness::reference::Case;
use harness::trials::{Trials, Verdict};
use harness::Answer;
use std::process::{Command, ExitCode};
use tables::TABLES;

const HANDBOOK: &str = "docs/HANDBOOK.md";
const PROVED_TABLE: &str = "crates/model/proofs/AcceptanceTable.antt";

/// Books of which the handbook says that what the planner and the quick planner answer is proved.
const PROVED_BOOKS: [&str; 6] = [
    "examples/heaters.book",
    "examples/warm.book",
    "examples/refused/17-no-plan.book",
    "examples/store.book",
    "examples/fans.book",
    "examples/bank.book",
];

/// Books of which the handbook says that what the planner and the strict planner answer is proved.
const PROVED_STRICTLY: [&str; 2] = ["examples/close.book", "examples/step.book"];

/// Two books and their pooled book, of which the handbook says that this, and what the planner answers to each, is proved.
const PROVED_POOLED: [&str; 3] = ["examples/north.book", "examples/south.book", "examples/joint.book"];

/// The words that the proved table lends the strict planner, and the planner for a pooled book; and the bytes that it lends both.
const WORDS: usize = 6_144;
const MORE_WORDS: usize = 65_536;
const ROOM: usize = 4_096;

/// Folders of the project whose files the handbook names.
const FOLDERS: [&str; 6] = [".ci/", "crates/", "docs/", "examples/", "harness/", "include/"];

fn main() -> ExitCode {
    let mut trials = Trials::from_arguments();
    let needed = ["target/staticlib/libjadeshuttle.a", "target/bin/loadplan", HANDBOOK];
    if project::has(&mut trials, &needed) {
        read(&mut trials).unwrap_or_else(|wrong| trials.fail(HANDBOOK, &wrong));
    }
    trials.finish()
}

fn read(trials: &mut Trials) -> Verdict {
    let handbook = project::text(HANDBOOK)?;
    let (blocks, prose) = blocks(&handbook)?;
    for block in &blocks {
        trials.check(&format!("{HANDBOOK}:{}: {}", block.line, block.title()), || {
            block.check()
        });
    }
    for table in &TABLES {
        trials.check(&format!("{HANDBOOK}: table of {} computed anew", table.name), || {
            let (want, got) = table.rows(&prose)?;
            same(want, got)
        });
    }
    for end in [".book", ".sheet", ".books", ".sheets"] {
        for file in project::files("examples", end)? {
            trials.check(&format!("{file} is used"), || used(&file, &blocks));
        }
    }
    proved_rows(trials);
    trials.check(&format!("{HANDBOOK} names no path that is missing"), || {
        paths(&handbook)
    });
    Ok(())
}

/// The worked books are rows of the proved table.
fn proved_rows(trials: &mut Trials) {
    trials.check("examples/close.book is a row of the proved table", proved_overload);
    for book in PROVED_BOOKS {
        trials.check(&format!("{book} is a row of the proved table"), || proved_print(book));
        trials.check(&format!("{book} is a row of the proved table, planned quickly"), || {
            proved_quick(book)
        });
    }
    for book in PROVED_STRICTLY {
        trials.check(&format!("{book} is a row of the proved table"), || proved_print(book));
        trials.check(
            &format!("{book} is a row of the proved table, planned strictly"),
            || proved_strict(book),
        );
    }
    let [first, second, pooled] = PROVED_POOLED;
    for book in [first, second] {
        trials.check(&format!("{book} is a row of the proved table"), || proved_print(book));
    }
    trials.check(&format!("{pooled} is a row of the proved table"), || {
        proved_plan(pooled)
    });
    trials.check("the pooled book is a row of the proved table", proved_pool);
}

// ---- blocks

/// A block between fences: the fence's line and what stands on it, and the lines within.
struct Block<'a> {
    line: usize,
    info: &'a str,
    rows: Vec<&'a str>,
}

/// The blocks, and the lines outside them.
fn blocks(handbook: &str) -> Result<(Vec<Block<'_>>, Vec<&str>), String> {
    let (mut blocks, mut prose, mut open) = (Vec::new(), Vec::new(), None::<Block>);
    for (text, line) in handbook.lines().zip(1..) {
        open = match (open, text.strip_prefix("```")) {
            (None, None) => {
                prose.push(text);
                None
            }
            (None, Some(info)) => Some(Block {
                line,
                info,
                rows: Vec::new(),
            }),
            (Some(mut block), None) => {
                block.rows.push(text);
                Some(block)
            }
            (Some(block), Some(_)) => {
                blocks.push(block);
                None
            }
        };
    }
    match open {
        Some(block) => Err(format!("the block at line {} has no end", block.line)),
        None => Ok((blocks, prose)),
    }
}

impl Block<'_> {
    /// The command on the first line; the rest is what it prints.
    fn command(&self) -> Option<&str> {
        self.rows.first()?.strip_prefix("$ ")
    }

    /// The file whose digits the block has.
    fn file(&self) -> Option<&str> {
        self.info
            .strip_prefix("text ")
            .filter(|file| file.starts_with("examples/"))
    }

    fn title(&self) -> String {
        match (self.command(), self.file()) {
            (Some(command), _) => format!("$ {command}"),
            (None, Some(file)) => format!("digits of {file}"),
            (None, None) => "a block".into(),
        }
    }

    /// There is no block that nothing tests.
    fn check(&self) -> Verdict {
        match (self.command(), self.file()) {
            (Some(command), _) => {
                let want: String = self.rows[1..].iter().map(|row| format!("{row}\n")).collect();
                // Both outputs as one, in the order of their writing.
                let (_, printed) = project::run(Command::new("bash").args(["-c", &format!("exec 2>&1; {command}")]))?;
                same(want, printed)
            }
            (None, Some(file)) => same(self.digits(), project::bytes(file)?),
            (None, None) => Err("neither a command nor the digits of a file".into()),
        }
    }

    /// Each row has digits, a bar and words. A row that does not begin with a blank begins a line.
    fn digits(&self) -> String {
        let mut text = String::new();
        for row in &self.rows {
            if !text.is_empty() && !row.starts_with(' ') {
                text.push('\n');
            }
            let digits = row.split('|').next().unwrap_or(row);
            text.extend(digits.chars().filter(|&digit| digit != ' '));
        }
        text + "\n"
    }
}

// ---- what is named

/// Some command has the file as a word.
fn used(file: &str, blocks: &[Block]) -> Verdict {
    let mut commands = blocks.iter().filter_map(Block::command);
    let used = commands.any(|command| command.split([' ', ';']).any(|word| word == file));
    used.then_some(()).ok_or(format!("no command of {HANDBOOK} uses it"))
}

/// The book of the worked line stands with its sheet in the proved table.
fn proved_overload() -> Verdict {
    let [book, sheet] = ["examples/close.book", "examples/close.sheet"].map(project::text);
    let row = format!("overloads {}\n    {}", quoted(&book?), quoted(&sheet?));
    proved(&[row])
}

/// A row by the book's name has what the program prints.
fn proved_print(book: &str) -> Verdict {
    let name = name_of(book)?;
    let command = format!("target/bin/loadplan < {book}");
    let (_, printed) = project::run(Command::new("bash").args(["-c", &command]))?;
    let printed = quoted(&String::from_utf8_lossy(&printed));
    proved(&[format!("prints {name} {printed}\n")])
}

/// A row by the book's name has what the program would print of the quick planner's answer, or that and the answer's numbers,
/// in a buffer that is just long enough.
fn proved_quick(book: &str) -> Verdict {
    let (name, text) = (name_of(book)?, project::bytes(book)?);
    let mut sheet = vec![0; Case::new(text.clone()).sheet_bytes()];
    let answer = harness::quick(&text, &mut sheet);
    let (numbers, printed) = shown(answer, &sheet);
    let room = sheet.len();
    proved(&[
        format!("quick_prints {name} {printed}\n"),
        format!("shows quick_in (bytes_of {name}) [] {room} {numbers} {printed}\n"),
    ])
}

/// A row by the book's name has the numbers of the strict planner's answer, and what the program would print of it.
fn proved_strict(book: &str) -> Verdict {
    let (name, text) = (name_of(book)?, project::bytes(book)?);
    let mut sheet = [0; ROOM];
    let answer = harness::plan_strict(&text, &mut [0; WORDS], &mut sheet);
    let (numbers, printed) = shown(answer, &sheet);
    proved(&[format!("strictly {name} {numbers} {printed}\n")])
}

/// A row by the book's name has the planner's answer, its numbers and what the program would print of it.
fn proved_plan(book: &str) -> Verdict {
    let (name, text) = (name_of(book)?, project::bytes(book)?);
    let mut sheet = [0; ROOM];
    let answer = harness::plan(&text, &mut vec![0; MORE_WORDS], &mut sheet);
    let (numbers, printed) = shown(answer, &sheet);
    proved(&[format!("plans {name} {numbers} {printed}\n")])
}

/// A row by the books' names has the pooled book.
fn proved_pool() -> Verdict {
    let [first, second, pooled] = PROVED_POOLED.map(name_of);
    proved(&[format!("pools {} {} {}\n", first?, second?, pooled?)])
}

/// An answer's numbers as a list, and what the program would print of it, as the proved table has both.
fn shown(answer: Answer, sheet: &[u8]) -> (String, String) {
    let numbers = [answer.number, answer.line, answer.bytes, answer.worth, answer.trials];
    let numbers: String = numbers.iter().map(|number| format!("{number} ∷ ")).collect();
    let printed = match answer.number {
        0 => String::from_utf8_lossy(&sheet[..answer.bytes as usize]).into_owned(),
        number => format!("FF{number:02X}{:04X}\n", answer.line),
    };
    (format!("({numbers}[])"), quoted(&printed))
}

/// The name that the proved table has for the book.
fn name_of(book: &str) -> Result<String, String> {
    let table = project::text(PROVED_TABLE)?;
    let text = quoted(&project::text(book)?);
    let name = table
        .lines()
        .find_map(|line| line.strip_suffix(&text)?.strip_suffix(" = "));
    name.map(str::to_string)
        .ok_or(format!("{PROVED_TABLE} has no name for\n{text}"))
}

/// A text as the proved table has it.
fn quoted(text: &str) -> String {
    format!("\"{}\"", text.replace('\n', "\\n"))
}

/// The proved table has one of these rows.
fn proved(rows: &[String]) -> Verdict {
    let table = project::text(PROVED_TABLE)?;
    let found = rows.iter().any(|row| table.contains(row));
    let rows = rows.join("or\n");
    found.then_some(()).ok_or(format!("{PROVED_TABLE} has no row\n{rows}"))
}

/// Each path of the project that is named exists.
fn paths(handbook: &str) -> Verdict {
    let in_path = |c: char| c.is_ascii_alphanumeric() || "_./-".contains(c);
    let is_path = |word: &&str| FOLDERS.iter().any(|folder| word.starts_with(folder)) && word.chars().all(in_path);
    let named = handbook.lines().flat_map(|line| line.split('`')).filter(is_path);
    let missing: Vec<&str> = named.filter(|path| !project::folder().join(path).exists()).collect();
    match missing.is_empty() {
        true => Ok(()),
        false => Err(format!("missing: {}", missing.join(", "))),
    }
}
