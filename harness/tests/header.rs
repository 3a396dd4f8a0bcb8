//! The C header and the examples: compares `include/jadeshuttle.h` with the Rattle source, compiles it and the examples as C99
//! and as C++17, plans every example's book and day, and pools the books of two mills.

use harness::abi::{self, Call, Parsed, Source, Struct, Type};
use harness::project::{self, same, silent};
use harness::trials::{Trials, Verdict};
use std::path::{Path, PathBuf};
use std::process::{Command, ExitCode};

const HEADER: &str = "include/jadeshuttle.h";

/// How the names of files end that are planned, and of what comes of them; and the example that does it.
const PLANNED: [(&str, &str, &str); 2] = [
    (".book", ".sheet", "examples/plan.c"),
    (".books", ".sheets", "examples/day.cpp"),
];

/// How the names of the strict planner's sheets end, and of their books; and the example's word for that planner.
const STRICT: (&str, &str, &str, &str) = ("-strict.sheet", ".book", "examples/plan.c", "-s");

/// The books of two mills, their pooled book, and the example that pools them.
const POOLED: [&str; 4] = [
    "examples/north.book",
    "examples/south.book",
    "examples/joint.book",
    "examples/pool.cpp",
];

/// What the archive takes of the C library, as the header says: names alone, to be linked with and not run.
const TAKEN: &str = "#include <stddef.h>
void *memcpy(void *to, const void *from, size_t n) { (void)from; (void)n; return to; }
void *memset(void *to, int byte, size_t n) { (void)byte; (void)n; return to; }
";

const WARNINGS: [&str; 6] = ["-pedantic", "-Wall", "-Wextra", "-Werror", "-O2", "-Iinclude"];

fn main() -> ExitCode {
    let mut trials = Trials::from_arguments();
    if project::has(&mut trials, &[project::ARCHIVE, HEADER]) {
        let scratch = project::scratch(env!("CARGO_TARGET_TMPDIR"), "header");
        declarations(&mut trials, &scratch);
        compilers(&mut trials, &scratch);
        examples(&mut trials, &scratch).unwrap_or_else(|wrong| trials.fail("examples", &wrong));
    }
    trials.finish()
}

/// What the header declares is what the source has.
fn declarations(trials: &mut Trials, scratch: &Path) {
    trials.check("the header declares the calls of the Rattle source", || {
        same(source_calls()?, header_calls(&header_text()?))
    });
    trials.check("the header's types are those of the Rattle source", || {
        let file = scratch.join("types.c");
        project::write(&file, &types()?)?;
        silent(c99().arg("-fsyntax-only").arg(&file))
    });
    trials.check("the header's refusals are those of the Rattle source", || {
        same(source_numbers()?, header_numbers(&header_text()?))
    });
    trials.check("the header's bounds are those of the Rattle source", || {
        same(source_bounds()?, header_bounds(&header_text()?))
    });
}

// ---- the Rattle source, as the header should have it

fn source_calls() -> Parsed<String> {
    let calls = abi::calls(&Source::calls(project::folder())?)?;
    Ok(calls.iter().map(|call| c_function(call, &call.name) + ";\n").collect())
}

/// A declaration of something that takes and gives what the call does.
fn c_function(call: &Call, declared: &str) -> String {
    let arguments: Vec<String> = call
        .arguments
        .iter()
        .map(|(name, given)| c_argument(name, *given))
        .collect();
    let arguments = if arguments.is_empty() {
        "void".into()
    } else {
        arguments.join(", ")
    };
    format!("{}{declared}({arguments})", c_declared(call.answer))
}

fn c_argument(name: &str, given: Type) -> String {
    let length = match given {
        Type::Slice { .. } => format!(", size_t {name}_len"),
        _ => String::new(),
    };
    format!("{}{name}{length}", c_declared(given))
}

/// What stands before a name of this type.
fn c_declared(given: Type) -> String {
    match given {
        Type::Number(number) => format!("{} ", number.c),
        Type::Struct(known) => format!("{} ", known.c),
        Type::Slice { of, written: true } => format!("{} *", of.c),
        Type::Slice { of, written: false } => format!("const {} *", of.c),
    }
}

/// A C file that compiles only where the header's functions and structs have the source's types.
fn types() -> Parsed<String> {
    let model = Source::model(project::folder())?;
    let calls = abi::calls(&Source::calls(project::folder())?)?;
    let mut text = String::from("#include \"jadeshuttle.h\"\n");
    for call in &calls {
        let pointer = format!("(*type_of_{})", call.name);
        text += &format!("{} = {};\n", c_function(call, &pointer), call.name);
    }
    for known in abi::structs(&calls) {
        text += &c_fields(&known, &abi::fields(&model, known.rattle)?);
    }
    Ok(text)
}

/// Each field is at its place and a uint64_t, and there is no other.
fn c_fields(known: &Struct, fields: &[String]) -> String {
    let name = known.c;
    let mut text = format!("{name} a_{name};\n");
    for (field, place) in fields.iter().zip((0..).step_by(8)) {
        text += &format!("typedef char place_of_{name}_{field}[offsetof({name}, {field}) == {place} ? 1 : -1];\n");
        text += &format!("uint64_t *type_of_{name}_{field} = &a_{name}.{field};\n");
    }
    let size = 8 * fields.len();
    text + &format!("typedef char size_of_{name}[sizeof({name}) == {size} ? 1 : -1];\n")
}

/// Success, and the refusals with their numbers.
fn source_numbers() -> Parsed<String> {
    let refusals = abi::refusals(&Source::model(project::folder())?)?;
    let numbers = refusals
        .iter()
        .map(|(name, number)| format!("{} = {number}\n", c_constant(name)));
    Ok("JADESHUTTLE_SUCCESS = 0\n".to_string() + &numbers.collect::<String>())
}

/// JADESHUTTLE_NOT_HEX for NotHex.
fn c_constant(name: &str) -> String {
    let mut constant = String::from("JADESHUTTLE");
    for letter in name.chars() {
        if letter.is_ascii_uppercase() {
            constant.push('_');
        }
        constant.push(letter.to_ascii_uppercase());
    }
    constant
}

fn source_bounds() -> Parsed<String> {
    let sizes = abi::sizes(&Source::model(project::folder())?)?;
    Ok(sizes
        .iter()
        .map(|(name, value)| format!("JADESHUTTLE_{name} {value}\n"))
        .collect())
}

// ---- the header

/// The header without its comments.
fn header_text() -> Parsed<String> {
    let mut text = project::text(HEADER)?;
    while let Some(start) = text.find("/*") {
        let length = text[start..].find("*/").ok_or("a comment of the header has no end")?;
        text.replace_range(start..start + length + 2, " ");
    }
    Ok(text)
}

/// The declarations of functions, each in one line.
fn header_calls(text: &str) -> String {
    let mut calls = String::new();
    let mut open = false;
    for line in text.lines() {
        if open || (line.starts_with(|c: char| c.is_ascii_lowercase()) && line.contains('(')) {
            calls += if open { " " } else { "" };
            calls += line.trim();
            open = !line.trim_end().ends_with(';');
            calls += if open { "" } else { "\n" };
        }
    }
    calls
}

/// The constants of the enums, each in one line.
fn header_numbers(text: &str) -> String {
    let enums = text.split("enum").skip(1);
    let bodies = enums.filter_map(|text| text.split_once('{')?.1.split_once('}'));
    let constants = bodies.flat_map(|(body, _)| body.split(',')).map(words);
    let constants = constants.filter(|constant| !constant.is_empty());
    constants.map(|constant| constant + "\n").collect()
}

/// The macros that have a value, each in one line.
fn header_bounds(text: &str) -> String {
    let macros = text.lines().filter_map(|line| {
        let line = line.trim_start().strip_prefix('#')?;
        line.trim_start().strip_prefix("define").map(words)
    });
    let bounds = macros.filter(|bound| bound.contains(' '));
    bounds.map(|bound| bound + "\n").collect()
}

/// With one blank between words.
fn words(text: &str) -> String {
    text.split_whitespace().collect::<Vec<_>>().join(" ")
}

// ---- the compilers and the examples

fn c99() -> Command {
    let mut command = Command::new("cc");
    command.arg("-std=c99").args(WARNINGS);
    command
}

fn cpp17() -> Command {
    let mut command = Command::new("c++");
    command.arg("-std=c++17").args(WARNINGS);
    command
}

fn compilers(trials: &mut Trials, scratch: &Path) {
    let alone = scratch.join("alone.h");
    let twice = "#include \"jadeshuttle.h\"\n#include \"jadeshuttle.h\"\n";
    if let Err(wrong) = project::write(&alone, twice) {
        trials.fail("header alone", &wrong);
    }
    trials.check("header alone as C99", || {
        silent(c99().args(["-fsyntax-only", "-x", "c"]).arg(&alone))
    });
    trials.check("header alone as C++17", || {
        silent(cpp17().args(["-fsyntax-only", "-x", "c++"]).arg(&alone))
    });
    trials.check("plan.c as C++17", || {
        silent(cpp17().args(["-fsyntax-only", "-x", "c++", "examples/plan.c"]))
    });
    trials.check("the archive takes memcpy and memset alone", || {
        let taken = scratch.join("taken.c");
        project::write(&taken, TAKEN)?;
        let mut linked = c99();
        linked.args(["-ffreestanding", "-nostdlib", "-shared", "-fPIC", "-Wl,--no-undefined"]);
        linked
            .arg(&taken)
            .args(["-Wl,--whole-archive", project::ARCHIVE, "-Wl,--no-whole-archive"]);
        silent(linked.arg("-o").arg(scratch.join("taken.so")))
    });
}

fn examples(trials: &mut Trials, scratch: &Path) -> Verdict {
    let sources = [project::files("examples", ".c")?, project::files("examples", ".cpp")?];
    for source in sources.concat() {
        let name = source.trim_start_matches("examples/");
        trials.check(&format!("{name} compiles"), || build(&source, scratch).map(drop));
    }
    for (from, to, source) in PLANNED {
        for file in project::files("examples", from)? {
            let due = file.replace(from, to);
            trials.check(&format!("{file} gives {due}"), || {
                let (_, printed) = project::run(Command::new(build(source, scratch)?).arg(&file))?;
                same(project::bytes(due)?, printed)
            });
        }
    }
    let (to, from, source, word) = STRICT;
    for due in project::files("examples", to)? {
        let file = due.replace(to, from);
        trials.check(&format!("{file} gives {due}"), || {
            let (_, printed) = project::run(Command::new(build(source, scratch)?).args([word, &file]))?;
            same(project::bytes(&due)?, printed)
        });
    }
    let [first, second, due, source] = POOLED;
    trials.check(&format!("{first} and {second} give {due}"), || {
        let (_, printed) = project::run(Command::new(build(source, scratch)?).args([first, second]))?;
        same(project::bytes(due)?, printed)
    });
    Ok(())
}

/// The program of an example, built unless it is there.
fn build(source: &str, scratch: &Path) -> Result<PathBuf, String> {
    let mut compiler = if source.ends_with(".c") { c99() } else { cpp17() };
    let program = scratch.join(Path::new(source).file_stem().ok_or(source)?);
    if !program.is_file() {
        silent(compiler.args([source, project::ARCHIVE, "-o"]).arg(&program))?;
    }
    Ok(program)
}
