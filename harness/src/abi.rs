//! The archive's calls as the Rattle source has them: arguments, answers, the refusals' numbers, and the sizes that the
//! bounds give. `build.rs` writes the harness's own declarations from it, and `tests/header.rs` compares the C header with
//! it. A line that is not understood is an error that names it.

use std::collections::BTreeMap;
use std::fs;
use std::path::Path;

/// What the name of every call begins with.
pub const PREFIX: &str = "jadeshuttle_";

/// The numbers that a call can take and give; Rattle has Rust's names.
const NUMBERS: [Number; 5] = [
    number("u8", "uint8_t"),
    number("u16", "uint16_t"),
    number("u32", "uint32_t"),
    number("u64", "uint64_t"),
    number("usize", "size_t"),
];

/// The structs that a call can give: their names in Rattle, in Rust and in C.
const STRUCTS: [Struct; 4] = [
    structure("Answer", "Answer", "jadeshuttle_answer"),
    structure("SheetAnswer", "Reading", "jadeshuttle_reading"),
    structure("ChargeAnswer", "ChargeAnswer", "jadeshuttle_charge_answer"),
    structure("OrderAnswer", "OrderAnswer", "jadeshuttle_order_answer"),
];

#[derive(Clone, Copy, Debug, PartialEq, Eq)]
pub struct Number {
    pub rust: &'static str,
    pub c: &'static str,
}

#[derive(Clone, Copy, Debug, PartialEq, Eq)]
pub struct Struct {
    pub rattle: &'static str,
    pub rust: &'static str,
    pub c: &'static str,
}

const fn number(rust: &'static str, c: &'static str) -> Number {
    Number { rust, c }
}

const fn structure(rattle: &'static str, rust: &'static str, c: &'static str) -> Struct {
    Struct { rattle, rust, c }
}

/// A slice is a pointer and a length; all else goes by value.
#[derive(Clone, Copy, Debug, PartialEq, Eq)]
pub enum Type {
    Number(Number),
    Struct(Struct),
    Slice { of: Number, written: bool },
}

#[derive(Clone, Debug, PartialEq, Eq)]
pub struct Call {
    pub name: String,
    pub arguments: Vec<(String, Type)>,
    pub answer: Type,
}

/// What was read, or what is wrong and where.
pub type Parsed<T> = Result<T, String>;

/// A source file of the project.
pub struct Source {
    path: &'static str,
    text: String,
}

#[derive(Clone, Copy)]
struct Line<'a> {
    path: &'a str,
    number: usize,
    text: &'a str,
}

impl Source {
    /// The functions for C.
    pub fn calls(project: &Path) -> Parsed<Source> {
        Source::read(project, "crates/jadeshuttle/src/lib.rt")
    }

    /// The declared types.
    pub fn model(project: &Path) -> Parsed<Source> {
        Source::read(project, "crates/model/src/lib.rt")
    }

    fn read(project: &Path, path: &'static str) -> Parsed<Source> {
        let text = fs::read_to_string(project.join(path));
        let text = text.map_err(|error| format!("{path}: {error}"))?;
        Ok(Source { path, text })
    }

    pub fn path(&self) -> &Path {
        Path::new(self.path)
    }

    fn lines(&self) -> impl Iterator<Item = Line<'_>> {
        let numbered = self.text.lines().zip(1..);
        numbered.map(|(text, number)| Line {
            path: self.path,
            number,
            text,
        })
    }

    /// The lines after the first that reads `head`, up to the next that reads `end`.
    fn block(&self, head: &str, end: &str) -> Parsed<Vec<Line<'_>>> {
        let mut rest = self.lines().skip_while(|line| line.text != head);
        let head = rest.next().ok_or(format!("{}: no line '{head}'", self.path))?;
        let rest: Vec<Line> = rest.collect();
        let length = rest.iter().position(|line| line.text == end);
        let length = length.ok_or(head.fault("has no end"))?;
        Ok(rest[..length].to_vec())
    }
}

impl Line<'_> {
    fn fault(&self, what: &str) -> String {
        format!("{}:{}: {what}: {}", self.path, self.number, self.text.trim())
    }

    fn is_comment(&self) -> bool {
        self.text.trim_start().starts_with("//")
    }
}

/// The calls, in the source's order.
pub fn calls(source: &Source) -> Parsed<Vec<Call>> {
    let lines: Vec<Line> = source.lines().filter(|line| !line.is_comment()).collect();
    let starts = (0..lines.len()).filter(|&i| lines[i].text.contains("extern \"C\""));
    let calls: Vec<Call> = starts.map(|i| call(&lines[i..])).collect::<Parsed<_>>()?;
    if calls.is_empty() {
        return Err(format!("{}: no call", source.path));
    }
    Ok(calls)
}

/// The signature that these lines begin with: one line, or the arguments on lines of their own.
fn call(lines: &[Line]) -> Parsed<Call> {
    let line = lines[0];
    let signature = || {
        let end = lines.iter().position(|line| line.text.contains(") -> "))?;
        let text: Vec<&str> = lines[..=end].iter().map(|line| line.text).collect();
        Some(text.concat())
    };
    let signature = signature().ok_or_else(|| line.fault("no end of the signature"))?;
    let parts = || {
        let text = signature.strip_prefix("pub extern \"C\" fn ")?;
        let (name, text) = text.split_once('(')?;
        let (arguments, answer) = text.split_once(") -> ")?;
        (name.starts_with(PREFIX) && is_name(name)).then_some((name, arguments, answer))
    };
    let (name, arguments, answer) = parts().ok_or_else(|| line.fault("no signature"))?;
    let unknown = |text: &str| line.fault(&format!("no type for '{text}' in C"));
    let argument = |text: &str| {
        let (name, given) = text.split_once(": ").filter(|(name, _)| is_name(name))?;
        Some((name.to_string(), type_of(given)?))
    };
    let arguments = arguments.split(',').map(str::trim).filter(|text| !text.is_empty());
    Ok(Call {
        name: name.to_string(),
        arguments: arguments
            .map(|text| argument(text).ok_or_else(|| unknown(text)))
            .collect::<Parsed<_>>()?,
        answer: type_of(answer)
            .filter(|answer| !matches!(answer, Type::Slice { .. }))
            .ok_or_else(|| unknown(answer))?,
    })
}

fn is_name(text: &str) -> bool {
    let in_name = |c: char| c.is_ascii_lowercase() || c.is_ascii_digit() || c == '_';
    text.starts_with(|c: char| c.is_ascii_lowercase()) && text.chars().all(in_name)
}

fn type_of(text: &str) -> Option<Type> {
    let slice = |start: &str| text.strip_prefix(start)?.strip_suffix("]");
    if let Some(of) = slice("&[").or(slice("&mut [")) {
        let written = text.starts_with("&mut");
        return number_named(of).map(|of| Type::Slice { of, written });
    }
    let structure = STRUCTS.into_iter().find(|known| known.rattle == text);
    structure.map(Type::Struct).or(number_named(text).map(Type::Number))
}

fn number_named(text: &str) -> Option<Number> {
    NUMBERS.into_iter().find(|known| known.rust == text)
}

/// The structs that these calls take or give, each once.
pub fn structs(calls: &[Call]) -> Vec<Struct> {
    let types = calls.iter().flat_map(|call| {
        let arguments = call.arguments.iter().map(|(_, given)| *given);
        arguments.chain([call.answer])
    });
    STRUCTS
        .into_iter()
        .filter(|known| types.clone().any(|used| used == Type::Struct(*known)))
        .collect()
}

/// The fields of the source's struct with this name; one that is itself a struct gives its fields in its place. Each is a
/// u64: so none is padded, and field k lies at 8 × k.
pub fn fields(model: &Source, name: &str) -> Parsed<Vec<String>> {
    let head = format!("pub struct {name} {{");
    let mut flat = Vec::new();
    for line in model.block(&head, "}")?.iter().filter(|line| !line.is_comment()) {
        let parts = || {
            let text = line.text.trim_start().strip_prefix("pub ")?;
            text.strip_suffix(",")?
                .split_once(": ")
                .filter(|(name, _)| is_name(name))
        };
        match parts() {
            Some((field, "u64")) => flat.push(field.to_string()),
            Some((_, inner)) if inner.starts_with(|c: char| c.is_ascii_uppercase()) => {
                flat.extend(fields(model, inner)?)
            }
            _ => return Err(line.fault("neither a u64 nor a struct")),
        }
    }
    let above = model.lines().take_while(|line| line.text != head).last();
    match above {
        Some(Line { text: "#[repr(C)]", .. }) => Ok(flat),
        _ => Err(format!("{}: {name} is not repr(C)", model.path)),
    }
}

/// The refusals with their numbers, from the enum `Refusal`: a variant without a number has the one after the last.
pub fn refusals(model: &Source) -> Parsed<Vec<(String, u64)>> {
    let lines = model.block("pub enum Refusal {", "}")?;
    let mut found: Vec<(String, u64)> = Vec::new();
    for line in lines.iter().filter(|line| !line.is_comment()) {
        let next = found.last().map(|(_, last)| last + 1);
        let variant = |line: &Line| {
            let variant = line.text.trim().strip_suffix(',')?;
            let (name, number) = match variant.split_once(" = ") {
                Some((name, number)) => (name, number.parse().ok()?),
                None => (variant, next?),
            };
            name.chars()
                .all(|c| c.is_ascii_alphabetic())
                .then(|| (name.to_string(), number))
        };
        found.push(variant(line).ok_or_else(|| line.fault("no refusal with its number"))?);
    }
    Ok(found)
}

/// The sizes that are large enough for every book and every day, and the most books of a day, computed from the constants of
/// the source's `Book`.
pub fn sizes(model: &Source) -> Parsed<[(&'static str, u64); 8]> {
    let bounds = bounds(model)?;
    let bound = |name: &str| {
        let found = bounds.get(name).copied();
        found.ok_or_else(|| format!("{}: no Book::{name}", model.path))
    };
    let slots = bound("SLOTS")?;
    // A header with a ratio, and load lines with the pairs for standing: the longer kinds.
    let header = 18 + 4 * slots + 1;
    let load = 4 + 8 * slots + bound("OPTIONS")? * (4 + 8 * slots) + 1;
    let (mill_view, supply_view) = (11 + 4 * bound("LOADS")?, 23 * slots);
    Ok([
        ("BOOK_MAX", header + bound("LOADS")? * load),
        ("SHEET_MAX", bound("SHEET")?),
        ("ORDER_MAX", bound("LOADS")?),
        ("VIEW_MAX", mill_view.max(supply_view)),
        ("CELLS_MAX", bound("CELLS")?),
        ("WORK_MAX", 4 * bound("CELLS")?),
        ("BOOKS_MAX", bound("BOOKS")?),
        ("DAY_MAX", bound("DAY")?),
    ])
}

fn bounds(model: &Source) -> Parsed<BTreeMap<String, u64>> {
    let mut bounds = BTreeMap::new();
    for line in model.block("impl Book {", "}")? {
        if line.is_comment() || !line.text.contains("const ") {
            continue;
        }
        let parts = || {
            let text = line.text.trim_start().strip_prefix("pub const ")?.strip_suffix(";")?;
            let (name, text) = text.split_once(": ")?;
            let (_, value) = text.split_once(" = ").filter(|(of, _)| ["usize", "u64"].contains(of))?;
            Some((name.to_string(), value_of(value, &bounds)?))
        };
        let (name, value) = parts().ok_or_else(|| line.fault("no constant of sums and products"))?;
        bounds.insert(name, value);
    }
    Ok(bounds)
}

/// A sum of products of numbers and of constants that stand above.
fn value_of(text: &str, above: &BTreeMap<String, u64>) -> Option<u64> {
    let factor = |text: &str| match text.strip_prefix("Book::") {
        Some(name) => above.get(name).copied(),
        None => text.parse().ok(),
    };
    let term = |text: &str| text.split(" * ").map(factor).product::<Option<u64>>();
    text.split(" + ").map(term).sum()
}

#[cfg(test)]
mod tests {
    use super::*;

    fn source(text: &str) -> Source {
        Source {
            path: "lib.rt",
            text: text.into(),
        }
    }

    #[test]
    fn types_of_arguments_and_answers() {
        let line = "pub extern \"C\" fn jadeshuttle_tally(a: &[u16], b: &mut [u32], c: usize) -> u8";
        let lines =
            "pub extern \"C\" fn jadeshuttle_tally(\n    a: &[u16],\n    b: &mut [u32],\n    c: usize,\n) -> u8\n{";
        assert_eq!(calls(&source(lines)), calls(&source(line)));
        let call = calls(&source(line)).expect("a signature").remove(0);
        let types: Vec<Type> = call.arguments.iter().map(|(_, given)| *given).collect();
        let slice = |rust, c, written| Type::Slice {
            of: number(rust, c),
            written,
        };
        let count = Type::Number(number("usize", "size_t"));
        assert_eq!(
            types,
            [slice("u16", "uint16_t", false), slice("u32", "uint32_t", true), count]
        );
        assert_eq!(call.answer, Type::Number(number("u8", "uint8_t")));
    }

    #[test]
    fn a_line_that_is_not_understood_is_named() {
        for line in [
            "extern \"C\" fn jadeshuttle_a(b: u8) -> u8",
            "pub extern \"C\" fn other(b: u8) -> u8",
            "pub extern \"C\" fn jadeshuttle_a(",
            "pub extern \"C\" fn jadeshuttle_a(b: &[i64]) -> u8",
            "pub extern \"C\" fn jadeshuttle_a(b: u8) -> Load",
            "pub extern \"C\" fn jadeshuttle_a(b: u8) -> &[u8]",
        ] {
            let fault = calls(&source(&format!("// Calls.\n{line}\n"))).expect_err(line);
            assert!(fault.starts_with("lib.rt:2: ") && fault.ends_with(line), "{fault}");
        }
        assert_eq!(calls(&source("")), Err("lib.rt: no call".into()));
    }

    #[test]
    fn structs_lie_flat() {
        let pair = "#[repr(C)]\npub struct Pair {\n    pub one: u64,\n    pub two: Inner,\n}\n";
        let inner = |of| format!("{pair}#[repr(C)]\npub struct Inner {{\n    pub three: {of},\n}}\n");
        let found = |text: &str| fields(&source(text), "Pair");
        assert_eq!(found(&inner("u64")), Ok(vec!["one".into(), "three".into()]));
        assert!(found(&inner("u32")).is_err_and(|fault| fault.starts_with("lib.rt:8: ")));
        assert!(found(&inner("u64").replacen("(C)", "(Rust)", 1)).is_err_and(|fault| fault.contains("Pair")));
        assert!(found(pair).is_err_and(|fault| fault.contains("Inner")));
    }

    #[test]
    fn bounds_are_sums_of_products() {
        let found = |text: &str| {
            bounds(&source(&format!(
                "impl Book {{\n    pub const LOADS: usize = 24;\n{text}\n}}"
            )))
        };
        let sheet = found("    pub const SHEET: u64 = 19 + 2 * Book::LOADS;").expect("a bound");
        assert_eq!(sheet["SHEET"], 67);
        for value in ["2 * (3 + 4)", "Book::CELLS", "Load::POWERS", "1 - 1"] {
            let fault = found(&format!("    pub const SHEET: u64 = {value};")).expect_err(value);
            assert!(fault.starts_with("lib.rt:3: "), "{fault}");
        }
    }
}
