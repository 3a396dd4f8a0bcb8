//! Links `libjadeshuttle.a` from the folder in JADESHUTTLE_ARCHIVE_DIR, or from where `tools/build` puts it, and writes
//! the declarations of its calls from the Rattle source.

#[path = "src/abi.rs"]
mod abi;

use abi::{Call, Parsed, Source, Struct, Type};
use std::path::{Path, PathBuf};
use std::{env, fs};

fn main() {
    let manifest = PathBuf::from(env::var("CARGO_MANIFEST_DIR").expect("cargo gives the manifest's folder"));
    link(&manifest);
    let project = manifest.parent().expect("the harness is a folder of the project");
    let text = declarations(project).unwrap_or_else(|fault| panic!("{fault}"));
    let folder = PathBuf::from(env::var("OUT_DIR").expect("cargo gives a folder"));
    fs::write(folder.join("declarations.rs"), text).expect("the folder can be written");
}

fn link(manifest: &Path) {
    println!("cargo:rerun-if-env-changed=JADESHUTTLE_ARCHIVE_DIR");
    let folder = env::var("JADESHUTTLE_ARCHIVE_DIR").unwrap_or("../target/staticlib".into());
    let folder = manifest.join(folder);
    let archive = folder.join("libjadeshuttle.a");
    assert!(
        archive.is_file(),
        "{} is missing: run tools/build, or set JADESHUTTLE_ARCHIVE_DIR",
        archive.display()
    );
    println!("cargo:rerun-if-changed={}", archive.display());
    println!("cargo:rustc-link-search=native={}", folder.display());
    println!("cargo:rustc-link-lib=static=jadeshuttle");
    println!("cargo:rustc-env=JADESHUTTLE_ARCHIVE={}", archive.display());
}

/// The sizes, how many numbers an answer can have, the structs, the calls, and a safe function for each call.
fn declarations(project: &Path) -> Parsed<String> {
    let (source, model) = (Source::calls(project)?, Source::model(project)?);
    for source in [&source, &model] {
        println!("cargo:rerun-if-changed={}", project.join(source.path()).display());
    }
    let calls = abi::calls(&source)?;
    let mut text = String::new();
    for (name, value) in abi::sizes(&model)? {
        text += &format!("pub const {name}: usize = {value};\n");
    }
    let plain = abi::fields(&model, "Answer")?;
    text += &format!(
        "/// Of success and of the refusals.\npub const NUMBERS: usize = {};\n",
        1 + abi::refusals(&model)?.len()
    );
    for known in abi::structs(&calls) {
        text += &structure(&known, &abi::fields(&model, known.rattle)?, &plain);
    }
    let foreign: String = calls.iter().map(foreign_function).collect();
    text += &format!("extern \"C\" {{\n{foreign}}}\n");
    text.extend(calls.iter().map(safe_function));
    Ok(text)
}

/// The struct, and its numbers: the plain answer's, and those that follow them.
fn structure(known: &Struct, fields: &[String], plain: &[String]) -> String {
    let name = known.rust;
    let declared: String = fields.iter().map(|field| format!("    pub {field}: u64,\n")).collect();
    let derived = "Clone, Copy, Debug, Default, PartialEq, Eq";
    let first: String = plain.iter().map(|field| format!("{field}: given.{field}, ")).collect();
    let further = fields.iter().filter(|field| !plain.contains(field));
    let further: String = further.map(|field| format!("given.{field}, ")).collect();
    format!(
        "#[repr(C)]\n#[derive({derived})]\npub struct {name} {{\n{declared}}}\n\
         impl From<{name}> for Numbers {{\n    fn from(given: {name}) -> Numbers {{\n        \
         Numbers {{ first: Answer {{ {first}}}, further: vec![{further}] }}\n    }}\n}}\n"
    )
}

fn foreign_function(call: &Call) -> String {
    let arguments = listed(call, |name, given| match given {
        Type::Slice { of, written } => {
            let access = if written { "mut" } else { "const" };
            format!("{name}: *{access} {}, {name}_len: usize", of.rust)
        }
        _ => format!("{name}: {}", rust_type(given)),
    });
    format!("    fn {}({arguments}) -> {};\n", call.name, rust_type(call.answer))
}

/// The call under its short name, with slices.
fn safe_function(call: &Call) -> String {
    let taken = listed(call, |name, given| format!("{name}: {}", rust_type(given)));
    let handed = listed(call, |name, given| match given {
        Type::Slice { written: true, .. } => format!("{name}.as_mut_ptr(), {name}.len()"),
        Type::Slice { written: false, .. } => format!("{name}.as_ptr(), {name}.len()"),
        _ => name.to_string(),
    });
    let (name, answer) = (&call.name, rust_type(call.answer));
    let short = name.strip_prefix(abi::PREFIX).unwrap_or(name);
    let safety = "// SAFETY: each pointer and length are those of one slice, borrowed for the length of the call.";
    format!("pub fn {short}({taken}) -> {answer} {{\n    {safety}\n    unsafe {{ {name}({handed}) }}\n}}\n")
}

fn listed(call: &Call, argument: impl Fn(&str, Type) -> String) -> String {
    let arguments = call.arguments.iter().map(|(name, given)| argument(name, *given));
    arguments.collect::<Vec<_>>().join(", ")
}

/// The type in Rust.
fn rust_type(given: Type) -> String {
    match given {
        Type::Number(number) => number.rust.to_string(),
        Type::Struct(known) => known.rust.to_string(),
        Type::Slice { of, written: true } => format!("&mut [{}]", of.rust),
        Type::Slice { of, written: false } => format!("&[{}]", of.rust),
    }
}
