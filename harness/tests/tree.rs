//! The crates' sources: what a reader must believe cites no proof, and nothing is public for no one.

use harness::project;
use harness::trials::{Trials, Verdict};
use std::process::ExitCode;

fn main() -> ExitCode {
    let mut trials = Trials::from_arguments();
    match Tree::read() {
        Ok(tree) => tree.check(&mut trials),
        Err(wrong) => trials.fail("the crates' sources", &wrong),
    }
    trials.finish()
}

struct File {
    krate: String,
    path: String,
    text: String,
}

/// Definitions under `specs/`, and code with its contracts under `src/`.
struct Tree {
    specs: Vec<File>,
    sources: Vec<File>,
}

impl Tree {
    fn read() -> Result<Tree, String> {
        Ok(Tree {
            specs: files("specs", ".antt")?,
            sources: files("src", ".rt")?,
        })
    }

    fn check(&self, trials: &mut Trials) {
        trials.check("no definition cites a proof", || none(cited_proofs(&self.specs)));
        trials.check("no contract cites a proof", || none(cited_proofs(&self.sources)));
        trials.check("no public function that no other crate calls", || none(self.unused()));
    }

    /// Public functions of a library's root that no other crate calls, and of its other files that no other file calls.
    fn unused(&self) -> Vec<String> {
        let is_program = |krate: &str| {
            self.sources
                .iter()
                .any(|file| file.path == format!("crates/{krate}/src/main.rt"))
        };
        let libraries = self.sources.iter().filter(|file| !is_program(&file.krate));
        let public = libraries.flat_map(|file| {
            public_functions(&file.text)
                .into_iter()
                .map(move |function| (file, function))
        });
        let unused = public.filter(|(file, function)| !self.uses(file, function));
        unused
            .map(|(file, function)| format!("{}: {}", file.path, function.name))
            .collect()
    }

    fn uses(&self, of: &File, function: &Function) -> bool {
        let name = function.name;
        let root = of.path.ends_with("/lib.rt");
        let others = self.sources.iter().filter(|file| match root {
            true => file.krate != of.krate,
            false => file.krate == of.krate && file.path != of.path,
        });
        let mut texts = others.map(|file| file.text.as_str());
        match function.of {
            // A method of a type that the crate hands on is called from wherever the type goes.
            Some(kind) if !root => self.sources.iter().filter(|file| file.path != of.path).any(|file| {
                file.text.contains(&format!(".{name}(")) || has_word(&file.text, &format!("{kind}::{name}"))
            }),
            None if !root => texts.any(|text| has_word(text, name)),
            None => texts.any(|text| has_word(text, &format!("{}::{name}", of.krate))),
            Some(of) => {
                texts.any(|text| has_word(text, &format!("{of}::{name}")) || text.contains(&format!(".{name}(")))
            }
        }
    }
}

/// The files of all crates in this folder of theirs; not every crate has it.
fn files(folder: &str, end: &str) -> Result<Vec<File>, String> {
    let mut found = Vec::new();
    for krate in project::names("crates")? {
        let place = format!("crates/{krate}/{folder}");
        if !project::folder().join(&place).is_dir() {
            continue;
        }
        for path in project::files(&place, end)? {
            found.push(File {
                text: ungrouped(&project::text(&path)?),
                krate: krate.clone(),
                path,
            });
        }
    }
    match found.is_empty() {
        true => Err(format!("no file crates/*/{folder}/*{end}")),
        false => Ok(found),
    }
}

/// The text with an import of several names in braces as one import for each.
fn ungrouped(text: &str) -> String {
    let mut lines = Vec::new();
    let mut rest = text.lines();
    while let Some(line) = rest.next() {
        let Some(head) = group(line) else {
            lines.push(line.to_string());
            continue;
        };
        let mut names = line[head.len() + 3..].to_string();
        while !names.ends_with("};") {
            names += rest.next().unwrap_or("};");
        }
        let names = names.trim_end_matches("};").split(',').map(str::trim);
        lines.extend(
            names
                .filter(|name| !name.is_empty())
                .map(|name| format!("{head}::{name};")),
        );
    }
    lines.join("\n")
}

/// What stands before the braces of `use path::{name, name};`.
fn group(line: &str) -> Option<&str> {
    let (head, _) = line.split_once("::{")?;
    head.trim_start_matches("pub ").starts_with("use ").then_some(head)
}

fn none(found: Vec<String>) -> Verdict {
    match found.is_empty() {
        true => Ok(()),
        false => Err(found.join("\n")),
    }
}

/// Imports of definitions under `proofs/`. Those of the library count as its definitions, wherever it keeps them.
fn cited_proofs(files: &[File]) -> Vec<String> {
    let cites = |line: &str| {
        let import = line.strip_prefix("ghost ").unwrap_or(line).strip_prefix("use ");
        import.is_some_and(|import| {
            import
                .split(' ')
                .next()
                .is_some_and(|path| path.contains(".proofs.") && !path.starts_with("Rattle.std."))
        })
    };
    let lines = files
        .iter()
        .flat_map(|file| file.text.lines().zip(1..).map(move |(line, at)| (file, line, at)));
    let cited = lines.filter(|(_, line, _)| cites(line));
    cited
        .map(|(file, line, at)| format!("{}:{at}: {line}", file.path))
        .collect()
}

/// A public function, and the type that it is a method of, if it is one.
struct Function<'a> {
    name: &'a str,
    of: Option<&'a str>,
}

/// The public functions of a library's file and those that it hands on. Functions for C are called from outside.
fn public_functions(text: &str) -> Vec<Function<'_>> {
    let mut functions = Vec::new();
    let mut of = None;
    for line in text.lines() {
        if let Some(implemented) = line.strip_prefix("impl ") {
            of = implemented.split(' ').next();
        } else if line == "}" {
            of = None;
        }
        let declared = line.trim_start().strip_prefix("pub fn ");
        let declared = declared.and_then(|rest| rest.split(|c: char| !is_in_word(c)).next());
        functions.extend(declared.map(|name| Function { name, of }));
        functions.extend(handed_on(line).map(|name| Function { name, of: None }));
    }
    functions
}

/// The function in `pub use file::function;`; types begin with a capital.
fn handed_on(line: &str) -> Option<&str> {
    let (_, name) = line.strip_prefix("pub use ")?.strip_suffix(';')?.rsplit_once("::")?;
    (!name.starts_with(|c: char| c.is_ascii_uppercase())).then_some(name)
}

fn is_in_word(c: char) -> bool {
    c.is_ascii_alphanumeric() || c == '_'
}

/// Whether the text has this word, or these words with :: between them.
fn has_word(text: &str, word: &str) -> bool {
    text.match_indices(word).any(|(at, _)| {
        let before = text[..at].chars().next_back();
        let after = text[at + word.len()..].chars().next();
        !before.is_some_and(is_in_word) && !after.is_some_and(is_in_word)
    })
}
