//! The public functions of the package, read from its sources.
use std::fs;
use std::path::Path;

/// A public function.
#[derive(Debug)]
pub struct Function {
    /// The type that it belongs to; empty if it belongs to none.
    pub of: String,
    pub name: String,
    signature: String,
}

impl Function {
    /// As in `Pools::add_name`.
    pub fn full_name(&self) -> String {
        if self.of.is_empty() {
            self.name.clone()
        } else {
            format!("{}::{}", self.of, self.name)
        }
    }

    /// Whether it returns an error that can say that memory is lacking.
    pub fn can_lack_memory(&self) -> bool {
        const ERRORS: [&str; 8] = [
            "VerifyError",
            "ExplainError",
            "FileError",
            "TightenError",
            "PoolError",
            "ReadError",
            "AttachError",
            "TryReserveError",
        ];
        let returned = self.signature.split("->").nth(1).unwrap_or_default();
        returned.contains("Rejected<")
            || returned.contains("Result<") && ERRORS.iter().any(|error| returned.contains(error))
    }

    /// Whether it returns an error.
    pub fn can_fail(&self) -> bool {
        self.signature.contains("-> Result<")
    }
}

/// All of them, of all sources but those of the module `engine`.
pub fn public_functions() -> Vec<Function> {
    functions_in("src")
}

/// Those of the module `engine`, which take memory as a `Vec` does, except that of the library.
pub fn engine_functions() -> Vec<Function> {
    functions_in("src/engine")
}

fn functions_in(folder: &str) -> Vec<Function> {
    let folder = Path::new(env!("CARGO_MANIFEST_DIR")).join(folder);
    let mut all = Vec::new();
    for entry in fs::read_dir(folder).unwrap() {
        let path = entry.unwrap().path();
        if path.is_file() {
            functions_of(&fs::read_to_string(path).unwrap(), &mut all);
        }
    }
    all
}

fn indentation(line: &str) -> usize {
    line.len() - line.trim_start().len()
}

fn functions_of(source: &str, all: &mut Vec<Function>) {
    // The type whose block is open, and how far the block is indented.
    let mut block: Option<(String, usize)> = None;
    let mut lines = source.lines();
    while let Some(line) = lines.next() {
        let (text, depth) = (line.trim_start(), indentation(line));
        if text.starts_with("impl") && text.ends_with('{') {
            block = Some((type_of(text), depth));
        } else if text == "}" && block.as_ref().is_some_and(|(_, open)| *open == depth) {
            block = None;
        }
        let Some(name) = name_of(text) else { continue };
        let mut signature = text.to_string();
        while !signature.ends_with(['{', ';', '}']) {
            signature += lines.next().unwrap().trim_start();
        }
        all.push(Function {
            of: block.as_ref().map_or(String::new(), |(of, _)| of.clone()),
            name: name.to_string(),
            signature,
        });
    }
}

/// The name of the public function whose declaration begins with this line.
fn name_of(line: &str) -> Option<&str> {
    let rest = line.strip_prefix("pub ")?;
    let rest = rest.strip_prefix("const ").unwrap_or(rest);
    let rest = rest.strip_prefix("fn ")?;
    rest.split(['(', '<']).next()
}

/// The type of a block, without its parameters, from the line that begins it.
fn type_of(line: &str) -> String {
    let rest = line.strip_prefix("impl").unwrap();
    let rest = rest.strip_prefix('<').map_or(rest, |generic| {
        generic.split_once("> ").map_or(generic, |(_, rest)| rest)
    });
    let rest = rest.rsplit(" for ").next().unwrap().trim_start();
    let end = rest.find(|each: char| !each.is_alphanumeric());
    rest[..end.unwrap_or(rest.len())].to_string()
}
