//! The exported functions, read from where they are declared: the source of the
//! proved crates NAME_calls. So no declaration of a call stands in host/, and none
//! can differ from the library's: the crate bisquetower, which the archive is made
//! of, repeats each with the same words (a test of host/house compares them).

use std::fs;
use std::path::{Path, PathBuf};

#[derive(Debug, PartialEq, Eq)]
pub struct Function {
    pub name: String,
    /// The lines of the comment above it.
    pub comment: Vec<String>,
    pub parameters: Vec<Parameter>,
}

#[derive(Debug, PartialEq, Eq)]
pub struct Parameter {
    pub name: String,
    pub kind: Kind,
}

/// How a parameter passes: a number is one word, an array one pointer, a slice a
/// pointer and a length in items.
#[derive(Debug, PartialEq, Eq)]
pub enum Kind {
    Number(String),
    Array(Lent, usize),
    Slice(Lent),
}

/// Lent memory: of bytes or words, to be read, or to be read and written.
#[derive(Clone, Copy, Debug, PartialEq, Eq)]
pub struct Lent {
    pub item: Item,
    pub written: bool,
}

#[derive(Clone, Copy, Debug, PartialEq, Eq)]
pub enum Item {
    Byte,
    Word,
}

impl Function {
    /// The name of its safe function.
    pub fn short_name(&self) -> &str {
        self.name.strip_prefix(PREFIX).expect("tested when read")
    }

    /// How many arguments it has in C.
    pub fn arguments(&self) -> usize {
        let slices = self.parameters.iter();
        let slices = slices.filter(|p| matches!(p.kind, Kind::Slice(_)));
        self.parameters.len() + slices.count()
    }
}

impl Parameter {
    /// Whether these are the answer's words, which a call writes and never reads.
    pub fn is_answer(&self) -> bool {
        let written = Lent {
            item: Item::Word,
            written: true,
        };
        self.name == "answer" && matches!(self.kind, Kind::Array(lent, _) if lent == written)
    }
}

const CALLS: &str = "_calls";
const PREFIX: &str = "bt_";
const MARK: &str = "#[unsafe(no_mangle)]";
const START: &str = "pub extern \"C\" fn ";
const NUMBERS: [&str; 6] = ["u8", "u16", "u32", "u64", "usize", "bool"];

/// Every exported function of the proved crates that have some: NAME_calls.
pub fn read_crates(crates: &Path) -> Result<Vec<Function>, String> {
    let mut functions = Vec::new();
    for path in entries(crates)? {
        let name = path.file_name().unwrap_or_default().to_string_lossy();
        if name.ends_with(CALLS) {
            functions.extend(read_folder(&path.join("src"))?);
        }
    }
    Ok(functions)
}

/// What stands in a folder, in the same order on every machine.
fn entries(folder: &Path) -> Result<Vec<PathBuf>, String> {
    let told = |error| format!("{}: {error}", folder.display());
    let mut paths = Vec::new();
    for entry in fs::read_dir(folder).map_err(told)? {
        paths.push(entry.map_err(told)?.path());
    }
    paths.sort();
    Ok(paths)
}

/// Every exported function of the files in a folder and below it.
fn read_folder(folder: &Path) -> Result<Vec<Function>, String> {
    let mut functions = Vec::new();
    for path in entries(folder)? {
        if path.is_dir() {
            functions.extend(read_folder(&path)?);
        } else if path.extension().is_some_and(|end| end == "rt") {
            let told = |why: String| format!("{}: {why}", path.display());
            let source = fs::read_to_string(&path).map_err(|error| told(error.to_string()))?;
            functions.extend(read_source(&source).map_err(told)?);
        }
    }
    Ok(functions)
}

/// The exported functions of one file.
pub fn read_source(source: &str) -> Result<Vec<Function>, String> {
    let mut functions = Vec::new();
    let mut comment = Vec::new();
    let mut marked = false;
    let mut place = 0;
    for line in source.split_inclusive('\n') {
        let text = line.trim();
        if let Some(words) = text.strip_prefix("//") {
            comment.push(words.trim().to_string());
        } else if text == MARK {
            marked = true;
        } else {
            if marked && text.starts_with(START) {
                let start = place + line.find(START).expect("the line starts so") + START.len();
                functions.push(read_function(&source[start..], comment)?);
            }
            comment = Vec::new();
            marked = false;
        }
        place += line.len();
    }
    Ok(functions)
}

/// The function whose name and parameters begin this text.
fn read_function(text: &str, comment: Vec<String>) -> Result<Function, String> {
    let (name, rest) = text.split_once('(').ok_or("a function has no parameters")?;
    let name = name.trim();
    let (parameters, rest) = rest
        .split_once(')')
        .ok_or(format!("the parameters of {name} have no end"))?;
    if !name.starts_with(PREFIX) {
        return Err(format!("{name} is exported and isn't named {PREFIX}.."));
    }
    if rest.trim_start().starts_with("->") {
        return Err(format!("{name} returns a value: answers are written"));
    }
    let parameters = parameters.split(',').map(str::trim);
    let parameters = parameters.filter(|one| !one.is_empty());
    let parameters: Option<Vec<Parameter>> = parameters.map(read_parameter).collect();
    Ok(Function {
        name: name.to_string(),
        comment,
        parameters: parameters.ok_or(format!(
            "{name} has a parameter of another kind than numbers, slices and arrays of u8 and u64"
        ))?,
    })
}

fn read_parameter(text: &str) -> Option<Parameter> {
    let (name, kind) = text.split_once(':')?;
    let name = name.trim();
    let plain = name.chars().all(|c| c.is_ascii_alphanumeric() || c == '_');
    let kind = read_kind(kind.trim())?;
    plain.then(|| Parameter {
        name: name.to_string(),
        kind,
    })
}

fn read_kind(text: &str) -> Option<Kind> {
    if NUMBERS.contains(&text) {
        return Some(Kind::Number(text.to_string()));
    }
    let text = text.strip_prefix('&')?.trim();
    let (written, text) = match text.strip_prefix("mut ") {
        Some(text) => (true, text),
        None => (false, text),
    };
    let inside = text.trim().strip_prefix('[')?.strip_suffix(']')?;
    let (item, length) = match inside.split_once(';') {
        Some((item, length)) => (item, Some(length)),
        None => (inside, None),
    };
    let item = match item.trim() {
        "u8" => Item::Byte,
        "u64" => Item::Word,
        _ => return None,
    };
    let lent = Lent { item, written };
    match length {
        Some(length) => {
            let digits = length.trim().replace('_', "");
            Some(Kind::Array(lent, digits.parse().ok()?))
        }
        None => Some(Kind::Slice(lent)),
    }
}
