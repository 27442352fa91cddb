//! The limits, read from where they stand: the constants of the proved crate `rules`. The C
//! header and the module `limits` of the Rust crate are written from them, so no number of
//! them stands in host/, and none can differ from the library's.

use std::fs;
use std::path::Path;

#[derive(Debug, PartialEq, Eq)]
pub struct Limit {
    pub name: String,
    /// What it counts: the comment above it.
    pub comment: String,
    pub number: u64,
}

const SIZES: &str = "rules/src/sizes.rt";
const START: &str = "pub const ";
const KIND: &str = ": usize = ";

/// Every limit, in the order in which `bt_limits` writes them.
pub fn read_limits(crates: &Path) -> Result<Vec<Limit>, String> {
    let path = crates.join(SIZES);
    let told = |why: String| format!("{}: {why}", path.display());
    let source = fs::read_to_string(&path).map_err(|error| told(error.to_string()))?;
    read_source(&source).map_err(told)
}

/// The limits as constants in Rust, under their own names.
pub fn rust_text(limits: &[Limit]) -> String {
    let constants = limits.iter().map(|limit| {
        let (name, number) = (&limit.name, limit.number);
        format!("/// {}\n{START}{name}{KIND}{number};\n", limit.comment)
    });
    constants.collect()
}

/// The limits of a file's text.
pub fn read_source(source: &str) -> Result<Vec<Limit>, String> {
    let mut limits = Vec::new();
    let mut comment = Vec::new();
    for line in source.lines().map(str::trim) {
        if let Some(words) = line.strip_prefix("//") {
            comment.push(words.trim());
            continue;
        }
        if let Some(constant) = line.strip_prefix(START) {
            let (name, number) = read_constant(constant)
                .ok_or_else(|| format!("`{line}` isn't `{START}NAME{KIND}NUMBER;`"))?;
            limits.push(Limit {
                name: name.to_string(),
                comment: comment.join(" "),
                number,
            });
        }
        comment.clear();
    }
    Ok(limits)
}

fn read_constant(text: &str) -> Option<(&str, u64)> {
    let (name, number) = text.split_once(KIND)?;
    let digits = number.strip_suffix(';')?.replace('_', "");
    Some((name, digits.parse().ok()?))
}
