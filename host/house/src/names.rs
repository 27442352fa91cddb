//! Names in a source text, and where an import has them from.

use std::collections::{BTreeMap, BTreeSet};

/// Where a name is declared: crate, file (without its ending) and name.
#[derive(Clone, Debug, PartialEq, Eq, PartialOrd, Ord)]
pub struct Home {
    pub krate: String,
    pub file: String,
    pub name: String,
}

pub fn home(krate: &str, file: &str, name: &str) -> Home {
    Home {
        krate: krate.into(),
        file: file.into(),
        name: name.into(),
    }
}

/// What a file's imports call by which name.
pub type Imports = BTreeMap<String, Home>;

fn part_of_a_name(c: char) -> bool {
    c.is_alphanumeric() || "_'′″‴₀₁₂₃-".contains(c)
}

/// The names that stand in a text.
pub fn names(text: &str) -> BTreeSet<&str> {
    text.split(|c| !part_of_a_name(c))
        .filter(|name| name.starts_with(|c: char| c.is_alphabetic()))
        .collect()
}

/// `use Rattle.table_graph.specs.Graph.{heads, below as under}`: what is imported from
/// definitions, of an antt file or, after `ghost`, of code.
pub fn spec_imports(text: &str) -> Imports {
    let mut imports = Imports::new();
    for piece in text.split("use Rattle.").skip(1) {
        let Some((path, rest)) = piece.split_once(".{") else {
            continue;
        };
        let Some((list, _)) = rest.split_once('}') else {
            continue;
        };
        let steps: Vec<&str> = path.split('.').collect();
        let (krate, file) = match steps[..] {
            [krate, "specs", file] | [krate, "specs", "Internal", file] => (krate, file),
            _ => continue,
        };
        for item in list.split(',').map(str::trim).filter(|i| !i.is_empty()) {
            let (name, alias) = item.split_once(" as ").unwrap_or((item, item));
            imports.insert(alias.into(), home(krate, file, name));
        }
    }
    imports
}

/// `use table_graph::heads::collect_heads;` of code, or several names in braces; `crate` is
/// this one.
pub fn code_imports(krate: &str, text: &str) -> Imports {
    let mut imports = Imports::new();
    for piece in format!("\n{text}").split("\nuse ").skip(1) {
        let path = piece.split(';').next().unwrap_or_default();
        let path: String = path.split_whitespace().collect();
        if let [from, file, list] = path.split("::").collect::<Vec<_>>()[..] {
            let from = if from == "crate" { krate } else { from };
            let list = list.trim_start_matches('{').trim_end_matches('}');
            for name in list.split(',').filter(|name| !name.is_empty()) {
                imports.insert(name.into(), home(from, file, name));
            }
        }
    }
    imports
}
