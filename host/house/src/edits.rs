//! The edits that the prover must refuse.

use crate::{crates, files, read, root};

#[derive(Clone, Debug)]
pub struct Edit {
    pub krate: String,
    pub name: String,
    /// What it does wrong, in its own words.
    pub slip: String,
    /// Under the crate's folder.
    pub file: String,
    /// What stands there, once, and what is put in its place, one after the other.
    pub changes: Vec<(String, String)>,
}

pub fn parse(krate: &str, name: &str, text: &str) -> Edit {
    let after = |start: &str| -> Vec<String> {
        let lines = text.lines().filter_map(|line| line.strip_prefix(start));
        lines.map(str::to_string).collect()
    };
    Edit {
        krate: krate.into(),
        name: name.into(),
        slip: after("# ").join(" "),
        file: after("file: ").first().cloned().unwrap_or_default(),
        changes: after("old: ").into_iter().zip(after("new: ")).collect(),
    }
}

/// All edits of the listed crates.
pub fn all() -> Vec<Edit> {
    let mut found = Vec::new();
    for krate in crates() {
        for path in files(
            &root().join("crates").join(&krate).join("must-fail"),
            ".edit",
        ) {
            let name = path.file_stem().expect("a file's name").to_string_lossy();
            found.push(parse(&krate, &name, &read(&path)));
        }
    }
    found
}
