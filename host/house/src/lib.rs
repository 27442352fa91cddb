//! Reads the Rattle crates of this repository: their functions, what these call and
//! what their contracts cite, and the edits that must be refused. Tests hold them
//! against docs/.

pub mod citations;
pub mod costs;
pub mod edits;
pub mod facts;
pub mod functions;
pub mod names;
pub mod reach;

use std::fs;
use std::path::{Path, PathBuf};

/// The repository's root.
pub fn root() -> PathBuf {
    Path::new(env!("CARGO_MANIFEST_DIR")).join("../..")
}

pub fn read(path: &Path) -> String {
    fs::read_to_string(path).unwrap_or_else(|why| panic!("{}: {why}", path.display()))
}

pub fn document(name: &str) -> String {
    read(&root().join("docs").join(name))
}

/// What stands behind the name of a static library in crates.txt.
pub const STATIC: &str = " staticlib";

/// The crates of crates.txt, each above the ones before it.
pub fn crates() -> Vec<String> {
    read(&root().join("crates.txt"))
        .lines()
        .filter(|line| !line.starts_with('#'))
        .filter_map(|line| line.split_once(':'))
        .map(|(name, _)| name.trim_end_matches(STATIC).to_string())
        .collect()
}

/// The files of a crate's folder that end so, sorted, none if there is no such folder.
pub fn files(folder: &Path, ending: &str) -> Vec<PathBuf> {
    let Ok(entries) = fs::read_dir(folder) else {
        return Vec::new();
    };
    let mut found = Vec::new();
    for entry in entries {
        let path = entry.expect("an entry of a folder").path();
        if path.is_dir() {
            found.extend(files(&path, ending));
        } else if path.to_string_lossy().ends_with(ending) {
            found.push(path);
        }
    }
    found.sort();
    found
}
