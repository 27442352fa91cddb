//! What documents cite: `name` (CRATE FILE) or `name` (crates/CRATE/proofs/FILE.antt), a
//! definition or a law of a crate.

use crate::{files, read, root};

/// A name, and the crate and file that a document says it stands in.
#[derive(Clone, Debug, PartialEq, Eq)]
pub struct Citation {
    pub name: String,
    pub krate: String,
    pub file: String,
}

/// The crate and file that a bracket names, if it does.
fn home(bracket: &str) -> Option<(&str, &str)> {
    let steps: Vec<&str> = bracket.split([' ', '/', '.']).collect();
    let (krate, file) = match steps[..] {
        [krate, file] | ["crates", krate, "specs" | "proofs", file, "antt"] => (krate, file),
        _ => return None,
    };
    let is_crate = root().join("crates").join(krate).is_dir();
    (is_crate && file.starts_with(char::is_uppercase)).then_some((krate, file))
}

/// The citations of a line: names in back-ticks, each of the next bracket that names a
/// file. A cell of a table starts anew, and so does a sentence.
fn of_part(part: &str) -> Vec<Citation> {
    let mut found = Vec::new();
    let mut waiting: Vec<&str> = Vec::new();
    for (index, piece) in part.split('`').enumerate() {
        if index % 2 == 1 {
            waiting.push(piece);
            continue;
        }
        let brackets = piece.split('(').skip(1).filter_map(|p| p.split(')').next());
        for (krate, file) in brackets.filter_map(home) {
            found.extend(waiting.drain(..).map(|name| Citation {
                name: name.into(),
                krate: krate.into(),
                file: file.into(),
            }));
        }
    }
    found
}

pub fn of_text(text: &str) -> Vec<Citation> {
    let parts = text.lines().flat_map(|line| line.split(" | "));
    let sentences = parts.flat_map(|part| part.split(". "));
    sentences.flat_map(of_part).collect()
}

/// Whether a file of the crate's definitions or laws declares the name.
pub fn stands(citation: &Citation) -> bool {
    let Citation { name, krate, file } = citation;
    let declares = |line: &str| {
        let mut line = line.trim_start();
        for word in ["abbrev ", "unfoldable ", "pub ", "record ", "data "] {
            line = line.strip_prefix(word).unwrap_or(line);
        }
        let rest = line.strip_prefix(name.as_str());
        rest.is_some_and(|rest| rest.starts_with([' ', ':']) && rest.contains(':'))
    };
    // A page of definitions may stand in a folder of specs/.
    ["specs", "proofs"].iter().any(|folder| {
        let folder = root().join("crates").join(krate).join(folder);
        let mut pages = files(&folder, &format!("/{file}.antt")).into_iter();
        pages.any(|path| read(&path).lines().any(declares))
    })
}
