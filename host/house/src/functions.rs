//! The functions of the crates' code, as far as their names and contracts go.

use crate::names::{home, Home};
use crate::{crates, files, read, root};

#[derive(Clone, Debug)]
pub struct Function {
    pub home: Home,
    pub public: bool,
    pub exported: bool,
    /// A function of an `impl`, called by a value or a type.
    pub method: bool,
    /// From the name to the body.
    pub contract: String,
    pub body: String,
    /// The whole file that it stands in.
    pub source: String,
    /// The lines of its name and of its end there, counted from 1.
    pub line: usize,
    pub end: usize,
}

impl Function {
    pub fn requires(&self) -> bool {
        self.contract.contains("requires {")
    }

    /// As the documents name it.
    pub fn path(&self) -> String {
        let Home { krate, file, name } = &self.home;
        format!("{krate}::{file}::{name}")
    }
}

/// The functions of one file: each starts with `fn` at its own indentation and has a
/// body between lines `{` and `}` of just that indentation; without a contract the body
/// opens on the line of its name.
pub fn of_source(krate: &str, file: &str, source: &str) -> Vec<Function> {
    let mut found = Vec::new();
    let mut lines = source.lines().enumerate();
    while let Some((at, line)) = lines.next() {
        let text = line.trim_start();
        let indent = &line[..line.len() - text.len()];
        let public = text.starts_with("pub ");
        let text = text.trim_start_matches("pub ");
        let exported = text.starts_with("extern \"C\" ");
        let Some(signature) = text.trim_start_matches("extern \"C\" ").strip_prefix("fn ") else {
            continue;
        };
        let (open, close) = (format!("{indent}{{"), format!("{indent}}}"));
        let mut end = at + 1;
        let mut part = |last: &str| -> String {
            let inside = lines.by_ref().map(|(at, line)| {
                end = at + 1;
                line
            });
            inside
                .take_while(|line| *line != last)
                .fold(String::new(), |all, line| all + line + "\n")
        };
        let contract = match signature.ends_with('{') {
            true => signature.to_string(),
            false => format!("{signature}\n{}", part(&open)),
        };
        let body = part(&close);
        let name = signature.split(['(', '<']).next().expect("a name");
        found.push(Function {
            home: home(krate, file, name),
            public,
            exported,
            method: !indent.is_empty(),
            contract,
            body,
            source: source.into(),
            line: at + 1,
            end,
        });
    }
    found
}

/// All functions of the listed crates.
pub fn all() -> Vec<Function> {
    let mut found = Vec::new();
    for krate in crates() {
        for path in files(&root().join("crates").join(&krate).join("src"), ".rt") {
            let file = path.file_stem().expect("a file's name").to_string_lossy();
            found.extend(of_source(&krate, &file, &read(&path)));
        }
    }
    found
}
