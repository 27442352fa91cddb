//! What a function stands on: the functions that it calls, and the definitions that
//! its contract cites, each with all that these stand on.

use crate::edits::Edit;
use crate::functions::Function;
use crate::names::{code_imports, home, names, spec_imports, Home, Imports};
use crate::{crates, files, read, root};
use std::collections::{BTreeMap, BTreeSet};

/// A definition of a crate's specs/: the lines up to the next empty one.
#[derive(Clone, Debug)]
pub struct Definition {
    pub home: Home,
    pub text: String,
}

/// The name that a definition's first line declares, if it is one.
fn declared(line: &str) -> Option<&str> {
    let mut line = line.trim_start();
    for word in ["abbrev ", "unfoldable ", "pub ", "record ", "data "] {
        line = line.strip_prefix(word).unwrap_or(line);
    }
    let name = line.split([' ', ':']).next()?;
    let starts = name.starts_with(|c: char| c.is_alphabetic()) && name != "module";
    (starts && line.contains(':')).then_some(name)
}

pub fn definitions_of(krate: &str, file: &str, source: &str) -> Vec<Definition> {
    let mut found = Vec::new();
    for text in source.split("\n\n") {
        let code = |line: &&str| !line.trim_start().starts_with("--") && !line.starts_with("use ");
        let first = text.lines().find(code);
        if let Some(name) = first.and_then(declared) {
            found.push(Definition {
                home: home(krate, file, name),
                text: text.into(),
            });
        }
    }
    found
}

/// The house, as far as it is needed to tell what reaches what.
pub struct House {
    pub functions: Vec<Function>,
    pub definitions: Vec<Definition>,
    spec_imports: BTreeMap<(String, String), Imports>,
}

impl House {
    pub fn read() -> House {
        let mut house = House {
            functions: crate::functions::all(),
            definitions: Vec::new(),
            spec_imports: BTreeMap::new(),
        };
        for krate in crates() {
            for path in files(&root().join("crates").join(&krate).join("specs"), ".antt") {
                let file = path.file_stem().expect("a file's name").to_string_lossy();
                let source = read(&path);
                let key = (krate.clone(), file.to_string());
                house.spec_imports.insert(key, spec_imports(&source));
                let found = definitions_of(&krate, &file, &source);
                house.definitions.extend(found);
            }
        }
        house
    }

    /// The functions that one calls, by its own file's names and imports and, of
    /// methods, by name alone.
    fn called(&self, function: &Function) -> Vec<&Function> {
        let Home { krate, file, .. } = &function.home;
        let imports = code_imports(krate, &function.source);
        let calls = |other: &&Function| {
            let name = &other.home.name;
            let call = format!("{name}(");
            if other.method {
                let (by_value, by_type) = (format!(".{call}"), format!("::{call}"));
                return function.body.contains(&by_value) || function.body.contains(&by_type);
            }
            let path = format!("{}(", other.path());
            let here = other.home.krate == *krate && other.home.file == *file;
            let known = here || imports.get(name) == Some(&other.home);
            function.body.contains(&path) || known && names(&function.body).contains(&name[..])
        };
        self.functions.iter().filter(calls).collect()
    }

    /// A function and all that it calls, directly or not.
    pub fn functions_under(&self, home: &Home) -> BTreeSet<Home> {
        let mut reached = BTreeSet::new();
        let mut open = vec![home.clone()];
        while let Some(next) = open.pop() {
            if !reached.insert(next.clone()) {
                continue;
            }
            let of = self.functions.iter().filter(|f| f.home == next);
            open.extend(of.flat_map(|f| self.called(f)).map(|f| f.home.clone()));
        }
        reached
    }

    /// The definitions that a contract cites, directly or not.
    pub fn definitions_under(&self, function: &Function) -> BTreeSet<Home> {
        let mut reached = BTreeSet::new();
        let imports = spec_imports(&function.source);
        let cited = names(&function.contract);
        let mut open: Vec<Home> = imports
            .into_iter()
            .filter(|(name, _)| cited.contains(&name[..]))
            .map(|(_, home)| home)
            .collect();
        while let Some(next) = open.pop() {
            if !reached.insert(next.clone()) {
                continue;
            }
            let key = (next.krate.clone(), next.file.clone());
            let Some(imports) = self.spec_imports.get(&key) else {
                continue;
            };
            for definition in self.definitions.iter().filter(|d| d.home == next) {
                for name in names(&definition.text) {
                    let here = home(&next.krate, &next.file, name);
                    let own = self.definitions.iter().any(|d| d.home == here);
                    open.extend(imports.get(name).cloned().or(own.then_some(here)));
                }
            }
        }
        reached
    }

    /// What an edit changes: functions or definitions of its file.
    pub fn changed(&self, edit: &Edit) -> BTreeSet<Home> {
        let stem = edit.file.rsplit('/').next().expect("a file's name");
        let (file, _) = stem.split_once('.').unwrap_or((stem, ""));
        let there = |home: &Home| home.krate == edit.krate && home.file == file;
        let holds = |text: &str| {
            edit.changes
                .iter()
                .any(|(old, _)| text.contains(old.as_str()))
        };
        if edit.file.starts_with("src/") {
            let whole = |f: &&Function| there(&f.home) && (holds(&f.contract) || holds(&f.body));
            return self
                .functions
                .iter()
                .filter(whole)
                .map(|f| f.home.clone())
                .collect();
        }
        let whole = |d: &&Definition| there(&d.home) && holds(&d.text);
        self.definitions
            .iter()
            .filter(whole)
            .map(|d| d.home.clone())
            .collect()
    }

    /// The edits that change what a call does or promises.
    pub fn edits_reaching<'a>(&self, call: &Function, edits: &'a [Edit]) -> Vec<&'a Edit> {
        let mut under = self.functions_under(&call.home);
        under.extend(self.definitions_under(call));
        let reaches = |edit: &&Edit| self.changed(edit).iter().any(|home| under.contains(home));
        edits.iter().filter(reaches).collect()
    }
}
