//! What the prover said of an edit: the first fact that no longer holds.

use crate::functions::{of_source, Function};
use crate::{read, root};

/// Where the first error stands, under the crate's folder, and what it is named.
#[derive(Clone, Debug, PartialEq, Eq)]
pub struct Fact {
    pub file: String,
    pub line: usize,
    pub name: String,
}

/// The first error that the gate's log has of an edit: of a proof, or of a contract that has
/// no proof file.
pub fn first(log: &str, krate: &str, edit: &str) -> Option<Fact> {
    let start = format!("rt: must-fail {krate}/{edit}.edit: refused, as it must be");
    let said = log
        .lines()
        .rev()
        .find_map(|line| line.strip_prefix(&start))?;
    // A remark in brackets may stand before the error.
    let said = match said.strip_prefix(" (") {
        Some(remark) => remark.split_once("): ")?.1,
        None => said.strip_prefix(": ")?,
    };
    let (is_note, said) = match said.strip_prefix("note: ") {
        Some(said) => (true, said),
        None => (false, said),
    };
    let (place, said) = said.split_once(": ")?;
    let mut place = place.trim_start_matches("./").split(':');
    let (file, line) = (place.next()?, place.next()?.parse().ok()?);
    let name = match is_note {
        true => said.split_once("(`")?.1.split_once("`)")?.0,
        false => said.strip_prefix("error: `")?.split_once('`')?.0,
    };
    Some(Fact {
        file: file.into(),
        line,
        name: name.into(),
    })
}

/// The name of a function as the pages have it: behind its file, or its type if it is a method.
fn named(function: &Function) -> String {
    let lines: Vec<&str> = function.source.lines().take(function.line).collect();
    let of_type = |line: &&str| {
        Some(
            line.strip_prefix("impl ")?
                .trim_end_matches(" {")
                .to_string(),
        )
    };
    let home = match function.method {
        true => lines.iter().rev().find_map(of_type),
        false => None,
    };
    let home = home.unwrap_or(function.home.file.clone());
    format!("{home}::{}", function.home.name)
}

/// The functions of a file that call each other under the name of that cycle, or the one that
/// calls itself.
fn of_cycle(krate: &str, module: &str, cycle: &str) -> String {
    let path = root().join("crates").join(krate).join("src");
    let text = read(&path.join(format!("{module}.rt")));
    let mark = format!("#[cycle({cycle})]");
    let lines: Vec<&str> = text.lines().collect();
    let marked = |f: &Function| {
        let above = lines[..f.line - 1].iter().rev();
        let mut above = above.take_while(|line| line.trim_start().starts_with("#["));
        above.any(|line| line.trim() == mark)
    };
    let functions = of_source(krate, module, &text).into_iter();
    let names: Vec<String> = functions.filter(marked).map(|f| f.home.name).collect();
    match names.is_empty() {
        true => cycle.to_string(),
        false => names.join(", "),
    }
}

impl Fact {
    /// In words: a fact of a function, by its proof or its source, or a law.
    pub fn told(&self, krate: &str) -> Option<String> {
        let Fact { file, line, name } = self;
        let steps: Vec<&str> = file.split('/').collect();
        match steps[..] {
            ["proofs", .., module, function, "Answers.antt" | "Invariants.antt" | "Proof.antt"] => {
                let function = match function.strip_prefix('+') {
                    Some(cycle) => of_cycle(krate, module, cycle),
                    None => function.to_string(),
                };
                Some(format!("`{name}` of `{module}::{function}`"))
            }
            // A function at the root of its crate.
            ["proofs", function, "Answers.antt" | "Invariants.antt" | "Proof.antt"] => {
                Some(format!("`{name}` of `main::{function}`"))
            }
            ["proofs", .., file] => Some(format!("`{name}` ({})", file.trim_end_matches(".antt"))),
            ["src", source] => {
                let text = read(&root().join("crates").join(krate).join(file));
                let functions = of_source(krate, source.trim_end_matches(".rt"), &text);
                let function = functions.iter().find(|f| *line <= f.end)?;
                Some(format!("`{name}` of `{}`", named(function)))
            }
            _ => None,
        }
    }
}
