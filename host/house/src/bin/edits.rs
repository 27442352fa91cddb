//! Writes docs/EDITS.md from the edits and from what the prover said of each when the
//! gate last tried them: `edits LOG`, where LOG is a file with the output of `rt ci`. An edit
//! that has no line there keeps its row.

use house::edits::{self, Edit};
use house::{facts, read, root};
use std::fmt::Write;
use std::{env, fs};

const HEAD: &str = "# Edits that must be refused

Each is a wrong program, or a wrong definition, of the same shape as what stands: crates/CRATE/must-fail/EDIT.edit. The gate applies each to a copy of its crate, and the prover has to refuse it. The last column names the first false fact that the prover could then no longer show: `returns` is what a function ensures where it returns (`returns-then-..` and `returns-in-..` in a branch), `loop-x-preserved` that the body of a loop keeps what is claimed of it, `loop-x-init` that it holds before the loop, `..-requires` what a called function asks for; any other name is a law, with its file. Where an edit makes a test weaker, the first error may be of a fact that still holds, with the false one behind it. `make edits` writes this page from what the gate left in target/; an edit that it has no line of keeps its row.
";

/// Edits of which the first error isn't the false fact: the fact, as it was read in what the
/// prover said.
const READ: &[(&str, &str)] = &[
    ("bloom/have_hashes", "`returns` of `have::have_good`"),
    ("pick/definition_transitive", "`check_tells` (AcceptLaws)"),
    (
        "plan_count/unpicked_sent",
        "`returns` of `carried::pick_list`",
    ),
    (
        "receive_make/rows_before_beyond",
        "`returns-in_err-parse` of `check::check_receive`",
    ),
    (
        "sample_replay/all_agree",
        "`loop-kind-preserved` of `walk::walk`",
    ),
    (
        "table/table_count",
        "`numbers_good-requires` of `check::row_sound`",
    ),
    (
        "table/table_not_ascending",
        "`loop-j-preserved` of `check::numbers_good`",
    ),
    (
        "table/table_own_row",
        "`loop-j-preserved` of `check::numbers_good`",
    ),
    (
        "waiting/waiting_unasked",
        "`returns` of `check::waiting_good`",
    ),
    (
        "waiting_missing/missing_no_room_to_tell",
        "`returns` of `missing::missing_from`",
    ),
    ("walk_hosts/fresh_never", "`zeroed_fresh` (Zeroed)"),
];

/// What no longer holds: as it was read, or the first error that the log has of the edit.
fn told(log: &str, krate: &str, name: &str) -> Option<String> {
    let first = facts::first(log, krate, name)?;
    let edit = format!("{krate}/{name}");
    match READ.iter().find(|(read, _)| *read == edit) {
        Some((_, fact)) => Some(fact.to_string()),
        None => first.told(krate),
    }
}

/// What the page says now of an edit whose slip is still the same.
fn standing(page: &str, krate: &str, name: &str, slip: &str) -> Option<String> {
    let section = page
        .split("\n## ")
        .find(|part| part.lines().next() == Some(krate))?;
    let row = section
        .lines()
        .find_map(|line| line.strip_prefix(&format!("| `{name}` | {slip} | ")))?;
    Some(row.strip_suffix(" |")?.to_string())
}

fn main() {
    let path = root().join("docs/EDITS.md");
    let now = fs::read_to_string(&path).unwrap_or_default();
    let log = env::args().nth(1).map(|log| read(log.as_ref()));
    let log = log.unwrap_or_default();
    let mut page = HEAD.to_string();
    let mut last = String::new();
    let mut untold = Vec::new();
    for Edit {
        krate, name, slip, ..
    } in edits::all()
    {
        if last != krate {
            let _ = write!(
                page,
                "\n## {krate}\n\n| edit | the rule that it breaks, or its slip | what no longer holds |\n|---|---|---|\n"
            );
            last = krate.clone();
        }
        let fact = told(&log, &krate, &name).or_else(|| standing(&now, &krate, &name, &slip));
        match fact {
            Some(fact) => {
                let _ = writeln!(page, "| `{name}` | {slip} | {fact} |");
            }
            None => untold.push(format!("{krate}/{name}")),
        }
    }
    if !untold.is_empty() {
        eprintln!(
            "edits: the log has no line of them, or none that names a fact: {}",
            untold.join(", ")
        );
        std::process::exit(1);
    }
    fs::write(&path, page).unwrap_or_else(|why| panic!("{}: {why}", path.display()));
}
