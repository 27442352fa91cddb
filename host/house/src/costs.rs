//! What each crate costs the gate: the table at the end of docs/WORKING.md.

use crate::edits::Edit;
use crate::functions::Function;
use std::collections::BTreeMap;

pub const HEAD: &str =
    "| crate | functions | check | edits | all its edits |\n|---|---|---|---|---|\n";

/// A crate's row. Seconds that weren't seen are absent.
#[derive(Clone, Debug, PartialEq, Eq)]
pub struct Cost {
    pub functions: usize,
    pub check: Option<u64>,
    pub edits: usize,
    pub all_edits: Option<u64>,
}

/// The seconds at the end of a line of the gate: `.. (12 s)` or `.. 12 s)`.
fn seconds(line: &str) -> Option<u64> {
    let number = line.strip_suffix(" s)")?.rsplit([' ', '(']).next()?;
    number.parse().ok()
}

/// The seconds that the gate took for the check of a crate.
fn check(log: &str, krate: &str) -> Option<u64> {
    let start = format!("rt: {krate} proved (");
    let line = log.lines().rfind(|line| line.starts_with(&start))?;
    seconds(line)
}

/// The seconds that it took for these edits together, if it tried each of them.
fn tried(log: &str, edits: &[&Edit]) -> Option<u64> {
    let of = |edit: &&Edit| {
        let start = format!("rt: must-fail {}/{}: refused", edit.krate, edit.name);
        let line = log.lines().rfind(|line| line.starts_with(&start))?;
        seconds(line)
    };
    edits.iter().map(of).sum()
}

/// The rows of a page that has the table, by crate.
pub fn rows(page: &str) -> Vec<(String, Cost)> {
    let table = page.split_once(HEAD).expect("the table").1;
    let rows = table.lines().take_while(|line| line.starts_with("| `"));
    rows.map(|line| {
        let cells: Vec<&str> = line.split('|').map(str::trim).collect();
        let [_, krate, functions, check, edits, all_edits, _] = cells[..] else {
            panic!("{line}");
        };
        let cost = Cost {
            functions: functions.parse().expect("a number"),
            check: check.parse().ok(),
            edits: edits.parse().expect("a number"),
            all_edits: all_edits.parse().ok(),
        };
        (krate.trim_matches('`').to_string(), cost)
    })
    .collect()
}

/// The rows of today's crates: seconds from a log of the gate or, without one, those that
/// stand in the page already and are of as many edits.
pub fn today(
    crates: &[String],
    functions: &[Function],
    edits: &[Edit],
    log: Option<&str>,
    page: &str,
) -> Vec<(String, Cost)> {
    let stood: BTreeMap<String, Cost> = rows(page).into_iter().collect();
    let cost = |krate: &String| {
        let edits: Vec<&Edit> = edits.iter().filter(|e| e.krate == *krate).collect();
        let stood = stood.get(krate);
        let (check, all_edits) = match log {
            Some(log) => (check(log, krate), tried(log, &edits)),
            None => (
                stood.and_then(|cost| cost.check),
                stood
                    .filter(|cost| cost.edits == edits.len())
                    .and_then(|cost| cost.all_edits),
            ),
        };
        Cost {
            functions: functions.iter().filter(|f| f.home.krate == *krate).count(),
            check,
            edits: edits.len(),
            all_edits,
        }
    };
    crates.iter().map(|one| (one.clone(), cost(one))).collect()
}

/// The page with these rows in the place of those that it has.
pub fn written(page: &str, costs: &[(String, Cost)]) -> String {
    let (before, table) = page.split_once(HEAD).expect("the table");
    let behind: String = table
        .lines()
        .skip_while(|line| line.starts_with('|'))
        .fold(String::new(), |all, line| all + line + "\n");
    let told = |seconds: Option<u64>| seconds.map_or("–".to_string(), |s| s.to_string());
    let row = |name: &str, cost: &Cost| {
        let Cost {
            functions,
            check,
            edits,
            all_edits,
        } = cost;
        let (check, all_edits) = (told(*check), told(*all_edits));
        format!("| {name} | {functions} | {check} | {edits} | {all_edits} |\n")
    };
    let all = Cost {
        functions: costs.iter().map(|(_, cost)| cost.functions).sum(),
        check: costs.iter().map(|(_, cost)| cost.check).sum(),
        edits: costs.iter().map(|(_, cost)| cost.edits).sum(),
        all_edits: costs.iter().map(|(_, cost)| cost.all_edits).sum(),
    };
    let rows = costs
        .iter()
        .map(|(name, cost)| row(&format!("`{name}`"), cost));
    let rows: String = rows.collect();
    format!("{before}{HEAD}{rows}{}{behind}", row("all", &all))
}
