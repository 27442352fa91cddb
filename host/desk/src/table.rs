//! `table`: how large a change table is, and its first bad row.

use crate::args::Options;
use crate::failure::Failure;
use crate::files;
use crate::inspect;
use crate::paint::Paint;
use crate::rows::Rows;
use crate::text::{count, hashes, number, Columns};
use bisquetower::{Refusal, Salvaged, Table};
use std::ffi::{OsStr, OsString};

const OPTIONS: Options = Options {
    command: "table",
    switches: &["--full"],
    valued: &[],
};

pub fn run(words: &[OsString]) -> Result<String, Failure> {
    let args = OPTIONS.read(words)?;
    let [file] = OPTIONS.names(&args, "one file")?;
    let bytes = files::read(&file)?;
    let (name, full) = (file.display(), args.has("--full"));
    let paint = Paint::of_output();
    let rows = Rows::of(&bytes);
    match rows.table(&bytes) {
        Ok(table) => {
            let shown = shown(&table, ("none", ""), full);
            let good = paint.good("a good change table");
            Ok(format!("{name}: {good}{}\n{shown}", rows.told()))
        }
        // The rows before the first bad one are a table.
        Err(
            refusal @ Refusal {
                number: 6, value, ..
            },
        ) => {
            let row = value as usize;
            let before = rows.table(&bytes[..rows.size() * row]);
            let before = before.expect("rows before the first bad one are good");
            let bad = paint.bad("a bad change table; of its rows before the first bad one");
            let salvaged = salvaged(rows, &bytes);
            let broke = salvaged.as_ref().map(|salvaged| broken(salvaged, row));
            let first_bad = (&number(row)[..], broke.as_deref().unwrap_or_default());
            let shown = shown(&before, first_bad, full);
            let shown = format!("{name}: {bad}{}\n{shown}", rows.told());
            let failure = refused(&file, &bytes, refusal).showing(shown);
            Err(match salvaged {
                Some(salvaged) => failure.advising(offer(&file, &salvaged)),
                None => failure,
            })
        }
        Err(refusal) => Err(refused(&file, &bytes, refusal)),
    }
}

/// A table's file that has to be good, in rows of now or of before.
pub fn read(file: &OsStr) -> Result<Table, Failure> {
    let bytes = files::read(file)?;
    let table = Rows::of(&bytes).table(&bytes);
    table.map_err(|refusal| refused(file, &bytes, refusal))
}

fn refused(file: &OsStr, bytes: &[u8], refusal: Refusal) -> Failure {
    inspect::refused(file, inspect::Kind::Table, bytes, refusal)
}

/// What can be kept of a bad table. Rows of before can't be salvaged.
fn salvaged(rows: Rows, bytes: &[u8]) -> Option<Salvaged> {
    match rows {
        Rows::Now => Table::salvage(bytes).ok(),
        Rows::Before => None,
    }
}

/// The rule that a bad row broke. One that isn't whole is none that is dropped.
fn broken(salvaged: &Salvaged, row: usize) -> String {
    let dropped = salvaged.report.iter().find(|dropped| dropped.row == row);
    dropped.map_or("it isn't whole".to_string(), |dropped| {
        format!("{}: {}", dropped.rule.name(), dropped.rule)
    })
}

/// What to do with a bad table.
fn offer(file: &OsStr, salvaged: &Salvaged) -> String {
    let (file, kept) = (file.display(), count(salvaged.table.rows(), "row"));
    format!("`bisquetower salvage {file} OUT` keeps {kept} of it; what is missing a station sends.")
}

/// What good rows are, in columns.
fn shown(table: &Table, first_bad: (&str, &str), full: bool) -> String {
    let mut columns = Columns::default();
    let heads = table.heads();
    columns.row("rows", &number(table.rows()), "");
    columns.rows("heads", &number(heads.len()), &hashes(&heads, full));
    let dependencies = |row: &usize| table.dependencies(*row).len();
    if let Some(widest) = first_of_most(table.rows(), dependencies) {
        let on = count(dependencies(&widest), "row");
        columns.row("widest", &number(widest), &format!("depends on {on}"));
        let depths = depths(table);
        let deepest = first_of_most(table.rows(), |row| depths[*row]).unwrap_or(widest);
        let below = count(depths[deepest], "row");
        let told = format!("the longest way down passes {below}");
        columns.row("deepest", &number(deepest), &told);
    }
    let (row, broke) = first_bad;
    columns.row("first bad row", row, broke);
    columns.to_string()
}

/// The first row that has most of something; none of no rows.
fn first_of_most(rows: usize, of: impl Fn(&usize) -> usize) -> Option<usize> {
    (0..rows).rev().max_by_key(of)
}

/// For each row, the rows on the longest way down from it.
fn depths(table: &Table) -> Vec<usize> {
    let mut depths: Vec<usize> = Vec::with_capacity(table.rows());
    for row in 0..table.rows() {
        let below = table.dependencies(row).into_iter();
        let depth = below.map(|row| depths[row] + 1).max();
        depths.push(depth.unwrap_or(0));
    }
    depths
}
