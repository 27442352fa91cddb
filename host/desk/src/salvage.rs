//! `salvage`: what is good of a hurt change table, written as a table of its own, and a line
//! for each row that isn't.

mod json;
mod lines;

use crate::args::{Args, Options};
use crate::failure::Failure;
use crate::files;
use crate::inspect::{self, Kind};
use crate::rows::Rows;
use bisquetower::{Dropped, Rule, Salvaged, Table};
use std::ffi::{OsStr, OsString};
use std::fs;
use std::path::Path;

const OPTIONS: Options = Options {
    command: "salvage",
    switches: &["--old", "--json", "--force"],
    valued: &["--report"],
};

/// A table that was salvaged, and where it came from and goes.
struct Done<'a> {
    from: &'a OsStr,
    to: &'a OsStr,
    /// The hurt table's bytes, in rows of now.
    laid: Vec<u8>,
    rows: Rows,
    salvaged: Salvaged,
}

impl Done<'_> {
    /// The bytes of a dropped row's field that broke its rule, and their place in the file.
    fn field(&self, dropped: &Dropped) -> Option<(usize, &[u8])> {
        let place = dropped.cause()?.place()?;
        Some((self.rows.place(place.start), &self.laid[place]))
    }

    /// How many rows broke a rule first.
    fn dropped_by(&self, rule: Rule) -> usize {
        let report = self.salvaged.report.iter();
        report.filter(|dropped| dropped.rule == rule).count()
    }
}

pub fn run(words: &[OsString]) -> Result<String, Failure> {
    let args = OPTIONS.read(words)?;
    let [from, to] = OPTIONS.names(&args, "a file to read and one to write")?;
    let report = args
        .value("--report")
        .filter(|report| *report != files::STANDARD);
    let force = args.has("--force");
    may_write(&from, &to, report, force)?;
    let bytes = files::read(&from)?;
    let rows = match args.has("--old") {
        true => Rows::Before,
        false => Rows::of(&bytes),
    };
    let (laid, salvaged) = salvage(&from, &bytes, rows)?;
    let done = Done {
        from: &from,
        to: &to,
        laid,
        rows,
        salvaged,
    };
    files::replace(Path::new(&to), done.salvaged.table.as_bytes())?;
    let told = told(&args, &done);
    match report {
        Some(report) => {
            files::replace(Path::new(report), told.as_bytes())?;
            Ok(lines::summary(&done))
        }
        None if args.has("--json") => Ok(told),
        None => Ok(told + &lines::summary(&done)),
    }
}

/// The dropped rows, as they are asked for.
fn told(args: &Args, done: &Done) -> String {
    match args.has("--json") {
        true => json::report(done),
        false => lines::report(done),
    }
}

/// That nothing would be lost by what is written: the hurt table stays whatever is said, and
/// what else is there without --force.
fn may_write(from: &OsStr, to: &OsStr, report: Option<&OsStr>, force: bool) -> Result<(), Failure> {
    let same = |one: &OsStr, other: &OsStr| match (fs::canonicalize(one), fs::canonicalize(other)) {
        (Ok(one), Ok(other)) => one == other,
        _ => one == other,
    };
    let both = [Some(to), report];
    for out in both.into_iter().flatten() {
        if from != files::STANDARD && same(from, out) {
            let from = from.display();
            return Err(OPTIONS.wrong(format!("{from} is the hurt table, which stays as it is")));
        }
        files::may_write(Path::new(out), force)?;
    }
    match report.is_some_and(|report| same(to, report)) {
        true => Err(OPTIONS.wrong("the kept rows and the report are two files")),
        false => Ok(()),
    }
}

/// What is kept of a file, read in these rows. Rows of before are widened first, hurt or not:
/// the bytes that they lack are zeros, so that what is kept of them is good in either width.
fn salvage(file: &OsStr, bytes: &[u8], rows: Rows) -> Result<(Vec<u8>, Salvaged), Failure> {
    let laid = rows.laid(bytes);
    let refused = |refusal| inspect::refused(file, Kind::Table, &laid, refusal);
    let salvaged = Table::salvage(&laid).map_err(refused)?;
    Ok((laid, salvaged))
}
