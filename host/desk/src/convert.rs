//! `convert`: a change table in rows of before written in rows of now, or back.

use crate::args::Options;
use crate::failure::Failure;
use crate::files;
use crate::inspect::{self, Kind};
use crate::rows::Rows;
use crate::text::{count, number};
use bisquetower::{Refusal, Table};
use std::ffi::{OsStr, OsString};
use std::path::Path;

const OPTIONS: Options = Options {
    command: "convert",
    switches: &["--to-old", "--force"],
    valued: &[],
};

pub fn run(words: &[OsString]) -> Result<String, Failure> {
    let args = OPTIONS.read(words)?;
    let [from, to] = OPTIONS.names(&args, "a file to read and one to write")?;
    let bytes = files::read(&from)?;
    let (is, becomes) = match args.has("--to-old") {
        false => (Rows::Before, Rows::Now),
        true => (Rows::Now, Rows::Before),
    };
    let table = read(&from, &bytes, is, becomes)?;
    let written = match becomes {
        Rows::Now => Ok(table.as_bytes().to_vec()),
        Rows::Before => table.to_old(),
    };
    let written = written.map_err(|refusal| refused(&from, &bytes, refusal))?;
    files::write(Path::new(&to), &written, args.has("--force"))?;
    let rows = count(table.rows(), "row");
    let (is, becomes) = (number(is.size()), number(becomes.size()));
    let to = to.display();
    Ok(format!(
        "{to}: {rows} of {becomes} bytes, from rows of {is} bytes\n"
    ))
}

/// The table, if it has the rows that are to be converted. A table without rows has both.
fn read(file: &OsStr, bytes: &[u8], is: Rows, becomes: Rows) -> Result<Table, Failure> {
    if !bytes.is_empty() && Rows::of(bytes) == becomes && becomes.table(bytes).is_ok() {
        let (file, size) = (file.display(), number(becomes.size()));
        let option = match becomes {
            Rows::Now => "with --to-old they become rows of before",
            Rows::Before => "without --to-old they become rows of now",
        };
        return Err(Failure::refused(
            format!("{file} has rows of {size} bytes already"),
            format!("there is nothing to do; {option}."),
        ));
    }
    is.table(bytes)
        .map_err(|refusal| refused(file, bytes, refusal))
}

fn refused(file: &OsStr, bytes: &[u8], refusal: Refusal) -> Failure {
    inspect::refused(file, Kind::Table, bytes, refusal)
}
