//! Fixed samples of the crate's answers, the same each time they are made. Inputs of
//! the intended differences are left out.
//!
//! Those of wire items are bytes (`wire`), for the proved program crates/sample_replay, which
//! has them as its standard input. Those of messages, saved states (and those with
//! repeats), hashes to send, filters and steps of a session are text, a file of
//! host/compare/samples for each:
//!
//! ```text
//!   # 60 records: what the columns are
//!   column column ..
//!   ..
//! ```
//!
//! All but the number of records is hexadecimal. Hashes stand one after the
//! other, 32 bytes each; items of another list have commas between them. No
//! bytes, and a list of nothing, are a dash.

pub mod filters;
pub mod messages;
pub mod repeats;
pub mod selections;
pub mod sessions;
pub mod states;
pub mod wire;

use crate::inputs::table::Row;
use crate::model::table::{table, DEPENDENCIES};
use crate::model::Refused;
use std::path::{Path, PathBuf};

/// A line of a text.
pub trait Record: Sized {
    /// The file's name, from the repository's root on.
    const FILE: &'static str;
    /// What the columns are, in words.
    const COLUMNS: &'static str;

    /// The records that are made from the crate, the same each time.
    fn sample() -> Vec<Self>;

    fn columns(&self) -> Vec<String>;

    /// None if the columns are no record's.
    fn of(columns: &[&str]) -> Option<Self>;
}

/// A file as it is made from the crate.
pub struct File {
    /// From the repository's root on.
    pub name: &'static str,
    pub records: usize,
    pub bytes: Vec<u8>,
}

impl File {
    pub fn path(&self) -> PathBuf {
        path(self.name)
    }

    /// The bytes that are stored under its name.
    pub fn stored(&self) -> std::io::Result<Vec<u8>> {
        std::fs::read(self.path())
    }
}

/// Where a file stands that is named from the repository's root on.
pub fn path(name: &str) -> PathBuf {
    let root = Path::new(env!("CARGO_MANIFEST_DIR")).join("../..");
    root.join(name)
}

pub fn files() -> [File; 7] {
    let records = wire::sample();
    let wire = File {
        name: wire::FILE,
        records: records.len(),
        bytes: wire::encode(&records),
    };
    [
        wire,
        file::<messages::Record>(),
        file::<states::Record>(),
        file::<selections::Record>(),
        file::<filters::Record>(),
        file::<sessions::Record>(),
        file::<repeats::Record>(),
    ]
}

fn file<R: Record>() -> File {
    let records = R::sample();
    File {
        name: R::FILE,
        records: records.len(),
        bytes: encode(&records).into_bytes(),
    }
}

fn first_line<R: Record>(records: usize) -> String {
    format!("# {records} records: {}", R::COLUMNS)
}

pub fn encode<R: Record>(records: &[R]) -> String {
    let mut text = first_line::<R>(records.len());
    for record in records {
        text += "\n";
        text += &record.columns().join(" ");
    }
    text + "\n"
}

/// The records of a file; the error is what isn't as a file has it, and that may
/// be their number.
pub fn decode<R: Record>(text: &str) -> Result<Vec<R>, String> {
    let mut lines = text.lines();
    let first = lines.next().ok_or("the first line isn't there")?;
    let record = |line: &str| {
        let columns: Vec<&str> = line.split(' ').collect();
        R::of(&columns).ok_or_else(|| format!("not a record: {line}"))
    };
    let records: Vec<R> = lines.map(record).collect::<Result<_, _>>()?;
    let expected = first_line::<R>(records.len());
    if first == expected {
        Ok(records)
    } else {
        Err(format!("the first line is {first}, and not {expected}"))
    }
}

const NOTHING: &str = "-";

fn bytes_column(bytes: &[u8]) -> String {
    match bytes {
        [] => NOTHING.to_string(),
        _ => bytes.iter().map(|byte| format!("{byte:02x}")).collect(),
    }
}

fn bytes_of(column: &str) -> Option<Vec<u8>> {
    if column == NOTHING {
        return Some(Vec::new());
    }
    let (digits, odd) = column.as_bytes().as_chunks::<2>();
    let byte = |two: &[u8; 2]| {
        let two = std::str::from_utf8(two).ok()?;
        u8::from_str_radix(two, 16).ok()
    };
    let bytes = digits.iter().map(byte).collect::<Option<_>>();
    bytes.filter(|_| odd.is_empty())
}

fn list_column<T>(list: &[T], item: impl Fn(&T) -> String) -> String {
    match list {
        [] => NOTHING.to_string(),
        _ => list.iter().map(item).collect::<Vec<_>>().join(","),
    }
}

fn list_of<T>(column: &str, item: impl Fn(&str) -> Option<T>) -> Option<Vec<T>> {
    match column {
        NOTHING => Some(Vec::new()),
        _ => column.split(',').map(item).collect(),
    }
}

/// A row: its hash, and after a colon the rows that it depends on.
fn row_item(row: &Row) -> String {
    let on = row.dependencies.iter().map(|row| format!("{row:x}"));
    let on: Vec<String> = on.collect();
    format!("{}:{}", bytes_column(&row.hash), on.join("."))
}

fn row_of(item: &str) -> Option<Row> {
    let (hash, on) = item.split_once(':')?;
    let on = on.split('.').filter(|number| !number.is_empty());
    let on = on.map(|number| number_of(number)?.try_into().ok());
    let dependencies: Vec<usize> = on.collect::<Option<_>>()?;
    let hash = bytes_of(hash)?.try_into().ok()?;
    let few = dependencies.len() <= DEPENDENCIES;
    few.then_some(Row { hash, dependencies })
}

/// The rows of a good table.
fn rows_of(lent: &[u8]) -> Vec<Row> {
    let table = table(lent).expect("a good table");
    let rows = table.rows.into_iter().map(|row| Row {
        hash: row.hash,
        dependencies: row.dependencies,
    });
    rows.collect()
}

fn number_of(column: &str) -> Option<u64> {
    u64::from_str_radix(column, 16).ok()
}

/// The crate's kind of refusal as 01's number, and for 2 the byte.
fn refusal_columns((number, value): Refused) -> Vec<String> {
    match number {
        2 => vec!["2".to_string(), bytes_column(&[value as u8])],
        _ => vec![number.to_string()],
    }
}

fn refusal_of(columns: &[&str]) -> Option<Refused> {
    match columns {
        ["1"] => Some((1, 0)),
        ["2", byte] => Some((2, number_of(byte)?)),
        ["3"] => Some((3, 0)),
        _ => None,
    }
}
