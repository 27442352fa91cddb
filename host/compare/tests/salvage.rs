//! Hurt tables salvaged (document 02, M-109): the proved library against the model in every
//! word and byte, and what 02 says of every table. `compare::salvage` says what is held
//! against what.

#[path = "salvage/again.rs"]
mod again;
#[path = "salvage/buffers.rs"]
mod buffers;
#[path = "salvage/bytes.rs"]
mod bytes;
#[path = "salvage/catch_up.rs"]
mod catch_up;
#[path = "salvage/random.rs"]
mod random;
#[path = "salvage/rows.rs"]
mod rows;

use compare::inputs::table::{table_bytes, Row};
use compare::model::table::{Hash, ROW};
use compare::salvage::{ask, compare, Rooms, Tally};

fn hash(name: u8) -> Hash {
    [name; 32]
}

/// A table of rows that are named from 1 on, on these rows.
fn table(rows: &[&[usize]]) -> Vec<u8> {
    let rows = rows.iter().enumerate().map(|(row, on)| Row {
        hash: hash(row as u8 + 1),
        dependencies: on.to_vec(),
    });
    table_bytes(&rows.collect::<Vec<_>>())
}

/// A row of a table's bytes.
fn row(table: &mut [u8], number: usize) -> &mut [u8] {
    &mut table[ROW * number..][..ROW]
}

fn agree(tables: &[(&[u8], Rooms)]) -> Tally {
    compare(tables).unwrap_or_else(|why| panic!("{why}"))
}

/// That the library and the model agree about these, with room enough.
fn agree_all(tables: &[Vec<u8>]) -> Tally {
    let lent: Vec<(&[u8], Rooms)> = tables
        .iter()
        .map(|table| (&table[..], Rooms::Enough))
        .collect();
    agree(&lent)
}

/// The rows that are dropped of a table and the rules that they broke, which are the model's
/// too; what is kept; and the bytes of a partial row.
fn salvaged(table: &[u8]) -> (Vec<(u64, u64)>, Vec<u8>, u64) {
    agree(&[(table, Rooms::Enough)]);
    let (answer, rows, report) = ask(table);
    assert_eq!(answer[0], 0);
    let report = report.chunks(2).map(|entry| (entry[0], entry[1]));
    (report.collect(), rows, answer[3])
}

/// The rows that are dropped of a table and the rules that they broke.
fn dropped(table: &[u8]) -> Vec<(u64, u64)> {
    salvaged(table).0
}
