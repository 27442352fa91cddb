//! Change tables and waiting tables, heads, rows beyond, what is missing, and indexes: the
//! proved library against the model and the stand-in document.
//! `compare::tables` says what is held against what.

#[path = "tables/buffers.rs"]
mod buffers;
#[path = "tables/convert.rs"]
mod convert;
#[path = "tables/graph.rs"]
mod graph;
#[path = "tables/index.rs"]
mod index;
#[path = "tables/literal.rs"]
mod literal;
#[path = "tables/missing.rs"]
mod missing;
#[path = "tables/random.rs"]
mod random;
#[path = "tables/records.rs"]
mod records;
#[path = "tables/refusals.rs"]
mod refusals;

use compare::inputs::index::Beside;
use compare::inputs::table::{table_bytes, waiting_bytes, Row, WaitingRow};
use compare::model::table::{Hash, HASH, HASHES};
use compare::tables::{ask, compare, Call, Rooms, Tally};

/// The calls by their places in `NAMES`.
const CHECK_TABLE: usize = 0;
const CHECK_TABLES: usize = 1;
const HEADS: usize = 2;
const BEYOND: usize = 3;
const MISSING: usize = 4;
const BUILD_INDEX: usize = 5;
const EXTEND_INDEX: usize = 6;

/// More than any call writes.
const ROOM: usize = HASH * HASHES + 1;

/// What lists and tables are lent as.
type Bytes = Vec<u8>;

/// The words of an answer but for the last two, which are 0.
type First = [u64; 2];

fn agree(calls: &[(Call, Rooms)]) -> Tally {
    compare(calls).unwrap_or_else(|disagreement| panic!("{disagreement}"))
}

/// The library's answer, after a comparison with the model's.
fn answer(call: Call, room: usize) -> First {
    agree(&[(call, Rooms::One(room))]);
    let ([first, second, third, fourth], _) = ask(call, room);
    assert_eq!([third, fourth], [0, 0]);
    [first, second]
}

/// The hashes that the library writes; neither model nor stand-in is asked.
fn written(call: Call) -> Vec<Hash> {
    let ([first, length, ..], bytes) = ask(call, ROOM);
    assert_eq!((first, length), (0, bytes.len() as u64));
    let hashes = bytes.chunks_exact(HASH);
    hashes.map(|hash| hash.try_into().unwrap()).collect()
}

fn check(table: &[u8]) -> Call<'_> {
    Call::CheckTable { table }
}

fn check_tables<'a>(table: &'a [u8], waiting: &'a [u8]) -> Call<'a> {
    let index = Beside::Own;
    Call::CheckTables {
        table,
        index,
        waiting,
    }
}

fn heads(table: &[u8], before: usize) -> Call<'_> {
    let index = Beside::Own;
    Call::Heads {
        table,
        index,
        before,
    }
}

fn beyond<'a>(table: &'a [u8], hashes: &'a [u8]) -> Call<'a> {
    let index = Beside::Own;
    Call::Beyond {
        table,
        index,
        hashes,
    }
}

fn missing<'a>(table: &'a [u8], waiting: &'a [u8], hashes: &'a [u8]) -> Call<'a> {
    let index = Beside::Own;
    Call::Missing {
        table,
        index,
        waiting,
        hashes,
    }
}

fn build_index(table: &[u8]) -> Call<'_> {
    Call::BuildIndex { table }
}

fn extend_index(table: &[u8]) -> Call<'_> {
    let index = Beside::Own;
    Call::ExtendIndex { table, index }
}

/// A hash whose order follows `n`.
fn hash(n: u16) -> Hash {
    let mut hash = [7; HASH];
    hash[..2].copy_from_slice(&n.to_be_bytes());
    hash
}

fn hashes(numbers: &[u16]) -> Vec<Hash> {
    numbers.iter().map(|&n| hash(n)).collect()
}

fn list(numbers: &[u16]) -> Bytes {
    hashes(numbers).concat()
}

/// A table of these hashes, each on earlier rows.
fn table(rows: &[(u16, &[usize])]) -> Bytes {
    let rows = rows.iter().map(|&(n, dependencies)| Row {
        hash: hash(n),
        dependencies: dependencies.to_vec(),
    });
    table_bytes(&rows.collect::<Vec<_>>())
}

fn waiting(rows: &[(u16, &[u16])]) -> Bytes {
    let rows = rows.iter().map(|&(n, dependencies)| WaitingRow {
        hash: hash(n),
        dependencies: hashes(dependencies),
    });
    waiting_bytes(&rows.collect::<Vec<_>>())
}

/// Rows a; b on a; c on a; d on b and c.
fn diamond() -> Bytes {
    table(&[(1, &[]), (2, &[0]), (3, &[0]), (4, &[1, 2])])
}

/// A table with another record in a row's place.
fn with_record(table: &[u8], row: usize, record: &[u8]) -> Bytes {
    let mut table = table.to_vec();
    table[record.len() * row..][..record.len()].copy_from_slice(record);
    table
}
