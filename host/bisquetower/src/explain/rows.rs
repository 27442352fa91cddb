//! Tables that were lent: what is wrong with the row that a refusal names.

use super::{BAD_TABLE, BAD_WAITING, LIMIT, TOO_WIDE};
use crate::cause::{Cause, Row, Rows, Rule};
use crate::hash::HASH;
use crate::limits::{OLD_DEPENDENCIES, OLD_ROWS};
use crate::refusal::Refusal;
use crate::{Limits, Table, Waiting};
use std::ops::Range;

/// How many dependencies a change row has room for, and how many rows a table may have.
#[derive(Clone, Copy)]
struct Width {
    dependencies: u64,
    rows: u64,
}

impl Width {
    fn now() -> Width {
        let limits = Limits::told();
        Width {
            dependencies: limits.dependencies,
            rows: limits.rows,
        }
    }

    const OLD: Width = Width {
        dependencies: OLD_DEPENDENCIES as u64,
        rows: OLD_ROWS as u64,
    };

    /// Bytes of a row.
    fn size(self) -> usize {
        HASH + 2 * (1 + self.dependencies as usize)
    }
}

/// The refusal of a change table.
pub(crate) fn table(table: &[u8], refusal: Refusal) -> Refusal {
    tables(table, &[], refusal)
}

/// The refusal of a change table with rows of before.
pub(crate) fn old_table(table: &[u8], refusal: Refusal) -> Refusal {
    let cause = match (refusal.number, refusal.value) {
        (LIMIT, 0) => too_many(Rows::Change, Width::OLD.rows),
        (BAD_TABLE, row) => change_row(Rows::Change, Width::OLD, table, row as usize),
        _ => None,
    };
    cause.map_or(refusal, |cause| refusal.because(cause))
}

/// The refusal to write a good table in rows of before.
pub(crate) fn narrowed(table: &Table, refusal: Refusal) -> Refusal {
    let row = refusal.value as usize;
    let cause = match refusal.number {
        LIMIT => too_many(Rows::Change, Width::OLD.rows),
        TOO_WIDE => {
            let count = table.dependencies(row).len() as u64;
            let most = Width::OLD.dependencies;
            Some(Cause::new(Rule::TooWide { row, count, most }, None))
        }
        _ => None,
    };
    cause.map_or(refusal, |cause| refusal.because(cause))
}

fn too_many(table: Rows, most: u64) -> Option<Cause> {
    Some(Cause::new(Rule::Rows { table, most }, None))
}

/// The refusal of a change table and of the waiting table beside it.
pub(crate) fn tables(table: &[u8], waiting: &[u8], refusal: Refusal) -> Refusal {
    let row = refusal.value as usize;
    let cause = match (refusal.number, refusal.value) {
        (LIMIT, 0) => long(table, waiting),
        (BAD_TABLE, _) => change_row(Rows::Change, Width::now(), table, row),
        (BAD_WAITING, _) => waiting_row(table, waiting, row),
        _ => None,
    };
    cause.map_or(refusal, |cause| refusal.because(cause))
}

/// What is wrong with a change table that is called so, which was refused.
pub(super) fn captured(table: Rows, bytes: &[u8], refusal: Refusal) -> Option<Cause> {
    let width = Width::now();
    match refusal.number {
        LIMIT => too_many(table, width.rows),
        _ => change_row(table, width, bytes, refusal.value as usize),
    }
}

/// The table that has more bytes than the most rows.
fn long(table: &[u8], waiting: &[u8]) -> Option<Cause> {
    let limits = Limits::told();
    let rows = |bytes: &[u8], size: usize| bytes.len().div_ceil(size) as u64;
    let both = [
        (Rows::Change, rows(table, Table::ROW), limits.rows),
        (
            Rows::Waiting,
            rows(waiting, Waiting::ROW),
            limits.waiting_rows,
        ),
    ];
    let long = both.into_iter().find(|(_, rows, most)| rows > most);
    long.and_then(|(table, _, most)| too_many(table, most))
}

/// What is wrong with a row, and which of its bytes are.
pub(super) type Wrong = (Row, Range<usize>);

fn change_row(called: Rows, width: Width, table: &[u8], row: usize) -> Option<Cause> {
    let size = width.size();
    let own = record(table, size, row)?;
    let wrong = cut(own, size)
        .or_else(|| row_numbers(own, row, width.dependencies))
        .or_else(|| {
            let earlier = row_of(own, table, size, row)?;
            Some((Row::Twice(earlier), 0..HASH))
        });
    wrong.map(|wrong| in_row(called, size, row, wrong))
}

fn waiting_row(table: &[u8], waiting: &[u8], row: usize) -> Option<Cause> {
    let own = record(waiting, Waiting::ROW, row)?;
    let wrong = cut(own, Waiting::ROW)
        .or_else(|| hashes(own))
        .or_else(|| {
            let earlier = row_of(own, waiting, Waiting::ROW, row)?;
            Some((Row::Twice(earlier), 0..HASH))
        })
        .or_else(|| {
            let held = row_of(own, table, Table::ROW, table.len() / Table::ROW)?;
            Some((Row::Held(held), 0..HASH))
        });
    wrong.map(|wrong| in_row(Rows::Waiting, Waiting::ROW, row, wrong))
}

/// A row's bytes, as far as they are there.
fn record(table: &[u8], size: usize, row: usize) -> Option<&[u8]> {
    table.chunks(size).nth(row)
}

/// The cause that a row is, whose bytes count from its own first.
fn in_row(table: Rows, size: usize, row: usize, (rule, place): Wrong) -> Cause {
    let start = size * row;
    let place = start + place.start..start + place.end;
    Cause::new(Rule::Row { table, row, rule }, Some(place))
}

fn cut(own: &[u8], whole: usize) -> Option<Wrong> {
    let bytes = own.len();
    (bytes < whole).then_some((Row::Cut { bytes, whole }, 0..bytes))
}

/// Where a change row's count (0) or one of its row numbers (from 1) stands in it.
pub(super) fn field(k: usize) -> Range<usize> {
    HASH + 2 * k..HASH + 2 * (k + 1)
}

/// The count and the row numbers of a change row that has room for `most`.
pub(super) fn row_numbers(own: &[u8], row: usize, most: u64) -> Option<Wrong> {
    let fields = own[HASH..].chunks_exact(2);
    let fields: Vec<u64> = fields
        .map(|f| u16::from_le_bytes([f[0], f[1]]).into())
        .collect();
    let count = fields[0];
    if count > most {
        return Some((Row::Count { count, most }, field(0)));
    }
    let wrong = |k: usize| {
        let (number, after) = (fields[k], fields[k - 1]);
        match k as u64 <= count {
            true if number >= row as u64 => Some(Row::NotBefore(number)),
            true if k > 1 && number <= after => Some(Row::NotAscending { number, after }),
            false if number != 0 => Some(Row::UnusedNumber(number)),
            _ => None,
        }
    };
    (1..fields.len()).find_map(|k| Some((wrong(k)?, field(k))))
}

/// The count and the hashes of a waiting row.
fn hashes(own: &[u8]) -> Option<Wrong> {
    let (count, most) = (own[HASH].into(), Limits::told().dependencies);
    if count > most {
        return Some((Row::Count { count, most }, HASH..HASH + 1));
    }
    let used = |byte: &u8| *byte != 0;
    if let Some(k) = own[HASH + 1..2 * HASH].iter().position(used) {
        let place = HASH + 1 + k;
        return Some((Row::BehindCount, place..place + 1));
    }
    let mut hashes = own[2 * HASH..].chunks_exact(HASH).enumerate();
    let unused = hashes.find(|(k, hash)| *k as u64 >= count && hash.iter().any(used));
    unused.map(|(k, _)| (Row::UnusedHash(k), HASH * (k + 2)..HASH * (k + 3)))
}

/// Of the first `rows` rows of a table the first that has the hash of this one.
fn row_of(own: &[u8], table: &[u8], size: usize, rows: usize) -> Option<usize> {
    let mut rows = table.chunks_exact(size).take(rows);
    rows.position(|row| row[..HASH] == own[..HASH])
}
