//! Captures counted, their set bits alone, and counts added up. The crate counts nothing:
//! beside the library stands plain Rust over the same bytes, which puts the sender's hashes
//! into a set and asks the crate's own filter for each of the listener's other rows: once as
//! if every table were good, and once with the tests that the library makes of each.

use crate::measure::{line, Line, SIZES};
use bisquetower::limits::{DEPENDENCIES, FIELD_SIZE, HASHES, TABLE_SIZE};
use bisquetower::raw;
use compare::inputs::counts::{filter_bytes, filter_of, Captured};
use compare::inputs::table::{table_bytes, Likeness, Shape};
use compare::inputs::Random;
use compare::model::table::{HASH, ROW};
use compare::published::change_hash;
use crate_under_test::facade;
use std::collections::HashSet;
use std::hint::black_box;

/// Captures of a run, each of other tables and another filter, so that nothing is learnt of
/// one that helps with the next.
const CAPTURES: usize = 8;

pub fn measure_all() {
    for (size, rows) in SIZES {
        let note = "library: tests both tables; crate: its contains and a HashSet, no test";
        count_capture("count capture", size, rows, plain_count, note);
    }
    for (size, rows) in SIZES {
        let note = "crate: the same, with the tests of rows and a HashSet of each table";
        count_capture("count, both test", size, rows, tested_count, note);
    }
    count_bits();
    add_counts();
}

/// A capture of tables of so many rows, half of which both have, with a filter of 10 bits and
/// 7 probes over the sender's.
fn capture(random: &mut Random, rows: usize) -> Captured {
    let hashes = random.hashes(rows + rows / 2, Likeness::Spread);
    let (own, heard) = (&hashes[..rows], &hashes[rows / 2..]);
    Captured {
        sender: table_bytes(&random.rows_of(own, Shape::Diamonds)),
        listener: table_bytes(&random.rows_of(heard, Shape::Diamonds)),
        filter: filter_of(10, 7, &own[..rows.min(HASHES)]),
    }
}

fn hashes(table: &[u8]) -> impl Iterator<Item = &[u8]> {
    table.chunks_exact(ROW).map(|row| &row[..HASH])
}

/// Rows that are tested and rows that are contained, together.
fn plain_count(capture: &Captured) -> u64 {
    let filter = facade::read_filter(&capture.filter).expect("a filter");
    let held: HashSet<&[u8]> = hashes(&capture.sender).collect();
    let others = hashes(&capture.listener).filter(|hash| !held.contains(hash));
    others
        .map(|hash| 1 + u64::from(filter.contains_hash(&change_hash(hash))))
        .sum()
}

/// The same if both tables are good.
fn tested_count(capture: &Captured) -> u64 {
    let good = [&capture.sender, &capture.listener].map(|table| plain_test(table));
    match good {
        [true, true] => plain_count(capture),
        _ => 0,
    }
}

/// Whether a table is good, in plain Rust.
fn plain_test(table: &[u8]) -> bool {
    let rows = table.chunks_exact(ROW);
    let whole = rows.remainder().is_empty() && table.len() <= TABLE_SIZE;
    let mut seen = HashSet::with_capacity(rows.len());
    let mut each = rows.enumerate();
    whole && each.all(|(own, row)| row_is_good(own, row) && seen.insert(&row[..HASH]))
}

fn row_is_good(own: usize, row: &[u8]) -> bool {
    let numbers = row[HASH..].chunks_exact(2);
    let mut numbers = numbers.map(|two| usize::from(u16::from_le_bytes([two[0], two[1]])));
    let count = numbers.next().unwrap_or(0);
    let mut least = 0;
    let ascend = numbers.by_ref().take(count).all(|number| {
        let fits = least <= number && number < own;
        least = number + 1;
        fits
    });
    count <= DEPENDENCIES && ascend && numbers.all(|unused| unused == 0)
}

fn count_capture(name: &str, size: &str, rows: usize, plain: fn(&Captured) -> u64, note: &str) {
    let mut random = Random(108);
    let captures: Vec<Captured> = (0..CAPTURES).map(|_| capture(&mut random, rows)).collect();
    let library = || {
        let count = |capture: &Captured| {
            let Captured {
                sender,
                listener,
                filter,
            } = black_box(capture);
            let [first, _, _, _, tested, contained, ..] =
                raw::count_capture(sender, listener, filter);
            first + tested + contained
        };
        captures.iter().map(count).sum()
    };
    let plain = || captures.iter().map(|one| plain(black_box(one))).sum();
    let what = Line {
        name,
        size,
        calls: CAPTURES,
        note,
    };
    line(what, library, plain);
}

/// Captures without rows: what is left is the filter.
fn count_bits() {
    let mut random = Random(32);
    let mut filter = || {
        let field = random.bytes(FIELD_SIZE);
        filter_bytes(8 * FIELD_SIZE as u64, 1, 7, &field)
    };
    let filters: Vec<Vec<u8>> = (0..CAPTURES).map(|_| filter()).collect();
    let library = || {
        let count = |filter: &Vec<u8>| raw::count_capture(&[], &[], black_box(filter))[3];
        filters.iter().map(count).sum()
    };
    let plain = || {
        let count = |filter: &Vec<u8>| {
            let field = &black_box(filter)[filter.len() - FIELD_SIZE..];
            let bytes = field.iter().map(|byte| u64::from(byte.count_ones()));
            bytes.sum::<u64>()
        };
        filters.iter().map(count).sum()
    };
    let what = Line {
        name: "count bits",
        size: "32,768 bytes",
        calls: CAPTURES,
        note: "library: a capture without rows; crate: plain Rust, count_ones of each byte",
    };
    line(what, library, plain);
}

fn add_counts() {
    const ADDITIONS: usize = 1_000;
    let mut random = Random(5);
    let counts: Vec<[u64; 5]> = (0..ADDITIONS)
        .map(|_| std::array::from_fn(|_| random.word() >> 12))
        .collect();
    let library = || {
        let mut totals = [0; 5];
        for counts in black_box(&counts) {
            let [entries, field, set, tested, contained] = *counts;
            raw::add_counts(&mut totals, entries, field, set, tested, contained);
        }
        totals.iter().fold(0, |sum, total| sum ^ total)
    };
    let plain = || {
        let mut totals = [0u64; 5];
        for counts in black_box(&counts) {
            let sums: [Option<u64>; 5] = std::array::from_fn(|k| totals[k].checked_add(counts[k]));
            if sums.iter().all(Option::is_some) {
                totals = sums.map(Option::unwrap_or_default);
            }
            black_box(&totals);
        }
        totals.iter().fold(0, |sum, total| sum ^ total)
    };
    let what = Line {
        name: "add counts",
        size: "5 totals",
        calls: ADDITIONS,
        note: "crate: plain Rust, five checked sums",
    };
    line(what, library, plain);
}
