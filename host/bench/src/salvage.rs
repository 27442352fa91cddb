//! Tables salvaged, good ones and hurt ones. The crate has nothing like it: beside the library
//! stands plain Rust over the same bytes and into the same buffers, with a set of the kept
//! rows' hashes and an array of their numbers.

use crate::measure::{line, Line, SIZES};
use bisquetower::limits::DEPENDENCIES;
use bisquetower::raw;
use compare::inputs::table::{set_number, table_bytes, Likeness, Shape};
use compare::inputs::Random;
use compare::model::table::{HASH, ROW};
use std::collections::HashSet;
use std::hint::black_box;

/// Tables of a run, each of other hashes, so that nothing is learnt of one that helps with the
/// next.
const TABLES: usize = 4;

/// Of so many rows one is hurt, and what depends on it is lost.
const ONE_IN: usize = 32;

pub fn measure_all() {
    for (size, rows) in SIZES {
        let good = |random: &mut Random| table(random, rows);
        let note = "crate: plain Rust, a HashSet of kept hashes and an array of new numbers";
        salvage("salvage good", size, good, note);
    }
    for (size, rows) in SIZES {
        let hurt = |random: &mut Random| {
            let mut table = table(random, rows);
            hurt(&mut table);
            table
        };
        let note = "the same; a row in 32 is hurt, and what depends on it lost";
        salvage("salvage hurt", size, hurt, note);
    }
}

/// A good table, whose rows depend on up to three of the eight before them.
fn table(random: &mut Random, rows: usize) -> Vec<u8> {
    table_bytes(&random.rows(rows, Shape::Recent, Likeness::Spread))
}

/// Too large a count, a stray number and a repeated hash, in turn.
fn hurt(table: &mut [u8]) {
    let (first, rest) = table.split_at_mut(ROW);
    for (k, rows) in rest.chunks_mut(ONE_IN * ROW).enumerate() {
        let row = &mut rows[..ROW];
        match k % 3 {
            0 => set_number(row, 0, DEPENDENCIES + 1),
            1 => set_number(row, DEPENDENCIES, 1),
            _ => row[..HASH].copy_from_slice(&first[..HASH]),
        }
    }
}

fn salvage(name: &str, size: &str, make: impl Fn(&mut Random) -> Vec<u8>, note: &str) {
    let mut random = Random(109);
    let tables: Vec<Vec<u8>> = (0..TABLES).map(|_| make(&mut random)).collect();
    let longest = tables[0].len();
    let buffers = || (vec![0; longest], vec![0; 2 * longest / ROW]);
    let (mut rows, mut report) = buffers();
    let library = || {
        let each = tables.iter().map(|table| {
            let [first, bytes, entries, partial] =
                raw::salvage(black_box(table), &mut rows, &mut report);
            first + told(&rows, &report, bytes, entries) + partial
        });
        each.sum()
    };
    let (mut own_rows, mut own_report) = buffers();
    let plain = || {
        let each = tables.iter().map(|table| {
            let [bytes, entries] = plain_salvage(black_box(table), &mut own_rows, &mut own_report);
            told(&own_rows, &own_report, bytes, entries)
        });
        each.sum()
    };
    let what = Line {
        name,
        size,
        calls: TABLES,
        note,
    };
    line(what, library, plain);
}

/// A number made of what was written: how much, and the last of it.
fn told(rows: &[u8], report: &[u64], bytes: u64, entries: u64) -> u64 {
    let last = rows[..bytes as usize].last().copied().map_or(0, u64::from);
    let entry: u64 = report[..2 * entries as usize].iter().rev().take(2).sum();
    bytes + entries + last + entry
}

/// What a row is that wasn't kept.
const GONE: u16 = u16::MAX;

/// The bytes of the kept rows, and the entries of the report.
fn plain_salvage(table: &[u8], rows: &mut [u8], report: &mut [u64]) -> [u64; 2] {
    let all = table.len() / ROW;
    let (mut hashes, mut numbers) = (HashSet::with_capacity(all), vec![GONE; all]);
    let (mut kept, mut entries) = (0, 0);
    for (own, row) in table.chunks_exact(ROW).enumerate() {
        let broke = broken(own, row)
            .or_else(|| hashes.contains(&row[..HASH]).then_some(4))
            .or_else(|| lost(row, &numbers).then_some(5));
        if let Some(rule) = broke {
            report[2 * entries..][..2].copy_from_slice(&[own as u64, rule]);
            entries += 1;
            continue;
        }
        put(row, &numbers, &mut rows[ROW * kept..][..ROW]);
        hashes.insert(&row[..HASH]);
        numbers[own] = kept as u16;
        kept += 1;
    }
    [(ROW * kept) as u64, entries as u64]
}

/// A row's count (0) or one of its row numbers (from 1).
fn number(row: &[u8], which: usize) -> usize {
    let place = HASH + 2 * which;
    usize::from(u16::from_le_bytes([row[place], row[place + 1]]))
}

/// The rule that a row breaks by its own bytes.
fn broken(own: usize, row: &[u8]) -> Option<u64> {
    let count = number(row, 0);
    if count > DEPENDENCIES {
        return Some(1);
    }
    let mut least = 0;
    for which in 1..=count {
        let number = number(row, which);
        if number < least || number >= own {
            return Some(2);
        }
        least = number + 1;
    }
    let stray = row[HASH + 2 * (1 + count)..].iter().any(|&byte| byte != 0);
    stray.then_some(3)
}

fn lost(row: &[u8], numbers: &[u16]) -> bool {
    (1..=number(row, 0)).any(|which| numbers[number(row, which)] == GONE)
}

/// A kept row, with its numbers adjusted.
fn put(row: &[u8], numbers: &[u16], out: &mut [u8]) {
    out.copy_from_slice(row);
    for which in 1..=number(row, 0) {
        set_number(out, which, numbers[number(row, which)].into());
    }
}
