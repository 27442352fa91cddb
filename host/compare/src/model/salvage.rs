//! Document 02's M-109, a change table hurt in the field, in plain Rust: written from its
//! sentences, row after row, each against the rows that were kept before it.

use super::table::{Hash, DEPENDENCIES, HASH, ROW, ROWS};
use super::{words, Refused};
use std::collections::{HashMap, HashSet};

/// "the first rule it broke, in the order count, row numbers, zeros, repeated hash, lost
/// dependency".
pub const COUNT: u64 = 1;
pub const ROW_NUMBERS: u64 = 2;
pub const ZEROS: u64 = 3;
pub const REPEATED_HASH: u64 = 4;
pub const LOST_DEPENDENCY: u64 = 5;

/// What comes of a table.
#[derive(Clone, Debug, Default, PartialEq, Eq)]
pub struct Salvaged {
    pub rows: Vec<u8>,
    /// "an entry for each dropped row: its number and the first rule it broke".
    pub report: Vec<[u64; 2]>,
    /// "Bytes of a partial last record are named too."
    pub partial: usize,
}

/// The rows that were kept so far.
#[derive(Default)]
struct Kept {
    hashes: HashSet<Hash>,
    /// What the number of a row in the hurt table is among them.
    number_of: HashMap<usize, usize>,
}

/// "Salvage a table of change rows"; "4 for too long a table".
pub fn salvaged(table: &[u8]) -> Result<Salvaged, Refused> {
    if table.len() > ROW * ROWS {
        return Err((4, 0));
    }
    let mut salvaged = Salvaged::default();
    let mut kept = Kept::default();
    for (own, record) in table.chunks(ROW).enumerate() {
        if record.len() < ROW {
            salvaged.partial = record.len();
            continue;
        }
        match kept.broken(own, record) {
            Some(rule) => salvaged.report.push([own as u64, rule]),
            None => salvaged.rows.extend(kept.keep(own, record)),
        }
    }
    Ok(salvaged)
}

/// A row's count and numbers, of two bytes each, the lower first.
fn numbers(record: &[u8]) -> Vec<usize> {
    let numbers = record[HASH..].chunks(2);
    numbers
        .map(|two| usize::from(two[0]) + 256 * usize::from(two[1]))
        .collect()
}

fn hash(record: &[u8]) -> Hash {
    record[..HASH].try_into().expect("a hash's bytes")
}

impl Kept {
    /// The first rule that a row breaks. "A row is kept exactly if its count, order and
    /// zeros are right, its hash isn't that of an earlier kept row, and each dependency is a
    /// kept row."
    fn broken(&self, own: usize, record: &[u8]) -> Option<u64> {
        let numbers = numbers(record);
        let count = numbers[0];
        if count > DEPENDENCIES {
            return Some(COUNT);
        }
        let (used, unused) = numbers[1..].split_at(count);
        for k in 0..count {
            if used[k] >= own || (k > 0 && used[k] <= used[k - 1]) {
                return Some(ROW_NUMBERS);
            }
        }
        if unused.iter().any(|&number| number != 0) {
            return Some(ZEROS);
        }
        if self.hashes.contains(&hash(record)) {
            return Some(REPEATED_HASH);
        }
        let lost = used.iter().any(|row| !self.number_of.contains_key(row));
        lost.then_some(LOST_DEPENDENCY)
    }

    /// "Kept rows stay in order and their numbers are adjusted."
    fn keep(&mut self, own: usize, record: &[u8]) -> Vec<u8> {
        let numbers = numbers(record);
        let mut row = record.to_vec();
        for k in 1..=numbers[0] {
            let number = self.number_of[&numbers[k]];
            row[HASH + 2 * k] = (number % 256) as u8;
            row[HASH + 2 * k + 1] = (number / 256) as u8;
        }
        self.number_of.insert(own, self.hashes.len());
        self.hashes.insert(hash(record));
        row
    }
}

/// The words that salvaging has to answer, and what it has to leave in both buffers: "4 ..,
/// then 7 for either output, rows first, before anything is written". The report's room and
/// what is wanted of it are told in entries.
pub fn salvage(table: &[u8], rows: &mut [u8], report: &mut [u64]) -> [u64; 4] {
    words(salvaged(table).and_then(|salvaged| salvaged.put(rows, report)))
}

impl Salvaged {
    fn put(&self, rows: &mut [u8], report: &mut [u64]) -> Result<[u64; 3], Refused> {
        let (bytes, entries) = (self.rows.len(), self.report.len());
        if rows.len() < bytes {
            return Err((7, bytes as u64));
        }
        if report.len() / 2 < entries {
            return Err((7, entries as u64));
        }
        rows[..bytes].copy_from_slice(&self.rows);
        report[..2 * entries].copy_from_slice(&self.report.concat());
        Ok([bytes as u64, entries as u64, self.partial as u64])
    }
}
