//! Tables that are worth trying: good ones of telling shapes, and every way in
//! which a record is bad.

use crate::inputs::Random;
use crate::model::table::{Hash, DEPENDENCIES, HASH, ROW, ROWS, WAITING_ROW};
use std::collections::{BTreeSet, HashSet};

/// A change and the rows it depends on.
#[derive(Clone, Debug)]
pub struct Row {
    pub hash: Hash,
    pub dependencies: Vec<usize>,
}

/// A change that waits, and the hashes it depends on.
#[derive(Clone, Debug)]
pub struct WaitingRow {
    pub hash: Hash,
    pub dependencies: Vec<Hash>,
}

impl Row {
    /// The record. Numbers that it has no room for are only counted.
    pub fn bytes(&self) -> [u8; ROW] {
        let mut record = [0; ROW];
        record[..HASH].copy_from_slice(&self.hash);
        set_number(&mut record, 0, self.dependencies.len());
        let used = self.dependencies.iter().take(DEPENDENCIES);
        for (k, &row) in used.enumerate() {
            set_number(&mut record, k + 1, row);
        }
        record
    }
}

impl WaitingRow {
    /// The record. Hashes that it has no room for are only counted.
    pub fn bytes(&self) -> [u8; WAITING_ROW] {
        let mut record = [0; WAITING_ROW];
        record[..HASH].copy_from_slice(&self.hash);
        record[HASH] = self.dependencies.len() as u8;
        let used = self.dependencies.iter().take(DEPENDENCIES);
        for (k, hash) in used.enumerate() {
            let place = HASH * (k + 2);
            record[place..place + HASH].copy_from_slice(hash);
        }
        record
    }
}

/// Sets a change row's count (0) or one of its row numbers (from 1).
pub fn set_number(record: &mut [u8], which: usize, number: usize) {
    let place = HASH + 2 * which;
    record[place..place + 2].copy_from_slice(&(number as u16).to_le_bytes());
}

pub fn table_bytes(rows: &[Row]) -> Vec<u8> {
    rows.iter().flat_map(Row::bytes).collect()
}

pub fn waiting_bytes(rows: &[WaitingRow]) -> Vec<u8> {
    rows.iter().flat_map(WaitingRow::bytes).collect()
}

/// Rows that one row merges.
pub const MERGED: usize = 40;

/// What a table's rows depend on.
#[derive(Clone, Copy, Debug, PartialEq, Eq)]
pub enum Shape {
    /// Nothing: every row is a head.
    Wide,
    /// The first row.
    Fan,
    /// The row before.
    Deep,
    /// Two rows on one, one on the two, again and again.
    Diamonds,
    /// Forty rows on one, one on the forty, again and again, as zones of a tariff are merged.
    Merges,
    /// The rows before, as many as a row may depend on.
    Full,
    /// Up to three of the eight rows before.
    Recent,
    /// Up to as many rows anywhere before.
    Any,
}

pub const SHAPES: [Shape; 8] = [
    Shape::Wide,
    Shape::Fan,
    Shape::Deep,
    Shape::Diamonds,
    Shape::Merges,
    Shape::Full,
    Shape::Recent,
    Shape::Any,
];

impl Shape {
    fn dependencies(self, row: usize, random: &mut Random) -> Vec<usize> {
        match self {
            Shape::Wide => Vec::new(),
            Shape::Fan => (0..row.min(1)).collect(),
            Shape::Deep => (row.saturating_sub(1)..row).collect(),
            Shape::Diamonds => match row % 3 {
                0 => (row.saturating_sub(2)..row).collect(),
                on => vec![row - on],
            },
            Shape::Merges => match row % (MERGED + 1) {
                0 => (row.saturating_sub(MERGED)..row).collect(),
                on => vec![row - on],
            },
            Shape::Full => (row.saturating_sub(DEPENDENCIES)..row).collect(),
            Shape::Recent => random.some_of(3, row.saturating_sub(8)..row),
            Shape::Any => random.some_of(DEPENDENCIES, 0..row),
        }
    }
}

/// How a table's hashes lie to each other.
#[derive(Clone, Copy, Debug, PartialEq, Eq)]
pub enum Likeness {
    Spread,
    Ascending,
    Descending,
    /// Alike but for two of their bytes.
    Alike,
}

pub const LIKENESSES: [Likeness; 4] = [
    Likeness::Spread,
    Likeness::Ascending,
    Likeness::Descending,
    Likeness::Alike,
];

impl Random {
    pub fn hash(&mut self) -> Hash {
        self.bytes(HASH).try_into().expect("a hash's bytes")
    }

    /// As many hashes as `count`, none of them twice.
    pub fn hashes(&mut self, count: usize, likeness: Likeness) -> Vec<Hash> {
        let base = self.hash();
        let low = self.below(HASH);
        let high = (low + 1 + self.below(HASH - 1)) % HASH;
        let one = |k: usize| match likeness {
            Likeness::Alike => {
                let mut hash = base;
                hash[low] ^= k as u8;
                hash[high] ^= (k >> 8) as u8;
                hash
            }
            _ => self.hash(),
        };
        let mut hashes: Vec<Hash> = (0..count).map(one).collect();
        match likeness {
            Likeness::Spread | Likeness::Alike => {}
            Likeness::Ascending => hashes.sort(),
            Likeness::Descending => hashes.sort_by(|a, b| b.cmp(a)),
        }
        assert_eq!(hashes.iter().collect::<HashSet<_>>().len(), count);
        hashes
    }

    /// At most `most` numbers of these, ascending.
    pub fn some_of(&mut self, most: usize, from: std::ops::Range<usize>) -> Vec<usize> {
        let size = from.len();
        if size == 0 {
            return Vec::new();
        }
        let tries = self.below(most + 1);
        let some = (0..tries).map(|_| from.start + self.below(size));
        some.collect::<BTreeSet<_>>().into_iter().collect()
    }

    /// A good table with these hashes.
    pub fn rows_of(&mut self, hashes: &[Hash], shape: Shape) -> Vec<Row> {
        let rows = hashes.iter().enumerate();
        rows.map(|(row, &hash)| Row {
            hash,
            dependencies: shape.dependencies(row, self),
        })
        .collect()
    }

    pub fn rows(&mut self, count: usize, shape: Shape, likeness: Likeness) -> Vec<Row> {
        let hashes = self.hashes(count, likeness);
        self.rows_of(&hashes, shape)
    }

    /// Waiting rows with these hashes, each on up to as many of the others as it may be.
    pub fn waiting_rows(&mut self, hashes: &[Hash], others: &[Hash]) -> Vec<WaitingRow> {
        let rows = hashes.iter();
        rows.map(|&hash| {
            let most = if others.is_empty() { 0 } else { DEPENDENCIES };
            let count = self.below(most + 1);
            let dependencies = (0..count).map(|_| others[self.below(others.len())]);
            WaitingRow {
                hash,
                dependencies: dependencies.collect(),
            }
        })
        .collect()
    }
}

/// A record that is bad at its row, and why.
pub type Fault<T> = (String, T);

/// Every way in which a good table's row goes bad while it stays a whole record.
pub fn row_faults(rows: &[Row], row: usize) -> Vec<Fault<[u8; ROW]>> {
    let good = &rows[row];
    let used = good.dependencies.len();
    let with_number = |which, number| {
        let mut record = good.bytes();
        set_number(&mut record, which, number);
        record
    };
    let mut faults = Vec::new();
    let many = [DEPENDENCIES + 1, DEPENDENCIES + 2, 255, 65_535];
    for count in many.into_iter().chain([256, 256 + used, (1 << 12) + used]) {
        faults.push((format!("count {count}"), with_number(0, count)));
    }
    // A zero that comes into use is row 0: no row of a first row, nor of one that
    // has a number before it.
    if used < DEPENDENCIES && (used > 0 || row == 0) {
        faults.push(("one more counted".to_string(), with_number(0, used + 1)));
    }
    if good.dependencies.last().is_some_and(|&last| last > 0) {
        faults.push(("one less counted".to_string(), with_number(0, used - 1)));
    }
    for which in used + 1..=DEPENDENCIES {
        for number in [1, 256] {
            let why = format!("unused number {which} is {number}");
            faults.push((why, with_number(which, number)));
        }
    }
    for dependencies in bad_numbers(row) {
        let why = format!("on {dependencies:?}");
        let hash = good.hash;
        let bad = Row { hash, dependencies };
        faults.push((why, bad.bytes()));
    }
    for earlier in places(row) {
        let mut bad = good.clone();
        bad.hash = rows[earlier].hash;
        faults.push((format!("the hash of row {earlier}"), bad.bytes()));
    }
    faults
}

/// Numbers in use that aren't strictly ascending or not below the own row.
fn bad_numbers(row: usize) -> Vec<Vec<usize>> {
    let mut lists = vec![
        vec![row],
        vec![row + 1],
        vec![row + 256],
        vec![ROWS],
        vec![65_535],
    ];
    if row >= 1 {
        lists.extend([vec![0, 0], vec![0, row], vec![row - 1, row], vec![row, 0]]);
    }
    if row >= 2 {
        lists.extend([vec![1, 0], vec![row - 1, row - 2], vec![0, 1, 1]]);
    }
    if row >= DEPENDENCIES {
        let full: Vec<usize> = (row - DEPENDENCIES..row).collect();
        for k in 1..DEPENDENCIES {
            let mut swapped = full.clone();
            swapped.swap(k - 1, k);
            lists.push(swapped);
            let mut equal = full.clone();
            equal[k] = equal[k - 1];
            lists.push(equal);
        }
        let mut own = full;
        own[DEPENDENCIES - 1] = row;
        lists.push(own);
    }
    lists
}

/// The first, the last and one between of `count` rows.
pub(super) fn places(count: usize) -> BTreeSet<usize> {
    let some = [0, count / 2, count.saturating_sub(1)];
    some.into_iter().filter(|&place| place < count).collect()
}

/// Every way in which a good waiting table's row goes bad while it stays a whole
/// record.
pub fn waiting_faults(
    rows: &[Row],
    waiting: &[WaitingRow],
    row: usize,
) -> Vec<Fault<[u8; WAITING_ROW]>> {
    let good = &waiting[row];
    let used = good.dependencies.len();
    let with_byte = |place: usize, byte| {
        let mut record = good.bytes();
        record[place] = byte;
        record
    };
    let mut faults = Vec::new();
    let most = DEPENDENCIES as u8;
    for count in [most + 1, most + 2, 128, 255] {
        faults.push((format!("count {count}"), with_byte(HASH, count)));
    }
    if good
        .dependencies
        .last()
        .is_some_and(|last| *last != [0; HASH])
    {
        let less = with_byte(HASH, used as u8 - 1);
        faults.push(("one less counted".to_string(), less));
    }
    let unused = HASH * (used + 2)..WAITING_ROW;
    let ends = |place: &usize| [0, 1, 15, 16, 31].contains(&(place % HASH));
    for place in (HASH + 1..2 * HASH).chain(unused.filter(ends)) {
        for byte in [1, 128] {
            let why = format!("the byte at {place} is {byte}");
            faults.push((why, with_byte(place, byte)));
        }
    }
    let mut with_hash = |whose: &str, hash| {
        let mut bad = good.clone();
        bad.hash = hash;
        faults.push((format!("the hash of {whose}"), bad.bytes()));
    };
    for earlier in places(row) {
        with_hash(&format!("waiting row {earlier}"), waiting[earlier].hash);
    }
    for held in places(rows.len()) {
        with_hash(&format!("row {held}"), rows[held].hash);
    }
    faults
}
