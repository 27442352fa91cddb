//! Document 01's change table and waiting table, heads, rows beyond and what is
//! missing, change request M-100's index and M-106's converter, in plain Rust: written
//! from their sentences, with sets, maps and a list of what is still open, and no eye to speed.
//! The index is tested and then left alone; nothing is looked up in it.

use crate::model::Refused;
use bisquetower::limits::{OLD_DEPENDENCIES, OLD_ROWS, WAITING_SIZE};
use std::collections::{BTreeMap, BTreeSet, HashMap, HashSet};

pub use bisquetower::limits::{DEPENDENCIES, HASHES, ROWS, WAITING_ROWS};
pub use bisquetower::limits::{
    HASH_SIZE as HASH, ROW_SIZE as ROW, WAITING_ROW_SIZE as WAITING_ROW,
};

pub type Hash = [u8; HASH];

/// A good change table.
#[derive(Default)]
pub struct Table {
    pub(crate) rows: Vec<Row>,
    pub(crate) row_of: HashMap<Hash, usize>,
}

pub(crate) struct Row {
    pub(crate) hash: Hash,
    pub(crate) dependencies: Vec<usize>,
}

/// Change rows of a width: how many dependencies a row has room for, and how many rows a
/// table may have.
#[derive(Clone, Copy)]
pub struct Width {
    pub dependencies: usize,
    pub rows: usize,
}

/// The rows of now, and those of before M-106.
pub const NOW: Width = Width {
    dependencies: DEPENDENCIES,
    rows: ROWS,
};
pub const OLD: Width = Width {
    dependencies: OLD_DEPENDENCIES,
    rows: OLD_ROWS,
};

impl Width {
    /// Bytes of a row: "hash, count, .. row numbers".
    pub fn row(self) -> usize {
        HASH + 2 * (1 + self.dependencies)
    }

    /// A row in this width.
    fn record(self, row: &Row) -> Vec<u8> {
        let mut record = row.hash.to_vec();
        for number in std::iter::once(&row.dependencies.len()).chain(&row.dependencies) {
            record.extend([(number % 256) as u8, (number / 256) as u8]);
        }
        record.resize(self.row(), 0);
        record
    }
}

/// A good waiting table: each waiting change and the hashes it depends on.
pub type Waiting = HashMap<Hash, Vec<Hash>>;

/// "A table of more bytes than its limit gives 4 just before its rows are
/// tested"; 6 names the first bad row.
pub fn table(lent: &[u8]) -> Result<Table, Refused> {
    table_as(NOW, lent)
}

fn table_as(width: Width, lent: &[u8]) -> Result<Table, Refused> {
    if lent.len() > width.rows * width.row() {
        return Err((4, 0));
    }
    let mut table = Table::default();
    for (number, record) in lent.chunks(width.row()).enumerate() {
        let row = change_row(width, record, number);
        let row = row.filter(|row| !table.row_of.contains_key(&row.hash));
        let row = row.ok_or((6, number as u64))?;
        table.row_of.insert(row.hash, number);
        table.rows.push(row);
    }
    Ok(table)
}

/// A table of one width in rows of another: "back is refused for a row with more than 15
/// dependencies, or with 4 above 1,024 rows .. that 4 directly after 6, then 13, .. giving
/// the first such row".
pub fn converted(from: Width, to: Width, lent: &[u8]) -> Result<Vec<u8>, Refused> {
    let table = table_as(from, lent)?;
    if table.rows.len() > to.rows {
        return Err((4, 0));
    }
    let wide = |row: &Row| row.dependencies.len() > to.dependencies;
    match table.rows.iter().position(wide) {
        Some(row) => Err((13, row as u64)),
        None => Ok(table.rows.iter().flat_map(|row| to.record(row)).collect()),
    }
}

/// A hash; a count, two bytes, little-endian, at most what there is room for; as many row
/// numbers of two bytes, "those in use strictly ascending and below the own row, the
/// others 0". None if the record isn't so, or isn't whole.
fn change_row(width: Width, record: &[u8], own: usize) -> Option<Row> {
    if record.len() < width.row() {
        return None;
    }
    let (hash, numbers) = record.split_at(HASH);
    let numbers = numbers.chunks(2);
    let numbers: Vec<usize> = numbers
        .map(|two| usize::from(two[0]) + 256 * usize::from(two[1]))
        .collect();
    let count = numbers[0];
    if count > width.dependencies {
        return None;
    }
    let (used, unused) = numbers[1..].split_at(count);
    let good = used.windows(2).all(|two| two[0] < two[1])
        && used.iter().all(|&number| number < own)
        && unused.iter().all(|&number| number == 0);
    good.then(|| Row {
        hash: as_hash(hash),
        dependencies: used.to_vec(),
    })
}

/// A good change table that is lent with its index: 12, "index doesn't fit the table",
/// comes "directly after 6".
pub fn indexed(lent: &[u8], index: &[u8]) -> Result<Table, Refused> {
    let table = table(lent)?;
    match fits(&table, index) {
        true => Ok(table),
        false => Err((12, 0)),
    }
}

/// "row numbers in ascending order of hash": two bytes each, little-endian, as many as
/// there are rows.
fn fits(table: &Table, index: &[u8]) -> bool {
    let numbers = index.chunks(2).map(|two| match *two {
        [low, high] => usize::from(low) + 256 * usize::from(high),
        // Half an entry is of no row.
        _ => usize::MAX,
    });
    let hashes: Option<Vec<Hash>> = numbers
        .map(|number| table.rows.get(number).map(|row| row.hash))
        .collect();
    hashes.is_some_and(|hashes| {
        hashes.len() == table.rows.len() && hashes.windows(2).all(|two| two[0] < two[1])
    })
}

/// The rows of a waiting table beside this change table; 9 names the first bad
/// row, 4 a table that is too long.
pub fn waiting(table: &Table, lent: &[u8]) -> Result<Waiting, Refused> {
    if lent.len() > WAITING_SIZE {
        return Err((4, 0));
    }
    let mut waiting = Waiting::new();
    for (number, record) in lent.chunks(WAITING_ROW).enumerate() {
        let row = waiting_row(record);
        let fresh = |hash: &Hash| !waiting.contains_key(hash) && !table.row_of.contains_key(hash);
        let row = row.filter(|(hash, _)| fresh(hash));
        let (hash, dependencies) = row.ok_or((9, number as u64))?;
        waiting.insert(hash, dependencies);
    }
    Ok(waiting)
}

/// A hash; a "count byte" of at most `DEPENDENCIES` "and 31 zeros"; as many hashes,
/// "unused ones zero".
fn waiting_row(record: &[u8]) -> Option<(Hash, Vec<Hash>)> {
    if record.len() < WAITING_ROW {
        return None;
    }
    let parts: Vec<Hash> = record.chunks(HASH).map(as_hash).collect();
    let count = usize::from(parts[1][0]);
    if count > DEPENDENCIES {
        return None;
    }
    let (used, unused) = parts[2..].split_at(count);
    let zeros = parts[1][1..].iter().chain(unused.iter().flatten());
    let good = zeros.copied().all(|byte| byte == 0);
    good.then(|| (parts[0], used.to_vec()))
}

/// A hash list that is lent as bytes: more bytes than its limit is 4, else a
/// partial hash at its end is 1 at that hash's start.
pub(crate) fn hash_list(lent: &[u8]) -> Result<Vec<Hash>, Refused> {
    hash_list_up_to(HASHES, lent)
}

/// The same of a list that may have so many hashes.
pub(crate) fn hash_list_up_to(most: usize, lent: &[u8]) -> Result<Vec<Hash>, Refused> {
    if lent.len() > HASH * most {
        return Err((4, 0));
    }
    let cut = lent.len() % HASH;
    if cut > 0 {
        return Err((1, (lent.len() - cut) as u64));
    }
    Ok(hashes_of(lent))
}

/// The hashes that stand one after the other in these bytes.
pub(crate) fn hashes_of(bytes: &[u8]) -> Vec<Hash> {
    bytes.chunks(HASH).map(as_hash).collect()
}

fn as_hash(bytes: &[u8]) -> Hash {
    bytes.try_into().expect("a hash's bytes")
}

/// How many rows a change table has.
pub fn check_table(lent: &[u8]) -> Result<usize, Refused> {
    Ok(table(lent)?.rows.len())
}

/// How many rows a waiting table has.
pub fn check_tables(lent: &[u8], index: &[u8], waiting_lent: &[u8]) -> Result<usize, Refused> {
    Ok(waiting(&indexed(lent, index)?, waiting_lent)?.len())
}

/// The index of a table, "built from any good table".
pub fn build_index(lent: &[u8]) -> Result<Vec<u8>, Refused> {
    Ok(table(lent)?.index())
}

/// "extended by one row at a time with the same result as building afresh": the index
/// that is lent has to fit the rows but the last. Without a row there is no last one.
pub fn extend_index(lent: &[u8], index: &[u8]) -> Result<Vec<u8>, Refused> {
    let whole = table(lent)?;
    let before = lent.len().checked_sub(ROW).ok_or((12, 0))?;
    indexed(&lent[..before], index)?;
    Ok(whole.index())
}

impl Table {
    pub(crate) fn holds(&self, hash: &Hash) -> bool {
        self.row_of.contains_key(hash)
    }

    /// The numbers of the rows by their hashes.
    fn index(&self) -> Vec<u8> {
        let sorted: BTreeMap<Hash, usize> = self.row_of.iter().map(|(&h, &row)| (h, row)).collect();
        let numbers = sorted.into_values();
        numbers
            .flat_map(|row| [(row % 256) as u8, (row / 256) as u8])
            .collect()
    }

    /// "Heads: rows that no row depends on, ascending bytes", of the first rows
    /// alone; none if there are fewer.
    pub(crate) fn heads(&self, before: usize) -> Option<Vec<Hash>> {
        let first = self.rows.get(..before)?;
        let depended_on: HashSet<usize> = first
            .iter()
            .flat_map(|row| row.dependencies.iter().copied())
            .collect();
        let heads = (0..before).filter(|row| !depended_on.contains(row));
        let heads: BTreeSet<Hash> = heads.map(|row| first[row].hash).collect();
        Some(heads.into_iter().collect())
    }

    /// "Rows beyond L: rows neither in L nor ancestors of it, in table order;
    /// unknown hashes in L are ignored".
    pub(crate) fn beyond(&self, list: &[Hash]) -> Vec<Hash> {
        let reached = self.reached(list);
        let beyond = (0..self.rows.len()).filter(|row| !reached.contains(row));
        beyond.map(|row| self.rows[row].hash).collect()
    }

    /// The rows of a list and their ancestors.
    pub(crate) fn reached(&self, list: &[Hash]) -> HashSet<usize> {
        let held = list.iter().filter_map(|hash| self.row_of.get(hash));
        let mut open: Vec<usize> = held.copied().collect();
        let mut reached = HashSet::new();
        while let Some(row) = open.pop() {
            if reached.insert(row) {
                open.extend(&self.rows[row].dependencies);
            }
        }
        reached
    }

    /// "Missing from H: a held hash gives nothing, an unknown one gives itself; a
    /// waiting change asks its dependency list, and the list asks each change in
    /// turn. Each hash once, ascending; a cycle gives nothing new". More of them
    /// than a list may have are 4.
    pub(crate) fn missing(&self, waiting: &Waiting, list: &[Hash]) -> Result<Vec<Hash>, Refused> {
        let mut open = list.to_vec();
        let mut asked = HashSet::new();
        let mut missing = BTreeSet::new();
        while let Some(hash) = open.pop() {
            if self.holds(&hash) || !asked.insert(hash) {
                continue;
            }
            match waiting.get(&hash) {
                Some(dependencies) => open.extend(dependencies),
                None => {
                    missing.insert(hash);
                }
            }
        }
        if missing.len() > HASHES {
            return Err((4, 0));
        }
        Ok(missing.into_iter().collect())
    }
}

/// The heads of the first rows; 11 if there are fewer.
pub fn heads(lent: &[u8], index: &[u8], before: usize) -> Result<Vec<Hash>, Refused> {
    indexed(lent, index)?.heads(before).ok_or((11, 0))
}

pub fn beyond(lent: &[u8], index: &[u8], list: &[u8]) -> Result<Vec<Hash>, Refused> {
    let table = indexed(lent, index)?;
    Ok(table.beyond(&hash_list(list)?))
}

pub fn missing(
    lent: &[u8],
    index: &[u8],
    waiting_lent: &[u8],
    list: &[u8],
) -> Result<Vec<Hash>, Refused> {
    let table = indexed(lent, index)?;
    let waiting = waiting(&table, waiting_lent)?;
    table.missing(&waiting, &hash_list(list)?)
}
