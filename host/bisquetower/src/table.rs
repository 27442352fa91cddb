//! Change tables and waiting tables.

use crate::hash::{bytes_of, hashes_in, ChangeHash, HASH};
use crate::index::Index;
use crate::limits::{
    DEPENDENCIES, OLD_DEPENDENCIES, OLD_ROW_SIZE, OLD_WAITING_ROW_SIZE, ROW_SIZE, WAITING_ROW_SIZE,
};
use crate::refusal::{answer, Refusal};
use crate::{explain, raw, room};
use std::collections::HashMap;

/// The changes that a unit holds, each after those that it depends on: hashes and row
/// numbers, checked by the library.
///
/// A row is [`ROW`](Table::ROW) bytes: its hash; on how many rows it depends (two bytes,
/// little-endian, at most [`DEPENDENCIES`]); as many such row numbers as it can have, those
/// in use ascending and less than its own, the others 0. No hash stands twice.
///
/// ```
/// use bisquetower::{ChangeHash, Table};
///
/// let hash = |name: u8| ChangeHash([name; 32]);
/// let [a, b, c] = [b'a', b'b', b'c'].map(hash);
/// let table = Table::from_changes([(a, vec![]), (b, vec![a]), (c, vec![a])])?;
/// assert_eq!(table.heads(), [b, c]);
/// assert_eq!(table.beyond(&[b])?, [c]);
/// assert_eq!(table.dependencies(1), [0]);
///
/// // A row stands after what it depends on: the first bad row is told.
/// let bad = Table::from_changes([(a, vec![]), (b, vec![c])]).unwrap_err();
/// assert_eq!((bad.number, bad.value), (6, 1));
/// # Ok::<(), bisquetower::Refusal>(())
/// ```
#[derive(Clone, Debug, Default, PartialEq, Eq)]
pub struct Table {
    bytes: Vec<u8>,
    /// Always that of these rows.
    index: Index,
}

impl Table {
    /// Bytes of a row.
    pub const ROW: usize = ROW_SIZE;

    /// The table of records, if it is good.
    pub fn new(bytes: impl Into<Vec<u8>>) -> Result<Table, Refusal> {
        let bytes = bytes.into();
        let index = Index::of(&bytes).map_err(|refusal| explain::table(&bytes, refusal))?;
        Ok(Table { bytes, index })
    }

    /// The table of changes and their dependencies, if it is good: every dependency is
    /// the hash of a change before its own.
    pub fn from_changes<D: AsRef<[ChangeHash]>>(
        changes: impl IntoIterator<Item = (ChangeHash, D)>,
    ) -> Result<Table, Refusal> {
        Table::new(Table::lay(changes))
    }

    /// The records of changes and their dependencies, for hosts to lend: nothing is
    /// checked, and what a row can't say makes it a bad row, which the calls refuse.
    pub fn lay<D: AsRef<[ChangeHash]>>(
        changes: impl IntoIterator<Item = (ChangeHash, D)>,
    ) -> Vec<u8> {
        let mut rows = Rows::default();
        for (hash, dependencies) in changes {
            rows.push(hash, dependencies.as_ref());
        }
        rows.bytes
    }

    /// The table of records as they were before rows had room for more than
    /// [`OLD_DEPENDENCIES`] dependencies, if it is good by the rules of then.
    ///
    /// ```
    /// use bisquetower::limits::OLD_ROW_SIZE;
    /// use bisquetower::{ChangeHash, Table};
    ///
    /// let [a, b] = [b'a', b'b'].map(|name| ChangeHash([name; 32]));
    /// let table = Table::from_changes([(a, vec![]), (b, vec![a])])?;
    /// let old = table.to_old()?;
    /// assert_eq!(old.len(), 2 * OLD_ROW_SIZE);
    /// assert_eq!(Table::from_old(&old)?, table);
    /// # Ok::<(), bisquetower::Refusal>(())
    /// ```
    pub fn from_old(records: &[u8]) -> Result<Table, Refusal> {
        let room = records.len() / OLD_ROW_SIZE * Table::ROW;
        let wide = room::written(room, |out| raw::widen_rows(records, out));
        let wide = wide.map_err(|refusal| explain::old_table(records, refusal))?;
        Table::new(wide)
    }

    /// Its records as they were before: refusal 4 for more rows than a table had then, 13
    /// for a row with more dependencies.
    pub fn to_old(&self) -> Result<Vec<u8>, Refusal> {
        let room = self.rows() * OLD_ROW_SIZE;
        let old = room::written(room, |out| raw::narrow_rows(&self.bytes, out));
        old.map_err(|refusal| explain::narrowed(self, refusal))
    }

    /// Adds a change behind the others, if the table is good with it; if not, it stays as
    /// it was.
    ///
    /// ```
    /// use bisquetower::{ChangeHash, Table};
    ///
    /// let [a, b, c] = [b'a', b'b', b'c'].map(|name| ChangeHash([name; 32]));
    /// let mut table = Table::from_changes([(b, vec![])])?;
    /// table.push(a, &[b])?;
    /// assert_eq!(table, Table::from_changes([(b, vec![]), (a, vec![b])])?);
    /// assert_eq!(table.push(a, &[]).unwrap_err().number, 6);
    /// assert_eq!(table.push(c, &[c]).unwrap_err().number, 6);
    /// assert_eq!(table.rows(), 2);
    /// # Ok::<(), bisquetower::Refusal>(())
    /// ```
    pub fn push(&mut self, hash: ChangeHash, dependencies: &[ChangeHash]) -> Result<(), Refusal> {
        let before = self.bytes.len();
        let row = record(hash, dependencies, self.rows(), |one| self.find(one));
        self.bytes.extend(row);
        match self.index.extended(&self.bytes) {
            Ok(index) => {
                self.index = index;
                Ok(())
            }
            Err(refusal) => {
                let refusal = explain::table(&self.bytes, refusal);
                self.bytes.truncate(before);
                Err(refusal)
            }
        }
    }

    /// The row of a hash.
    fn find(&self, hash: &ChangeHash) -> Option<usize> {
        self.index.find(|row| self.hash(row).cmp(hash))
    }

    /// How many rows it has.
    pub fn rows(&self) -> usize {
        self.bytes.len() / Table::ROW
    }

    /// Its records.
    pub fn as_bytes(&self) -> &[u8] {
        &self.bytes
    }

    /// What is lent beside its records.
    pub(crate) fn index(&self) -> &[u8] {
        self.index.as_bytes()
    }

    /// The hash of a row. Panics if there is no such row, as slices do.
    #[track_caller]
    pub fn hash(&self, row: usize) -> ChangeHash {
        let (hash, _) = row_of(&self.bytes, Table::ROW, row);
        hash
    }

    /// Every row's hash, in table order.
    pub fn hashes(&self) -> Vec<ChangeHash> {
        (0..self.rows()).map(|row| self.hash(row)).collect()
    }

    /// The rows that a row depends on, ascending. Panics if there is no such row.
    #[track_caller]
    pub fn dependencies(&self, row: usize) -> Vec<usize> {
        let (_, numbers) = row_of(&self.bytes, Table::ROW, row);
        let numbers = numbers.chunks_exact(2);
        let mut numbers = numbers.map(|two| u16::from_le_bytes([two[0], two[1]]).into());
        let count = numbers.next().unwrap_or_default();
        numbers.take(count).collect()
    }

    /// The rows that no row depends on, ascending.
    pub fn heads(&self) -> Vec<ChangeHash> {
        let rows = self.rows();
        let heads = room::written(HASH * rows, |out| {
            raw::heads(&self.bytes, self.index(), rows, out)
        });
        hashes_in(&heads.expect("a good table has heads"))
    }

    /// The rows that are neither among these hashes nor below one, in table order:
    /// refusal 4 for more hashes than a list has.
    pub fn beyond(&self, hashes: &[ChangeHash]) -> Result<Vec<ChangeHash>, Refusal> {
        let lent = bytes_of(hashes);
        let room = HASH * self.rows();
        let beyond = room::written(room, |out| {
            raw::beyond(&self.bytes, self.index(), &lent, out)
        });
        let beyond = beyond.map_err(|refusal| explain::passed(hashes.len(), refusal))?;
        Ok(hashes_in(&beyond))
    }

    /// What is missing of these hashes and of all that waiting changes ask for them,
    /// each once, ascending: refusal 4 for more than a list has.
    pub fn missing(
        &self,
        waiting: &Waiting,
        hashes: &[ChangeHash],
    ) -> Result<Vec<ChangeHash>, Refusal> {
        let lent = bytes_of(hashes);
        let missing = room::written(lent.len(), |out| {
            raw::missing(&self.bytes, self.index(), &waiting.0, &lent, out)
        });
        let missing = missing.map_err(|refusal| explain::passed(hashes.len(), refusal))?;
        Ok(hashes_in(&missing))
    }
}

/// Changes that came before what they depend on: hashes alone, checked by the library.
///
/// A row is [`ROW`](Waiting::ROW) bytes: its hash; on how many changes it depends (one byte,
/// at most [`DEPENDENCIES`]) and 31 zeros; as many hashes as it can have, those that aren't
/// in use zero. No hash of a row stands twice or in the change table.
#[derive(Clone, Debug, Default, PartialEq, Eq)]
pub struct Waiting(Vec<u8>);

impl Waiting {
    /// Bytes of a row.
    pub const ROW: usize = WAITING_ROW_SIZE;

    /// The table of records beside a change table, if it is good.
    pub fn new(bytes: impl Into<Vec<u8>>, table: &Table) -> Result<Waiting, Refusal> {
        let bytes = bytes.into();
        let checked = answer(raw::check_tables(&table.bytes, table.index(), &bytes));
        checked.map_err(|refusal| explain::tables(&table.bytes, &bytes, refusal))?;
        Ok(Waiting(bytes))
    }

    /// The table of records as they were before rows had room for more than
    /// [`OLD_DEPENDENCIES`] hashes, if it is good by the rules of then. A row of then is the
    /// beginning of a row of now.
    pub fn from_old(records: &[u8], table: &Table) -> Result<Waiting, Refusal> {
        let mut bytes = Vec::new();
        let mut wide = None;
        for (row, own) in records.chunks(OLD_WAITING_ROW_SIZE).enumerate() {
            bytes.extend(own);
            if own.len() == OLD_WAITING_ROW_SIZE {
                bytes.resize((row + 1) * Waiting::ROW, 0);
                let many = usize::from(own[HASH]) > OLD_DEPENDENCIES;
                wide = wide.or(many.then_some(Refusal::new(BAD_WAITING, row as u64)));
            }
        }
        match (Waiting::new(bytes, table), wide) {
            (Err(refusal), Some(wide))
                if refusal.number != BAD_WAITING || refusal.value < wide.value =>
            {
                Err(refusal)
            }
            (_, Some(wide)) => Err(wide),
            (result, None) => result,
        }
    }

    /// The table of changes and their dependencies beside a change table, if it is
    /// good: none stands twice or in the change table.
    pub fn from_changes<D: AsRef<[ChangeHash]>>(
        changes: impl IntoIterator<Item = (ChangeHash, D)>,
        table: &Table,
    ) -> Result<Waiting, Refusal> {
        Waiting::new(Waiting::lay(changes), table)
    }

    /// The records of changes and their dependencies, for hosts to lend: nothing is
    /// checked, and one with too many dependencies is a bad row.
    pub fn lay<D: AsRef<[ChangeHash]>>(
        changes: impl IntoIterator<Item = (ChangeHash, D)>,
    ) -> Vec<u8> {
        let mut bytes = Vec::new();
        for (hash, dependencies) in changes {
            let dependencies = dependencies.as_ref();
            let end = bytes.len() + Waiting::ROW;
            bytes.extend(hash.0);
            bytes.push(u8::try_from(dependencies.len()).unwrap_or(u8::MAX));
            bytes.extend([0; HASH - 1]);
            let few = dependencies.len().min(DEPENDENCIES);
            bytes.extend(bytes_of(&dependencies[..few]));
            bytes.resize(end, 0);
        }
        bytes
    }

    /// How many changes wait.
    pub fn rows(&self) -> usize {
        self.0.len() / Waiting::ROW
    }

    /// Its records.
    pub fn as_bytes(&self) -> &[u8] {
        &self.0
    }

    /// The hash of a waiting change. Panics if there is no such row, as slices do.
    #[track_caller]
    pub fn hash(&self, row: usize) -> ChangeHash {
        let (hash, _) = row_of(&self.0, Waiting::ROW, row);
        hash
    }
}

/// The refusal of a waiting table, with its first bad row.
const BAD_WAITING: u64 = 9;

/// The hash of a row and what stands behind it, in records of `size` bytes.
#[track_caller]
fn row_of(records: &[u8], size: usize, row: usize) -> (ChangeHash, &[u8]) {
    // Compared before it is multiplied: the product of a large number would wrap.
    let rows = records.len() / size;
    assert!(
        row < rows,
        "row out of bounds: the number of rows is {rows} but the row is {row}"
    );
    let (hash, rest) = records[size * row..][..size].split_at(HASH);
    (ChangeHash(hash.try_into().expect("so long")), rest)
}

/// Records of a change table that grows, and where each hash stands.
#[derive(Clone, Debug, Default)]
pub(crate) struct Rows {
    pub(crate) bytes: Vec<u8>,
    numbers: HashMap<ChangeHash, usize>,
}

impl Rows {
    pub(crate) fn push(&mut self, hash: ChangeHash, dependencies: &[ChangeHash]) {
        let own = self.bytes.len() / Table::ROW;
        let row = record(hash, dependencies, own, |one| self.find(one));
        self.bytes.extend(row);
        self.numbers.entry(hash).or_insert(own);
    }

    /// The row of a hash.
    pub(crate) fn find(&self, hash: &ChangeHash) -> Option<usize> {
        self.numbers.get(hash).copied()
    }
}

/// The record of a change that is to be this row.
fn record(
    hash: ChangeHash,
    dependencies: &[ChangeHash],
    own: usize,
    find: impl Fn(&ChangeHash) -> Option<usize>,
) -> Vec<u8> {
    // A row that depends on itself is bad, as one on what isn't there has to be.
    let number = |dependency| find(dependency).unwrap_or(own);
    let mut numbers: Vec<usize> = dependencies.iter().map(number).collect();
    numbers.sort_unstable();
    numbers.dedup();
    let mut fields = [0; 1 + DEPENDENCIES];
    let all = std::iter::once(numbers.len()).chain(numbers);
    for (field, number) in fields.iter_mut().zip(all) {
        *field = u16::try_from(number).unwrap_or(u16::MAX);
    }
    let fields = fields.iter().flat_map(|n| n.to_le_bytes());
    hash.0.into_iter().chain(fields).collect()
}
