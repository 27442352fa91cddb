//! A host in memory.

use crate::hash::{ChangeHash, HASH};
use crate::limits::DEPENDENCIES;
use crate::table::Rows;
use crate::{Host, Waiting};
use std::borrow::Cow;
use std::collections::HashSet;
use std::fmt;

/// The first byte of a change's record and of a saved document.
const RECORD: u8 = 1;
const DOCUMENT: u8 = 0;

/// Bytes of a change's record without dependencies and contents: its first byte, its hash,
/// and how many there are of both.
const RECORD_SIZE: usize = 1 + HASH + 1 + 4;

/// A change: its name, what it was made on, and bytes that nobody here looks at.
#[derive(Clone, Debug, PartialEq, Eq)]
pub struct Change {
    /// Its name.
    pub hash: ChangeHash,
    /// The changes that it was made on; at most [`DEPENDENCIES`].
    pub dependencies: Vec<ChangeHash>,
    /// What it says.
    pub contents: Vec<u8>,
}

/// A document that is a list of changes, for tests, tools and examples. As bytes a
/// change is 01, its hash, the number of its dependencies (one byte) and their hashes,
/// the length of its contents (four bytes, little-endian) and these; a document is 00
/// and its changes.
///
/// ```
/// use bisquetower::{Change, ChangeHash, Memory, Session};
///
/// let change = |name, on: &[u8]| Change {
///     hash: ChangeHash([name; 32]),
///     dependencies: on.iter().map(|&name| ChangeHash([name; 32])).collect(),
///     contents: b"a fare".to_vec(),
/// };
/// let mut station = Memory::new();
/// station.add(change(b'b', &[b'a'])).unwrap();
/// assert_eq!((station.changes().len(), station.waiting_changes().len()), (0, 1));
/// station.add(change(b'a', &[])).unwrap();
/// assert_eq!((station.changes().len(), station.waiting_changes().len()), (2, 0));
/// ```
#[derive(Clone, Debug, Default)]
pub struct Memory {
    changes: Vec<Change>,
    rows: Rows,
    waiting: Vec<Change>,
}

/// Why a [`Memory`] couldn't lend or load.
#[derive(Clone, Copy, Debug, PartialEq, Eq)]
pub enum MemoryError {
    /// No change is held that has this hash.
    Unknown(ChangeHash),
    /// What stands at this place is no change.
    BadChange(usize),
    /// A change has more dependencies than a row has room for.
    ManyDependencies(ChangeHash),
}

impl Memory {
    /// A document without changes.
    pub fn new() -> Self {
        Self::default()
    }

    /// The changes that are held, in table order.
    pub fn changes(&self) -> &[Change] {
        &self.changes
    }

    /// The changes that wait for what they depend on, in the order in which they came.
    pub fn waiting_changes(&self) -> &[Change] {
        &self.waiting
    }

    /// Takes a change, unless it is there; then those that waited for it.
    pub fn add(&mut self, change: Change) -> Result<(), MemoryError> {
        if change.dependencies.len() > DEPENDENCIES {
            return Err(MemoryError::ManyDependencies(change.hash));
        }
        self.take(vec![change]);
        Ok(())
    }

    fn take(&mut self, changes: Vec<Change>) {
        let mut waits: HashSet<ChangeHash> = self.waiting.iter().map(|one| one.hash).collect();
        for change in changes {
            if self.rows.find(&change.hash).is_none() && waits.insert(change.hash) {
                self.waiting.push(change);
            }
        }
        // Each pass moves a change or is the last.
        loop {
            let before = self.waiting.len();
            for change in std::mem::take(&mut self.waiting) {
                let mut on = change.dependencies.iter();
                if on.all(|hash| self.rows.find(hash).is_some()) {
                    self.rows.push(change.hash, &change.dependencies);
                    self.changes.push(change);
                } else {
                    self.waiting.push(change);
                }
            }
            if self.waiting.len() == before {
                return;
            }
        }
    }
}

impl Host for Memory {
    type Error = MemoryError;

    fn table(&self) -> Cow<'_, [u8]> {
        Cow::Borrowed(&self.rows.bytes)
    }

    fn waiting(&self) -> Cow<'_, [u8]> {
        let rows = self.waiting.iter().map(|c| (c.hash, &c.dependencies));
        Cow::Owned(Waiting::lay(rows))
    }

    fn change(&self, hash: &ChangeHash) -> Result<Cow<'_, [u8]>, MemoryError> {
        let row = self.rows.find(hash).ok_or(MemoryError::Unknown(*hash))?;
        let mut record = Vec::new();
        write_change(&self.changes[row], &mut record);
        Ok(Cow::Owned(record))
    }

    fn change_size(&self, hash: &ChangeHash) -> Result<usize, MemoryError> {
        let row = self.rows.find(hash).ok_or(MemoryError::Unknown(*hash))?;
        let Change {
            dependencies,
            contents,
            ..
        } = &self.changes[row];
        Ok(RECORD_SIZE + HASH * dependencies.len() + contents.len())
    }

    fn save(&self) -> Result<Vec<u8>, MemoryError> {
        let mut document = vec![DOCUMENT];
        for change in &self.changes {
            write_change(change, &mut document);
        }
        Ok(document)
    }

    fn load(&mut self, changes: &[u8]) -> Result<(), MemoryError> {
        self.take(read_changes(changes)?);
        Ok(())
    }
}

fn write_change(change: &Change, record: &mut Vec<u8>) {
    let dependencies = &change.dependencies;
    record.push(RECORD);
    record.extend(change.hash.0);
    record.push(dependencies.len() as u8);
    record.extend(dependencies.iter().flat_map(|hash| hash.0));
    record.extend((change.contents.len() as u32).to_le_bytes());
    record.extend(&change.contents);
}

fn read_changes(bytes: &[u8]) -> Result<Vec<Change>, MemoryError> {
    let mut changes = Vec::new();
    let mut rest = bytes;
    while let Some((&first, after)) = rest.split_first() {
        let bad = MemoryError::BadChange(bytes.len() - rest.len());
        rest = after;
        match first {
            DOCUMENT => {}
            RECORD => changes.push(read_change(&mut rest).ok_or(bad)?),
            _ => return Err(bad),
        }
    }
    let many = |change: &&Change| change.dependencies.len() > DEPENDENCIES;
    match changes.iter().find(many) {
        Some(change) => Err(MemoryError::ManyDependencies(change.hash)),
        None => Ok(changes),
    }
}

fn read_change(rest: &mut &[u8]) -> Option<Change> {
    let hash = read_hash(rest)?;
    let count = take(rest, 1)?[0];
    let dependencies: Option<Vec<_>> = (0..count).map(|_| read_hash(rest)).collect();
    let length = u32::from_le_bytes(take(rest, 4)?.try_into().ok()?);
    Some(Change {
        hash,
        dependencies: dependencies?,
        contents: take(rest, length as usize)?.to_vec(),
    })
}

fn read_hash(rest: &mut &[u8]) -> Option<ChangeHash> {
    ChangeHash::try_from(take(rest, HASH)?).ok()
}

fn take<'a>(rest: &mut &'a [u8], count: usize) -> Option<&'a [u8]> {
    let (taken, after) = rest.split_at_checked(count)?;
    *rest = after;
    Some(taken)
}

impl fmt::Display for MemoryError {
    fn fmt(&self, f: &mut fmt::Formatter<'_>) -> fmt::Result {
        match self {
            MemoryError::Unknown(hash) => write!(f, "the change {hash} isn't held"),
            MemoryError::BadChange(place) => write!(f, "what stands at place {place} is no change"),
            MemoryError::ManyDependencies(hash) => {
                write!(
                    f,
                    "the change {hash} has more than {DEPENDENCIES} dependencies"
                )
            }
        }
    }
}

impl std::error::Error for MemoryError {}
