//! Stand-in for the crate's `Change`: a hash, the hashes it depends on and a
//! payload nobody looks at. Its raw bytes are a house record, not the crate's
//! chunk; the published files only carry them, join them and count them, so
//! chunk contents and their lengths can't be compared.
//!
//! ```text
//!   record:    01, hash, count of dependencies (u16), their hashes,
//!              length of the payload (u32), payload        little-endian
//!   document:  00, then a record for each row
//! ```
//!
//! The mark 00 is there because a saved document is never no bytes, even one
//! without rows: message_builder.rs drops a body of no bytes.

use crate::types::HASH_SIZE;
use crate::{AutomergeError, ChangeHash};

const RECORD: u8 = 1;
/// The first byte of a saved document.
pub(crate) const DOCUMENT: u8 = 0;

#[derive(Clone, Debug, PartialEq, Eq)]
pub struct Change {
    hash: ChangeHash,
    dependencies: Vec<ChangeHash>,
    record: Vec<u8>,
}

impl Change {
    /// Panics if a count doesn't fit its field in the record.
    pub fn new(hash: ChangeHash, dependencies: Vec<ChangeHash>, payload: &[u8]) -> Self {
        let count = u16::try_from(dependencies.len()).expect("dependencies fit a u16");
        let length = u32::try_from(payload.len()).expect("payload fits a u32");
        let mut record = vec![RECORD];
        record.extend(hash.as_bytes());
        record.extend(count.to_le_bytes());
        for dependency in &dependencies {
            record.extend(dependency.as_bytes());
        }
        record.extend(length.to_le_bytes());
        record.extend(payload);
        Change {
            hash,
            dependencies,
            record,
        }
    }

    pub fn hash(&self) -> ChangeHash {
        self.hash
    }

    pub fn dependencies(&self) -> &[ChangeHash] {
        &self.dependencies
    }

    pub fn raw_bytes(&self) -> &[u8] {
        &self.record
    }

    /// The changes in a list of records or a saved document, or in several of
    /// them one after another, as a V1 message joins its chunks.
    pub fn read_all(bytes: &[u8]) -> Result<Vec<Change>, AutomergeError> {
        let mut changes = Vec::new();
        let mut rest = bytes;
        while let Some((&first, after)) = rest.split_first() {
            let place = bytes.len() - rest.len();
            let bad = AutomergeError::BadRecord { place };
            rest = after;
            match first {
                DOCUMENT => {}
                RECORD => changes.push(read_record(&mut rest).ok_or(bad)?),
                _ => return Err(bad),
            }
        }
        Ok(changes)
    }
}

fn read_record(rest: &mut &[u8]) -> Option<Change> {
    let hash = read_hash(rest)?;
    let count = u16::from_le_bytes(take(rest, 2)?.try_into().ok()?);
    let dependencies = (0..count).map(|_| read_hash(rest)).collect::<Option<_>>()?;
    let length = u32::from_le_bytes(take(rest, 4)?.try_into().ok()?);
    let payload = take(rest, length as usize)?;
    Some(Change::new(hash, dependencies, payload))
}

fn read_hash(rest: &mut &[u8]) -> Option<ChangeHash> {
    take(rest, HASH_SIZE)?.try_into().ok()
}

fn take<'a>(rest: &mut &'a [u8], count: usize) -> Option<&'a [u8]> {
    let (taken, after) = rest.split_at_checked(count)?;
    *rest = after;
    Some(taken)
}
