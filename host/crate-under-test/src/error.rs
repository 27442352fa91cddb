//! Stand-ins for the crate's errors. Document 01 leaves error text out; that a
//! load failed, and nothing more of it, reaches a session.

use crate::ChangeHash;
use std::fmt::{Display, Formatter, Result};

/// Why the stand-in document refused.
#[derive(Clone, Debug, PartialEq, Eq)]
pub enum AutomergeError {
    /// Loaded bytes are no sequence of records; the record at this place is bad.
    BadRecord { place: usize },
    /// Asked for a change that isn't held.
    UnknownHash(ChangeHash),
    /// A row names a later, unknown or equal row, or repeats a hash.
    BadRow { row: usize },
    /// A waiting row repeats a hash, of the rows or of the waiting rows.
    BadWaitingRow { row: usize },
}

impl Display for AutomergeError {
    fn fmt(&self, f: &mut Formatter<'_>) -> Result {
        match self {
            Self::BadRecord { place } => write!(f, "bad record at place {place}"),
            Self::UnknownHash(hash) => write!(f, "unknown hash {hash:?}"),
            Self::BadRow { row } => write!(f, "bad row {row}"),
            Self::BadWaitingRow { row } => write!(f, "bad waiting row {row}"),
        }
    }
}

impl std::error::Error for AutomergeError {}

/// For `storage::ReadChangeOpError`; never made.
#[derive(Clone, Debug, PartialEq, Eq)]
pub enum ReadChangeOpError {}

impl Display for ReadChangeOpError {
    fn fmt(&self, _: &mut Formatter<'_>) -> Result {
        match *self {}
    }
}

impl std::error::Error for ReadChangeOpError {}

/// For `storage::change::ParseError`; never made.
#[derive(Clone, Debug, PartialEq, Eq)]
pub enum ParseError {}

impl Display for ParseError {
    fn fmt(&self, _: &mut Formatter<'_>) -> Result {
        match *self {}
    }
}
