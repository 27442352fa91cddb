//! The library's limits, for buffers and arrays that are sized by them. build.rs writes the
//! constants from the source that has the library's own; the sizes that follow from them
//! are said here, and nowhere else. [`Limits`] has what the library at hand tells.
//!
//! ```
//! use bisquetower::{limits, Table};
//!
//! // The largest change table.
//! assert_eq!(limits::TABLE_SIZE, limits::ROWS * Table::ROW);
//! ```

use crate::message::HAVE_WORDS;
use crate::raw;

include!(concat!(env!("OUT_DIR"), "/limits.rs"));

/// Bytes of a change row: its hash, and two for its count and for each row number.
pub const ROW_SIZE: usize = HASH_SIZE + 2 * (1 + DEPENDENCIES);

/// Bytes of a waiting row: its hash, as many for its count, and its dependencies' hashes.
pub const WAITING_ROW_SIZE: usize = HASH_SIZE * (2 + DEPENDENCIES);

/// Dependencies that a change row of before had room for.
pub const OLD_DEPENDENCIES: usize = 15;

/// Rows of a change table of before.
pub const OLD_ROWS: usize = 1_024;

/// Bytes of a change row of before.
pub const OLD_ROW_SIZE: usize = HASH_SIZE + 2 * (1 + OLD_DEPENDENCIES);

/// Bytes of a waiting row of before.
pub const OLD_WAITING_ROW_SIZE: usize = HASH_SIZE * (2 + OLD_DEPENDENCIES);

/// Bytes of a change table.
pub const TABLE_SIZE: usize = ROWS * ROW_SIZE;

/// Bytes of a waiting table.
pub const WAITING_SIZE: usize = WAITING_ROWS * WAITING_ROW_SIZE;

/// Bytes of a list of hashes.
pub const LIST_SIZE: usize = HASH_SIZE * HASHES;

/// Bytes of the hashes that a session remembers as sent.
pub const SENT_SIZE: usize = HASH_SIZE * SENT_HASHES;

/// Bytes of the hashes to send at once.
pub const TO_SEND_SIZE: usize = HASH_SIZE * HASHES_TO_SEND;

/// Bytes of a have: the hashes of its last sync and its filter's bit field.
pub const HAVE_SIZE: usize = LIST_SIZE + FIELD_SIZE;

/// Words of the haves of a message or a session.
pub const HAVES_WORDS: usize = HAVES * HAVE_WORDS;

/// Bytes under the haves of a message or a session.
pub const HAVES_SIZE: usize = HAVES * HAVE_SIZE;

/// Bits per entry that a filter may be planned with: over a whole change table its field
/// then just fits.
pub const BITS: usize = 8 * FIELD_SIZE / ROWS;

/// Bytes of a record of a settings list.
pub const SETTING_SIZE: usize = 32;

/// The limits, as the library tells them: `raw::limits` has the same as words.
///
/// ```
/// use bisquetower::Limits;
///
/// assert_eq!(Limits::told().hash, 32);
/// ```
#[derive(Clone, Copy, Debug, PartialEq, Eq)]
pub struct Limits {
    /// Bytes of a hash.
    pub hash: u64,
    /// Bytes of a message.
    pub message: u64,
    /// Rows of a change table.
    pub rows: u64,
    /// Rows of a waiting table.
    pub waiting_rows: u64,
    /// Dependencies of a change.
    pub dependencies: u64,
    /// Hashes of a list.
    pub hashes: u64,
    /// Hashes that a session remembers as sent.
    pub sent_hashes: u64,
    /// Haves of a message or a session.
    pub haves: u64,
    /// Chunks of a message.
    pub chunks: u64,
    /// Bytes of a filter's bit field.
    pub field: u64,
    /// Probes of a filter that has entries.
    pub probes: u64,
    /// Hashes to send at once.
    pub hashes_to_send: u64,
}

impl Limits {
    /// Asks the library.
    pub fn told() -> Limits {
        let mut words = [raw::UNWRITTEN; 12];
        raw::limits(&mut words);
        let [hash, message, rows, waiting_rows, dependencies, hashes, sent_hashes, haves, chunks, field, probes, hashes_to_send] =
            words;
        Limits {
            hash,
            message,
            rows,
            waiting_rows,
            dependencies,
            hashes,
            sent_hashes,
            haves,
            chunks,
            field,
            probes,
            hashes_to_send,
        }
    }
}

#[cfg(test)]
mod tests {
    use super::*;

    /// In the library's order: a limit that is new there changes what it writes.
    #[test]
    fn the_constants_are_what_the_library_tells() {
        let constants = [
            HASH_SIZE,
            MESSAGE_SIZE,
            ROWS,
            WAITING_ROWS,
            DEPENDENCIES,
            HASHES,
            SENT_HASHES,
            HAVES,
            CHUNKS,
            FIELD_SIZE,
            PROBES,
            HASHES_TO_SEND,
        ];
        let mut told = [raw::UNWRITTEN; 12];
        raw::limits(&mut told);
        assert_eq!(constants.map(|limit| limit as u64), told);
    }
}
