//! What broke a rule, found in what was lent to a call that refused.
//!
//! Nothing is decided here: the library's refusal stands, and this looks for what it means
//! at the place or in the row that it names, or in the lists that were lent. What is read is
//! walked with the library's own readers. Where nothing is found the refusal keeps its
//! general sentence.

mod counts;
mod lent;
mod pick;
mod read;
mod rows;
mod salvage;
mod settings;
mod written;

pub(crate) use counts::{adding, capture};
pub(crate) use lent::{passed, planning, planning_picked, receiving, selecting, session};
pub(crate) use pick::{pick, picking};
pub(crate) use read::{filter, message, state};
pub(crate) use rows::{narrowed, old_table, table, tables};
pub(crate) use salvage::dropped;
pub(crate) use settings::{list, setting};
pub(crate) use written::{building, counted, parts, saved, writing};

use crate::cause::Numbers;
use crate::Limits;

/// The refusals that are looked into: an item that is cut, a number in a bad form, a limit, a
/// filter without bits, a bad change table, a bad waiting table, bad numbers, a row that is
/// too wide for the rows of before, a bad settings list, a bad new setting, a total that
/// would pass 64 bits, a pick that isn't accepted.
const CUT: u64 = 1;
const BAD_NUMBER: u64 = 3;
const LIMIT: u64 = 4;
const NO_BITS: u64 = 5;
const BAD_TABLE: u64 = 6;
const BAD_WAITING: u64 = 9;
const BAD_NUMBERS: u64 = 10;
const TOO_WIDE: u64 = 13;
const BAD_SETTINGS: u64 = 14;
const BAD_SETTING: u64 = 15;
const TOTAL: u64 = 16;
const BAD_PICK: u64 = 17;

/// What is wrong with a filter's numbers, in the order in which 01 tests them. Without
/// entries the others may be any.
fn wrong_numbers(entries: u64, bits: u64, probes: u64) -> Option<Numbers> {
    if entries == 0 {
        return None;
    }
    let limits = Limits::told();
    let (most, most_bytes) = (limits.probes, limits.field);
    let bytes = entries.checked_mul(bits)?.div_ceil(8);
    match bits {
        0 => Some(Numbers::NoBits),
        _ if probes > most => Some(Numbers::Probes { probes, most }),
        _ if bytes > most_bytes => {
            let most = most_bytes;
            Some(Numbers::Field { bytes, most })
        }
        _ => None,
    }
}
