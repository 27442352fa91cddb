//! The published crate's answers, in the words of docs/ABI.md as far as the
//! crate says them.

use crate::model::filter::Filter;
use crate::model::have;
use crate::model::message::Parts;
use bisquetower::raw::{Read, Reader};
use crate_under_test::facade::{self, BloomFilter, ChangeHash, FilterParts, Kind, State};
use crate_under_test::facade::{ChunkList, Have, Message, MessageVersion};

/// What the crate makes of a read.
pub struct Answer {
    /// 0 and the numbers; or the refusal's number that the kind of error is, and
    /// three zeros: places aren't the crate's to say.
    pub words: [u64; 4],
    /// The bytes that it hands out, of a prefixed string or a hash list.
    pub content: Vec<u8>,
}

/// The crate has no end of a part: it is lent the slice up to there.
pub fn read(read: &Read) -> Answer {
    let s = &read.bytes[..read.end.min(read.bytes.len())];
    let answered = match read.reader {
        Reader::Number => facade::read_u64(s, read.at).map(|(value, next)| number(value, next)),
        Reader::FilterNumber => {
            facade::read_u32(s, read.at).map(|(value, next)| number(value.into(), next))
        }
        Reader::Prefixed => facade::read_prefixed(s, read.at).map(|(string, next)| Answer {
            words: [0, (next - string.len()) as u64, next as u64, 0],
            content: string.to_vec(),
        }),
        Reader::Hashes => facade::read_hashes(s, read.at).map(|(hashes, next)| {
            let content = hashes.concat();
            let start = next - content.len();
            Answer {
                words: [0, start as u64, hashes.len() as u64, next as u64],
                content,
            }
        }),
    };
    answered.unwrap_or_else(|kind| Answer {
        words: [refusal_number(kind), 0, 0, 0],
        content: Vec::new(),
    })
}

fn number(value: u64, next: usize) -> Answer {
    Answer {
        words: [0, value, next as u64, 0],
        content: Vec::new(),
    }
}

/// The refusal that a kind of error is.
fn refusal_number(kind: Kind) -> u64 {
    match kind {
        Kind::NotEnoughInput => 1,
        Kind::TooLarge | Kind::Overlong => 3,
        Kind::WrongType(_) | Kind::Other => panic!("no reader of items says {kind:?}"),
    }
}

/// The parts of the filter that the crate reads, or the refusal's number that the
/// kind of its error is.
pub fn read_filter(part: &[u8]) -> Result<FilterParts, u64> {
    match facade::read_filter(part) {
        Ok(filter) => Ok(facade::filter_parts(&filter)),
        Err(kind) => Err(refusal_number(kind)),
    }
}

/// The message that the crate reads, or the refusal's number that the kind of its
/// error is, and for 2 the byte.
pub fn read_message(s: &[u8]) -> Result<Message, (u64, u64)> {
    facade::read_message(s).map_err(|kind| match kind {
        Kind::WrongType(byte) => (2, byte.into()),
        kind => (refusal_number(kind), 0),
    })
}

/// The crate's message with these parts, which the model writes.
pub fn message(parts: &Parts) -> Message {
    let (mut left, mut chunks) = (parts.chunks, Vec::new());
    for &length in parts.lengths {
        let (chunk, after) = left.split_at(length as usize);
        chunks.push(chunk.to_vec());
        left = after;
    }
    let flags = u8::try_from(parts.flags).ok();
    Message {
        heads: change_hashes(parts.heads),
        need: change_hashes(parts.need),
        have: haves(parts.s, parts.haves),
        changes: ChunkList::from(chunks),
        flags: flags.map(facade::flags_of),
        version: match parts.version {
            2 => MessageVersion::V2,
            _ => MessageVersion::V1,
        },
    }
}

/// The crate's haves of good records over lent bytes.
pub fn haves(s: &[u8], records: &[u64]) -> Vec<Have> {
    let haves = have::haves(s, records).expect("good haves");
    let have = |have: have::Have| Have {
        last_sync: change_hashes(have.last_sync),
        bloom: filter(&have.filter).expect("the crate has every filter"),
    };
    haves.into_iter().map(have).collect()
}

/// The crate's filter with these parts; none if it can't have them.
pub fn filter(filter: &Filter) -> Option<BloomFilter> {
    facade::filter_of(&FilterParts {
        entries: u32::try_from(filter.entries).ok()?,
        bits_per_entry: u32::try_from(filter.bits).ok()?,
        probes: u32::try_from(filter.probes).ok()?,
        field: filter.field.to_vec(),
    })
}

/// The parts of the crate's filter over hashes that are lent as bytes.
pub fn built(lent: &[u8]) -> FilterParts {
    let hashes = lent.chunks_exact(32).map(change_hash);
    facade::filter_parts(&BloomFilter::from_hashes(hashes))
}

/// The saved state that the crate writes of hashes that are lent as bytes.
pub fn state_bytes(shared: &[u8]) -> Vec<u8> {
    let state = State {
        shared_heads: shared.chunks_exact(32).map(change_hash).collect(),
        ..State::new()
    };
    state.encode()
}

/// The session that the crate reads from a saved state, or the words of the
/// refusal that the kind of its error is; it tells no places.
pub fn read_state(s: &[u8]) -> Result<State, [u64; 2]> {
    facade::read_state(s).map_err(|kind| match kind {
        Kind::NotEnoughInput => [1, 0],
        Kind::WrongType(byte) => [2, byte.into()],
        // A bad number of either kind: state.rs keeps no difference.
        Kind::TooLarge | Kind::Overlong | Kind::Other => [3, 0],
    })
}

pub fn change_hash(hash: &[u8]) -> ChangeHash {
    ChangeHash(hash.try_into().expect("32 bytes"))
}

pub fn change_hashes(lent: &[u8]) -> Vec<ChangeHash> {
    lent.chunks_exact(32).map(change_hash).collect()
}
