//! The calls a comparison makes. Most of the published items are private to the
//! crate or to their module; each function says which one it runs and how.

use crate::storage::parse::{self, leb128, Input, ParseError};
use crate::types::HASH_SIZE;

pub use crate::sync::{
    BloomFilter, Capability, ChunkList, DecodeBloomError, DecodeStateError, Have, Message,
    MessageFlags, MessageVersion, ReadMessageError, State, SyncDoc,
};
pub use crate::{Automerge, AutomergeError, Change, ChangeHash};

/// Why the crate refused to read. `Other` from a saved state is a bad number of
/// either kind: state.rs keeps no difference.
#[derive(Clone, Copy, Debug, PartialEq, Eq)]
pub enum Kind {
    NotEnoughInput,
    TooLarge,
    Overlong,
    WrongType(u8),
    Other,
}

/// `leb128_u64` from place `at`: the number and the next place. A place behind
/// the bytes reads as no bytes, here and below.
pub fn read_u64(bytes: &[u8], at: usize) -> Result<(u64, usize), Kind> {
    read(bytes, at, parse::leb128_u64)
}

/// `leb128_u32` from place `at`: a filter's numbers.
pub fn read_u32(bytes: &[u8], at: usize) -> Result<(u32, usize), Kind> {
    read(bytes, at, parse::leb128_u32)
}

/// `length_prefixed(change_hash)` from place `at`: a hash list.
pub fn read_hashes(bytes: &[u8], at: usize) -> Result<(Vec<[u8; HASH_SIZE]>, usize), Kind> {
    let (hashes, next) = read(bytes, at, parse::length_prefixed(parse::change_hash))?;
    Ok((hashes.into_iter().map(|hash| hash.0).collect(), next))
}

/// `length_prefixed_bytes` from place `at`: the string and the next place, so
/// the string starts its own length before that place.
pub fn read_prefixed(bytes: &[u8], at: usize) -> Result<(&[u8], usize), Kind> {
    read(bytes, at, parse::length_prefixed_bytes)
}

fn read<'a, T>(
    bytes: &'a [u8],
    at: usize,
    mut parser: impl parse::Parser<'a, T, leb128::Error>,
) -> Result<(T, usize), Kind> {
    let rest = bytes.get(at..).unwrap_or_default();
    match parser.parse(Input::new(rest)) {
        Ok((left, value)) => Ok((value, at + rest.len() - left.unconsumed_bytes().len())),
        Err(ParseError::Incomplete(_)) => Err(Kind::NotEnoughInput),
        Err(ParseError::Error(leb128::Error::Leb128TooLarge)) => Err(Kind::TooLarge),
        Err(ParseError::Error(leb128::Error::Leb128Overlong)) => Err(Kind::Overlong),
        Err(ParseError::Error(leb128::Error::UnexpectedZero)) => Err(Kind::Other),
    }
}

/// A number as the stand-in for the crate leb128 writes it: this shows nothing
/// of the crate beyond where it calls that writer.
pub fn write_u64(value: u64) -> Vec<u8> {
    let mut bytes = Vec::new();
    leb128_writer(&mut bytes, value);
    bytes
}

fn leb128_writer(bytes: &mut Vec<u8>, value: u64) {
    ::leb128::write::unsigned(bytes, value).expect("a Vec takes every byte");
}

/// `encode_hashes`, private to sync.rs: a saved state is one byte and this list.
pub fn write_hashes(hashes: &[[u8; HASH_SIZE]]) -> Vec<u8> {
    let state = State {
        shared_heads: hashes.iter().map(|&hash| ChangeHash(hash)).collect(),
        ..State::new()
    };
    state.encode().split_off(1)
}

/// `Message::decode`.
pub fn read_message(bytes: &[u8]) -> Result<Message, Kind> {
    Message::decode(bytes).map_err(|error| match error {
        ReadMessageError::NotEnoughInput => Kind::NotEnoughInput,
        ReadMessageError::WrongType { found, .. } => Kind::WrongType(found),
        ReadMessageError::Parse(text) => number_kind(&text),
        ReadMessageError::ReadChangeOps(_) => Kind::Other,
    })
}

/// `State::decode`.
pub fn read_state(bytes: &[u8]) -> Result<State, Kind> {
    State::decode(bytes).map_err(|error| match error {
        DecodeStateError::NotEnoughInput => Kind::NotEnoughInput,
        DecodeStateError::WrongType { found, .. } => Kind::WrongType(found),
        DecodeStateError::Parse(text) => number_kind(&text),
    })
}

/// `BloomFilter::try_from` on a filter's own bytes; what follows them is ignored.
/// The crate takes filters that 01 refuses: with entries and 0 bits per entry,
/// `contains_hash` divides by zero; it also makes room for every probe at once.
pub fn read_filter(bytes: &[u8]) -> Result<BloomFilter, Kind> {
    BloomFilter::try_from(bytes).map_err(|error| number_kind(&error.to_string()))
}

/// The crate keeps the kind of a bad number only as its text.
fn number_kind(text: &str) -> Kind {
    let is = |error: leb128::Error| text == error.to_string();
    if is(leb128::Error::Leb128TooLarge) {
        Kind::TooLarge
    } else if is(leb128::Error::Leb128Overlong) {
        Kind::Overlong
    } else if text == NOT_ENOUGH {
        Kind::NotEnoughInput
    } else {
        Kind::Other
    }
}

/// How parse.rs says `Incomplete`.
const NOT_ENOUGH: &str = "not enough data";

/// A filter as its four numbers; its own fields are private to bloom.rs.
#[derive(Clone, Debug, PartialEq, Eq)]
pub struct FilterParts {
    pub entries: u32,
    pub bits_per_entry: u32,
    pub probes: u32,
    pub field: Vec<u8>,
}

/// The parts of a filter, as its derived `Serialize` hands them over.
pub fn filter_parts(filter: &BloomFilter) -> FilterParts {
    let recorded = crate::record::record(filter);
    let field = |name: &str| recorded.field(name).expect("bloom.rs has this field");
    let number = |name: &str| {
        let number = field(name).number().expect("a number");
        u32::try_from(number).expect("a u32")
    };
    FilterParts {
        entries: number("num_entries"),
        bits_per_entry: number("num_bits_per_entry"),
        probes: number("num_probes"),
        field: field("bits").bytes().expect("bytes"),
    }
}

/// The filter with these parts, read by the crate from their bytes; none if the
/// field hasn't the length that bloom.rs gives it.
pub fn filter_of(parts: &FilterParts) -> Option<BloomFilter> {
    let mut bytes = Vec::new();
    for number in [parts.entries, parts.bits_per_entry, parts.probes] {
        leb128_writer(&mut bytes, u64::from(number));
    }
    bytes.extend(&parts.field);
    let filter = read_filter(&bytes).ok()?;
    (filter_parts(&filter) == *parts).then_some(filter)
}

/// The byte behind a `MessageFlags`, bit by bit.
pub fn flags_value(flags: MessageFlags) -> u8 {
    let bits = (0..u8::BITS).map(|k| 1 << k);
    bits.filter(|&bit| flags.contains(bit)).sum()
}

/// The `MessageFlags` over this byte.
pub fn flags_of(value: u8) -> MessageFlags {
    let mut flags = MessageFlags::new();
    flags.set(value);
    flags
}

/// `get_hashes_to_send`, private to sync.rs: the chunks of the first message of
/// a session that has heard these haves and needs and knows nothing of V2 are
/// its list, change by change. A first have without last-sync hashes and entries
/// is put before the others: it adds no last-sync hash, its filter contains
/// nothing, and an unknown hash in the next one then brings no reset.
pub fn hashes_to_send(document: &Automerge, have: &[Have], need: &[ChangeHash]) -> Vec<ChangeHash> {
    let mut their_have = have.to_vec();
    if !have.is_empty() {
        their_have.insert(0, Have::default());
    }
    let mut state = State {
        their_have: Some(their_have),
        their_need: Some(need.to_vec()),
        ..State::new()
    };
    let message = document
        .generate_sync_message(&mut state)
        .expect("a session that never spoke speaks");
    let records: Vec<u8> = message.changes.iter().flatten().copied().collect();
    let changes = Change::read_all(&records).expect("chunks are records");
    changes.iter().map(Change::hash).collect()
}
