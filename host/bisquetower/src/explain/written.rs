//! Values that were to be written, and filters that were to be made: which part of one
//! passes its limit.

use super::{wrong_numbers, BAD_NUMBERS, LIMIT};
use crate::cause::{Cause, List, Rule};
use crate::hash::HASH;
use crate::refusal::Refusal;
use crate::{Filter, Have, Limits, Message};

/// Bytes of a message's first byte, and of its flags section.
const FIRST: u64 = 1;
const FLAGS: u64 = 3;

/// The refusal of a message's bytes.
pub(crate) fn writing(message: &Message, refusal: Refusal) -> Refusal {
    if refusal.number != LIMIT {
        return refusal;
    }
    let limits = Limits::told();
    let lists = [
        (List::Heads, message.heads.len(), limits.hashes),
        (List::Need, message.need.len(), limits.hashes),
        (List::Haves, message.have.len(), limits.haves),
        (List::Chunks, message.changes.len(), limits.chunks),
    ];
    let long = first_long(lists.into_iter().chain(synced(&message.have)));
    match long.or_else(|| large(message, limits.message)) {
        Some(cause) => refusal.because(cause),
        None => refusal,
    }
}

/// The refusal of writing a saved state with this number of heads.
pub(crate) fn saved(heads: usize, refusal: Refusal) -> Refusal {
    if refusal.number != BAD_NUMBERS {
        return refusal;
    }
    let long = items(List::SharedHeads, heads, Limits::told().hashes);
    long.map_or(refusal, |cause| refusal.because(cause))
}

/// The refusal of a filter that was to be built of `entries` hashes.
pub(crate) fn building(entries: usize, bits: u64, probes: u64, refusal: Refusal) -> Refusal {
    let cause = match refusal.number {
        BAD_NUMBERS => numbers(entries as u64, bits, probes),
        LIMIT => items(List::Entries, entries, Limits::told().hashes),
        _ => None,
    };
    cause.map_or(refusal, |cause| refusal.because(cause))
}

/// The refusal of a filter that is numbers and a field.
pub(crate) fn parts(filter: &Filter, refusal: Refusal) -> Refusal {
    if refusal.number != BAD_NUMBERS {
        return refusal;
    }
    let Filter {
        entries,
        bits,
        probes,
        field,
    } = filter;
    let cause = numbers(*entries, *bits, *probes).or_else(|| {
        let (bytes, asked) = (field.len() as u64, entries.checked_mul(*bits)?.div_ceil(8));
        let rule = Rule::FieldSize { bytes, asked };
        (bytes != asked).then(|| Cause::new(rule, None))
    });
    cause.map_or(refusal, |cause| refusal.because(cause))
}

/// What is wrong with the numbers of a filter that wasn't read.
fn numbers(entries: u64, bits: u64, probes: u64) -> Option<Cause> {
    let rule = wrong_numbers(entries, bits, probes)?;
    Some(Cause::new(Rule::Filter { place: None, rule }, None))
}

/// A list, how many items it has, and how many it may have.
pub(super) type Counted = (List, usize, u64);

/// The last-sync hashes of each have.
pub(super) fn synced(haves: &[Have]) -> impl Iterator<Item = Counted> + '_ {
    let most = Limits::told().hashes;
    let haves = haves.iter().enumerate();
    haves.map(move |(k, have)| (List::LastSync(k), have.last_sync.len(), most))
}

/// The first list with more items than it may have.
pub(super) fn first_long(mut lists: impl Iterator<Item = Counted>) -> Option<Cause> {
    lists.find_map(|(list, count, most)| items(list, count, most))
}

pub(super) fn items(list: List, count: usize, most: u64) -> Option<Cause> {
    let count = count as u64;
    let rule = Rule::Items { list, count, most };
    (count > most).then(|| Cause::new(rule, None))
}

fn large(message: &Message, most: u64) -> Option<Cause> {
    let bytes = size(message);
    let rule = Rule::MessageBytes {
        bytes: Some(bytes),
        most,
    };
    (bytes > most).then(|| Cause::new(rule, None))
}

/// How many bytes a message takes (01, Wire).
fn size(message: &Message) -> u64 {
    let hashes = |count: usize| counted(count) + (HASH * count) as u64;
    let prefixed = |bytes: usize| counted(bytes) + bytes as u64;
    let haves = message.have.iter();
    let haves =
        haves.map(|have| hashes(have.last_sync.len()) + prefixed(have.bloom.to_bytes().len()));
    let chunks = message.changes.iter().map(|chunk| prefixed(chunk.len()));
    FIRST
        + hashes(message.heads.len())
        + hashes(message.need.len())
        + counted(message.have.len())
        + haves.sum::<u64>()
        + counted(message.changes.len())
        + chunks.sum::<u64>()
        + message.flags.map_or(0, |_| FLAGS)
}

/// Bytes of a number: seven bits each, and one for 0.
pub(crate) fn counted(n: usize) -> u64 {
    u64::from((usize::BITS - n.leading_zeros()).div_ceil(7).max(1))
}

#[cfg(test)]
mod tests {
    use super::*;
    use crate::limits::HASHES;
    use crate::{ChangeHash, MessageFlags};

    #[test]
    fn the_size_is_what_is_written() {
        let hashes = |count: usize| vec![ChangeHash([7; 32]); count];
        let have = |count: usize| {
            let last_sync = hashes(count);
            let bloom = Filter::from_hashes(&last_sync).unwrap();
            Have { last_sync, bloom }
        };
        for count in [0, 1, 127, 128, 129, HASHES] {
            for flags in [None, Some(MessageFlags::new())] {
                let message = Message {
                    heads: hashes(count),
                    need: hashes(count / 2),
                    have: vec![have(count), Have::default()],
                    changes: vec![vec![1; 200 * count], vec![], vec![2; 127], vec![3; 128]],
                    flags,
                    ..Message::default()
                };
                assert_eq!(size(&message), message.encode().unwrap().len() as u64);
            }
        }
    }
}
