//! A session as its lists and flags, and the words and lent lists that it is passed
//! as (document 01, Session and refusal 10).

use super::have::{haves, OwnHave, HAVE_WORDS};
use super::state::{checked, Lists, Session, READ_ONLY, WORDS};
use super::table::{hashes_of, Hash, HASH};
use super::Refused;
use std::collections::BTreeSet;

#[derive(Clone, Debug, Default, PartialEq, Eq)]
pub struct Value {
    pub shared: Vec<Hash>,
    pub last_sent: Vec<Hash>,
    pub their_heads: Option<Vec<Hash>>,
    pub their_need: Option<Vec<Hash>>,
    pub their_have: Option<Vec<OwnHave>>,
    pub sent: BTreeSet<Hash>,
    /// In the order of `state`'s constants.
    pub flags: [bool; 7],
}

impl Value {
    /// The session that words over lent lists are; 10 if they are none.
    pub fn of(words: &[u64; WORDS], lists: &Lists) -> Result<Value, Refused> {
        if checked(words, lists)[0] != 0 {
            return Err((10, 0));
        }
        let counts = Session::of(words);
        let first = |count: u64, list: &[u8]| hashes_of(&list[..HASH * count as usize]);
        let their_have = counts.their_have.map(|count| {
            let records = &lists.haves[..HAVE_WORDS * count as usize];
            let haves = haves(lists.bytes, records).expect("checked just now");
            haves.iter().map(|have| have.own()).collect()
        });
        Ok(Value {
            shared: first(counts.shared, lists.shared),
            last_sent: first(counts.last_sent, lists.last_sent),
            their_heads: counts.their_heads.map(|n| first(n, lists.their_heads)),
            their_need: counts.their_need.map(|n| first(n, lists.their_need)),
            their_have,
            sent: first(counts.sent, lists.sent).into_iter().collect(),
            flags: counts.flags,
        })
    }

    pub fn is(&self, flag: usize) -> bool {
        self.flags[flag]
    }

    /// How long its lists are, and its flags.
    pub fn counts(&self) -> Session {
        let count = |list: &Option<Vec<Hash>>| list.as_ref().map(|list| list.len() as u64);
        Session {
            shared: self.shared.len() as u64,
            last_sent: self.last_sent.len() as u64,
            their_heads: count(&self.their_heads),
            their_need: count(&self.their_need),
            their_have: self.their_have.as_ref().map(|haves| haves.len() as u64),
            sent: self.sent.len() as u64,
            flags: self.flags,
        }
    }

    pub fn set_read_only(&mut self, on: bool) {
        let counts = self.counts().set_read_only(on);
        // Lists are emptied where the session becomes a fresh one, and nowhere else.
        if self.is(READ_ONLY) && !on {
            *self = Value::default();
        }
        self.flags = counts.flags;
    }

    /// The bytes of the hashes sent, ascending.
    pub fn sent_bytes(&self) -> Vec<u8> {
        self.sent.iter().flatten().copied().collect()
    }
}

/// Haves as a session keeps them: "have by have, last-sync hashes then field, from
/// the buffer's start", and a record of seven words for each.
pub fn laid(haves: &[OwnHave]) -> (Vec<u64>, Vec<u8>) {
    let (mut records, mut bytes) = (Vec::new(), Vec::new());
    for have in haves {
        let hashes = bytes.len() as u64;
        bytes.extend(have.last_sync.as_flattened());
        let field = bytes.len() as u64;
        bytes.extend(&have.field);
        records.extend([hashes, have.last_sync.len() as u64]);
        records.extend(have.numbers);
        records.extend([field, have.field.len() as u64]);
    }
    (records, bytes)
}

/// The length that the first of these wants whose room is less than it.
pub(super) fn short(rooms_and_wants: &[(usize, usize)]) -> Result<(), Refused> {
    let mut short = rooms_and_wants.iter().filter(|(room, want)| room < want);
    match short.next() {
        Some(&(_, want)) => Err((7, want as u64)),
        None => Ok(()),
    }
}

/// Puts items at a buffer's start.
pub(super) fn put<T: Copy>(buffer: &mut [T], items: &[T]) {
    buffer[..items.len()].copy_from_slice(items);
}
