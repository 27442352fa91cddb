//! Document 01's "Receiving": the session after a message, and the lists and words
//! of the call.

use super::have::{haves, OwnHave};
use super::message::parse;
use super::plan::{FLAG_READ_ONLY, FLAG_RESET, FLAG_SUPPORTS_RESET};
use super::session::{laid, put, short, Value};
use super::state::{Lists, IN_FLIGHT, PEER_READ_ONLY, READ_ONLY, RESET, V2, WORDS};
use super::table::{self, hashes_of, Hash, Table, HASH, HASHES};
use super::Refused;
use std::collections::BTreeSet;

/// What a session takes from a message.
#[derive(Clone, Debug, PartialEq, Eq)]
pub struct Said {
    pub heads: Vec<Hash>,
    pub need: Vec<Hash>,
    pub haves: Vec<OwnHave>,
    /// None without a section.
    pub flags: Option<u64>,
    pub chunks: bool,
}

impl Said {
    /// What stands in a message's bytes.
    pub fn of(message: &[u8]) -> Result<Said, Refused> {
        let places = parse(message)?;
        let list = |[place, count]: [u64; 2]| {
            let bytes = &message[place as usize..][..HASH * count as usize];
            hashes_of(bytes)
        };
        let records = places.haves.concat();
        let haves = haves(message, &records).expect("read just now");
        Ok(Said {
            heads: list(places.heads),
            need: list(places.need),
            haves: haves.iter().map(|have| have.own()).collect(),
            flags: (places.flags < super::message::NO_FLAGS).then_some(places.flags),
            chunks: !places.chunks.is_empty(),
        })
    }
}

/// The session after a message; after a failed load, what is kept of it; or a
/// refusal that leaves it.
#[derive(Clone, Debug, PartialEq, Eq)]
pub enum Received {
    Took(Value),
    NotLoaded(Value),
    Refused(Refused),
}

/// What a message does to a session over a good table, of which the first `before`
/// rows were held before; "4 for a resulting list" is the joined heads'.
pub fn received(table: &Table, before: usize, s: &Value, m: &Said, loaded: bool) -> Received {
    let mut next = s.clone();
    next.flags[IN_FLIGHT] = false;
    if let Some(flags) = m.flags {
        next.flags[V2] = true;
        next.flags[RESET] = flags & FLAG_SUPPORTS_RESET != 0;
        next.flags[PEER_READ_ONLY] = flags & FLAG_READ_ONLY != 0;
        if flags & FLAG_RESET != 0 {
            next.sent.clear();
        }
    }
    let old = table.heads(before).expect("no more rows than there are");
    if m.chunks && !s.is(READ_ONLY) {
        if !loaded {
            return Received::NotLoaded(next);
        }
        next.shared = advanced(table, &old, &s.shared);
    }

    // "Drop from the sent hashes the known message heads and their ancestors."
    let reached = table.reached(&m.heads);
    let seen = |hash: &Hash| {
        table
            .row_of
            .get(hash)
            .is_some_and(|row| reached.contains(row))
    };
    next.sent.retain(|hash| !seen(hash));
    if !m.chunks && m.heads == old {
        next.last_sent.clone_from(&m.heads);
    }
    let known = m.heads.iter().copied().filter(|hash| table.holds(hash));
    let known: Vec<Hash> = known.collect();
    if known.len() == m.heads.len() {
        next.shared.clone_from(&m.heads);
        if m.heads.is_empty() {
            next.last_sent.clear();
            next.sent.clear();
        }
    } else {
        let joined: BTreeSet<Hash> = next.shared.into_iter().chain(known).collect();
        next.shared = joined.into_iter().collect();
        if next.shared.len() > HASHES {
            return Received::Refused((4, 0));
        }
    }
    next.their_heads = Some(m.heads.clone());
    next.their_need = Some(m.need.clone());
    next.their_have = Some(m.haves.clone());
    Received::Took(next)
}

/// `advance_heads`: heads that weren't there before, and shared heads that are heads.
fn advanced(table: &Table, old: &[Hash], shared: &[Hash]) -> Vec<Hash> {
    let now = table.heads(table.rows.len()).expect("all rows");
    let new = now.iter().filter(|head| !old.contains(head));
    let still = shared.iter().filter(|head| now.contains(head));
    let all: BTreeSet<Hash> = new.chain(still).copied().collect();
    all.into_iter().collect()
}

/// What is lent to a call beside the session.
#[derive(Clone, Copy, Debug)]
pub struct Told<'a> {
    pub table: &'a [u8],
    pub index: &'a [u8],
    pub before: usize,
    pub message: &'a [u8],
    pub loaded: bool,
}

/// The step over what is lent: "10, 6, 11, then the input from its first byte", and 12
/// "directly after 6".
pub fn of_lent(words: &[u64; WORDS], lists: &Lists, told: &Told) -> Received {
    let step = || {
        let s = Value::of(words, lists)?;
        let table = table::indexed(told.table, told.index)?;
        if told.before > table.rows.len() {
            return Err((11, 0));
        }
        let said = Said::of(told.message)?;
        Ok(received(&table, told.before, &s, &said, told.loaded))
    };
    step().unwrap_or_else(Received::Refused)
}

/// The session's lists, in the order in which their room is tested; sent hashes
/// never want more.
pub struct Buffers<'a> {
    pub shared: &'a mut [u8],
    pub last_sent: &'a mut [u8],
    pub their_heads: &'a mut [u8],
    pub their_need: &'a mut [u8],
    pub haves: &'a mut [u64],
    pub bytes: &'a mut [u8],
    pub sent: &'a mut [u8],
}

/// How long each of the lists has to be, in their order.
pub fn wants(s: &Value) -> [usize; 7] {
    let hashes = |list: &Option<Vec<Hash>>| HASH * list.as_ref().map_or(0, Vec::len);
    let (records, bytes) = laid(s.their_have.as_deref().unwrap_or_default());
    [
        HASH * s.shared.len(),
        HASH * s.last_sent.len(),
        hashes(&s.their_heads),
        hashes(&s.their_need),
        records.len(),
        bytes.len(),
        HASH * s.sent.len(),
    ]
}

/// What the call answers, and leaves in the session's words and lists.
pub fn put_all(received: &Received, words: &mut [u64; WORDS], lists: &mut Buffers) -> [u64; 4] {
    let next = match received {
        Received::Refused((number, value)) => return [*number, *value, 0, 0],
        Received::NotLoaded(left) => {
            *words = left.counts().words();
            return [8, 0, 0, 0];
        }
        Received::Took(next) => next,
    };
    let rooms = [
        lists.shared.len(),
        lists.last_sent.len(),
        lists.their_heads.len(),
        lists.their_need.len(),
        lists.haves.len(),
        lists.bytes.len(),
        lists.sent.len(),
    ];
    let rooms: Vec<(usize, usize)> = rooms.into_iter().zip(wants(next)).collect();
    if let Err((number, value)) = short(&rooms) {
        return [number, value, 0, 0];
    }
    let heard = |list: &Option<Vec<Hash>>| list.as_deref().unwrap_or_default().concat();
    let (records, bytes) = laid(next.their_have.as_deref().unwrap_or_default());
    put(lists.shared, &next.shared.concat());
    put(lists.last_sent, &next.last_sent.concat());
    put(lists.their_heads, &heard(&next.their_heads));
    put(lists.their_need, &heard(&next.their_need));
    put(lists.haves, &records);
    put(lists.bytes, &bytes);
    put(lists.sent, &next.sent_bytes());
    *words = next.counts().words();
    [0; 4]
}
