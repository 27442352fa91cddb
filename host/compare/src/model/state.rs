//! Document 01's rules for sessions and saved states (Wire, "Saved state";
//! Session; refusals 1 to 4, 7 and 10). A session is its counts and flags, as
//! docs/ABI.md puts them into words.

use super::have::{haves, limited, HAVES, HAVE_WORDS};
use super::{hashes, number_bytes, Refused, HASH, HASHES};
use bisquetower::limits::SENT_HASHES;
use bisquetower::raw::{Read, Reader};

pub const WORDS: usize = 16;

/// "43 and the shared heads".
const TYPE: u8 = 0x43;

/// What may be absent is none; the flags are in-flight, have-responded, V2, reset,
/// read-only, peer read-only, needs-reset.
#[derive(Clone, Copy, Debug, Default, PartialEq, Eq)]
pub struct Session {
    pub shared: u64,
    pub last_sent: u64,
    pub their_heads: Option<u64>,
    pub their_need: Option<u64>,
    pub their_have: Option<u64>,
    pub sent: u64,
    pub flags: [bool; 7],
}

pub const IN_FLIGHT: usize = 0;
pub const HAVE_RESPONDED: usize = 1;
pub const V2: usize = 2;
pub const RESET: usize = 3;
pub const READ_ONLY: usize = 4;
pub const PEER_READ_ONLY: usize = 5;
pub const NEEDS_RESET: usize = 6;

impl Session {
    pub fn words(&self) -> [u64; WORDS] {
        let mut words = vec![self.shared, self.last_sent];
        for heard in [self.their_heads, self.their_need, self.their_have] {
            words.extend([u64::from(heard.is_some()), heard.unwrap_or(0)]);
        }
        words.push(self.sent);
        words.extend(self.flags.map(u64::from));
        words.try_into().expect("sixteen words")
    }

    /// A flag's word other than 0 is yes; the count of an absent list is ignored.
    pub fn of(words: &[u64; WORDS]) -> Self {
        let heard = |k: usize| (words[k] != 0).then_some(words[k + 1]);
        Session {
            shared: words[0],
            last_sent: words[1],
            their_heads: heard(2),
            their_need: heard(4),
            their_have: heard(6),
            sent: words[8],
            flags: std::array::from_fn(|k| words[9 + k] != 0),
        }
    }

    /// "off to on clears in-flight and have-responded; on to off gives a fresh
    /// session that keeps the capabilities and wants a reset; no change is no
    /// change."
    pub fn set_read_only(self, on: bool) -> Self {
        let mut next = self;
        match (self.flags[READ_ONLY], on) {
            (false, true) => {
                next.flags[READ_ONLY] = true;
                next.flags[IN_FLIGHT] = false;
                next.flags[HAVE_RESPONDED] = false;
            }
            (true, false) => {
                next = Session::default();
                next.flags[V2] = self.flags[V2];
                next.flags[RESET] = self.flags[RESET];
                next.flags[NEEDS_RESET] = true;
            }
            _ => {}
        }
        next
    }
}

/// The place and number of a saved state's shared heads: 1 where it is empty, 2
/// with another first byte, then the list's refusals.
fn shared_heads(s: &[u8]) -> Result<(usize, usize), Refused> {
    match s.first() {
        None => Err((1, 0)),
        Some(&TYPE) => hashes(&Read {
            reader: Reader::Hashes,
            bytes: s,
            at: 1,
            end: s.len(),
        }),
        Some(&other) => Err((2, other.into())),
    }
}

/// What reading a saved state answers, and leaves in the buffer for the shared
/// heads and in the session's words: "a fresh session, but their-have is present
/// and empty".
pub fn read(s: &[u8], shared: &mut [u8], session: &mut [u64; WORDS]) -> [u64; 4] {
    let read = shared_heads(s).and_then(|(start, count)| {
        let heads = &s[start..][..HASH * count];
        match shared.get_mut(..heads.len()) {
            Some(room) => room.copy_from_slice(heads),
            None => return Err((7, heads.len() as u64)),
        }
        let fresh = Session {
            shared: count as u64,
            their_have: Some(0),
            ..Session::default()
        };
        *session = fresh.words();
        Ok([count as u64, 0, 0])
    });
    super::words(read)
}

/// A saved state of the first hashes of a buffer.
pub fn bytes(shared: &[u8], count: usize) -> Result<Vec<u8>, Refused> {
    if !list_good(count as u64, HASHES, shared) {
        return Err((10, 0));
    }
    let heads = &shared[..HASH * count];
    Ok([&[TYPE][..], &number_bytes(count as u64), heads].concat())
}

/// The lists that are lent with a session.
#[derive(Clone, Copy)]
pub struct Lists<'a> {
    pub shared: &'a [u8],
    pub last_sent: &'a [u8],
    pub their_heads: &'a [u8],
    pub their_need: &'a [u8],
    pub haves: &'a [u64],
    pub bytes: &'a [u8],
    pub sent: &'a [u8],
}

/// What a call that checks a session answers: refusal 10 where "a count passes its
/// size", here also that of the lent buffer, where the sent hashes are "not
/// strictly ascending", or where a kept filter is bad.
pub fn checked(words: &[u64; WORDS], lists: &Lists) -> [u64; 4] {
    let s = Session::of(words);
    let heard = |count: Option<u64>, list| count.is_none_or(|count| list_good(count, HASHES, list));
    let good = list_good(s.shared, HASHES, lists.shared)
        && list_good(s.last_sent, HASHES, lists.last_sent)
        && heard(s.their_heads, lists.their_heads)
        && heard(s.their_need, lists.their_need)
        && s.their_have.is_none_or(|count| haves_good(count, lists))
        && list_good(s.sent, SENT_HASHES, lists.sent)
        && ascending(&lists.sent[..HASH * s.sent as usize]);
    super::words(if good { Ok([0, 0, 0]) } else { Err((10, 0)) })
}

fn list_good(count: u64, most: usize, list: &[u8]) -> bool {
    count <= most as u64 && HASH as u128 * u128::from(count) <= list.len() as u128
}

fn ascending(hashes: &[u8]) -> bool {
    let hashes: Vec<&[u8]> = hashes.chunks(HASH).collect();
    hashes.windows(2).all(|two| two[0] < two[1])
}

fn haves_good(count: u64, lists: &Lists) -> bool {
    if count > HAVES as u64 {
        return false;
    }
    let Some(records) = lists.haves.get(..HAVE_WORDS * count as usize) else {
        return false;
    };
    haves(lists.bytes, records)
        .and_then(|haves| limited(&haves))
        .is_ok()
}
