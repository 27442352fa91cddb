//! Sessions: what a unit knows of the sync with one peer.

mod generate;
mod parts;
mod receive;
#[cfg(test)]
mod tests;
mod within;

pub use generate::Plan;
pub use parts::SessionParts;
pub use within::Offer;

use crate::hash::{hashes_in, ChangeHash, HASH};
use crate::have::{haves_in, Have};
use crate::index::Index;
use crate::message::HAVE_WORDS;
use crate::refusal::Refusal;
use crate::{raw, saved, SavedState};

/// Words of a session.
pub(crate) const WORDS: usize = 16;

/// The words that are looked at here, by name (docs/ABI.md, Sessions).
const SHARED: usize = 0;
const LAST_SENT: usize = 1;
const THEIR_HEADS: usize = 2;
const THEIR_NEED: usize = 4;
const THEIR_HAVE: usize = 6;
const SENT: usize = 8;
const IN_FLIGHT: usize = 9;
const HAVE_RESPONDED: usize = 10;
const SUPPORTS_V2: usize = 11;
const SUPPORTS_RESET: usize = 12;
const READ_ONLY: usize = 13;
const PEER_READ_ONLY: usize = 14;
const NEEDS_RESET: usize = 15;

/// What a unit knows of the sync with one peer. A program keeps one for each peer, sends
/// the [`next_message`](Session::next_message) that it has to say, and lets it
/// [`receive`](Session::receive) what comes. When neither unit has anything to say they
/// have caught up; the same sessions go on when either of them has news.
///
/// ```
/// use bisquetower::{Change, ChangeHash, Memory, Session};
///
/// // A station with two changes, and a validator without any.
/// let mut station = Memory::new();
/// let [a, b] = [b'a', b'b'].map(|name| ChangeHash([name; 32]));
/// station.add(Change { hash: a, dependencies: vec![], contents: b"fares".to_vec() })?;
/// station.add(Change { hash: b, dependencies: vec![a], contents: b"zones".to_vec() })?;
/// let mut validator = Memory::new();
///
/// let (mut ours, mut theirs) = (Session::new(), Session::new());
/// loop {
///     let question = ours.next_message(&validator)?;
///     if let Some(bytes) = &question {
///         theirs.receive(&mut station, bytes)?;
///     }
///     let reply = theirs.next_message(&station)?;
///     if let Some(bytes) = &reply {
///         ours.receive(&mut validator, bytes)?;
///     }
///     if question.is_none() && reply.is_none() {
///         break;
///     }
/// }
/// assert_eq!(validator.changes(), station.changes());
/// assert_eq!(ours.shared_heads(), [b]);
/// # Ok::<(), Box<dyn std::error::Error>>(())
/// ```
#[doc(alias = "State")]
#[derive(Clone, Debug)]
pub struct Session {
    words: [u64; WORDS],
    lists: Lists,
    /// That of the table which was lent last: no part of what the session knows.
    index: Index,
}

impl PartialEq for Session {
    fn eq(&self, other: &Session) -> bool {
        (self.words, &self.lists) == (other.words, &other.lists)
    }
}

impl Eq for Session {}

/// The lists of a session, each as long as its words say: hashes one after the other,
/// and haves as words over bytes.
#[derive(Clone, Debug, Default, PartialEq, Eq)]
struct Lists {
    shared: Vec<u8>,
    last_sent: Vec<u8>,
    their_heads: Vec<u8>,
    their_need: Vec<u8>,
    haves: Vec<u64>,
    bytes: Vec<u8>,
    sent: Vec<u8>,
}

impl Default for Session {
    fn default() -> Self {
        Session::new()
    }
}

impl Session {
    /// A session in which nothing was said.
    pub fn new() -> Session {
        Session::fresh(raw::fresh)
    }

    /// A session in which nothing was said yet, of a unit that sends changes and takes none.
    pub fn new_read_only() -> Session {
        Session::fresh(raw::fresh_read_only)
    }

    fn fresh(write: fn(&mut [u64; WORDS])) -> Session {
        let mut words = [raw::UNWRITTEN; WORDS];
        write(&mut words);
        Session::of(words, Lists::default())
    }

    fn of(words: [u64; WORDS], lists: Lists) -> Session {
        Session {
            words,
            lists,
            index: Index::default(),
        }
    }

    /// The session that goes on from a saved state's bytes.
    pub fn decode(bytes: &[u8]) -> Result<Session, Refusal> {
        let (shared, words) = saved::read(bytes)?;
        let lists = Lists {
            shared,
            ..Lists::default()
        };
        Ok(Session::of(words, lists))
    }

    /// The bytes of its saved state.
    pub fn encode(&self) -> Vec<u8> {
        let count = self.words[SHARED] as usize;
        saved::write(&self.lists.shared, count).expect("a good session")
    }

    /// What is worth keeping between connections.
    pub fn save(&self) -> SavedState {
        let shared_heads = self.shared_heads();
        SavedState { shared_heads }
    }

    /// Switches read-only mode. Off, where it was on, begins the sync anew, and the peer
    /// is asked to send again what wasn't taken.
    pub fn set_read_only(&mut self, on: bool) {
        raw::set_read_only(&mut self.words, on.into());
        self.trim();
    }

    /// What both units are known to hold.
    pub fn shared_heads(&self) -> Vec<ChangeHash> {
        hashes_in(&self.lists.shared)
    }

    /// The heads that were sent last.
    pub fn last_sent_heads(&self) -> Vec<ChangeHash> {
        hashes_in(&self.lists.last_sent)
    }

    /// The peer's heads, once it said them.
    pub fn their_heads(&self) -> Option<Vec<ChangeHash>> {
        self.is(THEIR_HEADS)
            .then(|| hashes_in(&self.lists.their_heads))
    }

    /// What the peer asked for last.
    pub fn their_need(&self) -> Option<Vec<ChangeHash>> {
        self.is(THEIR_NEED)
            .then(|| hashes_in(&self.lists.their_need))
    }

    /// What the peer said it has.
    pub fn their_have(&self) -> Option<Vec<Have>> {
        self.is(THEIR_HAVE)
            .then(|| haves_in(&self.lists.haves, &self.lists.bytes))
    }

    /// The changes that were sent and aren't known to have arrived, ascending.
    pub fn sent_hashes(&self) -> Vec<ChangeHash> {
        hashes_in(&self.lists.sent)
    }

    /// Whether a message went out that nothing answered yet.
    pub fn in_flight(&self) -> bool {
        self.is(IN_FLIGHT)
    }

    /// Whether a message went out at all.
    pub fn have_responded(&self) -> bool {
        self.is(HAVE_RESPONDED)
    }

    /// Whether the peer takes messages of version 2.
    pub fn supports_v2_messages(&self) -> bool {
        self.is(SUPPORTS_V2)
    }

    /// Whether the peer understands a reset.
    pub fn peer_supports_sync_reset(&self) -> bool {
        self.is(SUPPORTS_RESET)
    }

    /// Whether this unit takes no changes.
    pub fn is_read_only(&self) -> bool {
        self.is(READ_ONLY)
    }

    /// Whether the peer takes no changes.
    pub fn is_peer_read_only(&self) -> bool {
        self.is(PEER_READ_ONLY)
    }

    /// Whether the next message asks the peer to forget what it sent.
    pub fn needs_reset(&self) -> bool {
        self.is(NEEDS_RESET)
    }

    /// The session's words, as docs/ABI.md has them.
    pub fn words(&self) -> &[u64; WORDS] {
        &self.words
    }

    fn is(&self, flag: usize) -> bool {
        self.words[flag] != 0
    }

    /// Cuts the lists to what the words say, so that between calls a session takes no more
    /// memory than what it knows.
    fn trim(&mut self) {
        let count = |flag: usize| match self.words[flag] {
            0 => 0,
            _ => self.words[flag + 1] as usize,
        };
        let (heads, need, haves) = (count(THEIR_HEADS), count(THEIR_NEED), count(THEIR_HAVE));
        let lists = &mut self.lists;
        cut(&mut lists.shared, HASH * self.words[SHARED] as usize);
        cut(&mut lists.last_sent, HASH * self.words[LAST_SENT] as usize);
        cut(&mut lists.their_heads, HASH * heads);
        cut(&mut lists.their_need, HASH * need);
        cut(&mut lists.sent, HASH * self.words[SENT] as usize);
        cut(&mut lists.haves, HAVE_WORDS * haves);
        let end = |have: &[u64]| (have[0] + HASH as u64 * have[1]).max(have[5] + have[6]);
        let used = lists.haves.chunks_exact(HAVE_WORDS).map(end).max();
        cut(&mut lists.bytes, used.unwrap_or(0) as usize);
    }
}

/// Cuts a list to `length` items, and gives back the memory behind them.
fn cut<T>(list: &mut Vec<T>, length: usize) {
    list.truncate(length);
    list.shrink_to_fit();
}
