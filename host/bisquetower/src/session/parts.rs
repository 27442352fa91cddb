//! A session as its parts.

use super::{Lists, Session, WORDS};
use crate::hash::{bytes_of, ChangeHash};
use crate::have::{self, Have};
use crate::refusal::{answer, Refusal};
use crate::{explain, raw};

/// Everything that a session knows, for programs that look at sessions or keep them
/// whole. Between connections [`SavedState`](crate::SavedState) is enough.
///
/// ```
/// use bisquetower::{ChangeHash, Memory, Session, SessionParts};
///
/// let mut session = Session::new();
/// session.next_message(&Memory::new())?;
/// let mut parts = session.parts();
/// assert!(parts.in_flight && parts.their_heads.is_none());
/// assert_eq!(Session::from_parts(&parts)?, session);
///
/// // Sent hashes ascend, each once.
/// parts.sent_hashes = vec![ChangeHash([2; 32]), ChangeHash([1; 32])];
/// assert_eq!(Session::from_parts(&parts).unwrap_err().number, 10);
/// # Ok::<(), Box<dyn std::error::Error>>(())
/// ```
#[derive(Clone, Debug, Default, PartialEq, Eq)]
pub struct SessionParts {
    /// What both units are known to hold.
    pub shared_heads: Vec<ChangeHash>,
    /// The heads that were sent last.
    pub last_sent_heads: Vec<ChangeHash>,
    /// The peer's heads, once it said them.
    pub their_heads: Option<Vec<ChangeHash>>,
    /// What the peer asked for last.
    pub their_need: Option<Vec<ChangeHash>>,
    /// What the peer said it has.
    pub their_have: Option<Vec<Have>>,
    /// The changes that were sent and aren't known to have arrived, ascending.
    pub sent_hashes: Vec<ChangeHash>,
    /// Whether a message went out that nothing answered yet.
    pub in_flight: bool,
    /// Whether a message went out at all.
    pub have_responded: bool,
    /// Whether the peer takes messages of version 2.
    pub supports_v2_messages: bool,
    /// Whether the peer understands a reset.
    pub peer_supports_sync_reset: bool,
    /// Whether this unit takes no changes.
    pub read_only: bool,
    /// Whether the peer takes no changes.
    pub peer_read_only: bool,
    /// Whether the next message asks the peer to forget what it sent.
    pub needs_reset: bool,
}

impl Session {
    /// Its parts.
    pub fn parts(&self) -> SessionParts {
        SessionParts {
            shared_heads: self.shared_heads(),
            last_sent_heads: self.last_sent_heads(),
            their_heads: self.their_heads(),
            their_need: self.their_need(),
            their_have: self.their_have(),
            sent_hashes: self.sent_hashes(),
            in_flight: self.in_flight(),
            have_responded: self.have_responded(),
            supports_v2_messages: self.supports_v2_messages(),
            peer_supports_sync_reset: self.peer_supports_sync_reset(),
            read_only: self.is_read_only(),
            peer_read_only: self.is_peer_read_only(),
            needs_reset: self.needs_reset(),
        }
    }

    /// The session of these parts: refusal 10 if a list is too long or the sent hashes
    /// don't ascend.
    pub fn from_parts(parts: &SessionParts) -> Result<Session, Refusal> {
        let list = |list: &Option<Vec<ChangeHash>>| bytes_of(list.as_deref().unwrap_or_default());
        let (haves, bytes) = have::lend(parts.their_have.as_deref().unwrap_or_default());
        let lists = Lists {
            shared: bytes_of(&parts.shared_heads),
            last_sent: bytes_of(&parts.last_sent_heads),
            their_heads: list(&parts.their_heads),
            their_need: list(&parts.their_need),
            haves,
            bytes,
            sent: bytes_of(&parts.sent_hashes),
        };
        let words = words_of(parts);
        let checked = answer(raw::check_session(
            &words,
            &lists.shared,
            &lists.last_sent,
            &lists.their_heads,
            &lists.their_need,
            &lists.haves,
            &lists.bytes,
            &lists.sent,
        ));
        checked.map_err(|refusal| explain::session(parts, refusal))?;
        Ok(Session::of(words, lists))
    }
}

/// The words of parts, as docs/ABI.md orders them.
fn words_of(parts: &SessionParts) -> [u64; WORDS] {
    let heard = |length: Option<usize>| [length.is_some().into(), length.unwrap_or(0) as u64];
    let [heads, heads_count] = heard(parts.their_heads.as_ref().map(Vec::len));
    let [need, need_count] = heard(parts.their_need.as_ref().map(Vec::len));
    let [have, have_count] = heard(parts.their_have.as_ref().map(Vec::len));
    [
        parts.shared_heads.len() as u64,
        parts.last_sent_heads.len() as u64,
        heads,
        heads_count,
        need,
        need_count,
        have,
        have_count,
        parts.sent_hashes.len() as u64,
        parts.in_flight.into(),
        parts.have_responded.into(),
        parts.supports_v2_messages.into(),
        parts.peer_supports_sync_reset.into(),
        parts.read_only.into(),
        parts.peer_read_only.into(),
        parts.needs_reset.into(),
    ]
}
