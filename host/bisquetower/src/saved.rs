//! What is kept of a session between connections.

use crate::hash::{bytes_of, hashes_in, ChangeHash, HASH};
use crate::limits::LIST_SIZE;
use crate::refusal::Refusal;
use crate::session::WORDS;
use crate::{raw, refusal, room};

/// The part of a session that is worth keeping between connections: the heads that
/// both units are known to hold.
///
/// ```
/// use bisquetower::{ChangeHash, SavedState, Session};
///
/// let state = SavedState { shared_heads: vec![ChangeHash([7; 32])] };
/// let bytes = state.encode()?;
/// assert_eq!(SavedState::decode(&bytes)?, state);
///
/// let session = Session::decode(&bytes)?;
/// assert_eq!(session.shared_heads(), state.shared_heads);
/// assert_eq!(session.encode(), bytes);
/// # Ok::<(), bisquetower::Refusal>(())
/// ```
#[derive(Clone, Debug, Default, PartialEq, Eq, Hash)]
pub struct SavedState {
    /// What both units are known to hold, with everything below it.
    pub shared_heads: Vec<ChangeHash>,
}

impl SavedState {
    /// Reads a saved state; what stands after it is ignored.
    pub fn decode(bytes: &[u8]) -> Result<SavedState, Refusal> {
        let (shared, _) = read(bytes)?;
        let shared_heads = hashes_in(&shared);
        Ok(SavedState { shared_heads })
    }

    /// Its bytes: refusal 10 for more heads than a list has.
    pub fn encode(&self) -> Result<Vec<u8>, Refusal> {
        write(&bytes_of(&self.shared_heads), self.shared_heads.len())
    }
}

/// The shared heads of a saved state, and the words of the session that it is.
pub(crate) fn read(bytes: &[u8]) -> Result<(Vec<u8>, [u64; WORDS]), Refusal> {
    let mut session = [0; WORDS];
    // The heads stand in the bytes themselves, and are no more than a list has.
    let mut shared = vec![0; bytes.len().min(LIST_SIZE)];
    let words = raw::read_state(bytes, &mut shared, &mut session);
    let read = refusal::answer(words).map_err(|refusal| crate::explain::state(bytes, refusal));
    let [count, ..] = read?;
    shared.truncate(HASH * count as usize);
    Ok((shared, session))
}

/// The saved state of the first hashes of a list.
pub(crate) fn write(shared: &[u8], count: usize) -> Result<Vec<u8>, Refusal> {
    let room = shared.len() + 4;
    let written = room::written(room, |out| raw::write_state(shared, count, out));
    written.map_err(|refusal| crate::explain::saved(count, refusal))
}
