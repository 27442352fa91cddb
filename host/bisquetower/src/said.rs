//! Messages as values.

use crate::flags::{MessageFlags, MessageVersion};
use crate::hash::{bytes_of, hashes_in, ChangeHash, HASH};
use crate::have::{self, Have};
use crate::limits::{HAVES, HAVES_WORDS};
use crate::message::{self, CHUNK_WORDS, NO_FLAGS};
use crate::refusal::{answer, Refusal};
use crate::{explain, raw, room};

/// The most bytes that a number takes on the wire.
const NUMBER: usize = 10;

/// As many chunks as are read without asking again.
const FEW_CHUNKS: usize = 64;

/// As many heads as are peeked at without asking again.
const FEW_HEADS: usize = 32;

/// What a unit says to another. [`message::View`] is the same without a copy, for
/// readers who lend their own lists.
///
/// ```
/// use bisquetower::{Message, MessageFlags, MessageVersion};
///
/// let bytes = b"\x43\0\0\0\x01\x04sync\x02\x02\x84";
/// let message = Message::decode(bytes)?;
/// assert_eq!(message.version, MessageVersion::V2);
/// assert_eq!(message.changes, [b"sync"]);
/// assert!(message.flags.unwrap().contains(MessageFlags::SUPPORTS_SYNC_RESET));
/// assert_eq!(message.encode()?, bytes);
///
/// let cut = Message::decode(&bytes[..7]).unwrap_err();
/// assert_eq!(cut.to_string(), "refusal 1, value 5: the input ends inside the item that starts at place 5");
/// # Ok::<(), bisquetower::Refusal>(())
/// ```
#[derive(Clone, Debug, Default, PartialEq, Eq)]
pub struct Message {
    /// The sender's heads.
    pub heads: Vec<ChangeHash>,
    /// Changes that the sender misses and asks for by name.
    pub need: Vec<ChangeHash>,
    /// What the sender has.
    pub have: Vec<Have>,
    /// Changes for the reader to load, as bytes that only hosts look into.
    pub changes: Vec<Vec<u8>>,
    /// None if there is no flags section; an empty section is no flags.
    pub flags: Option<MessageFlags>,
    /// How the message carries its changes.
    pub version: MessageVersion,
}

impl Message {
    /// Reads a message.
    pub fn decode(bytes: &[u8]) -> Result<Message, Refusal> {
        let (mut haves, mut chunks) = (vec![0; HAVES_WORDS], vec![0; FEW_CHUNKS * CHUNK_WORDS]);
        let mut ignored = [0; HAVES];
        let mut words = raw::read_message(bytes, &mut haves, &mut chunks, &mut ignored);
        if let Err(Refusal {
            number: 7, value, ..
        }) = answer(words)
        {
            chunks.resize(value as usize, 0);
            words = raw::read_message(bytes, &mut haves, &mut chunks, &mut ignored);
        }
        let view = message::View::of(bytes, words, &haves, &chunks, ignored);
        let view = view.map_err(|refusal| explain::message(bytes, refusal))?;
        Ok(Message {
            heads: hashes_in(view.heads()),
            need: hashes_in(view.need()),
            have: have::haves_in(view.have_words(), bytes),
            changes: view.chunks().map(<[u8]>::to_vec).collect(),
            flags: view.flags().map(MessageFlags),
            version: MessageVersion::of(view.version()),
        })
    }

    /// The version and the heads of a message, from its first part alone: what follows
    /// the heads isn't looked at, and may be bad. Where [`Message::decode`] reads the
    /// message, these are its version and heads; what is refused here is refused there
    /// too, with the same refusal.
    ///
    /// ```
    /// use bisquetower::{ChangeHash, Message, MessageVersion};
    ///
    /// let bytes = [&[0x42, 1][..], &[7; 32], b"what a forwarder has no use for"].concat();
    /// let (version, heads) = Message::peek_heads(&bytes)?;
    /// assert_eq!(version, MessageVersion::V1);
    /// assert_eq!(heads, [ChangeHash([7; 32])]);
    ///
    /// let cut = Message::peek_heads(&bytes[..33]).unwrap_err();
    /// assert_eq!((cut.number, cut.value), (1, 2));
    /// # Ok::<(), bisquetower::Refusal>(())
    /// ```
    pub fn peek_heads(bytes: &[u8]) -> Result<(MessageVersion, Vec<ChangeHash>), Refusal> {
        let mut heads = vec![0; HASH * FEW_HEADS];
        let mut words = raw::peek_heads(bytes, &mut heads);
        if let Err(Refusal {
            number: 7, value, ..
        }) = answer(words)
        {
            heads.resize(value as usize, 0);
            words = raw::peek_heads(bytes, &mut heads);
        }
        let read = answer(words).map_err(|refusal| explain::message(bytes, refusal));
        let [version, count, _] = read?;
        let heads = hashes_in(&heads[..HASH * count as usize]);
        Ok((MessageVersion::of(version), heads))
    }

    /// Its bytes: refusal 4 if a part or the whole passes its limit, and the refusal says
    /// which.
    ///
    /// ```
    /// use bisquetower::{limits, ChangeHash, Message};
    ///
    /// let need = vec![ChangeHash([7; 32]); limits::HASHES + 1];
    /// let long = Message { need, ..Message::default() }.encode().unwrap_err();
    /// // The sentence goes on with how many it needs, and the most that it may.
    /// assert!(long.to_string().starts_with("refusal 4, value 0: the message needs "));
    /// ```
    pub fn encode(&self) -> Result<Vec<u8>, Refusal> {
        let lent = Lent::new(self);
        let written = room::written(lent.room(), |out| lent.write(out));
        written.map_err(|refusal| explain::writing(self, refusal))
    }

    /// Writes its bytes into a buffer of the caller's and tells how many: refusal 7 if
    /// the buffer is too short, with the length wanted.
    pub fn encode_into(&self, out: &mut [u8]) -> Result<usize, Refusal> {
        let written = answer(Lent::new(self).write(out));
        let [length, ..] = written.map_err(|refusal| explain::writing(self, refusal))?;
        Ok(length as usize)
    }

    /// Refuses what `encode` refuses, and writes nothing; else it tells how many bytes that
    /// writes. 7 is the last of a write's refusals, so where no room brings that one, room is
    /// all that is wanted.
    pub(crate) fn check(&self) -> Result<usize, Refusal> {
        match self.encode_into(&mut []) {
            Err(refusal) if refusal.number == room::TOO_SHORT => Ok(refusal.value as usize),
            written => written,
        }
    }
}

/// A message's parts as the call that writes takes them.
struct Lent {
    version: u64,
    heads: Vec<u8>,
    need: Vec<u8>,
    haves: Vec<u64>,
    bytes: Vec<u8>,
    chunks: Vec<u8>,
    lengths: Vec<u64>,
    flags: u64,
}

impl Lent {
    fn new(message: &Message) -> Lent {
        let (haves, bytes) = have::lend(&message.have);
        let flags = message.flags.map_or(NO_FLAGS, |flags| flags.0.into());
        Lent {
            version: message.version.number(),
            heads: bytes_of(&message.heads),
            need: bytes_of(&message.need),
            haves,
            bytes,
            chunks: message.changes.concat(),
            lengths: message.changes.iter().map(|c| c.len() as u64).collect(),
            flags,
        }
    }

    /// Room for all of its parts and every number between them.
    fn room(&self) -> usize {
        let parts = [&self.heads, &self.need, &self.bytes, &self.chunks];
        let parts: usize = parts.iter().map(|part| part.len()).sum();
        parts + NUMBER * (5 + self.haves.len() + self.lengths.len())
    }

    fn write(&self, out: &mut [u8]) -> [u64; 4] {
        raw::write_message(
            self.version,
            &self.heads,
            &self.need,
            &self.bytes,
            &self.haves,
            &self.chunks,
            &self.lengths,
            self.flags,
            out,
        )
    }
}
