//! A message that was read, part by part. The library answers places and counts in
//! the message's own bytes, and three lists of words (docs/ABI.md); this is a view of
//! them, and copies nothing.
//!
//! ```
//! use bisquetower::message::{View, CHUNK_WORDS, HAVES, HAVE_WORDS};
//!
//! // Version 2, no heads, no need, no have, one chunk, no flags.
//! let bytes = b"\x43\0\0\0\x01\x04sync";
//! let (mut haves, mut chunks) = ([0; HAVES * HAVE_WORDS], [0; CHUNK_WORDS]);
//! let message = View::read(bytes, &mut haves, &mut chunks).unwrap();
//! assert_eq!((message.version(), message.flags()), (2, None));
//! assert_eq!(message.chunks().collect::<Vec<_>>(), [b"sync"]);
//!
//! // A filter of one entry with 3 bytes behind its field, and 2 bytes after the flags.
//! let odd = b"\x42\0\0\x01\0\x08\x01\x0a\x07\x0b\x0fmor\0\0en";
//! let message = View::read(odd, &mut haves, &mut chunks).unwrap();
//! assert_eq!(message.haves().next().unwrap().ignored, 3);
//! assert_eq!((message.ignored(), message.behind_flags()), (3, 2));
//!
//! let cut = View::read(&bytes[..7], &mut haves, &mut chunks).unwrap_err();
//! assert_eq!((cut.number, cut.value), (1, 5));
//! ```

use crate::refusal::{answer, Refusal};
use crate::{explain, limits, raw};

/// Words of the answer.
pub const ANSWER_WORDS: usize = 14;

/// Words of a have.
pub const HAVE_WORDS: usize = 7;

/// Words of a chunk.
pub const CHUNK_WORDS: usize = 2;

/// As many haves as a message may have.
pub const HAVES: usize = limits::HAVES;

/// As many chunks as a message may have.
pub const CHUNKS: usize = limits::CHUNKS;

/// Bytes of a hash.
pub const HASH: usize = limits::HASH_SIZE;

/// How the answer says that there is no flags section.
pub const NO_FLAGS: u64 = 256;

/// A message over the bytes that it was read from.
#[derive(Clone, Copy, Debug)]
pub struct View<'a> {
    bytes: &'a [u8],
    version: u64,
    heads: &'a [u8],
    need: &'a [u8],
    haves: &'a [u64],
    chunks: &'a [u64],
    flags: u64,
    next: u64,
    ignored: [u64; HAVES],
    ignored_sum: u64,
    behind_flags: u64,
}

/// What the peer has: the hashes of the last sync, one after the other, and its
/// filter.
#[derive(Clone, Copy, Debug, PartialEq, Eq)]
pub struct Have<'a> {
    /// Hashes one after the other.
    pub last_sync: &'a [u8],
    /// The filter's entries.
    pub entries: u64,
    /// Its bits per entry.
    pub bits: u64,
    /// Its probes.
    pub probes: u64,
    /// Its bit field.
    pub field: &'a [u8],
    /// How many bytes stand behind the field and are ignored.
    pub ignored: u64,
}

impl<'a> View<'a> {
    /// Reads a message. The lists get `HAVE_WORDS` words a have and `CHUNK_WORDS` a
    /// chunk; one that is too short is refusal 7.
    pub fn read(
        bytes: &'a [u8],
        haves: &'a mut [u64],
        chunks: &'a mut [u64],
    ) -> Result<View<'a>, Refusal> {
        let mut ignored = [0; HAVES];
        let words = raw::read_message(bytes, haves, chunks, &mut ignored);
        let read = View::of(bytes, words, haves, chunks, ignored);
        read.map_err(|refusal| explain::message(bytes, refusal))
    }

    /// The message of an answer and of the lists that `raw::read_message` left with
    /// it. Other words than these may panic.
    pub fn of(
        bytes: &'a [u8],
        words: [u64; ANSWER_WORDS],
        haves: &'a [u64],
        chunks: &'a [u64],
        ignored: [u64; HAVES],
    ) -> Result<View<'a>, Refusal> {
        let [version, heads, head_count, need, need_count, _, have_count, _, chunk_count, flags, next, ignored_sum, behind_flags] =
            answer(words)?;
        Ok(View {
            bytes,
            version,
            heads: hashes(bytes, heads, head_count),
            need: hashes(bytes, need, need_count),
            haves: &haves[..HAVE_WORDS * have_count as usize],
            chunks: &chunks[..CHUNK_WORDS * chunk_count as usize],
            flags,
            next,
            ignored,
            ignored_sum,
            behind_flags,
        })
    }

    /// The bytes that it was read from.
    pub fn bytes(&self) -> &'a [u8] {
        self.bytes
    }

    /// 1 or 2.
    pub fn version(&self) -> u64 {
        self.version
    }

    /// The sender's heads, one after the other.
    pub fn heads(&self) -> &'a [u8] {
        self.heads
    }

    /// What the sender asks for, one hash after the other.
    pub fn need(&self) -> &'a [u8] {
        self.need
    }

    /// What the sender has.
    pub fn haves(&self) -> impl ExactSizeIterator<Item = Have<'a>> {
        let (bytes, ignored) = (self.bytes, self.ignored);
        let haves = self.haves.chunks(HAVE_WORDS).enumerate();
        haves.map(move |(k, words)| Have {
            last_sync: hashes(bytes, words[0], words[1]),
            entries: words[2],
            bits: words[3],
            probes: words[4],
            field: part(bytes, words[5], words[6]),
            ignored: ignored[k],
        })
    }

    /// The haves as the calls take them that are lent haves, over `bytes`.
    pub fn have_words(&self) -> &'a [u64] {
        self.haves
    }

    /// The changes that the message carries.
    pub fn chunks(&self) -> impl ExactSizeIterator<Item = &'a [u8]> {
        let bytes = self.bytes;
        let words = self.chunks.chunks(CHUNK_WORDS);
        words.map(move |words| part(bytes, words[0], words[1]))
    }

    /// None if there is no flags section.
    pub fn flags(&self) -> Option<u8> {
        u8::try_from(self.flags).ok()
    }

    /// How many bytes stand behind the fields of its filters and are ignored, all
    /// together.
    pub fn ignored(&self) -> u64 {
        self.ignored_sum
    }

    /// How many bytes stand after its flags section and are ignored; without a section
    /// there are none.
    pub fn behind_flags(&self) -> u64 {
        self.behind_flags
    }

    /// The place after all that was read.
    pub fn next(&self) -> usize {
        self.next as usize
    }
}

fn part(bytes: &[u8], place: u64, length: u64) -> &[u8] {
    &bytes[place as usize..][..length as usize]
}

fn hashes(bytes: &[u8], place: u64, count: u64) -> &[u8] {
    part(bytes, place, HASH as u64 * count)
}
