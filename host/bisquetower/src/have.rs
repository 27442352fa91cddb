//! What a peer has, and how haves are lent: seven words each over one buffer.

use crate::hash::{bytes_of, hashes_in, ChangeHash, HASH};
use crate::message::HAVE_WORDS;
use crate::Filter;

/// What the sender of a message has: the hashes of the last sync with everything below
/// them, and a filter over its changes beyond these.
#[derive(Clone, Debug, Default, PartialEq, Eq, Hash)]
pub struct Have {
    /// The heads that both held when they last synced.
    pub last_sync: Vec<ChangeHash>,
    /// A filter over the changes that came since.
    pub bloom: Filter,
}

/// Haves as they are lent: their words, and the bytes that these count in.
pub(crate) fn lend(haves: &[Have]) -> (Vec<u64>, Vec<u8>) {
    let (mut words, mut bytes) = (Vec::new(), Vec::new());
    for Have { last_sync, bloom } in haves {
        let start = bytes.len() as u64;
        bytes.extend(bytes_of(last_sync));
        let field = bytes.len() as u64;
        bytes.extend(&bloom.field);
        let Filter {
            entries,
            bits,
            probes,
            field: bits_of,
        } = bloom;
        words.extend([start, last_sync.len() as u64, *entries, *bits, *probes]);
        words.extend([field, bits_of.len() as u64]);
    }
    (words, bytes)
}

/// The haves of words that the library left over these bytes.
pub(crate) fn haves_in(words: &[u64], bytes: &[u8]) -> Vec<Have> {
    let part = |place: u64, length: usize| &bytes[place as usize..][..length];
    let have = |words: &[u64]| Have {
        last_sync: hashes_in(part(words[0], HASH * words[1] as usize)),
        bloom: Filter {
            entries: words[2],
            bits: words[3],
            probes: words[4],
            field: part(words[5], words[6] as usize).to_vec(),
        },
    };
    words.chunks_exact(HAVE_WORDS).map(have).collect()
}
