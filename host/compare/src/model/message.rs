//! Document 01's rules for messages (Wire, "Message" and "Flags"; refusals 1 to 5,
//! 7 and 10): what a reader answers and leaves in its three lists, and the bytes of
//! a message that is passed as parts.

use super::filter;
use super::have::{haves, limited, HAVES, HAVE_WORDS};
use super::{hash_list_bytes, hashes, number, number_bytes, prefixed, prefixed_bytes};
use super::{Refused, HASH, MOST};
use bisquetower::raw::{Read, Reader};

pub use bisquetower::limits::{CHUNKS, MESSAGE_SIZE as MESSAGE};

/// Words of an answer, and of a chunk's record: place and length.
pub const ANSWER_WORDS: usize = 14;
pub const CHUNK_WORDS: usize = 2;

/// How an answer says that there is no flags section.
pub const NO_FLAGS: u64 = 256;

/// Where a message's parts stand in its bytes.
#[derive(Clone, Debug, PartialEq, Eq)]
pub struct Message {
    /// 1 or 2.
    pub version: u64,
    /// Place of the first item and number of items, here and below.
    pub heads: [u64; 2],
    pub need: [u64; 2],
    pub haves_at: u64,
    pub haves: Vec<[u64; HAVE_WORDS]>,
    pub chunks_at: u64,
    pub chunks: Vec<[u64; CHUNK_WORDS]>,
    /// Their value, or `NO_FLAGS`.
    pub flags: u64,
    pub next: u64,
    /// Bytes behind the field of each have's filter, and after the flags section.
    pub ignored: Vec<u64>,
    pub behind: u64,
}

/// What a reader has to answer and to leave in the lists: they are filled from their
/// starts, and stay as they were if either of the first two is too short.
pub fn read(
    s: &[u8],
    haves: &mut [u64],
    chunks: &mut [u64],
    ignored: &mut [u64],
) -> [u64; ANSWER_WORDS] {
    answer(&parse(s), haves, chunks, ignored)
}

/// What `bt_read_message` answers and writes of a message that was read before.
pub fn answer(
    message: &Result<Message, Refused>,
    haves: &mut [u64],
    chunks: &mut [u64],
    ignored: &mut [u64],
) -> [u64; ANSWER_WORDS] {
    let fitting = message.as_ref().map_err(|&refused| refused);
    let fitting = fitting.and_then(|message| {
        let records = message.haves.concat();
        let pieces = message.chunks.concat();
        // "With several outputs, 7 names the first too short: the message's lists
        // in wire order".
        for (list, wanted) in [(&*haves, &records), (&*chunks, &pieces)] {
            if list.len() < wanted.len() {
                return Err((7, wanted.len() as u64));
            }
        }
        haves[..records.len()].copy_from_slice(&records);
        chunks[..pieces.len()].copy_from_slice(&pieces);
        ignored[..message.ignored.len()].copy_from_slice(&message.ignored);
        Ok(message)
    });
    let mut words = [0; ANSWER_WORDS];
    match fitting {
        Ok(m) => {
            words[1] = m.version;
            words[2..4].copy_from_slice(&m.heads);
            words[4..6].copy_from_slice(&m.need);
            words[6..8].copy_from_slice(&[m.haves_at, m.haves.len() as u64]);
            words[8..10].copy_from_slice(&[m.chunks_at, m.chunks.len() as u64]);
            words[10..12].copy_from_slice(&[m.flags, m.next]);
            words[12..].copy_from_slice(&[m.ignored.iter().sum(), m.behind]);
        }
        Err((number, value)) => words[..2].copy_from_slice(&[number, value]),
    }
    words
}

/// Document 02, M-104: version and heads from the first part of the bytes. What a
/// reader has to answer, and to leave in the buffer: the heads at its start.
pub fn peek(s: &[u8], out: &mut [u8]) -> [u64; 4] {
    let peeked = first_part(s).and_then(|(version, heads)| match heads.len() {
        wanted if wanted > out.len() => Err((7, wanted as u64)),
        length => {
            out[..length].copy_from_slice(heads);
            Ok([0, version, (length / HASH) as u64, 0])
        }
    });
    peeked.unwrap_or_else(|(number, value)| [number, value, 0, 0])
}

/// The version and the heads' bytes. "The total size is still tested first."
fn first_part(s: &[u8]) -> Result<(u64, &[u8]), Refused> {
    let version = match s {
        _ if s.len() > MESSAGE => return Err((4, 0)),
        [] => return Err((1, 0)),
        [first @ (0x42 | 0x43), ..] => u64::from(first - 0x41),
        [first, ..] => return Err((2, u64::from(*first))),
    };
    let (start, count) = hashes(&at(s, 1))?;
    Ok((version, &s[start..start + HASH * count]))
}

/// The whole of `s` from a place on.
fn at(s: &[u8], at: usize) -> Read<'_> {
    let end = s.len();
    Read {
        reader: Reader::Number,
        bytes: s,
        at,
        end,
    }
}

/// "42 (V1) or 43 (V2); heads; need; count of haves, each a hash list and a
/// prefixed filter; count of chunks, each prefixed; if bytes remain, a prefixed
/// flags section. What follows that is ignored."
pub fn parse(s: &[u8]) -> Result<Message, Refused> {
    if s.len() > MESSAGE {
        return Err((4, 0));
    }
    let version = match s.first() {
        None => return Err((1, 0)),
        Some(0x42) => 1,
        Some(0x43) => 2,
        Some(&byte) => return Err((2, byte.into())),
    };
    let (heads, next) = list(s, 1)?;
    let (need, next) = list(s, next)?;

    let (count, haves_at) = counted(s, next, HAVES as u64)?;
    let (mut haves, mut ignored) = (Vec::new(), Vec::new());
    let mut next = haves_at;
    for _ in 0..count {
        let (have, after) = have(s, next)?;
        haves.push(have);
        let [.., field, length] = have;
        ignored.push(filter::ignored(
            &s[..after],
            (field + length) as usize,
            after,
        ));
        next = after;
    }

    let (count, chunks_at) = counted(s, next, CHUNKS as u64)?;
    let mut chunks = Vec::new();
    let mut next = chunks_at;
    for _ in 0..count {
        let (start, end) = prefixed(&at(s, next))?;
        chunks.push([start as u64, (end - start) as u64]);
        next = end;
    }

    let (mut flags, mut behind) = (NO_FLAGS, 0);
    if next < s.len() {
        let (start, end) = prefixed(&at(s, next))?;
        flags = flags_of(&s[start..end]);
        next = end;
        behind = s[end..].len() as u64;
    }
    Ok(Message {
        version,
        heads,
        need,
        haves_at: haves_at as u64,
        haves,
        chunks_at: chunks_at as u64,
        chunks,
        flags,
        next: next as u64,
        ignored,
        behind,
    })
}

/// A hash list: where it stands, and the place after it.
fn list(s: &[u8], place: usize) -> Result<([u64; 2], usize), Refused> {
    let (start, count) = hashes(&at(s, place))?;
    Ok(([start as u64, count as u64], start + HASH * count))
}

/// A count and the place after it: "The count's limit is tested before any
/// element".
fn counted(s: &[u8], place: usize, limit: u64) -> Result<(u64, usize), Refused> {
    match number(&at(s, place), MOST)? {
        (count, _) if count > limit => Err((4, place as u64)),
        counted => Ok(counted),
    }
}

/// A have's record and the place after it. Its filter's string has to be there
/// whole before the filter in it is read.
fn have(s: &[u8], place: usize) -> Result<([u64; HAVE_WORDS], usize), Refused> {
    let ([hashes, count], next) = list(s, place)?;
    let (start, end) = prefixed(&at(s, next))?;
    let [entries, bits, probes, field, length] = filter::numbers(s, start, end)?;
    let record = [hashes, count, entries, bits, probes, field, length];
    Ok((record, end))
}

/// "each byte of 80 or more adds its low seven bits; lower bytes are ignored":
/// bit after bit, and a bit that is there isn't added twice.
fn flags_of(section: &[u8]) -> u64 {
    let marked = section.iter().filter(|&&byte| byte >= 0x80);
    let has = |bit: u8| marked.clone().any(|byte| byte & (1 << bit) != 0);
    (0..7).map(|bit| u64::from(has(bit)) << bit).sum()
}

/// A message as it is passed to be written.
#[derive(Clone, Copy, Debug, PartialEq, Eq)]
pub struct Parts<'a> {
    pub version: u64,
    pub heads: &'a [u8],
    pub need: &'a [u8],
    /// What the places of the haves count in.
    pub s: &'a [u8],
    pub haves: &'a [u64],
    /// The chunks' bytes, chunk after chunk.
    pub chunks: &'a [u8],
    pub lengths: &'a [u64],
    pub flags: u64,
}

/// The bytes of a message; 10 for its haves, then the lists, the chunks and the
/// whole of it, each in the order in which it is written.
pub fn bytes(parts: &Parts) -> Result<Vec<u8>, Refused> {
    let haves = haves(parts.s, parts.haves)?;
    let heads = hash_list_bytes(parts.heads)?;
    let need = hash_list_bytes(parts.need)?;
    limited(&haves)?;
    if parts.lengths.len() > CHUNKS {
        return Err((4, 0));
    }
    let chunks = pieces(parts.chunks, parts.lengths)?;

    let first = if parts.version == 2 { 0x43 } else { 0x42 };
    let mut message = [vec![first], heads, need].concat();
    message.extend(number_bytes(haves.len() as u64));
    for have in &haves {
        message.extend(hash_list_bytes(have.last_sync)?);
        message.extend(prefixed_bytes(&filter::bytes(&have.filter)?));
    }
    message.extend(number_bytes(chunks.len() as u64));
    for chunk in chunks {
        message.extend(prefixed_bytes(chunk));
    }
    // "Written as 02, 02, 80 + f"; of an f that has the 80 already nothing is
    // carried over.
    if parts.flags < NO_FLAGS {
        message.extend([0x02, 0x02, 0x80 | parts.flags as u8]);
    }
    match message.len() {
        ..=MESSAGE => Ok(message),
        _ => Err((4, 0)),
    }
}

/// The chunks that lengths cut out of bytes; 1 with the start of the first that
/// isn't there whole. Bytes after the last are of no chunk.
fn pieces<'a>(bytes: &'a [u8], lengths: &[u64]) -> Result<Vec<&'a [u8]>, Refused> {
    let mut left = bytes;
    let mut chunks = Vec::new();
    for &length in lengths {
        let start = (bytes.len() - left.len()) as u64;
        let cut = usize::try_from(length).ok();
        let cut = cut.and_then(|length| left.split_at_checked(length));
        let (chunk, after) = cut.ok_or((1, start))?;
        chunks.push(chunk);
        left = after;
    }
    Ok(chunks)
}
