//! Document 01's rules for numbers, prefixed strings and hash lists (Wire and
//! Refusal numbers), in plain Rust: written from the document's sentences, by
//! walking byte after byte and hash after hash, with no eye to speed.

pub mod counts;
pub mod ends;
pub mod filter;
pub mod have;
pub mod message;
pub mod pick;
pub mod plan;
pub mod receive;
pub mod salvage;
pub mod selection;
pub mod session;
pub mod settings;
pub mod state;
pub mod table;
pub mod walk;

use bisquetower::raw::{Read, Reader};

// "Sizes": the limits are numbers of the rules and no answer of the library, so the model
// has them from where they stand.
use bisquetower::limits::{HASHES, HASH_SIZE as HASH, LIST_SIZE};

/// "exceeds 64 bits", "a filter number exceeds 4,294,967,295".
const MOST: u64 = u64::MAX;
const MOST_OF_A_FILTER: u64 = 4_294_967_295;

/// A refusal's number and what it returns.
pub type Refused = (u64, u64);

/// The four words that a call has to answer: 0 and the numbers, or the refusal.
pub fn read(read: &Read) -> [u64; 4] {
    let answer = match read.reader {
        Reader::Number => number(read, MOST).map(|(value, next)| [value, next as u64, 0]),
        Reader::FilterNumber => {
            number(read, MOST_OF_A_FILTER).map(|(value, next)| [value, next as u64, 0])
        }
        Reader::Prefixed => prefixed(read).map(|(start, end)| [start as u64, end as u64, 0]),
        Reader::Hashes => hashes(read).map(|(start, count)| {
            let next = start + HASH * count;
            [start as u64, count as u64, next as u64]
        }),
    };
    words(answer)
}

fn words(answer: Result<[u64; 3], Refused>) -> [u64; 4] {
    match answer {
        Ok([first, second, third]) => [0, first, second, third],
        Err((number, value)) => [number, value, 0, 0],
    }
}

/// The bytes that a read may look at. One that starts at or past the end of its
/// part, or of the slice, has none.
fn part<'a>(read: &Read<'a>) -> &'a [u8] {
    let end = read.end.min(read.bytes.len());
    read.bytes[..end].get(read.at..).unwrap_or_default()
}

/// "A number gets 3 at the first byte after which no ending can make it good,
/// else 1 if it is cut": the bytes are looked at one more at a time.
fn number(read: &Read, most: u64) -> Result<(u64, usize), Refused> {
    let place = read.at as u64;
    let bytes = part(read);
    for size in 1..=bytes.len() {
        let seen = &bytes[..size];
        let value = sum_of_sevens(seen);
        if seen[size - 1] < 0x80 {
            let shortest = size == size_of_shortest(value);
            return match u64::try_from(value) {
                Ok(value) if shortest && value <= most => Ok((value, read.at + size)),
                _ => Err((3, place)),
            };
        }
        // The smallest number that begins with these bytes has one more, of 01.
        let smallest = value + (1 << (7 * size));
        if smallest > u128::from(most) {
            return Err((3, place));
        }
    }
    Err((1, place))
}

/// Unsigned LEB128: each byte's low seven bits, lowest first.
fn sum_of_sevens(bytes: &[u8]) -> u128 {
    let parts = bytes.iter().enumerate();
    parts
        .map(|(k, byte)| u128::from(byte & 0x7f) << (7 * k))
        .sum()
}

/// A byte for each seven bits begun, and one for zero.
fn size_of_shortest(value: u128) -> usize {
    let bits = (u128::BITS - value.leading_zeros()) as usize;
    bits.div_ceil(7).max(1)
}

/// Refusal 1 of a prefixed string names the place of its length number.
fn prefixed(read: &Read) -> Result<(usize, usize), Refused> {
    let (length, start) = number(read, MOST)?;
    let left = part(&Read { at: start, ..*read }).len();
    match usize::try_from(length) {
        Ok(length) if length <= left => Ok((start, start + length)),
        _ => Err((1, read.at as u64)),
    }
}

/// "The count's limit is tested before any element"; 1 names the place of the
/// first hash that isn't whole.
fn hashes(read: &Read) -> Result<(usize, usize), Refused> {
    let (count, start) = number(read, MOST)?;
    if count > HASHES as u64 {
        return Err((4, read.at as u64));
    }
    let mut at = start;
    for _ in 0..count {
        if part(&Read { at, ..*read }).len() < HASH {
            return Err((1, at as u64));
        }
        at += HASH;
    }
    Ok((start, count as usize))
}

/// A number in its shortest form.
pub fn number_bytes(mut n: u64) -> Vec<u8> {
    let mut bytes = Vec::new();
    while n >= 0x80 {
        bytes.push((n % 0x80) as u8 + 0x80);
        n /= 0x80;
    }
    bytes.push(n as u8);
    bytes
}

/// A prefixed string: its length, its bytes.
pub fn prefixed_bytes(string: &[u8]) -> Vec<u8> {
    [number_bytes(string.len() as u64), string.to_vec()].concat()
}

/// A hash list that is lent as bytes: more bytes than its limit is 4, else a
/// partial hash at its end is 1 at that hash's start.
pub fn hash_list_bytes(lent: &[u8]) -> Result<Vec<u8>, Refused> {
    if lent.len() > LIST_SIZE {
        return Err((4, 0));
    }
    let hashes: Vec<&[u8]> = lent.chunks(HASH).collect();
    if let Some(last) = hashes.last().filter(|last| last.len() < HASH) {
        return Err((1, (lent.len() - last.len()) as u64));
    }
    Ok([number_bytes(hashes.len() as u64), hashes.concat()].concat())
}

/// What a call that is to write this answers, and what it leaves in the buffer:
/// 7 with the length wanted if that is more than the room, and no byte changed
/// that isn't written.
pub fn write(out: &mut [u8], wanted: Result<Vec<u8>, Refused>) -> [u64; 4] {
    let written = wanted.and_then(|bytes| match out.get_mut(..bytes.len()) {
        Some(start) => {
            start.copy_from_slice(&bytes);
            Ok([bytes.len() as u64, 0, 0])
        }
        None => Err((7, bytes.len() as u64)),
    });
    words(written)
}
