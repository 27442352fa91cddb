//! Document 01's rules for filters (Wire, "Filter"; "Probes"; refusals 1, 3, 4, 5
//! and 10): a field is kept as its bits, one by one, and every product is taken
//! in 128 bits.

use super::{number, number_bytes, part, Refused, HASH, LIST_SIZE, MOST_OF_A_FILTER};
use bisquetower::limits;
use bisquetower::raw::{Read, Reader};

/// As wide as the products that they are held against.
const FIELD: u128 = limits::FIELD_SIZE as u128;
const PROBES: u64 = limits::PROBES as u64;

/// "no bytes means entries 0, bits 10, probes 7".
pub const DEFAULT_BITS: u64 = 10;
pub const DEFAULT_PROBES: u64 = 7;

/// A filter as numbers, and its field.
#[derive(Clone, Copy, Debug, PartialEq, Eq)]
pub struct Filter<'a> {
    pub entries: u64,
    pub bits: u64,
    pub probes: u64,
    pub field: &'a [u8],
}

/// "n × b / 8 bytes rounded up".
pub fn field_size(entries: u64, bits: u64) -> u128 {
    (u128::from(entries) * u128::from(bits)).div_ceil(8)
}

/// The eight words that a reader has to answer: 0, entries, bits, probes, place
/// and length of the field, next place, bytes of the part behind that; or the
/// refusal.
pub fn read(s: &[u8], at: usize, end: usize) -> [u64; 8] {
    match numbers(s, at, end) {
        Ok([n, b, p, place, length]) => {
            let next = place + length;
            [
                0,
                n,
                b,
                p,
                place,
                length,
                next,
                ignored(s, next as usize, end),
            ]
        }
        Err((number, value)) => [number, value, 0, 0, 0, 0, 0, 0],
    }
}

/// Document 02, M-103: "the number of bytes behind its field", byte by byte.
pub(super) fn ignored(s: &[u8], next: usize, end: usize) -> u64 {
    let behind = |&place: &usize| next <= place && place < end;
    (0..s.len()).filter(behind).count() as u64
}

/// Entries, bits, probes, place and length of the field: all three numbers are
/// read before one is looked at.
pub(super) fn numbers(s: &[u8], at: usize, end: usize) -> Result<[u64; 5], Refused> {
    let item = |at| Read {
        reader: Reader::FilterNumber,
        bytes: s,
        at,
        end,
    };
    let filter = at as u64;
    if part(&item(at)).is_empty() {
        return Ok([0, DEFAULT_BITS, DEFAULT_PROBES, filter, 0]);
    }
    let (n, at_bits) = number(&item(at), MOST_OF_A_FILTER)?;
    let (b, at_probes) = number(&item(at_bits), MOST_OF_A_FILTER)?;
    let (p, at_field) = number(&item(at_probes), MOST_OF_A_FILTER)?;
    let place = at_field as u64;
    if n == 0 {
        return Ok([n, b, p, place, 0]);
    }
    let size = field_size(n, b);
    if b == 0 {
        return Err((5, filter));
    }
    if p > PROBES || size > FIELD {
        return Err((4, filter));
    }
    if (part(&item(at_field)).len() as u128) < size {
        return Err((1, place));
    }
    Ok([n, b, p, place, size as u64])
}

/// Refusal 10: whether numbers and a field of this size keep "the filter rules"
/// and "its field size".
pub fn keeps_rules(entries: u64, bits: u64, probes: u64, size: u128) -> bool {
    let numbers = [entries, bits, probes];
    let limited = entries == 0 || (bits >= 1 && probes <= PROBES && size <= FIELD);
    numbers.iter().all(|&n| n <= MOST_OF_A_FILTER) && limited && size == field_size(entries, bits)
}

/// A filter as bytes: "n = 0 is written as no bytes".
pub fn bytes(filter: &Filter) -> Result<Vec<u8>, Refused> {
    let Filter {
        entries,
        bits,
        probes,
        field,
    } = *filter;
    if !keeps_rules(entries, bits, probes, field.len() as u128) {
        return Err((10, 0));
    }
    if entries == 0 {
        return Ok(Vec::new());
    }
    let numbers = [entries, bits, probes].map(number_bytes).concat();
    Ok([&numbers[..], field].concat())
}

/// The field of the filter over hashes that are lent as bytes: 10 for the
/// numbers, 4 for too long a list, 1 for a partial hash.
pub fn built(bits: u64, probes: u64, lent: &[u8]) -> Result<Vec<u8>, Refused> {
    let entries = (lent.len() / HASH) as u64;
    let size = field_size(entries, bits);
    if !keeps_rules(entries, bits, probes, size) {
        return Err((10, 0));
    }
    if lent.len() > LIST_SIZE {
        return Err((4, 0));
    }
    if !lent.len().is_multiple_of(HASH) {
        return Err((1, HASH as u64 * entries));
    }
    let mut set = vec![false; 8 * size as usize];
    for hash in lent.chunks(HASH) {
        for probe in probes_of(hash, set.len(), probes) {
            set[probe] = true;
        }
    }
    let byte = |bits: &[bool]| (0..8).map(|k| u8::from(bits[k]) << k).sum();
    Ok(set.chunks(8).map(byte).collect())
}

/// "x, y, z are the hash's first three little-endian 32-bit words mod m. The
/// first probe is x; then x becomes (x + y) mod m, after it y becomes (y + z)
/// mod m, and x is the next. There are max(1, p) probes."
pub fn probes_of(hash: &[u8], m: usize, p: u64) -> Vec<usize> {
    let word = |k: usize| {
        let bytes = hash[4 * k..4 * k + 4].try_into().expect("four bytes");
        u32::from_le_bytes(bytes) as usize % m
    };
    let (mut x, mut y, z) = (word(0), word(1), word(2));
    let mut probes = vec![x];
    for _ in 1..p {
        x = (x + y) % m;
        y = (y + z) % m;
        probes.push(x);
    }
    probes
}

/// "Bit k is bit k mod 8 of byte k / 8. n = 0 contains nothing."
pub fn contains(filter: &Filter, hash: &[u8]) -> bool {
    let Filter {
        entries,
        probes,
        field,
        ..
    } = *filter;
    let set = |k: usize| field[k / 8] & (1 << (k % 8)) != 0;
    entries != 0
        && probes_of(hash, 8 * field.len(), probes)
            .into_iter()
            .all(set)
}
