//! Numbers, prefixed strings and hash lists: what the crate reads, as bytes; records
//! one after the other, with no header.
//!
//! ```text
//!   kind     1 byte    1 number, 2 filter number, 3 prefixed string, 4 hash list
//!   length   2 bytes   of the input, little-endian
//!   answer   32 bytes  four words, little-endian
//!   input              the item stands at place 0, its part is the whole input
//! ```
//!
//! The answer is 0 and the numbers as docs/ABI.md orders them; or the refusal
//! that the crate's kind of error is (1 or 3) and three zeros, since the crate
//! says no places. Inputs of the two intended differences are left out.

use crate::inputs::{boundary_values, overlong, Random};
use crate::model::{number_bytes, prefixed_bytes};
use crate::published;
use crate::wire::{difference, READERS};
use bisquetower::limits::HASHES;
use bisquetower::raw::{Read, Reader};
use std::collections::HashSet;

/// From the repository's root on.
pub const FILE: &str = "crates/sample_replay/stdin";

/// One record.
#[derive(Clone, Debug, PartialEq, Eq)]
pub struct Record {
    pub reader: Reader,
    pub answer: [u64; 4],
    pub input: Vec<u8>,
}

impl Record {
    pub fn read(&self) -> Read<'_> {
        whole(self.reader, &self.input)
    }
}

fn whole(reader: Reader, s: &[u8]) -> Read<'_> {
    Read {
        reader,
        bytes: s,
        at: 0,
        end: s.len(),
    }
}

/// The sample, the same each time: every input once for each kind.
pub fn sample() -> Vec<Record> {
    let mut seen = HashSet::new();
    let mut records = Vec::new();
    for reader in READERS {
        let mut random = Random(0x7665_6374_6f72_7300 + reader as u64);
        for input in inputs(reader, &mut random) {
            let read = whole(reader, &input);
            let new = seen.insert((reader as u8, input.clone()));
            if new && difference(&read).is_none() {
                let answer = published::read(&read).words;
                records.push(Record {
                    reader,
                    answer,
                    input,
                });
            }
        }
    }
    records
}

fn inputs(reader: Reader, random: &mut Random) -> Vec<Vec<u8>> {
    let mut inputs = match reader {
        Reader::Number | Reader::FilterNumber => numbers(),
        Reader::Prefixed => prefixed_strings(random),
        Reader::Hashes => hash_lists(random),
    };
    inputs.extend(damaged(&inputs, random));
    inputs.extend((0..RANDOM).map(|_| random.item()));
    inputs.retain(|input| input.len() <= LONGEST);
    inputs
}

/// How many inputs of each kind are damaged ones, and random ones.
const DAMAGED: usize = 85;
const RANDOM: usize = 100;

/// A list of 40 hashes, its count, and a few bytes after it.
const LONGEST: usize = 40 * 32 + 8;

fn numbers() -> Vec<Vec<u8>> {
    let mut inputs = vec![Vec::new()];
    inputs.extend((0..=u8::MAX).map(|byte| vec![byte]));
    for value in boundary_values() {
        let bytes = number_bytes(value);
        inputs.push([&bytes[..], &[0x2a]].concat());
        inputs.push(bytes[..bytes.len() - 1].to_vec());
        inputs.push(overlong(value, 1));
        inputs.push(bytes);
    }
    // The last byte of the largest numbers of both widths, and one too many.
    for (size, before) in [(5, 0x80), (5, 0xff), (10, 0x80), (10, 0xff), (11, 0x80)] {
        for last in [0x00, 0x01, 0x02, 0x0f, 0x10, 0x7f, 0x80, 0x81, 0xff] {
            inputs.push([vec![before; size - 1], vec![last]].concat());
        }
    }
    inputs
}

/// Counts and lengths that say more than is there, or say it badly.
fn bad_numbers() -> Vec<Vec<u8>> {
    let mut inputs = vec![Vec::new(), vec![0x80], vec![0x80, 0x00], vec![0x81, 0x00]];
    inputs.extend([0, 1, 2, 31, 32, 33, 126, 127, 128, 129, 254, 255].map(|byte| vec![byte]));
    inputs.extend([127, 128, HASHES as u64 - 1, HASHES as u64].map(number_bytes));
    inputs.extend([1 << 32, 1 << 63, u64::MAX].map(number_bytes));
    inputs.extend([vec![0x80; 9], vec![0x80; 10], vec![0xff; 11]]);
    inputs
}

fn prefixed_strings(random: &mut Random) -> Vec<Vec<u8>> {
    let mut inputs = bad_numbers();
    for length in [
        0, 1, 2, 3, 5, 8, 31, 32, 33, 64, 100, 126, 127, 128, 129, 200, 255, 256, 299, 300,
    ] {
        let bytes = prefixed_bytes(&random.bytes(length));
        inputs.push([&bytes[..], &[0x2a]].concat());
        inputs.push(bytes[..bytes.len() - 1].to_vec());
        inputs.push(bytes[..bytes.len() / 2].to_vec());
        inputs.push(bytes);
    }
    inputs
}

fn hash_lists(random: &mut Random) -> Vec<Vec<u8>> {
    let mut inputs = bad_numbers();
    for count in 0..=3 {
        let hashes = random.bytes(32 * count);
        let bytes = [number_bytes(count as u64), hashes.clone()].concat();
        inputs.push([&bytes[..], &[0x2a, 0x2b]].concat());
        inputs.push([overlong(count as u64, 1), hashes].concat());
        for cut in [0, 1, 2, 31, 32, 33, 34, 63, 64, 65, 66, 96] {
            inputs.push(bytes[..bytes.len().min(cut)].to_vec());
        }
        inputs.push(bytes);
    }
    // One hash twice, and hashes that descend: order and repeats are kept.
    inputs.push([vec![2], vec![7; 64]].concat());
    inputs.push([vec![2], vec![9; 32], vec![3; 32]].concat());
    inputs.push([vec![40], random.bytes(40 * 32)].concat());
    inputs
}

/// Some of the inputs with one change each.
fn damaged(inputs: &[Vec<u8>], random: &mut Random) -> Vec<Vec<u8>> {
    let one = |_| {
        let mut input = inputs[random.below(inputs.len())].clone();
        random.damage(&mut input);
        input
    };
    (0..DAMAGED).map(one).collect()
}

pub fn encode(records: &[Record]) -> Vec<u8> {
    let mut bytes = Vec::new();
    for record in records {
        let length = u16::try_from(record.input.len()).expect("inputs are short");
        bytes.push(record.reader as u8 + 1);
        bytes.extend(length.to_le_bytes());
        bytes.extend(record.answer.iter().flat_map(|word| word.to_le_bytes()));
        bytes.extend(&record.input);
    }
    bytes
}

/// The records of a file, or none if it isn't made of records.
pub fn decode(mut bytes: &[u8]) -> Option<Vec<Record>> {
    let mut records = Vec::new();
    while let Some((&kind, rest)) = bytes.split_first() {
        let (length, rest) = rest.split_first_chunk::<2>()?;
        let (answer, rest) = rest.split_first_chunk::<32>()?;
        let (input, rest) = rest.split_at_checked(u16::from_le_bytes(*length).into())?;
        let word = |k: usize| answer[8 * k..8 * k + 8].try_into().expect("eight bytes");
        records.push(Record {
            reader: *READERS.get(usize::from(kind).checked_sub(1)?)?,
            answer: std::array::from_fn(|k| u64::from_le_bytes(word(k))),
            input: input.to_vec(),
        });
        bytes = rest;
    }
    Some(records)
}
