//! Every short string, and every place and end in and around some.

use crate::{at, compare_all, whole};
use bisquetower::raw::{Read, Reader};
use compare::inputs::{every_byte, strings};
use compare::wire::{Tally, READERS};

/// Every kind of item at every place up to every end, in and around these bytes.
fn everywhere(s: &[u8]) -> Vec<Read<'_>> {
    let far = [usize::MAX - 1, usize::MAX];
    let places = || (0..s.len() + 3).chain(far);
    let mut reads = Vec::new();
    for reader in READERS {
        for place in places() {
            reads.extend(places().map(|end| at(reader, s, place, end)));
        }
    }
    reads
}

/// Compares one kind of item on every string of up to three bytes.
fn every_string_of_three_bytes(reader: Reader) -> Tally {
    let mut tally = Tally::default();
    for length in 0..=2 {
        let short: Vec<Vec<u8>> = strings(&every_byte(), length).collect();
        let reads: Vec<Read> = short.iter().map(|s| whole(reader, s)).collect();
        tally.add(&compare_all(&reads));
    }
    for first in 0..=u8::MAX {
        let last_two = 0..=u16::MAX;
        let long: Vec<[u8; 3]> = last_two
            .map(|two| [first, (two >> 8) as u8, two as u8])
            .collect();
        let reads: Vec<Read> = long.iter().map(|s| whole(reader, s)).collect();
        tally.add(&compare_all(&reads));
    }
    assert_eq!(tally.total(), 1 + 256 + 65_536 + 16_777_216);
    tally
}

/// Numbers in every string of up to three bytes, against crate and model.
#[test]
fn numbers_in_every_string_of_three_bytes() {
    let tally = every_string_of_three_bytes(Reader::Number);
    assert_eq!(
        tally.of(Reader::Number, 1),
        1 + 128 + 128 * 128 + 128 * 128 * 128
    );
}

/// Filter numbers in every string of up to three bytes, against crate and model.
#[test]
fn filter_numbers_in_every_string_of_three_bytes() {
    let tally = every_string_of_three_bytes(Reader::FilterNumber);
    assert_eq!(tally.cut_filter_numbers, 0);
}

/// Prefixed strings in every string of up to three bytes, against crate and model.
#[test]
fn prefixed_strings_in_every_string_of_three_bytes() {
    every_string_of_three_bytes(Reader::Prefixed);
}

/// Hash lists in every string of up to three bytes, against crate and model.
#[test]
fn hash_lists_in_every_string_of_three_bytes() {
    let tally = every_string_of_three_bytes(Reader::Hashes);
    assert!(tally.counts_past_limit > 0);
}

/// Every kind of item at every place up to every end, on all strings of a byte,
/// on longer ones of telling bytes and on a hash list, against crate and model.
#[test]
fn places_and_ends_anywhere() {
    let telling = [0x00, 0x01, 0x02, 0x7f, 0x80, 0x81, 0xff];
    let mut inputs: Vec<Vec<u8>> = strings(&every_byte(), 1).collect();
    inputs.extend((0..=4).flat_map(|length| strings(&telling, length)));
    inputs.push([vec![9, 2], vec![5; 64]].concat());
    inputs.push([vec![9, 9, 0x80, 0x80, 0x80], vec![0x80; 12]].concat());
    for input in inputs.chunks(100) {
        let reads: Vec<Read> = input.iter().flat_map(|s| everywhere(s)).collect();
        compare_all(&reads);
    }
}
