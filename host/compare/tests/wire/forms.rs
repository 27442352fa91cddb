//! Numbers in good and bad forms, strings and lists cut and around their limits.

use crate::{at, compare_all, whole};
use bisquetower::limits::HASHES;
use bisquetower::raw::{self, Read, Reader};
use compare::inputs::{boundary_values, number_forms, overlong, Random};
use compare::model::{number_bytes, prefixed_bytes};
use compare::wire::{Tally, READERS};

/// Every kind of item at place 0 of these bytes.
fn as_all(s: &[u8]) -> [Read<'_>; 4] {
    READERS.map(|reader| whole(reader, s))
}

/// Boundary values at both widths, in shortest, overlong, ten- and eleven-byte
/// forms, whole and cut at each byte, by the slice's end and by the part's, with
/// bytes before and after, against crate and model.
#[test]
fn boundary_values_in_every_form() {
    let mut tally = Tally::default();
    for form in number_forms() {
        let size = form.len();
        let cuts: Vec<Vec<u8>> = (0..=size).map(|cut| form[..cut].to_vec()).collect();
        let around = [vec![0x80, 0x2a], form, vec![0x01, 0x80]].concat();
        let mut reads: Vec<Read> = cuts.iter().flat_map(|s| as_all(s)).collect();
        for reader in READERS {
            reads.extend((2..=around.len() + 1).map(|end| at(reader, &around, 2, end)));
        }
        tally.add(&compare_all(&reads));
    }
    for first_word in [0, 1, 3] {
        assert!(READERS
            .iter()
            .all(|&reader| tally.of(reader, first_word) > 0));
    }
    assert!(tally.cut_filter_numbers > 0 && tally.counts_past_limit > 0);
}

/// Every boundary value's shortest form against the value itself, at both widths.
#[test]
fn boundary_values_are_read_as_themselves() {
    for value in boundary_values() {
        let bytes = number_bytes(value);
        let size = bytes.len() as u64;
        let read = |reader| raw::read_many(&[whole(reader, &bytes)])[0];
        assert_eq!(read(Reader::Number), [0, value, size, 0]);
        let good = value < 1 << 32;
        let filter = if good {
            [0, value, size, 0]
        } else {
            [3, 0, 0, 0]
        };
        assert_eq!(read(Reader::FilterNumber), filter);
    }
}

/// Prefixed strings whole, with bytes after them, and cut at each byte, by the
/// slice's end and by the part's, against crate and model.
#[test]
fn prefixed_strings_cut_at_each_byte() {
    for length in [0, 1, 2, 31, 127, 128, 129, 300, 16_383, 16_384] {
        let bytes = [prefixed_bytes(&vec![0x80; length]), vec![1, 2, 3]].concat();
        let cuts = 0..=bytes.len();
        // Of the long strings, the cuts around their ends and some between.
        let telling = |cut: &usize| {
            let left = bytes.len() - cut;
            length <= 300 || *cut < 8 || left < 8 || cut.is_multiple_of(997)
        };
        let reads = cuts.filter(telling).flat_map(|cut| {
            let sliced = whole(Reader::Prefixed, &bytes[..cut]);
            [sliced, at(Reader::Prefixed, &bytes, 0, cut)]
        });
        compare_all(&reads.collect::<Vec<Read>>());
    }
}

/// Lengths and counts up to 2^64 - 1 over a few bytes, at place 0 and at others,
/// against crate and model: no sum of them with a place may wrap.
#[test]
fn lengths_beyond_all_memory() {
    for value in boundary_values().into_iter().filter(|&value| value > 64) {
        let bytes = [vec![1, 2, 3], number_bytes(value), vec![7; 40]].concat();
        let ends = [bytes.len(), usize::MAX];
        for end in ends {
            let reads = READERS.map(|reader| at(reader, &bytes, 3, end));
            let tally = compare_all(&reads);
            assert_eq!(tally.of(Reader::Prefixed, 1), 1);
        }
    }
}

/// Hash lists of a few hashes and of about as many as there may be, with good and overlong
/// counts, whole, with bytes after them, and cut in the count, at a hash's start
/// and inside one, against crate and model.
#[test]
fn hash_lists_around_their_limit() {
    let mut random = Random(1);
    let mut tally = Tally::default();
    for count in [0, 1, 2, HASHES - 1, HASHES, HASHES + 1] {
        let hashes = random.bytes(32 * count);
        for number in [number_bytes(count as u64), overlong(count as u64, 1)] {
            let start = number.len();
            let bytes = [number, hashes.clone(), vec![0x80; 33]].concat();
            let half = start + 32 * (count / 2);
            let next = start + 32 * count;
            let mut cuts = vec![0, 1, 2];
            for hash in [start, half, next - 32 * count.min(1), next, next + 32] {
                cuts.extend([hash - 1, hash, hash + 1]);
            }
            for cut in cuts {
                let reads = [
                    whole(Reader::Hashes, &bytes[..cut]),
                    at(Reader::Hashes, &bytes, 0, cut),
                ];
                tally.add(&compare_all(&reads));
            }
        }
    }
    assert!([0, 1, 3, 4]
        .iter()
        .all(|&first_word| tally.of(Reader::Hashes, first_word) > 0));
}
