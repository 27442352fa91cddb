//! The model's message against the crate's: the same values or the same kind of
//! refusal, and the same bytes written of what was read.

use bisquetower::limits::{HASHES, HAVES, HAVES_WORDS, PROBES};
use compare::inputs::message::{
    damaged_once, good_messages, prefixes, TELLING, TELLING_OF_FILTERS, UP_TO_FILTER,
};
use compare::inputs::{every_byte, strings, Seed};
use compare::messages::{compare_model, Tally};
use compare::model::message::read;
use compare::model::number_bytes;

fn agree<S: AsRef<[u8]>>(messages: &[S]) -> Tally {
    compare_model(messages).unwrap_or_else(|disagreement| panic!("{disagreement}"))
}

/// Every string of `length` bytes from this alphabet, after these.
fn every_string(before: &[u8], alphabet: &[u8], length: usize) -> Tally {
    let mut tally = Tally::default();
    for string in strings(alphabet, length) {
        tally.add(&agree(&[[before, &string].concat()]));
    }
    assert_eq!(tally.total(), alphabet.len().pow(length as u32) as u64);
    tally
}

#[test]
fn every_string_of_two_bytes() {
    let every_byte = every_byte();
    for length in 0..=2 {
        every_string(&[], &every_byte, length);
    }
}

#[test]
fn every_string_of_seven_telling_bytes() {
    let mut tally = Tally::default();
    for length in 0..=7 {
        tally.add(&every_string(&[], &TELLING, length));
    }
    assert_eq!(tally.total(), 960_800);
    for first_word in 1..=4 {
        assert!(tally.answers[first_word] > 10_000, "{tally:?}");
    }
    // Few of them are messages, and each part is in one.
    assert_eq!(tally.answers[0], 54);
    assert_eq!((tally.with_haves, tally.with_chunks), (2, 20));
}

/// From a filter's length number on.
#[test]
fn every_filter_of_six_telling_bytes() {
    let mut tally = Tally::default();
    for length in 0..=6 {
        let alphabet = &TELLING_OF_FILTERS;
        tally.add(&every_string(&UP_TO_FILTER, alphabet, length));
    }
    for first_word in [0, 1, 3, 4, 5] {
        assert!(tally.answers[first_word] > 10, "{tally:?}");
    }
}

#[test]
fn prefixes_and_single_bytes_of_good_messages() {
    let good = good_messages();
    assert_eq!(agree(&good).rewritten, good.len() as u64);
    let cut: Vec<Vec<u8>> = prefixes(&good).collect();
    agree(&cut);
    let mut tally = Tally::default();
    for message in damaged_once(&good) {
        tally.add(&agree(&[message]));
    }
    for first_word in 0..=5 {
        assert!(tally.answers[first_word] > 10, "{tally:?}");
    }
}

/// Compares random messages, 10,000 a batch.
fn compare_random(seed: Seed, batches: usize) -> Tally {
    let mut random = seed.random(0);
    let mut tally = Tally::default();
    for batch in 0..batches {
        let messages: Vec<Vec<u8>> = (0..10_000).map(|_| random.message()).collect();
        match compare_model(&messages) {
            Ok(seen) => tally.add(&seen),
            Err(disagreement) => panic!("batch {batch}: {disagreement}"),
        }
    }
    tally
}

/// A few random messages with another seed each time.
#[test]
fn messages_of_a_fresh_seed() {
    compare_random(Seed::fresh(), 2);
}

#[test]
fn random_messages() {
    let tally = compare_random(Seed::fixed(), 20);
    assert!(tally.answers[0] > 60_000, "{tally:?}");
    for first_word in 1..=5 {
        assert!(tally.answers[first_word] > 500, "{tally:?}");
    }
    assert!(tally.cut_numbers > 10, "{tally:?}");
}

/// The smallest inputs at which two readings of 01 part, against the answers that
/// are settled; the crate isn't asked.
#[test]
fn settled_readings() {
    let mut lists = ([7; HAVES_WORDS], [7; 8]);
    let mut of = |s: &[u8]| {
        let words = read(s, &mut lists.0, &mut lists.1, &mut [0; HAVES]);
        [words[0], words[1]]
    };
    assert_eq!(of(&[]), [1, 0]);
    assert_eq!(of(&[0x41]), [2, 0x41]);
    assert_eq!(of(&[0x42]), [1, 1]);
    // A cut hash has its own place, a cut string that of its length number.
    assert_eq!(of(&[&[0x42, 0x02][..], &[9; 40]].concat()), [1, 34]);
    assert_eq!(of(&[0x42, 0, 0, 0, 1, 2, 0xaa]), [1, 5]);
    assert_eq!(of(&[0x42, 0, 0, 0, 0, 5]), [1, 5]);
    assert_eq!(of(&[0x42, 0, 0, 0, 0, 0x80, 0]), [3, 5]);
    // A count is limited before its elements are looked at, and cut before that.
    assert_eq!(
        of(&[vec![0x42], number_bytes(HASHES as u64 + 1)].concat()),
        [4, 1]
    );
    assert_eq!(of(&[0x42, 0x80, 0x80, 0x80, 0x80, 0x80, 0x80]), [1, 1]);
    let many = PROBES as u8 + 1;
    // A filter's string has to be there before its inside is read; a number is cut
    // at its own start, a field at its first byte; 5 and 4 name the filter.
    assert_eq!(of(&[0x42, 0, 0, 1, 0, 5, 1, 0]), [1, 5]);
    assert_eq!(of(&[0x42, 0, 0, 1, 0, 1, 1, 0]), [1, 7]);
    assert_eq!(of(&[0x42, 0, 0, 1, 0, 4, 1, 0x0a, 7, 0xff, 0]), [1, 9]);
    assert_eq!(of(&[0x42, 0, 0, 1, 0, 3, 1, 0, many]), [5, 6]);
    assert_eq!(of(&[0x42, 0, 0, 1, 0, 3, 1, 0x0a, many]), [4, 6]);
    assert_eq!(
        of(&[0x42, 0, 0, 1, 0, 5, 0x80, 0x80, 0x80, 0x80, 0x80]),
        [3, 6]
    );
    // Flags are joined, not added.
    let flags = |section: &[u8]| {
        let s = [&[0x42, 0, 0, 0, 0][..], section].concat();
        read(&s, &mut [], &mut [], &mut [0; HAVES])[10..12].to_vec()
    };
    assert_eq!(flags(&[]), [256, 5]);
    assert_eq!(flags(&[0]), [0, 6]);
    assert_eq!(flags(&[2, 0x82, 0x82]), [2, 8]);
    assert_eq!(flags(&[3, 0x81, 0x7f, 0xc0, 9, 9]), [0x41, 9]);
}
