//! Reading: every short string, messages cut and damaged at every byte, and a
//! million random ones.

use crate::{agree, agree_all, ask};
use compare::inputs::message::{
    damaged_once, good_messages, prefixes, TELLING, TELLING_OF_FILTERS, UP_TO_FILTER,
};
use compare::inputs::{every_byte, strings, Seed};
use compare::messages::{compare, Tally};
use compare::published;

/// Every string of up to `most` bytes from this alphabet, after these.
fn every_string(before: &[u8], alphabet: &[u8], most: usize) -> Tally {
    let mut tally = Tally::default();
    for length in 0..=most {
        let strings = strings(alphabet, length);
        let messages = strings.map(|string| [before, &string].concat());
        tally.add(&agree_all(messages));
    }
    tally
}

/// Every string of up to two bytes, against crate and model.
#[test]
fn every_string_of_two_bytes() {
    let every_byte = every_byte();
    let tally = every_string(&[], &every_byte, 2);
    assert_eq!(tally.total(), 1 + 256 + 65_536);
    // No bytes, and a list that is cut or too long after either first byte.
    assert_eq!(tally.answers[2], 254 + 254 * 256);
    assert_eq!(tally.answers[1], 1 + 2 + 2 * 256);
}

/// Every string of up to seven telling bytes, against crate and model.
#[test]
fn every_string_of_seven_telling_bytes() {
    let tally = every_string(&[], &TELLING, 7);
    assert_eq!(tally.total(), 960_800);
    for first_word in 1..=4 {
        assert!(tally.answers[first_word] > 10_000, "{tally:?}");
    }
    // Few of them are messages, and each part is in one.
    assert_eq!(tally.answers[0], 54);
    assert_eq!((tally.with_haves, tally.with_chunks), (2, 20));
}

/// Every string of up to seven telling bytes from a have's filter on, against crate
/// and model.
#[test]
fn every_filter_of_seven_telling_bytes() {
    let tally = every_string(&UP_TO_FILTER, &TELLING_OF_FILTERS, 7);
    assert_eq!(tally.total(), 960_800);
    for first_word in [0, 1, 3, 4, 5] {
        assert!(tally.answers[first_word] > 100, "{tally:?}");
    }
    assert!(tally.cut_numbers > 0, "{tally:?}");
}

/// Every prefix of good messages, against crate and model.
#[test]
fn every_prefix_of_good_messages() {
    let good = good_messages();
    let tally = agree(&good);
    assert_eq!((tally.answers[0], tally.rewritten), (8, 8));
    let tally = agree_all(prefixes(&good));
    assert_eq!(
        tally.total() as usize,
        good.iter().map(|s| s.len() + 1).sum()
    );
    assert!(tally.answers[1] > 500 && tally.answers[0] > 8, "{tally:?}");
}

/// Good messages with each byte changed to every other, against crate and model.
#[test]
fn every_single_byte_of_good_messages() {
    let good = good_messages();
    let tally = agree_all(damaged_once(&good));
    let bytes: usize = good.iter().map(Vec::len).sum();
    assert_eq!(tally.total() as usize, 255 * bytes);
    for first_word in 0..=5 {
        assert!(tally.answers[first_word] > 10, "{tally:?}");
    }
}

/// Compares random messages, 10,000 a batch.
fn compare_random(seed: Seed, batches: usize) -> Tally {
    let mut random = seed.random(0);
    let mut tally = Tally::default();
    for batch in 0..batches {
        let messages: Vec<Vec<u8>> = (0..10_000).map(|_| random.message()).collect();
        match compare(&messages) {
            Ok(seen) => tally.add(&seen),
            Err(disagreement) => panic!("batch {batch}: {disagreement}"),
        }
    }
    tally
}

/// A few random messages with another seed each time.
#[test]
fn messages_of_a_fresh_seed() {
    compare_random(Seed::fresh(), 2);
}

/// A million random messages, against crate and model.
#[test]
fn random_messages() {
    let tally = compare_random(Seed::fixed(), 100);
    assert_eq!(tally.total(), 1_000_000);
    assert!(tally.answers[0] > 300_000, "{tally:?}");
    for first_word in 1..=5 {
        assert!(tally.answers[first_word] > 2_000, "{tally:?}");
    }
    assert_eq!(tally.rewritten, tally.answers[0]);
    let parts = [tally.with_haves, tally.with_chunks, tally.with_flags];
    assert!(parts.iter().all(|&count| count > 100_000), "{tally:?}");
    assert!(tally.cut_numbers > 50, "{tally:?}");
}

/// The intended differences at their smallest, crate beside library.
#[test]
fn differences_are_those_that_are_intended() {
    let filter = |string: &[u8]| {
        let length = string.len() as u8;
        [&UP_TO_FILTER[..], &[length], string, &[0]].concat()
    };
    let haves = [&[0x42, 0, 0, 17][..], &[0; 34], &[0]].concat();
    // The library's refusal, and the crate's, 0 for none.
    let cases = [
        (filter(&[0x80; 5]), 3, 1),
        (filter(&[1, 0x80, 0x80, 0x80, 0x80, 0x80]), 3, 1),
        (filter(&[1, 0, 7]), 5, 0),
        (filter(&[1, 10, 65, 0, 0]), 4, 0),
        (filter(&[1, 10, 65, 0]), 4, 1),
        (haves, 4, 0),
    ];
    for (s, here, there) in cases {
        assert_eq!(ask(&s).0[0], here);
        let crates = published::read_message(&s);
        assert_eq!(crates.map_or_else(|(number, _)| number, |_| 0), there);
    }
}
