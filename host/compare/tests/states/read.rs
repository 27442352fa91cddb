//! Saved states read: every short string, damaged states, counts, rooms.

use crate::{compare_strings, hashes, one, state, TYPE};
use bisquetower::limits::{HASHES, LIST_SIZE};
use compare::inputs::{every_byte, number_forms, strings};
use compare::model::number_bytes;
use compare::states::Tally;

fn all(alphabet: &[u8], length: usize) -> Vec<Vec<u8>> {
    strings(alphabet, length).collect()
}

/// Every string of up to two bytes, against crate and model.
#[test]
fn every_string_of_two_bytes() {
    let mut tally = Tally::default();
    for length in 0..=2 {
        tally.add(&compare_strings(&all(&every_byte(), length), 40));
    }
    assert_eq!(tally.total(), 1 + 256 + 65_536);
    // The empty string, 43 alone, and 43 with 01 to ff.
    assert_eq!(tally.answers[..3], [1, 2 + 255, 255 * 257]);
}

/// Every string of up to five telling bytes, against crate and model; rooms of no
/// byte too, since no hash is among them.
#[test]
fn every_string_of_telling_bytes() {
    let alphabet = [0x00, 0x01, 0x02, 0x42, 0x43, 0x7f, 0x80];
    let mut tally = Tally::default();
    for length in 0..=5 {
        for room in [0, 33] {
            tally.add(&compare_strings(&all(&alphabet, length), room));
        }
    }
    assert_eq!(tally.total(), 2 * (1 + 7 + 49 + 343 + 2_401 + 16_807));
    // 43 00; another first byte; 43 and 80 up to three times, then 00; the same,
    // then a last byte that makes the count too large. Any bytes follow.
    assert_eq!(tally.answers[0], 2 * (1 + 7 + 49 + 343));
    assert_eq!(tally.answers[2], 2 * 6 * (1 + 7 + 49 + 343 + 2_401));
    assert_eq!(tally.answers[3], 2 * ((1 + 7 + 49) + (1 + 7) + 1));
    assert_eq!(tally.past_limit, 2 * (3 * (1 + 7 + 49) + 5 * (1 + 7) + 5));
}

/// Every prefix and every change of one byte of good states, with more bytes after
/// them and without.
#[test]
fn prefixes_and_damaged_bytes() {
    let mut damaged = Vec::new();
    for count in 0..=3 {
        let whole = state(count, &[0x43, 0x01]);
        damaged.extend((0..=whole.len()).map(|end| whole[..end].to_vec()));
        for place in 0..whole.len() {
            for byte in 0..=u8::MAX {
                let mut other = whole.clone();
                other[place] = byte;
                damaged.push(other);
            }
        }
    }
    let tally = compare_strings(&damaged, 100);
    assert!(tally.answers[0] > 30_000, "{tally:?}");
    assert!(tally.answers[1..4].iter().all(|&n| n > 100), "{tally:?}");
}

/// Counts in every form, around the limit too, with hashes for as many as may be.
#[test]
fn counts() {
    let many = hashes(HASHES + 6);
    let state = |number: Vec<u8>| [&[TYPE][..], &number, &many].concat();
    let forms: Vec<Vec<u8>> = number_forms().into_iter().map(state).collect();
    let tally = compare_strings(&forms, LIST_SIZE);
    assert!([0, 3, 4].iter().all(|&k| tally.answers[k] > 3), "{tally:?}");
    for (count, expected) in [
        (HASHES - 1, 0),
        (HASHES, 0),
        (HASHES + 1, 4),
        (HASHES + 6, 4),
    ] {
        let tally = compare_strings(&[state(number_bytes(count as u64))], LIST_SIZE);
        assert_eq!(tally.answers[expected], 1, "{count}");
    }
}

/// Room for as many shared heads as there are, a byte less and more, and none.
#[test]
fn rooms_to_read() {
    for count in [0, 1, 2, 127, 128, HASHES] {
        let s = state(count, &[]);
        let wanted = 32 * count;
        let rooms = [
            0,
            1,
            wanted.saturating_sub(1),
            wanted,
            wanted + 1,
            wanted + 40,
        ];
        for room in rooms {
            let tally = one(&s, room);
            let expected = if room < wanted { 7 } else { 0 };
            assert_eq!(tally.answers[expected], 1, "{count} into {room}");
        }
    }
    // Too little room comes last.
    assert_eq!(one(&state(3, &[])[..97], 0).answers[1], 1);
    assert_eq!(one(&state(HASHES + 1, &[]), 0).answers[4], 1);
}

/// A saved state has no total size: five million bytes are read, and ignored.
#[test]
fn long_states() {
    let s = state(3, &vec![0x80; 5_000_000]);
    assert_eq!(one(&s, 96).answers[0], 1);
    assert_eq!(one(&s[1..], 96).answers[2], 1);
}
