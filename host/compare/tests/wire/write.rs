//! Writing: in buffers of every size, lists that are refused, and what is read of them
//! again.

use bisquetower::limits::{HASHES, LIST_SIZE};
use bisquetower::raw;
use compare::inputs::{boundary_values, Random, Seed};
use compare::model::{number_bytes, prefixed_bytes};
use compare::writes::{compare_write, Write};

/// Compares a write into every buffer from none to three bytes too many, and a
/// larger one; returns how many were written.
fn compare_writes(write: Write, rooms: impl Iterator<Item = usize>) -> usize {
    let answers = rooms.map(|room| {
        compare_write(write, room).unwrap_or_else(|disagreement| panic!("{disagreement}"))
    });
    answers.filter(|answer| answer[0] == 0).count()
}

fn rooms(wanted: usize) -> impl Iterator<Item = usize> {
    (0..=wanted + 3).chain([wanted + 100])
}

/// Written numbers at the boundaries, in every size of buffer, against the
/// crate's bytes, the model's, and every other byte as it was.
#[test]
fn written_numbers() {
    for value in boundary_values() {
        let wanted = number_bytes(value).len();
        let written = compare_writes(Write::Number(value), rooms(wanted));
        assert_eq!(written, 5, "{value}");
    }
}

/// Written prefixed strings in every size of buffer, against the crate's number
/// and bytes, the model's, and every other byte as it was.
#[test]
fn written_prefixed_strings() {
    let mut random = Random(2);
    for length in [0, 1, 2, 126, 127, 128, 129, 300] {
        let string = random.bytes(length);
        let wanted = prefixed_bytes(&string).len();
        let written = compare_writes(Write::Prefixed(&string), rooms(wanted));
        assert_eq!(written, 5, "{length}");
    }
    // Where the length's number gets its third byte.
    for length in [16_383, 16_384] {
        let string = random.bytes(length);
        let wanted = prefixed_bytes(&string).len();
        let near = [0, 1, 2, 3, wanted - 1, wanted, wanted + 1, wanted + 3];
        assert_eq!(
            compare_writes(Write::Prefixed(&string), near.into_iter()),
            3
        );
    }
}

/// Written hash lists, repeats and disorder too, in every size of buffer,
/// against the crate's bytes, the model's, and every other byte as it was.
#[test]
fn written_hash_lists() {
    let mut random = Random(3);
    for count in [0, 1, 2, 3, 10] {
        let hashes = random.bytes(32 * count);
        let written = compare_writes(Write::Hashes(&hashes), rooms(1 + 32 * count));
        assert_eq!(written, 5, "{count}");
    }
    compare_writes(Write::Hashes(&[7; 96]), rooms(97));
    for count in [127, 128, HASHES] {
        let hashes = random.bytes(32 * count);
        let wanted = number_bytes(count as u64).len() + 32 * count;
        let written = compare_writes(Write::Hashes(&hashes), rooms(wanted));
        assert_eq!(written, 5, "{count}");
    }
}

/// Lent lists that aren't whole hashes or are too long, in buffers short and
/// long, against the model: 4 before 1 before 7, and no byte changed.
#[test]
fn refused_hash_lists() {
    let whole = LIST_SIZE;
    let cases = [
        (0, [0, 1, 0, 0]),
        (1, [1, 0, 0, 0]),
        (31, [1, 0, 0, 0]),
        (32, [0, 33, 0, 0]),
        (33, [1, 32, 0, 0]),
        (whole - 1, [1, whole as u64 - 32, 0, 0]),
        (whole, [0, whole as u64 + 2, 0, 0]),
        (whole + 1, [4, 0, 0, 0]),
        (whole + 31, [4, 0, 0, 0]),
        (whole + 32, [4, 0, 0, 0]),
    ];
    let mut random = Random(4);
    for (length, expected) in cases {
        let lent = random.bytes(length);
        let answer = |room| compare_write(Write::Hashes(&lent), room).unwrap();
        assert_eq!(answer(whole + 2), expected, "{length}");
        assert_eq!(answer(2 * whole), expected, "{length}");
        let short = if expected[0] == 0 {
            [7, expected[1], 0, 0]
        } else {
            expected
        };
        assert_eq!(answer(0), short, "{length}");
    }
}

/// What the library writes of random values is what it reads back, and nothing
/// but its last byte missing is read as whole.
#[test]
fn what_is_written_is_read_back() {
    let seed = Seed::fixed();
    let mut random = seed.random(0);
    let mut out = vec![0; LIST_SIZE + 300];
    for round in 0..2_000 {
        let told = || format!("round {round}");
        let n = random.number();
        let [first, size, ..] = raw::write_number(n, &mut out[..10]);
        assert_eq!(first, 0, "{}", told());
        let end = size as usize;
        assert_eq!(
            raw::read_number(&out, 0, usize::MAX),
            [0, n, size, 0],
            "{}",
            told()
        );
        assert_eq!(
            raw::read_number(&out, 0, end - 1),
            [1, 0, 0, 0],
            "{}",
            told()
        );

        let length = random.below(400);
        let string = random.bytes(length);
        let [_, size, ..] = raw::write_prefixed(&string, &mut out[..500]);
        let start = size - length as u64;
        assert_eq!(
            raw::read_prefixed(&out, 0, 500),
            [0, start, size, 0],
            "{}",
            told()
        );
        assert_eq!(out[start as usize..size as usize], string, "{}", told());

        let count = if round % 100 == 0 {
            random.below(HASHES + 1)
        } else {
            random.below(9)
        };
        let hashes = random.bytes(32 * count);
        let [_, size, ..] = raw::write_hashes(&hashes, &mut out);
        let start = size - hashes.len() as u64;
        let list = raw::read_hashes(&out, 0, size as usize);
        assert_eq!(list, [0, start, count as u64, size], "{}", told());
        assert_eq!(out[start as usize..size as usize], hashes, "{}", told());
    }
}

/// Random numbers, strings and lists into random buffers, against the crate's
/// bytes, the model's, and every other byte as it was.
#[test]
fn random_writes() {
    let seed = Seed::fixed();
    let mut random = seed.random(0);
    let mut answers = [0; 8];
    for round in 0..20_000 {
        let length = random.below(200);
        let bytes = random.bytes(length);
        let hashes = if random.one_in(3) {
            &bytes
        } else {
            &bytes[..length / 32 * 32]
        };
        let (write, about) = match random.below(3) {
            0 => (Write::Number(random.number()), 5),
            1 => (Write::Prefixed(&bytes), length),
            _ => (Write::Hashes(hashes), length),
        };
        let room = random.below(2 * about + 8);
        match compare_write(write, room) {
            Ok([first, ..]) => answers[first as usize] += 1,
            Err(disagreement) => panic!("round {round}: {disagreement}"),
        }
    }
    assert!(
        [0, 1, 7].iter().all(|&first| answers[first] > 1_000),
        "{answers:?}"
    );
}
