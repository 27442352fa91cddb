//! Building: the field of a filter over a list of hashes; refusals 10, 4, 1 and 7.

use crate::{compare_writes, every, lists, COUNTS, MOST_BITS};
use bisquetower::limits::{FIELD_SIZE, HASHES, LIST_SIZE, PROBES};
use compare::filters::Build;
use compare::inputs::{Random, Seed};
use compare::model::filter::field_size;
use compare::writes::{compare_rooms, compare_write, Write};

fn built(bits: u64, probes: u64, hashes: &[u8]) -> Write<'_> {
    Write::Built(Build {
        bits,
        probes,
        hashes,
    })
}

/// Filters with 10 bits and 7 probes over lists of 0 to 1,024 hashes, random,
/// repeated and at the edges of the field, in every size of buffer, full of other
/// bytes, against the crate's field, the model's, and every byte after it as it
/// was.
#[test]
fn built_filters() {
    let mut random = Random(2);
    for count in COUNTS {
        let wanted = field_size(count as u64, 10) as usize;
        for (kind, hashes) in lists(count, 10, &mut random).into_iter().enumerate() {
            let build = built(10, 7, &hashes);
            let written = match kind {
                0 => compare_writes(build, every(wanted)),
                _ => compare_writes(build, (wanted..=wanted + 3).chain([wanted + 100])),
            };
            assert_eq!(written, 5, "{count}");
        }
    }
}

/// Every number of bits from 1 to 64 and every good number of probes over short lists, and
/// some over long ones, against the model's field.
#[test]
fn built_with_other_numbers() {
    let mut random = Random(3);
    for bits in 1..=64 {
        for probes in 0..=PROBES as u64 {
            let count = random.of(&[1, 2, 3, 15, 16, 17]);
            let wanted = field_size(count as u64, bits) as usize;
            let kind = random.below(3);
            let hashes = &lists(count, bits, &mut random)[kind];
            assert_eq!(compare_writes(built(bits, probes, hashes), [wanted]), 1);
        }
    }
    for count in COUNTS {
        for (bits, probes) in [
            (1, 0),
            (1, 64),
            (3, 1),
            (8, 2),
            (MOST_BITS - 1, 63),
            (MOST_BITS, 64),
        ] {
            let wanted = field_size(count as u64, bits) as usize;
            for hashes in lists(count, bits, &mut random) {
                let build = built(bits, probes, &hashes);
                assert_eq!(compare_writes(build, [wanted, wanted + 1]), 2);
            }
        }
    }
    // As many bits as a field may have, for one hash, for two and for all.
    let (field, probes) = (8 * FIELD_SIZE as u64, PROBES as u64);
    for count in [1, 2, HASHES] {
        let hashes = random.bytes(32 * count);
        let build = built(field / count as u64, probes, &hashes);
        assert_eq!(compare_writes(build, [FIELD_SIZE]), 1);
    }
}

/// Numbers that break the rules, lists that are too long or end in a partial hash,
/// and buffers that are too short, together and alone, against the model: 10
/// before 4 before 1 before 7, and no byte changed.
#[test]
fn refused_lists() {
    let most = u64::from(u32::MAX);
    let bytes = vec![0x5a; LIST_SIZE + 32 * 2];
    let (field, probes) = (FIELD_SIZE as u64, PROBES as u64);
    // The bits of each of all hashes that a list may have, in the longest field.
    let each = 8 * field / HASHES as u64;
    let last = LIST_SIZE as u64 - 32;
    let ten = 10 * HASHES as u64 / 8;
    // Bits, probes, bytes of the list, and the answer in room enough.
    let cases = [
        (10, 7, 0, [0, 0, 0, 0]),
        (10, 7, 1, [1, 0, 0, 0]),
        (10, 7, 31, [1, 0, 0, 0]),
        (10, 7, 33, [1, 32, 0, 0]),
        (10, 7, LIST_SIZE - 1, [1, last, 0, 0]),
        (10, 7, LIST_SIZE, [0, ten, 0, 0]),
        (10, 7, LIST_SIZE + 1, [4, 0, 0, 0]),
        (10, 7, LIST_SIZE + 32, [4, 0, 0, 0]),
        (10, 7, LIST_SIZE + 37, [4, 0, 0, 0]),
        (10, probes + 1, 0, [0, 0, 0, 0]),
        (10, probes + 1, 31, [1, 0, 0, 0]),
        (10, probes, 32, [0, 2, 0, 0]),
        (10, probes + 1, 32, [10, 0, 0, 0]),
        (10, probes + 1, 33, [10, 0, 0, 0]),
        (10, probes + 1, LIST_SIZE + 32, [10, 0, 0, 0]),
        (0, 7, 0, [0, 0, 0, 0]),
        (0, 7, 31, [1, 0, 0, 0]),
        (0, 7, 32, [10, 0, 0, 0]),
        (0, 7, LIST_SIZE + 33, [10, 0, 0, 0]),
        (each, 7, LIST_SIZE, [0, field, 0, 0]),
        (each + 1, 7, LIST_SIZE, [10, 0, 0, 0]),
        (each, 7, LIST_SIZE + 32, [10, 0, 0, 0]),
        (each - 1, 7, LIST_SIZE + 32, [4, 0, 0, 0]),
        (8 * field, 7, 32, [0, field, 0, 0]),
        (8 * field + 1, 7, 32, [10, 0, 0, 0]),
        (most, most, 0, [0, 0, 0, 0]),
        (most + 1, 7, 0, [10, 0, 0, 0]),
        (10, most + 1, 0, [10, 0, 0, 0]),
        (1 << 32, 7, 32, [10, 0, 0, 0]),
        (1 << 61, 7, 32 * 8, [10, 0, 0, 0]),
        (u64::MAX, u64::MAX, 31, [10, 0, 0, 0]),
        (u64::MAX, 7, 32, [10, 0, 0, 0]),
    ];
    for (bits, probes, length, expected) in cases {
        let build = built(bits, probes, &bytes[..length]);
        let answers = compare_rooms(build, [FIELD_SIZE + 808, FIELD_SIZE, 0]).unwrap();
        let short = match expected {
            [0, wanted, ..] if wanted > 0 => [7, wanted, 0, 0],
            _ => expected,
        };
        let told = format!("{bits}, {probes}, {length}");
        assert_eq!(answers, [expected, expected, short], "{told}");
    }
}

/// Random lists with random numbers into random buffers, against the model's field
/// and, with 10 bits and 7 probes, the crate's.
#[test]
fn random_builds() {
    let seed = Seed::fixed();
    let mut random = seed.random(0);
    let mut answers = [0; 11];
    for round in 0..10_000 {
        let count = random.below(20);
        let partial = if random.one_in(6) {
            random.below(32)
        } else {
            0
        };
        let hashes = random.bytes(32 * count + partial);
        let default = random.one_in(2);
        let bits = if default { 10 } else { random.below(70) as u64 };
        let probes = if default { 7 } else { random.below(70) as u64 };
        let wanted = field_size(count as u64, bits) as usize;
        let room = random.below(4 * wanted + 2);
        match compare_write(built(bits, probes, &hashes), room) {
            Ok([first, ..]) => answers[first as usize] += 1,
            Err(disagreement) => panic!("round {round}: {disagreement}"),
        }
    }
    assert!(
        [0, 1, 7, 10].iter().all(|&first| answers[first] > 100),
        "{answers:?}"
    );
}
