//! Writing: refusals 10, 4, 1 and 7 in their order, with no byte changed.

use bisquetower::limits::{CHUNKS, HASHES, HASH_SIZE, HAVES, LIST_SIZE, MESSAGE_SIZE, PROBES};
use compare::inputs::message::OwnParts;
use compare::inputs::Seed;
use compare::writes::{compare_rooms, compare_write, Write};

/// A good have over a hundred bytes: two last-sync hashes at 3, and a filter of 20
/// entries, 10 bits and 7 probes, its field of 25 bytes at 70.
const GOOD: [u64; 7] = [3, 2, 20, 10, 7, 70, 25];

/// A good message over a hundred bytes of haves.
fn good() -> OwnParts {
    OwnParts {
        version: 2,
        heads: vec![1; 64],
        need: vec![2; 32],
        s: vec![0x5a; 100],
        haves: GOOD.to_vec(),
        chunks: vec![3; 12],
        lengths: vec![5, 0, 4],
        flags: 4,
    }
}

/// The answer in room enough for a short message, after a comparison with crate
/// and model in no room and in that.
fn answer(parts: &OwnParts) -> [u64; 2] {
    let answers = compare_rooms(Write::Message(parts.parts()), [0, 2_000]);
    let [short, enough] = answers.unwrap_or_else(|disagreement| panic!("{disagreement}"))[..]
    else {
        panic!("two answers");
    };
    // Every other refusal comes before 7.
    if ![0, 7].contains(&enough[0]) {
        assert_eq!(short, enough);
    }
    [enough[0], enough[1]]
}

/// What is wrong with a message: how it is made so, and the refusal.
type Fault = (&'static str, fn(&mut OwnParts) -> [u64; 2]);

/// In the order of their refusals. One that is made after another stands, where
/// they are made of the same part.
const FAULTS: [Fault; 15] = [
    ("haves that aren't whole", |p| {
        p.haves.push(0);
        [10, 0]
    }),
    ("a filter of a probe too many", |p| {
        p.haves[4] = PROBES as u64 + 1;
        [10, 0]
    }),
    ("a field outside", |p| {
        p.haves[5] = p.s.len() as u64 - 24;
        [10, 0]
    }),
    ("last-sync hashes outside", |p| {
        p.haves[0] = p.s.len() as u64 - 63;
        p.haves[1] = 2;
        [10, 0]
    }),
    ("a head too many", |p| {
        p.heads = vec![1; LIST_SIZE + HASH_SIZE];
        [4, 0]
    }),
    ("a partial head", |p| {
        p.heads = vec![1; 32 * 3 + 31];
        [1, 96]
    }),
    ("a need too many", |p| {
        p.need = vec![2; LIST_SIZE + 1];
        [4, 0]
    }),
    ("a partial need", |p| {
        p.need = vec![2; 32 * 5 + 1];
        [1, 160]
    }),
    ("a have too many", |p| {
        let first: Vec<u64> = p.haves[..7].to_vec();
        let partial = p.haves.split_off(p.haves.len() / 7 * 7);
        p.haves = [first.repeat(HAVES + 1), partial].concat();
        [4, 0]
    }),
    ("a last-sync hash too many", |p| {
        p.s.resize(LIST_SIZE + HASH_SIZE + 200, 0x5a);
        p.haves[0] = 100;
        p.haves[1] = HASHES as u64 + 1;
        [4, 0]
    }),
    ("a chunk too many", |p| {
        p.lengths = vec![0; CHUNKS + 1];
        [4, 0]
    }),
    ("too few bytes of chunks", |p| {
        p.lengths = vec![5, 0, p.chunks.len() as u64 - 4, 0];
        [1, 5]
    }),
    ("lengths whose sum wraps", |p| {
        p.lengths = vec![7, u64::MAX - 6];
        [1, 7]
    }),
    ("a long message", |p| {
        p.chunks = vec![3; MESSAGE_SIZE];
        p.lengths = vec![0, MESSAGE_SIZE as u64];
        [4, 0]
    }),
    ("a message longer than its room", |p| {
        p.chunks = vec![3; 2_000];
        p.lengths = vec![2_000];
        // 43, heads, need, a have with two hashes and 28 bytes of filter, flags.
        [7, 1 + 65 + 33 + 1 + 65 + 29 + 1 + 2_002 + 3]
    }),
];

/// Every fault alone and every two together, against the model: the first in the
/// order is the refusal.
#[test]
fn refusals_in_their_order() {
    assert_eq!(answer(&good())[0], 0);
    for (k, (name, make)) in FAULTS.iter().enumerate() {
        let mut parts = good();
        let expected = make(&mut parts);
        assert_eq!(answer(&parts), expected, "{name}");
        for (later, make_later) in &FAULTS[k + 1..] {
            let mut parts = good();
            make_later(&mut parts);
            let expected = make(&mut parts);
            // Room is wanted for this one alone.
            assert_ne!(expected[0], 7);
            assert_eq!(answer(&parts), expected, "{name}, {later}");
        }
    }
}

/// Haves with one number at or past an edge, alone, as the last that there may be and as
/// one more, against crate and model.
#[test]
fn haves_at_their_edges() {
    let most = u64::from(u32::MAX);
    let far = [
        most,
        most + 1,
        1 << 59,
        1 << 60,
        1 << 63,
        u64::MAX - 31,
        u64::MAX,
    ];
    // Word, value, and whether the have is still good.
    let mut cases = vec![
        (0, 0, true),
        (0, 36, true),
        (0, 37, false),
        (0, 100, false),
        (0, 101, false),
        (1, 0, true),
        (1, 3, true),
        (1, 4, false),
        (2, 19, false),
        (2, 21, false),
        (3, 0, false),
        (3, 9, false),
        (4, PROBES as u64, true),
        (4, PROBES as u64 + 1, false),
        (5, 75, true),
        (5, 76, false),
        (6, 24, false),
        (6, 26, false),
    ];
    for word in 0..7 {
        cases.extend(far.map(|value| (word, value, false)));
    }
    for (word, value, is_good) in cases {
        let mut have = GOOD;
        have[word] = value;
        let with = |before: usize, after: usize| {
            let mut parts = good();
            parts.haves = [GOOD.repeat(before), have.to_vec(), GOOD.repeat(after)].concat();
            answer(&parts)[0]
        };
        let told = format!("word {word} is {value}");
        let expected = if is_good { 0 } else { 10 };
        assert_eq!([with(0, 0), with(HAVES - 1, 0)], [expected; 2], "{told}");
        // One more isn't looked at, and is one too many.
        assert_eq!(with(HAVES, 0), 4, "{told}");
        assert_eq!(with(0, HAVES), if is_good { 4 } else { 10 }, "{told}");
    }
    // A have without hashes may name the end of the bytes, and no place after it.
    for (place, expected) in [(100, 0), (101, 10), (u64::MAX, 10)] {
        let mut parts = good();
        parts.haves[..2].copy_from_slice(&[place, 0]);
        assert_eq!(answer(&parts)[0], expected, "{place}");
    }
}

/// Lengths of chunks and the bytes that are lent for them, against crate and
/// model: the first chunk that isn't there whole is named by its start, and bytes
/// after the last are of none.
#[test]
fn chunks_and_their_bytes() {
    let cases: [(&[u64], usize, [u64; 2]); 12] = [
        (&[], 0, [0, 8]),
        (&[], 9, [0, 8]),
        (&[5], 4, [1, 0]),
        (&[5], 5, [0, 14]),
        (&[5], 6, [0, 14]),
        (&[4, 1], 4, [1, 4]),
        (&[4, 0], 4, [0, 14]),
        (&[0, 4, 3], 6, [1, 4]),
        (&[u64::MAX], 100, [1, 0]),
        (&[1, u64::MAX], 100, [1, 1]),
        (&[1 << 63, 1 << 63], 100, [1, 0]),
        (&[100, u64::MAX - 99], 100, [1, 100]),
    ];
    for (lengths, bytes, expected) in cases {
        let parts = OwnParts {
            chunks: vec![0x11; bytes],
            lengths: lengths.to_vec(),
            ..OwnParts::default()
        };
        assert_eq!(answer(&parts), expected, "{lengths:?} of {bytes}");
    }
    let many = |count| OwnParts {
        lengths: vec![0; count],
        ..OwnParts::default()
    };
    assert_eq!(
        compare_write(Write::Message(many(CHUNKS).parts()), CHUNKS + 1_000).unwrap()[0],
        0
    );
    assert_eq!(answer(&many(CHUNKS + 1)), [4, 0]);
}

/// As many bytes as there may be and one more, against crate and model.
#[test]
fn total_size() {
    let with = |length: usize| {
        let parts = OwnParts {
            flags: 256,
            chunks: vec![0x11; length],
            lengths: vec![length as u64],
            ..OwnParts::default()
        };
        let write = Write::Message(parts.parts());
        compare_rooms(write, [MESSAGE_SIZE - 1, MESSAGE_SIZE]).unwrap_or_else(|why| panic!("{why}"))
    };
    // Five bytes without the chunk, and four for its length.
    let most = MESSAGE_SIZE as u64;
    assert_eq!(with(MESSAGE_SIZE - 9), [[7, most, 0, 0], [0, most, 0, 0]]);
    assert_eq!(with(MESSAGE_SIZE - 8), [[4, 0, 0, 0]; 2]);
}

/// Random messages with some parts changed, against the model.
#[test]
fn random_messages_damaged() {
    let seed = Seed::fixed();
    let mut random = seed.random(0);
    let mut answers = [0; 11];
    for round in 0..20_000 {
        let mut parts = random.own_parts();
        for _ in 0..random.below(3) {
            match random.below(4) {
                0 if !parts.haves.is_empty() => {
                    let word = random.below(parts.haves.len());
                    parts.haves[word] = match random.below(3) {
                        0 => random.number(),
                        1 => parts.haves[word].wrapping_sub(1),
                        _ => parts.haves[word].wrapping_add(1),
                    };
                }
                1 => parts.heads.push(1),
                2 => drop(parts.need.pop()),
                _ => drop(parts.chunks.pop()),
            }
        }
        let room = random.below(400);
        match compare_write(Write::Message(parts.parts()), room) {
            Ok([first, ..]) => answers[first as usize] += 1,
            Err(disagreement) => panic!("round {round}: {disagreement}"),
        }
    }
    assert!(
        [0, 1, 7, 10].iter().all(|&first| answers[first] > 500),
        "{answers:?}"
    );
}
