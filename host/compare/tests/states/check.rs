//! When a session is bad: counts, buffers, sent hashes, kept haves.

use crate::REFUSED;
use bisquetower::limits::{HASHES, HAVES, PROBES, SENT_HASHES};
use compare::model::state::{checked, Lists, WORDS};
use compare::states::check_many;

/// Buffers that are good for every count up to its limit: ascending hashes, and
/// sixteen haves over 100 bytes.
pub struct Buffers {
    pub hashes: Vec<u8>,
    haves: Vec<u64>,
    bytes: Vec<u8>,
}

/// A have of two last-sync hashes and a filter of 20 entries of 10 bits.
pub const HAVE: [u64; 7] = [3, 2, 20, 10, 7, 75, 25];

impl Buffers {
    pub fn new() -> Self {
        let hash = |k: u64| [&k.to_be_bytes()[..], &[0x33; 24]].concat();
        Buffers {
            hashes: (0..HASHES as u64 + 6).flat_map(hash).collect(),
            haves: HAVE.repeat(17),
            bytes: vec![0xff; 100],
        }
    }

    pub fn lists(&self) -> Lists<'_> {
        Lists {
            shared: &self.hashes,
            last_sent: &self.hashes,
            their_heads: &self.hashes,
            their_need: &self.hashes,
            haves: &self.haves,
            bytes: &self.bytes,
            sent: &self.hashes,
        }
    }
}

/// The library's answer to one check, which must be the model's.
fn check(words: &[u64; WORDS], lists: &Lists) -> bool {
    let answer = check_many(&[(*words, *lists)])[0];
    assert_eq!(answer, checked(words, lists), "{words:?}");
    assert!([[0; 4], REFUSED].contains(&answer), "{answer:?}");
    answer == [0; 4]
}

/// The word of each list's count, and its limit: shared, last sent, their heads,
/// need and have, sent.
const COUNTS: [(usize, u64); 6] = [
    (0, HASHES as u64),
    (1, HASHES as u64),
    (3, HASHES as u64),
    (5, HASHES as u64),
    (7, HAVES as u64),
    (8, SENT_HASHES as u64),
];

/// A session in which every list is there and has `count` items, or as many as it may.
pub fn all_of(count: u64) -> [u64; WORDS] {
    let mut words = [0; WORDS];
    for k in [2, 4, 6] {
        words[k] = 1;
    }
    for (word, limit) in COUNTS {
        words[word] = count.min(limit);
    }
    words
}

/// Each count at its limit and past it; absent lists have no count.
#[test]
fn session_counts() {
    let buffers = Buffers::new();
    let lists = buffers.lists();
    assert!(check(&[0; WORDS], &lists));
    assert!(check(&all_of(u64::MAX), &lists));
    for (word, limit) in COUNTS {
        for count in [limit + 1, limit + 2, 1 << 32, 1 << 59, 1 << 63, u64::MAX] {
            for mut words in [[0; WORDS], all_of(0), all_of(u64::MAX)] {
                words[word] = count;
                let absent = [3, 5, 7].contains(&word) && words[word - 1] == 0;
                assert_eq!(check(&words, &lists), absent, "word {word} is {count}");
            }
        }
    }
}

/// Each buffer just long enough, and a byte or a word short of it.
#[test]
fn session_buffers() {
    let buffers = Buffers::new();
    for count in [1, 2, HAVES as u64, HASHES as u64] {
        let words = all_of(count);
        let long = 32 * count as usize;
        let exact = Lists {
            shared: &buffers.hashes[..long],
            last_sent: &buffers.hashes[..long],
            their_heads: &buffers.hashes[..long],
            their_need: &buffers.hashes[..long],
            haves: &buffers.haves[..7 * words[7] as usize],
            bytes: &buffers.bytes,
            sent: &buffers.hashes[..long],
        };
        assert!(check(&words, &exact));
        let short = &buffers.hashes[..long - 1];
        let less = [
            Lists {
                shared: short,
                ..exact
            },
            Lists {
                last_sent: short,
                ..exact
            },
            Lists {
                their_heads: short,
                ..exact
            },
            Lists {
                their_need: short,
                ..exact
            },
            Lists {
                haves: &exact.haves[1..],
                ..exact
            },
            Lists {
                bytes: &exact.bytes[1..],
                ..exact
            },
            Lists {
                sent: short,
                ..exact
            },
        ];
        for (k, lists) in less.iter().enumerate() {
            assert!(!check(&words, lists), "list {k} of {count}");
            // What is absent or empty wants no buffer.
            assert!(check(&[0; WORDS], lists), "list {k} of none");
        }
    }
}

/// Sent hashes that don't ascend are refused, and only these; what stands behind
/// them isn't looked at.
#[test]
fn sent_hashes() {
    let buffers = Buffers::new();
    let words = all_of(SENT_HASHES as u64);
    for k in [0, 1, 2, 511, SENT_HASHES - 3, SENT_HASHES - 2] {
        for other in [0, 1] {
            // Hash k + 1 becomes hash k itself, or the two change places.
            let mut hashes = buffers.hashes.clone();
            let two = hashes[32 * k..32 * (k + 2)].to_vec();
            hashes[32 * k..32 * (k + 2)].rotate_left(32);
            if other == 0 {
                hashes[32 * (k + 1)..32 * (k + 2)].copy_from_slice(&two[32..]);
            }
            let sent = Lists {
                sent: &hashes,
                ..buffers.lists()
            };
            assert!(!check(&words, &sent), "{k}");
            let mut fewer = words;
            fewer[8] = k as u64 + 1;
            assert!(check(&fewer, &sent), "{k}");
            fewer[8] = k as u64 + 2;
            assert!(!check(&fewer, &sent), "{k}");
            let rest = Lists {
                shared: &hashes,
                last_sent: &hashes,
                their_heads: &hashes,
                their_need: &hashes,
                ..buffers.lists()
            };
            assert!(check(&words, &rest), "{k}");
        }
    }
    // Hashes compare byte by byte from the first: one that differs in each place.
    for place in 0..32 {
        let mut hashes = vec![0x7f; 64];
        hashes[place] = 0x7e;
        hashes[32 + (place + 1) % 32] = 0x7d;
        let sent = Lists {
            sent: &hashes,
            ..buffers.lists()
        };
        let mut two = [0; WORDS];
        two[8] = 2;
        assert_eq!(check(&two, &sent), place != 31, "{place}");
    }
}

/// Kept haves with one word changed: places, counts and filters that are bad.
#[test]
fn kept_haves() {
    let buffers = Buffers::new();
    let cases = [
        (0, 36, true),
        (0, 37, false),
        (0, u64::MAX - 63, false),
        (0, u64::MAX, false),
        (1, 3, true),
        (1, 4, false),
        (1, HASHES as u64, false),
        (1, 1 << 59, false),
        (2, 0, false),
        (2, 21, false),
        (3, 0, false),
        (3, 9, false),
        (4, 0, true),
        (4, PROBES as u64, true),
        (4, PROBES as u64 + 1, false),
        (5, 74, true),
        (5, 76, false),
        (5, u64::MAX - 24, false),
        (6, 24, false),
        (6, 26, false),
    ];
    for (word, value, good) in cases {
        for at in [0, 7, 15] {
            let mut haves = buffers.haves.clone();
            haves[7 * at + word] = value;
            let lists = Lists {
                haves: &haves,
                ..buffers.lists()
            };
            let mut words = all_of(16);
            assert_eq!(
                check(&words, &lists),
                good,
                "word {word} of {at} is {value}"
            );
            // The have isn't one of the first `at`, nor of no list.
            words[7] = at as u64;
            assert!(check(&words, &lists), "word {word} of {at}");
            (words[6], words[7]) = (0, 16);
            assert!(check(&words, &lists), "word {word} of {at}");
        }
    }
    // As many last-sync hashes as may be, and one more.
    let bytes = vec![0xff; 32 * (HASHES + 2)];
    for (count, good) in [(HASHES as u64, true), (HASHES as u64 + 1, false)] {
        let haves = [0, count, 20, 10, 7, 0, 25];
        let lists = Lists {
            haves: &haves,
            bytes: &bytes,
            ..buffers.lists()
        };
        assert_eq!(check(&all_of(1), &lists), good, "{count}");
    }
}
