//! Lists of haves and hashes that are refused with 10, 4 or 1.

use crate::{random_filter, with_field};
use bisquetower::limits::{HASHES, HAVES, HAVES_WORDS, LIST_SIZE, PROBES};
use compare::filters::compare_question;
use compare::inputs::Seed;
use compare::model::filter::Filter;
use compare::model::have::HAVE_WORDS;

/// A hash that is nowhere near an edge.
const HASH: [u8; 32] = *b"32 bytes that are hash to no one";

fn question(s: &[u8], haves: &[u64], hash: &[u8]) -> [u64; 4] {
    compare_question(s, haves, hash).unwrap_or_else(|disagreement| panic!("{disagreement}"))
}

const BAD: [u64; 4] = [10, 0, 0, 0];

/// A good have over a hundred bytes: two last-sync hashes at 3, and a filter of 20
/// entries, 10 bits and 7 probes, its field of 25 bytes at 70.
const GOOD: [u64; HAVE_WORDS] = [3, 2, 20, 10, 7, 70, 25];

/// Haves with one number at or past an edge, alone and as the last of sixteen and of
/// seventeen, against the model: 10 where it stands among the first sixteen.
#[test]
fn refused_haves() {
    let s = [0xff; 100];
    let most = u64::from(u32::MAX);
    let far = [most, most + 1, 1 << 59, 1 << 63, u64::MAX - 1, u64::MAX];
    // Word, value, and whether the have is still good.
    let mut cases = vec![
        (0, 0, true),
        (0, 36, true),
        (0, 37, false),
        (1, 0, true),
        (0, 101, false),
        (1, 3, true),
        (1, 4, false),
        (1, HASHES as u64 + 1, false),
        (2, 19, false),
        (2, 21, false),
        (2, 0, false),
        (3, 0, false),
        (3, 9, false),
        (3, 11, false),
        (4, 0, true),
        (4, PROBES as u64, true),
        (4, PROBES as u64 + 1, false),
        (5, 0, true),
        (5, 75, true),
        (5, 76, false),
        (6, 24, false),
        (6, 26, false),
        (6, 0, false),
    ];
    for word in 0..HAVE_WORDS {
        cases.extend(far.map(|value| (word, value, false)));
    }
    for (word, value, good) in cases {
        let mut have = GOOD;
        have[word] = value;
        let told = format!("word {word} is {value}");
        let expected = if good { [0, 1, 0, 0] } else { BAD };
        assert_eq!(question(&s, &have, &HASH), expected, "{told}");
        let last = [GOOD.repeat(HAVES - 1), have.to_vec()].concat();
        assert_eq!(question(&s, &last, &HASH), expected, "{told}");
        // One more isn't looked at, and is one too many.
        let over = [GOOD.repeat(HAVES), have.to_vec()].concat();
        assert_eq!(question(&s, &over, &HASH), [4, 0, 0, 0], "{told}");
        let first = [have.to_vec(), GOOD.repeat(HAVES)].concat();
        let expected = if good { [4, 0, 0, 0] } else { BAD };
        assert_eq!(question(&s, &first, &HASH), expected, "{told}");
    }
}

/// Places and lengths of a field whose sum wraps or just fits, against the model.
#[test]
fn refused_places() {
    let s = vec![0xff; 100];
    let have = |place| [0, 0, 20, 10, 7, place, 25];
    assert_eq!(question(&s, &have(75), &HASH), [0, 1, 0, 0]);
    for place in [76, u64::MAX - 25, u64::MAX - 24, u64::MAX] {
        assert_eq!(question(&s, &have(place), &HASH), BAD, "{place}");
    }
}

/// Places and numbers of last-sync hashes that just fit, stand one past the end, or
/// whose product or sum wraps, against the model.
#[test]
fn refused_last_sync_places() {
    let s = [0xff; 100];
    let have = |place, count| [place, count, 20, 10, 7, 70, 25];
    for (place, count) in [(0, 3), (4, 3), (68, 1), (100, 0)] {
        let told = format!("{count} at {place}");
        assert_eq!(
            question(&s, &have(place, count), &HASH),
            [0, 1, 0, 0],
            "{told}"
        );
        let past = have(place + 1, count);
        let expected = if place == 0 { [0, 1, 0, 0] } else { BAD };
        assert_eq!(question(&s, &past, &HASH), expected, "past {told}");
    }
    // 2^59 hashes are 2^64 bytes.
    let counts = [4, 1 << 27, 1 << 58, 1 << 59, (1 << 59) + 1, u64::MAX];
    for count in counts {
        for place in [0, 4, 100, u64::MAX - 31, u64::MAX] {
            let told = format!("{count} at {place}");
            assert_eq!(question(&s, &have(place, count), &HASH), BAD, "{told}");
        }
    }
    for (place, count) in [(u64::MAX - 31, 1), (u64::MAX - 95, 3), (u64::MAX, 0)] {
        let told = format!("{count} at {place}");
        assert_eq!(question(&s, &have(place, count), &HASH), BAD, "{told}");
    }
}

/// As many last-sync hashes as there may be and one more, all of them there, in one have
/// and in one of several, against the model: 4 after 10, before the hash's length.
#[test]
fn too_many_last_sync_hashes() {
    const LONG: [u64; 4] = [4, 0, 0, 0];
    let most = HASHES as u64;
    let s = vec![0xff; LIST_SIZE + 32];
    let have = |count| [0, count, 20, 10, 7, 70, 25];
    let mut bad = GOOD;
    bad[4] = PROBES as u64 + 1;
    for (count, expected) in [(most, [0, 1, 0, 0]), (most + 1, LONG), (most + 2, BAD)] {
        let one = have(count);
        assert_eq!(question(&s, &one, &HASH), expected, "{count}");
        for before in [1, 7, HAVES - 1] {
            let several = [GOOD.repeat(before), one.to_vec()].concat();
            assert_eq!(question(&s, &several, &HASH), expected, "{count}");
        }
        let many = [one.to_vec(), GOOD.repeat(HAVES)].concat();
        let first = if count > most + 1 { BAD } else { LONG };
        assert_eq!(question(&s, &many, &HASH), first, "{count}");
        // A bad have after it comes first, a hash of another length last.
        let both = [one, bad].concat();
        assert_eq!(question(&s, &both, &HASH), BAD, "{count}");
        let short = if count > most { expected } else { [1, 0, 0, 0] };
        assert_eq!(question(&s, &one, &HASH[..31]), short, "{count}");
    }
}

/// Lists that aren't whole records, too many haves and hashes of other lengths,
/// together and alone, against the model: 10 before 4 before 1.
#[test]
fn refused_lists_and_hashes() {
    let s = [0xff; 100];
    let long = [0x5a; 64];
    let many = GOOD.repeat(HAVES + 2);
    for words in 0..=many.len() {
        let haves = &many[..words];
        for length in [0, 1, 12, 31, 32, 33, 64] {
            let expected = match length {
                _ if words % HAVE_WORDS != 0 => BAD,
                _ if words > HAVES_WORDS => [4, 0, 0, 0],
                33.. => [4, 0, 0, 0],
                32 => [0, u64::from(words > 0), 0, 0],
                _ => [1, 0, 0, 0],
            };
            let told = format!("{words} words, {length} bytes");
            assert_eq!(question(&s, haves, &long[..length]), expected, "{told}");
        }
    }
    // A bad have comes before the hash's length.
    let mut bad = GOOD;
    bad[4] = PROBES as u64 + 1;
    for length in [0, 31, 32, 33] {
        assert_eq!(question(&s, &bad, &long[..length]), BAD);
    }
}

/// Random haves with some words changed, against the model.
#[test]
fn random_haves_damaged() {
    let seed = Seed::fixed();
    let mut random = seed.random(0);
    let mut answers = [0; 11];
    for round in 0..20_000 {
        let count = 1 + random.below(3);
        let parts: Vec<_> = (0..count).map(|_| random_filter(&mut random)).collect();
        let filters: Vec<Filter> = parts.iter().map(with_field).collect();
        let (s, mut haves) = random.haves(&filters);
        for _ in 0..random.below(3) {
            let word = random.below(haves.len());
            haves[word] = match random.below(4) {
                0 => random.number(),
                1 => haves[word].wrapping_sub(1),
                2 => haves[word] + 1,
                _ => random.below(s.len() + 2) as u64,
            };
        }
        if random.one_in(20) {
            haves.pop();
        }
        let length = if random.one_in(10) {
            31 + 2 * random.below(2)
        } else {
            32
        };
        let hash = random.bytes(length);
        match compare_question(&s, &haves, &hash) {
            Ok([first, ..]) => answers[first as usize] += 1,
            Err(disagreement) => panic!("round {round}: {disagreement}"),
        }
    }
    assert!(
        [0, 1, 4, 10].iter().all(|&first| answers[first] > 100),
        "{answers:?}"
    );
}
