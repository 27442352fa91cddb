//! Bytes that are ignored (document 02, M-103): behind the fields of filters, and after
//! the flags section. Every message of the other tests is compared in these numbers
//! too; here are those that have such bytes in each place.

use crate::{agree, ROOM};
use bisquetower::raw;
use compare::inputs::message::{filter_string, Draft};
use compare::inputs::table::Likeness;
use compare::inputs::Random;
use compare::model::have::HAVES;

/// What the library alone says: each have's number, their sum, and the bytes after the
/// flags section.
fn ignored(s: &[u8]) -> ([u64; HAVES], u64, u64) {
    let [mut haves, mut chunks] = ROOM.map(|room| vec![0; room]);
    let mut ignored = [u64::MAX; HAVES];
    let words = raw::read_message(s, &mut haves, &mut chunks, &mut ignored);
    assert_eq!(words[0], 0);
    (ignored, words[12], words[13])
}

/// Bytes behind the filter of each have, and after the flags, of every small length,
/// against crate and model.
#[test]
fn every_small_length() {
    let mut random = Random(31);
    // Some entries; none, with numbers of its own; no bytes, behind which nothing stands.
    let strings = [filter_string(20, 10, 7), vec![0, 3, 0x80, 1], Vec::new()];
    for haves in 0..=4 {
        for behind in 0..9 {
            for after in 0..9 {
                let mut draft = Draft {
                    heads: random.hashes(1, Likeness::Spread),
                    chunks: vec![random.bytes(5)],
                    flags: Some(vec![0x02, 0x84]),
                    after: random.bytes(after),
                    ..Draft::new()
                };
                let mut expected = [u64::MAX; HAVES];
                for (k, number) in expected.iter_mut().take(haves).enumerate() {
                    let mut string = strings[k % strings.len()].clone();
                    let bytes = match string.is_empty() {
                        true => 0,
                        false => (behind + k) % 9,
                    };
                    string.extend(random.bytes(bytes));
                    draft
                        .haves
                        .push((random.hashes(k, Likeness::Spread), string));
                    *number = bytes as u64;
                }
                let s = draft.bytes();
                let tally = agree(&[&s]);
                assert_eq!(tally.rewritten, 1);
                let sum = expected[..haves].iter().sum();
                assert_eq!(ignored(&s), (expected, sum, after as u64));
            }
        }
    }
}

/// Without a flags section nothing stands after it.
#[test]
fn no_section() {
    let draft = Draft {
        haves: vec![(Vec::new(), [filter_string(3, 10, 7), vec![1; 5]].concat())],
        chunks: vec![vec![2, 2, 0x84]],
        ..Draft::new()
    };
    assert_eq!(draft.flags, None);
    let s = draft.bytes();
    agree(&[&s]);
    let (each, sum, behind) = ignored(&s);
    assert_eq!((each[0], each[1], sum, behind), (5, u64::MAX, 5, 0));
}

/// As many haves as there may be, each with more bytes behind its field than the one
/// before it; and their sum where it is largest.
#[test]
fn sixteen_haves() {
    let with = |behind: &dyn Fn(usize) -> usize| {
        let string = |k| [filter_string(1, 1, 0), vec![0x5a; behind(k)]].concat();
        let draft = Draft {
            haves: (0..HAVES).map(|k| (Vec::new(), string(k))).collect(),
            ..Draft::new()
        };
        draft.bytes()
    };
    let s = with(&|k| 300 * k);
    agree(&[&s]);
    let each: Vec<u64> = (0..HAVES as u64).map(|k| 300 * k).collect();
    let (numbers, sum, _) = ignored(&s);
    assert_eq!((&numbers[..], sum), (&each[..], 36_000));

    let s = with(&|_| 262_000);
    agree(&[&s]);
    assert_eq!(ignored(&s).1, 16 * 262_000);
}

/// A message that is refused, and one for whose haves there is no room, leave the list
/// as it was.
#[test]
fn refusals_leave_the_numbers() {
    let draft = Draft {
        haves: vec![(Vec::new(), [filter_string(3, 10, 7), vec![1; 5]].concat())],
        ..Draft::new()
    };
    let s = draft.bytes();
    let mut numbers = [7; HAVES];
    let cut = raw::read_message(&s[..s.len() - 1], &mut [0; 7], &mut [], &mut numbers);
    assert_eq!((cut[0], numbers), (1, [7; HAVES]));
    let short = raw::read_message(&s, &mut [0; 6], &mut [], &mut numbers);
    assert_eq!((&short[..2], numbers), (&[7, 7][..], [7; HAVES]));
}
