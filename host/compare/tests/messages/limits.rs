//! Messages at each size of document 01 and one past it, whole and cut, and
//! numbers that aren't in their shortest form.

use crate::{agree, ask, first};
use bisquetower::limits::{FIELD_SIZE, HASHES, HAVES, PROBES};
use compare::inputs::message::{filter_string, message_of_size, Draft};
use compare::inputs::table::Likeness;
use compare::inputs::Random;
use compare::model::message::{CHUNKS, MESSAGE};
use compare::model::number_bytes;

/// A random message in which every part is there and good.
fn draft(random: &mut Random) -> Draft {
    let hashes = |random: &mut Random, most| {
        let count = 1 + random.below(most);
        random.hashes(count, Likeness::Spread)
    };
    Draft {
        first: random.of(&[0x42, 0x43]),
        heads: hashes(random, 3),
        need: hashes(random, 3),
        haves: vec![(hashes(random, 2), filter_string(20, 10, 7))],
        chunks: vec![random.bytes(5), random.bytes(9)],
        flags: Some(vec![0x02, 0x84]),
        after: random.bytes(2),
    }
}

/// Each hash list of as many hashes as there may be and of one more, with hashes for all
/// of them and for none, against crate and model.
#[test]
fn hash_lists() {
    let mut random = Random(11);
    for round in 0..4 {
        let good = draft(&mut random);
        let place = 1;
        let need = place + 1 + 32 * good.heads.len();
        let last_sync = need + 1 + 32 * good.need.len() + 1;
        for (which, place) in [place, need, last_sync].into_iter().enumerate() {
            let with = |count: usize, random: &mut Random| {
                let mut draft = good.clone();
                let hashes = random.hashes(count, Likeness::Spread);
                match which {
                    0 => draft.heads = hashes,
                    1 => draft.need = hashes,
                    _ => draft.haves[0].0 = hashes,
                }
                draft.bytes()
            };
            let full = with(HASHES, &mut random);
            assert_eq!(agree(&[&full]).rewritten, 1);
            let (words, haves, _) = ask(&full);
            let counts = [words[3], words[5], haves[1]];
            assert_eq!((words[0], counts[which]), (0, HASHES as u64), "{round}");
            let over = with(HASHES + 1, &mut random);
            for cut in [over.len(), place + 2, place + 2 + 40] {
                assert_eq!(first(&over[..cut]), [4, place as u64], "{which}, {round}");
            }
        }
    }
}

/// As many haves as there may be and one more, whole and cut, against crate and model.
#[test]
fn haves() {
    let mut random = Random(12);
    for _ in 0..4 {
        let mut draft = draft(&mut random);
        draft.haves = vec![draft.haves[0].clone(); HAVES];
        let full = draft.bytes();
        assert_eq!(agree(&[&full]).rewritten, 1);
        assert_eq!(ask(&full).0[7], HAVES as u64);
        let place = 3 + 32 * (draft.heads.len() + draft.need.len());
        draft.haves.push(draft.haves[0].clone());
        let over = draft.bytes();
        for cut in [over.len(), place + 1, place + 50] {
            assert_eq!(first(&over[..cut]), [4, place as u64]);
        }
    }
}

/// As many chunks as there may be and one more, of no bytes and of some, whole and cut,
/// against crate and model.
#[test]
fn chunks() {
    let mut random = Random(13);
    for most in [1, 4, 200] {
        let mut draft = draft(&mut random);
        draft.haves.clear();
        let place = 4 + 32 * (draft.heads.len() + draft.need.len());
        let chunk = |random: &mut Random| {
            let length = random.below(most);
            random.bytes(length)
        };
        draft.chunks = (0..CHUNKS).map(|_| chunk(&mut random)).collect();
        let full = draft.bytes();
        assert_eq!(agree(&[&full]).rewritten, 1);
        assert_eq!(ask(&full).0[9], CHUNKS as u64);
        draft.chunks.push(Vec::new());
        let over = draft.bytes();
        // The count has three bytes.
        for cut in [over.len(), place + 3, place + 10] {
            assert_eq!(first(&over[..cut]), [4, place as u64]);
        }
    }
}

/// Fields as long as they may be and longer, as many probes and one more, in the first
/// have and in the last, against crate and model.
#[test]
fn fields_and_probes() {
    let mut random = Random(14);
    let (field, probes) = (8 * FIELD_SIZE as u64, PROBES as u64);
    let good = [(field, 1, probes), (field / 64, 64, 0), (1, field - 7, 7)];
    let over = [
        (field + 1, 1, 7),
        (field / 10 + 1, 10, 7),
        (field + 64, 8, 7),
        (3, 5, probes + 1),
    ];
    for last in [0, HAVES - 1] {
        let mut draft = draft(&mut random);
        draft.haves = vec![draft.haves[0].clone(); HAVES];
        for (entries, bits, probes) in good {
            draft.haves[last].1 = filter_string(entries, bits, probes);
            let s = draft.bytes();
            assert_eq!(agree(&[&s]).rewritten, 1);
            let (words, haves, _) = ask(&s);
            let size = (entries * bits).div_ceil(8);
            assert_eq!((words[0], haves[7 * last + 6]), (0, size));
        }
        for (entries, bits, probes) in over {
            let mut string = filter_string(entries, bits, probes);
            // The field is not looked at, so it may be cut.
            for cut in [string.len(), 12] {
                string.truncate(cut);
                draft.haves[last].1 = string.clone();
                let s = draft.bytes();
                assert_eq!(first(&s)[0], 4, "{entries}, {bits}, {probes}");
            }
        }
        draft.haves[last].1 = filter_string(3, 0, probes + 1);
        assert_eq!(first(&draft.bytes())[0], 5);
    }
}

/// As many bytes as there may be and one more, against crate and model; one more is told before
/// anything else. With an empty flags section the message doesn't fit when it is
/// written with flags of three bytes, which is 4 as well.
#[test]
fn total_size() {
    let full = message_of_size(MESSAGE);
    let most = MESSAGE as u64;
    assert_eq!(full.len(), MESSAGE);
    assert_eq!(agree(&[&full]).rewritten, 1);
    let (words, _, chunks) = ask(&full);
    assert_eq!((words[0], words[9], words[11]), (0, 1, most));
    assert_eq!(chunks[0] + chunks[1], most);

    let mut flagged = message_of_size(MESSAGE - 1);
    flagged.push(0);
    assert_eq!(agree(&[&flagged]).rewritten, 1);
    assert_eq!(ask(&flagged).0[10], 0);

    for over in [message_of_size(MESSAGE + 1), vec![0x41; MESSAGE + 1]] {
        assert_eq!(first(&over), [4, 0]);
    }
    assert_eq!(first(&vec![0x41; MESSAGE]), [2, 0x41]);
}

/// Every count and length of a message as `80 00`, and one too many, against crate
/// and model: 3 with its place.
#[test]
fn numbers_in_longer_forms() {
    let mut random = Random(15);
    let draft = draft(&mut random);
    let spelt = |which: usize, form: &[u8]| {
        let mut number = 0;
        draft.spelt(&mut |n| {
            number += 1;
            match number - 1 == which {
                true => form.to_vec(),
                false => number_bytes(n),
            }
        })
    };
    let mut numbers = 0;
    draft.spelt(&mut |n| {
        numbers += 1;
        number_bytes(n)
    });
    assert_eq!(numbers, 9);
    for which in 0..numbers {
        let zero = spelt(which, &[0x80, 0x00]);
        // Where the number stands: another one there makes the first other byte.
        let other = spelt(which, &[0xff, 0x00]);
        let mut pairs = zero.iter().zip(&other);
        let place = pairs.position(|(a, b)| a != b).expect("they differ") as u64;
        assert_eq!(first(&zero), [3, place], "{which}");
        assert_eq!(first(&spelt(which, &[0x81, 0x80, 0x00])), [3, place]);
        let cut = &zero[..place as usize + 1];
        assert_eq!(first(cut), [1, place], "{which}");
    }
}
