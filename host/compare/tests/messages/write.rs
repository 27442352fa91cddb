//! Writing: the bytes of messages that are passed as parts, in buffers of every
//! size, and what is read of them again.

use crate::{agree, ask};
use bisquetower::message::{View, HAVES};
use compare::inputs::message::{good_messages, OwnParts};
use compare::inputs::Seed;
use compare::messages::parts::{parts, Chunks};
use compare::model::message::bytes;
use compare::published;
use compare::writes::{compare_rooms, compare_write, Write};

/// Compares a write into room enough; returns the bytes.
fn written(parts: &OwnParts) -> Vec<u8> {
    let write = Write::Message(parts.parts());
    let mut out = vec![0; bytes(&parts.parts()).map_or(0, |bytes| bytes.len())];
    compare_write(write, out.len()).unwrap_or_else(|disagreement| panic!("{disagreement}"));
    let answer = write.library(&mut out);
    assert_eq!(answer, [0, out.len() as u64, 0, 0]);
    out
}

/// Good messages, read by the library and written from where their parts stand,
/// into buffers of every size, against crate and model.
#[test]
fn every_size() {
    for s in good_messages() {
        let (words, haves, chunks) = ask(&s);
        let view = View::of(&s, words, &haves, &chunks, [0; HAVES]).expect("a good message");
        let chunks = Chunks::of(&view);
        let parts = parts(&view, &chunks);
        let wanted = bytes(&parts).unwrap().len();
        let answers = compare_rooms(Write::Message(parts), 0..=wanted + 3);
        let answers = answers.unwrap_or_else(|disagreement| panic!("{disagreement}"));
        let (short, enough) = answers.split_at(wanted);
        assert!(short
            .iter()
            .all(|answer| *answer == [7, wanted as u64, 0, 0]));
        assert_eq!(enough, [[0, wanted as u64, 0, 0]; 4]);
    }
}

/// Every flags value up to 260 and larger ones, against crate and model: what has
/// the 80 already keeps it, and from 256 on there is no section.
#[test]
fn flags() {
    let large = [511, 512, 1 << 32, (1 << 32) + 5, u64::MAX - 255, u64::MAX];
    for flags in (0..=260).chain(large) {
        let parts = OwnParts {
            version: 1,
            flags,
            ..OwnParts::default()
        };
        let section = match u8::try_from(flags) {
            Ok(low) => vec![2, 2, 0x80 | low],
            Err(_) => Vec::new(),
        };
        let expected = [vec![0x42, 0, 0, 0, 0], section].concat();
        assert_eq!(written(&parts), expected, "{flags}");
    }
}

/// Versions, against crate and model: 2 is the second kind, any other the first.
#[test]
fn versions() {
    for version in [0, 1, 2, 3, 0x42, 0x43, 258, 1 << 32, u64::MAX] {
        let parts = OwnParts {
            version,
            flags: 256,
            ..OwnParts::default()
        };
        let first = if version == 2 { 0x43 } else { 0x42 };
        assert_eq!(written(&parts), [first, 0, 0, 0, 0], "{version}");
    }
}

/// Filters without entries are no bytes, whatever their bits and probes; hashes
/// keep their order and repeats.
#[test]
fn filters_without_entries_and_hashes_in_any_order() {
    let s = [[9; 32], [1; 32], [9; 32]].concat();
    let parts = OwnParts {
        version: 2,
        heads: s.clone(),
        need: s[..64].to_vec(),
        haves: vec![0, 3, 0, 3, 200, 96, 0],
        s: s.clone(),
        flags: 300,
        ..OwnParts::default()
    };
    let lists = [&[0x43, 3][..], &s, &[2], &s[..64], &[1, 3], &s].concat();
    assert_eq!(written(&parts), [&lists[..], &[0, 0]].concat());
}

/// Random messages into random buffers, against crate and model.
#[test]
fn random_writes() {
    let seed = Seed::fixed();
    let mut random = seed.random(0);
    let mut answers = [0; 11];
    for round in 0..20_000 {
        let parts = random.own_parts();
        let wanted = bytes(&parts.parts()).expect("they keep the rules").len();
        let room = random.below(2 * wanted);
        match compare_write(Write::Message(parts.parts()), room) {
            Ok([first, ..]) => answers[first as usize] += 1,
            Err(disagreement) => panic!("round {round}: {disagreement}"),
        }
    }
    assert!(answers[0] > 5_000 && answers[7] > 5_000, "{answers:?}");
}

/// What is written is read back: by the crate as the message that was passed, and
/// by the library as the crate reads it, where filters have entries or are the
/// default and flags are below 80; otherwise what is read is written as it stands.
#[test]
fn round_trips() {
    let seed = Seed::fixed();
    let mut random = seed.random(1);
    let mut same = 0;
    for round in 0..4_000 {
        let parts = random.own_parts();
        let s = written(&parts);
        let tally = agree(&[&s]);
        assert_eq!(tally.rewritten, 1, "round {round}");
        let read = published::read_message(&s).expect("it was written");
        let records = parts.haves.chunks(7);
        let kept = records
            .clone()
            .all(|have| have[2] > 0 || have[3..5] == [10, 7]);
        if kept && !(0x80..256).contains(&parts.flags) {
            assert_eq!(read, published::message(&parts.parts()), "{round}");
            same += 1;
        }
        assert_eq!(read.encode(), s, "round {round}");
    }
    assert!((500..3_900).contains(&same), "{same}");
}
