//! Filters of 10 bits and 7 probes, built and asked.

use crate::measure::{line, Line};
use bisquetower::raw;
use crate_under_test::facade::{self, BloomFilter, ChangeHash};
use std::hint::black_box;

const BITS: u64 = 10;
const PROBES: u64 = 7;

pub fn measure_all() {
    for (size, entries) in [
        ("16 entries", 16),
        ("256 entries", 256),
        ("1,024 entries", 1_024),
    ] {
        let hashes = hashes(2 * entries);
        let (added, others) = hashes.split_at(entries);
        build_filter(size, added);
        probe_filter("probe filter, hits", size, added, added);
        probe_filter("probe filter, misses", size, added, others);
    }
}

/// Hashes that are as good as random (SplitMix64), the same each time.
fn hashes(count: usize) -> Vec<[u8; 32]> {
    let mut state = 0u64;
    let mut word = || {
        state = state.wrapping_add(0x9e37_79b9_7f4a_7c15);
        let mut z = state;
        z = (z ^ (z >> 30)).wrapping_mul(0xbf58_476d_1ce4_e5b9);
        z = (z ^ (z >> 27)).wrapping_mul(0x94d0_49bb_1331_11eb);
        (z ^ (z >> 31)).to_le_bytes()
    };
    let mut hash = || std::array::from_fn(|_| word());
    let hashes = (0..count).map(|_| hash());
    hashes
        .map(|words: [[u8; 8]; 4]| words.concat().try_into().expect("32 bytes"))
        .collect()
}

fn change_hashes(hashes: &[[u8; 32]]) -> Vec<ChangeHash> {
    hashes.iter().copied().map(ChangeHash).collect()
}

/// The library's field and the crate's filter of these hashes, found equal.
fn both(added: &[[u8; 32]]) -> (Vec<u8>, BloomFilter) {
    let filter = BloomFilter::from_hashes(change_hashes(added).iter());
    let published = facade::filter_parts(&filter).field;
    let mut field = vec![0xff; published.len()];
    let [first, ..] = raw::build_filter(BITS, PROBES, &added.concat(), &mut field);
    assert_eq!((first, &field), (0, &published));
    (field, filter)
}

/// A filter of the crate's says nothing of itself that costs nothing, so the fields
/// are compared beforehand, and a run's number is how many hashes went in.
fn build_filter(size: &str, added: &[[u8; 32]]) {
    let (mut field, _) = both(added);
    let lent = added.concat();
    let library = || {
        let hashes = black_box(&lent[..]);
        let [first, ..] = raw::build_filter(BITS, PROBES, hashes, &mut field);
        black_box(&field);
        first + hashes.len() as u64 / 32
    };
    let list = change_hashes(added);
    let published = || {
        let hashes = black_box(&list[..]);
        black_box(BloomFilter::from_hashes(hashes.iter()));
        hashes.len() as u64
    };
    let what = Line {
        name: "build filter",
        size,
        calls: 1,
        note: "library: into a lent buffer; crate: a Vec for the field, one for each hash's probes",
    };
    line(what, library, published);
}

/// A run's number is how many hashes are contained. Of those that weren't added one in
/// a hundred is.
fn probe_filter(name: &str, size: &str, added: &[[u8; 32]], asked: &[[u8; 32]]) {
    let (field, filter) = both(added);
    let entries = added.len() as u64;
    let have = [0, 0, entries, BITS, PROBES, 0, field.len() as u64];
    let library = || {
        let (s, haves) = (black_box(&field[..]), black_box(&have[..]));
        let answers = asked
            .iter()
            .map(|hash| raw::filters_contain(s, haves, hash));
        answers.map(|[_, yes, ..]| yes).sum()
    };
    let list = change_hashes(asked);
    let published = || {
        let filter = black_box(&filter);
        let answers = list.iter().map(|hash| filter.contains_hash(hash));
        answers.map(u64::from).sum()
    };
    let what = Line {
        name,
        size,
        calls: asked.len(),
        note: "library: tests the have's numbers each time; crate: a Vec of all probes first",
    };
    line(what, library, published);
}
