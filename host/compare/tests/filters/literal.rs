//! P6 to P10 of document 01, as they stand there.

use crate::field_of;
use bisquetower::raw;
use compare::inputs::filter::hash_of;
use compare::model::filter;
use compare::published;

/// What the filter of bytes that are read here contains, asked of the library alone.
fn contains(filter: &[u8], words: [u32; 3]) -> bool {
    let [first, entries, bits, probes, place, length, ..] =
        raw::read_filter(filter, 0, filter.len());
    assert_eq!(first, 0);
    let have = [0, 0, entries, bits, probes, place, length];
    let [first, yes, ..] = raw::filters_contain(filter, &have, &hash_of(words));
    assert_eq!(first, 0);
    yes == 1
}

/// P6: the seven probes of words 1, 2, 3 and m = 16 in model and library, and the
/// filter of that hash alone in model, library and crate.
#[test]
fn p6_probes_and_filter_of_one_hash() {
    let hash = hash_of([1, 2, 3]);
    let probes = [1, 3, 8, 0, 11, 9, 10];
    assert_eq!(filter::probes_of(&hash, 16, 7), probes);
    // One probe more sets one bit more.
    let mut set = 0u16;
    for (k, probe) in probes.iter().enumerate() {
        set |= 1 << probe;
        let field = field_of(10, k as u64 + 1, &hash);
        assert_eq!(field, set.to_le_bytes());
    }
    let mut out = [0; 5];
    let field = field_of(10, 7, &hash);
    assert_eq!(raw::write_filter(1, 10, 7, &field, &mut out), [0, 5, 0, 0]);
    assert_eq!(out, [0x01, 0x0a, 0x07, 0x0b, 0x0f]);
    assert_eq!(published::built(&hash).field, [0x0b, 0x0f]);
}

/// P7: that filter contains words 1, 0, 0, a false yes, and not 2, 0, 0.
#[test]
fn p7_a_false_yes() {
    let filter = [0x01, 0x0a, 0x07, 0x0b, 0x0f];
    assert!(contains(&filter, [1, 2, 3]));
    assert!(contains(&filter, [1, 0, 0]));
    assert!(!contains(&filter, [2, 0, 0]));
}

/// P8: `01 00 07` is 5.
#[test]
fn p8_entries_without_bits() {
    let read = raw::read_filter(&[0x01, 0x00, 0x07], 0, 3);
    assert_eq!(read, [5, 0, 0, 0, 0, 0, 0, 0]);
}

/// P9: `01 0a 41` and two bytes is 4, `01 0a 40` and two bytes is read.
#[test]
fn p9_probes() {
    let read = |probes| raw::read_filter(&[0x01, 0x0a, probes, 0, 0], 0, 5);
    assert_eq!(read(0x41), [4, 0, 0, 0, 0, 0, 0, 0]);
    assert_eq!(read(0x40), [0, 1, 10, 64, 3, 2, 5, 0]);
}

/// P10: p = 0 gives one probe, in a filter that is built and in one that is read.
#[test]
fn p10_no_probes_are_one() {
    assert_eq!(field_of(10, 0, &hash_of([1, 2, 3])), [0x02, 0x00]);
    let filter = [0x01, 0x0a, 0x00, 0x02, 0x00];
    assert!(contains(&filter, [1, 5, 5]));
    assert!(!contains(&filter, [2, 5, 5]));
}
