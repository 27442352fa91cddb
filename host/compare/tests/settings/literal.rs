//! Lists and answers written out.

use crate::{answer, append, at, check, choice, three};
use compare::model::settings::MOST;

/// Version 1, station 300, 12 bits, 8 probes, read-only.
const FIRST: [u8; 32] = [
    1, 0, 0, 0, 44, 1, 0, 0, 12, 0, 0, 0, 8, 0, 0, 0, 1, 0, 0, 0, 0, 0, 0, 0, 0, 0, 0, 0, 0, 0, 0,
    0,
];

/// Version 2, the last station, 32 bits, 64 probes.
const SECOND: [u8; 32] = [
    2, 0, 0, 0, 255, 255, 255, 255, 32, 0, 0, 0, 64, 0, 0, 0, 0, 0, 0, 0, 0, 0, 0, 0, 0, 0, 0, 0,
    0, 0, 0, 0,
];

#[test]
fn records_byte_by_byte() {
    let both = [FIRST, SECOND].concat();
    assert_eq!(answer(check(&[]), 0).0, [0, 0, 0, 0]);
    assert_eq!(answer(check(&both), 0).0, [0, 2, 0, 0]);
    assert_eq!(answer(check(&both[..63]), 0).0, [14, 1, 0, 0]);
    assert_eq!(answer(check(&SECOND), 0).0, [0, 1, 0, 0]);
    let other_order = [SECOND, FIRST].concat();
    assert_eq!(answer(check(&other_order), 0).0, [14, 1, 0, 0]);
}

#[test]
fn asked_byte_by_byte() {
    let both = [FIRST, SECOND].concat();
    assert_eq!(answer(at(&both, 300, 1), 0).0, [0, 12, 8, 1]);
    assert_eq!(answer(at(&both, 300, 0), 0).0, [0, 10, 7, 0]);
    assert_eq!(answer(at(&both, MOST, 1), 0).0, [0, 10, 7, 0]);
    assert_eq!(answer(at(&both, MOST, 2), 0).0, [0, 32, 64, 0]);
    assert_eq!(answer(at(&both, 5, 2), 0).0, [0, 10, 7, 0]);
    assert_eq!(answer(at(&[], 0, 0), 0).0, [0, 10, 7, 0]);
    assert_eq!(answer(at(&both[..40], 300, 1), 0).0, [14, 1, 0, 0]);
}

#[test]
fn appended_byte_by_byte() {
    let first = answer(append(&[], 300, choice(12, 8, 1)), 32);
    assert_eq!(first, ([0, 32, 0, 0], FIRST.to_vec()));
    let second = answer(append(&FIRST, MOST, choice(32, 64, 0)), 32);
    assert_eq!(second, ([0, 32, 0, 0], SECOND.to_vec()));
    let refused = |call, room| answer(call, room).0;
    assert_eq!(
        refused(append(&FIRST, 1, choice(33, 1, 0)), 32),
        [15, 0, 0, 0]
    );
    assert_eq!(
        refused(append(&FIRST, 1, choice(32, 1, 0)), 31),
        [7, 32, 0, 0]
    );
    // 14 comes before 15, and 15 before 7.
    let bad = &three()[..95];
    assert_eq!(refused(append(bad, 1, choice(33, 1, 0)), 0), [14, 2, 0, 0]);
    assert_eq!(
        refused(append(&FIRST, 1, choice(33, 1, 0)), 0),
        [15, 0, 0, 0]
    );
}
