//! Records that go behind a list.

use crate::{agree, answer, append, at, check, choice, setting, three, APPEND};
use compare::inputs::settings::settings_bytes;
use compare::inputs::Random;
use compare::model::settings::{Choice, MOST};
use compare::tables::Rooms;

/// Every choice and station around their bounds, behind no record and behind three.
#[test]
fn bounds_of_a_new_setting() {
    const ABOVE: u64 = 1 << 32;
    let bits = [
        0,
        1,
        2,
        10,
        31,
        32,
        33,
        255,
        256,
        ABOVE,
        ABOVE + 10,
        u64::MAX,
    ];
    let probes = [0, 1, 2, 7, 63, 64, 65, 256, ABOVE, ABOVE + 7, u64::MAX];
    let read_only = [0, 1, 2, 255, 256, ABOVE, ABOVE + 1, u64::MAX];
    let stations = [0, 1, 255, 256, MOST - 1, MOST, ABOVE, ABOVE + 7, u64::MAX];
    let lists = [Vec::new(), three()];
    let mut calls = Vec::new();
    let mut good = 0;
    for list in &lists {
        for bits in bits {
            for probes in probes {
                for read_only in read_only {
                    for station in stations {
                        let choice = choice(bits, probes, read_only);
                        calls.push((append(list, station, choice), Rooms::One(40)));
                        let allowed = (1..=32).contains(&bits)
                            && (1..=64).contains(&probes)
                            && read_only <= 1
                            && station <= MOST;
                        good += u64::from(allowed);
                    }
                }
            }
        }
    }
    let tally = agree(&calls);
    // Both fills of a buffer.
    assert_eq!(good, 2 * 5 * 5 * 2 * 6);
    assert_eq!(tally.of(APPEND, 0), 2 * good);
    assert_eq!(tally.of(APPEND, 15), 2 * (calls.len() as u64 - good));
}

/// A buffer is written from its start, 32 bytes and no more, or not at all.
#[test]
fn buffers() {
    let (list, good) = (three(), choice(12, 5, 1));
    for rooms in [0, 1, 31, 32, 33, 40, 64].map(Rooms::One) {
        agree(&[(append(&list, 3, good), rooms)]);
    }
    let tally = agree(&[
        (append(&list, 3, good), Rooms::Every),
        (append(&[], 3, good), Rooms::Every),
        (append(&list[..95], 3, good), Rooms::Every),
        (append(&list, 3, choice(0, 5, 1)), Rooms::Every),
    ]);
    // Lengths 0 to 35, of two fills.
    assert_eq!(tally.of(APPEND, 0), 2 * 2 * 4);
    assert_eq!(tally.of(APPEND, 7), 2 * 2 * 32);
    assert_eq!([14, 15].map(|word| tally.of(APPEND, word)), [72, 72]);
    let (words, record) = answer(append(&list, 3, good), 40);
    assert_eq!(words, [0, 32, 0, 0]);
    assert_eq!(record, setting(6, 3, good).bytes());
    for room in [0, 31] {
        assert_eq!(answer(append(&list, 3, good), room).0, [7, 32, 0, 0]);
    }
}

/// The last version but one leaves one, and the last none.
#[test]
fn no_version_is_left() {
    let good = choice(12, 5, 1);
    let list = settings_bytes(&[setting(MOST - 1, 1, good)]);
    let (words, record) = answer(append(&list, 2, good), 32);
    assert_eq!(words, [0, 32, 0, 0]);
    assert_eq!(record, setting(MOST, 2, good).bytes());
    let list = [list, record].concat();
    assert_eq!(answer(check(&list), 0).0, [0, 2, 0, 0]);
    for room in [0, 31, 32, 40] {
        assert_eq!(answer(append(&list, 2, good), room).0, [15, 0, 0, 0]);
    }
    assert_eq!(
        answer(append(&list, 2, choice(0, 0, 9)), 40).0,
        [15, 0, 0, 0]
    );
    for versions in [[0xff, 0, 0, 0], [0xff, 0xff, 0xff, 0], [0, 0, 0, 1]] {
        let mut list = settings_bytes(&[setting(1, 1, good)]);
        list[..4].copy_from_slice(&versions);
        let next = u64::from(u32::from_le_bytes(versions)) + 1;
        let (_, record) = answer(append(&list, 2, good), 32);
        assert_eq!(record, setting(next, 2, good).bytes());
    }
}

/// A bad list is 14 for every new setting, good or not, in every buffer.
#[test]
fn a_bad_list_comes_first() {
    let mut bad = three();
    bad[64] = 2;
    for new in [choice(12, 5, 1), choice(0, 5, 1), choice(12, 65, 2)] {
        for station in [0, MOST + 1] {
            for room in [0, 31, 32, 40] {
                let call = append(&bad, station, new);
                assert_eq!(answer(call, room).0, [14, 2, 0, 0]);
            }
        }
    }
}

/// A list that is written record by record is good all the way, and at each version gives
/// what was written up to then.
#[test]
fn a_history() {
    let mut random = Random(81);
    let mut list = Vec::new();
    let mut written: Vec<(u64, Choice)> = Vec::new();
    for version in 1..=300 {
        let (station, new) = (random.below(7) as u64, random.choice());
        let (words, record) = answer(append(&list, station, new), 32);
        assert_eq!(words, [0, 32, 0, 0]);
        list.extend(record);
        written.push((station, new));
        assert_eq!(answer(check(&list), 0).0, [0, version, 0, 0]);
        let asked = random.below(version as usize + 2);
        let station = random.below(8) as u64;
        let until = written.iter().take(asked);
        let last = until.rev().find(|(own, _)| *own == station);
        let expected = last.map_or([0, 10, 7, 0], |(_, new)| {
            [0, new.bits, new.probes, new.read_only]
        });
        assert_eq!(answer(at(&list, station, asked as u64), 0).0, expected);
    }
}
