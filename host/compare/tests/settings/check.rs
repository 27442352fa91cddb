//! Lists that are good and lists of which a record is bad.

use crate::{agree, agree_on, answer, check, choice, setting, three, APPEND, AT, CHECK};
use compare::inputs::settings::settings_bytes;
use compare::model::settings::{Setting, MOST, RECORD};
use compare::tables::Rooms;

/// Every byte of three records with every value, through the three calls.
#[test]
fn every_value_of_every_byte() {
    let good = three();
    let mut tally = crate::Tally::default();
    for place in 0..good.len() {
        let lists = (0..=u8::MAX).map(|byte| {
            let mut list = good.clone();
            list[place] = byte;
            list
        });
        tally.add(&agree_on(&lists.collect::<Vec<_>>()));
    }
    // Of each record the station may be any, bits have 32 values of their first byte,
    // probes 64, read-only two, and each other byte one: so many but for the version.
    let others = 4 * 256 + (32 + 3) + (64 + 3) + 2 + 15;
    // The first version is 1, the second 2 to 4, the third anything above 2.
    let versions = (1 + 3) + (3 + 3) + (253 + 3 * 256);
    let good = 3 * others + versions;
    assert_eq!([CHECK, AT].map(|kind| tally.of(kind, 0)), [good; 2]);
    // Both fills of a buffer; no version is left behind no list of these.
    assert_eq!(tally.of(APPEND, 0), 2 * good);
    assert_eq!(tally.of(CHECK, 0) + tally.of(CHECK, 14), 96 * 256);
}

/// Every length of three records, and of one more that is bad.
#[test]
fn every_length() {
    let longer = [three(), vec![0xff; RECORD]].concat();
    for length in 0..longer.len() {
        let expected = match (length / RECORD, length % RECORD) {
            (records, 0) => [0, records as u64, 0, 0],
            (records, _) => [14, records as u64, 0, 0],
        };
        assert_eq!(answer(check(&longer[..length]), 0).0, expected, "{length}");
        agree_on(&[longer[..length].to_vec()]);
    }
    assert_eq!(answer(check(&longer), 0).0, [14, 3, 0, 0]);
}

/// Versions at every kind of distance, three in a row: the first bad one is the first
/// that isn't above the one before it, and the first of all is at least 1.
#[test]
fn every_order_of_versions() {
    let versions = [
        0,
        1,
        2,
        255,
        256,
        65_535,
        65_536,
        (1 << 24) - 1,
        1 << 24,
        MOST - 1,
        MOST,
    ];
    let mut good = 0;
    for first in versions {
        for second in versions {
            for third in versions {
                let list = [first, second, third];
                let settings = list.map(|version| setting(version, 7, choice(10, 7, 0)));
                let bytes = settings_bytes(&settings);
                let bad = [first >= 1, second > first, third > second];
                let expected = match bad.iter().position(|good| !good) {
                    Some(record) => [14, record as u64, 0, 0],
                    None => [0, 3, 0, 0],
                };
                good += u64::from(expected[0] == 0);
                assert_eq!(answer(check(&bytes), 0).0, expected, "{list:?}");
            }
        }
    }
    // Three of ten.
    assert_eq!(good, 120);
}

/// Bits, probes and read-only at their bounds and just outside, in each record.
#[test]
fn bounds_of_a_choice() {
    let numbers = [
        0, 1, 2, 9, 10, 31, 32, 33, 63, 64, 65, 255, 256, 257, 288, 65_537, 16_777_226, MOST,
    ];
    let good: Vec<Setting> = (1..4)
        .map(|version| setting(version, 9, choice(10, 7, 0)))
        .collect();
    for record in 0..3 {
        for bits in numbers {
            for probes in numbers {
                for read_only in [0, 1, 2, 3, 128, 255] {
                    let mut settings = good.clone();
                    settings[record].choice = choice(bits, probes, read_only);
                    let allowed =
                        (1..=32).contains(&bits) && (1..=64).contains(&probes) && read_only < 2;
                    let expected = match allowed {
                        true => [0, 3, 0, 0],
                        false => [14, record as u64, 0, 0],
                    };
                    let list = settings_bytes(&settings);
                    let told = format!("{:?}", settings[record]);
                    assert_eq!(answer(check(&list), 0).0, expected, "{told}");
                }
            }
        }
    }
}

/// Of several bad records the first is named, whatever is wrong with it.
#[test]
fn the_first_bad_record() {
    let faults: [(usize, u8); 9] = [
        (0, 0),
        (8, 0),
        (8, 33),
        (9, 1),
        (12, 65),
        (15, 1),
        (16, 2),
        (17, 1),
        (31, 255),
    ];
    let list = settings_bytes(
        &(1..=20)
            .map(|version| setting(version, version % 3, choice(12, 5, 1)))
            .collect::<Vec<_>>(),
    );
    for (first, (place, byte)) in [0, 1, 2, 9, 18, 19].into_iter().flat_map(|first| {
        let each = faults.into_iter();
        each.map(move |fault| (first, fault))
    }) {
        let mut bad = list.clone();
        bad[RECORD * first + place] = byte;
        for later in first + 1..20 {
            bad[RECORD * later + 16] = 2;
        }
        bad.push(0);
        let expected = [14, first as u64, 0, 0];
        assert_eq!(answer(check(&bad), 0).0, expected, "{first}, {place}");
        agree_on(&[bad]);
    }
}

/// A list has no limit: many records, of which the last is bad, or isn't whole.
#[test]
fn a_long_list() {
    let count = 100_000;
    let settings = (1..=count).map(|version| setting(version, version % 1_000, choice(9, 6, 0)));
    let mut list = settings_bytes(&settings.collect::<Vec<_>>());
    assert_eq!(answer(check(&list), 0).0, [0, count, 0, 0]);
    list.push(0);
    assert_eq!(answer(check(&list), 0).0, [14, count, 0, 0]);
    list.pop();
    let last = list.len() - 1;
    list[last] = 1;
    assert_eq!(answer(check(&list), 0).0, [14, count - 1, 0, 0]);
    list[last] = 0;
    list[RECORD * 50_000] -= 1;
    assert_eq!(answer(check(&list), 0).0, [14, 50_000, 0, 0]);
    agree(&[(crate::at(&list, 1, count), Rooms::Enough)]);
}
