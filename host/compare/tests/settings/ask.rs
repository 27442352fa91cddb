//! What a list gives a station at a version.

use crate::{agree, answer, at, choice, setting, three, AT};
use compare::inputs::settings::settings_bytes;
use compare::model::settings::MOST;
use compare::tables::Rooms;

const OF_THE_CRATE: [u64; 4] = [0, 10, 7, 0];

/// Before a station's first record, at it, between two, at the last and behind it.
#[test]
fn a_station_with_two_records() {
    let list = three();
    let expected = |version: u64| match version {
        0 => OF_THE_CRATE,
        1..5 => [0, 10, 7, 0],
        _ => [0, 32, 64, 0],
    };
    let versions = [0, 1, 2, 3, 4, 5, 6, 255, 256, MOST - 1, MOST];
    for version in versions.into_iter().chain([MOST + 1, MOST + 6, u64::MAX]) {
        let told = format!("{version}");
        assert_eq!(
            answer(at(&list, 7, version), 0).0,
            expected(version),
            "{told}"
        );
        let nine = match version {
            0 | 1 => OF_THE_CRATE,
            _ => [0, 1, 1, 1],
        };
        assert_eq!(answer(at(&list, 9, version), 0).0, nine, "{told}");
        assert_eq!(answer(at(&list, 8, version), 0).0, OF_THE_CRATE, "{told}");
    }
}

/// A station and a version of more than four bytes are no others: the lower bytes don't
/// stand for them.
#[test]
fn numbers_above_four_bytes() {
    let list = three();
    for above in [1 << 32, 5 << 32, 1 << 63, u64::MAX << 32] {
        assert_eq!(answer(at(&list, above + 7, MOST), 0).0, OF_THE_CRATE);
        assert_eq!(answer(at(&list, 7, above), 0).0, [0, 32, 64, 0]);
        assert_eq!(answer(at(&list, 7, above + 1), 0).0, [0, 32, 64, 0]);
    }
    let last = settings_bytes(&[setting(MOST, MOST, choice(3, 2, 1))]);
    assert_eq!(answer(at(&last, MOST, MOST), 0).0, [0, 3, 2, 1]);
    assert_eq!(answer(at(&last, MOST, MOST - 1), 0).0, OF_THE_CRATE);
    assert_eq!(answer(at(&last, MOST, u64::MAX), 0).0, [0, 3, 2, 1]);
    assert_eq!(answer(at(&last, u64::MAX, u64::MAX), 0).0, OF_THE_CRATE);
}

/// Stations that take turns, asked at every version, some of which no record has: just
/// before, at and just after each.
#[test]
fn stations_that_take_turns() {
    let settings: Vec<_> = (0..40)
        .map(|k| setting(3 * k + 2, k % 5, choice(1 + k % 32, 1 + k, k % 2)))
        .collect();
    let list = settings_bytes(&settings);
    let mut calls = Vec::new();
    for station in 0..6 {
        for version in 0..130 {
            calls.push((at(&list, station, version), Rooms::Enough));
            let own = settings.iter().filter(|one| one.station == station);
            let last = own.rev().find(|one| one.version <= version);
            let expected = last.map_or(OF_THE_CRATE, |one| {
                [0, one.choice.bits, one.choice.probes, one.choice.read_only]
            });
            assert_eq!(answer(at(&list, station, version), 0).0, expected);
        }
    }
    assert_eq!(agree(&calls).of(AT, 0), calls.len() as u64);
}

/// A bad record counts wherever it stands, behind the version that is asked for too, and
/// of another station.
#[test]
fn a_bad_list_is_no_answer() {
    let list = three();
    for (record, place) in [(0, 8), (1, 40), (2, 72)] {
        let mut bad = list.clone();
        bad[place] = 0;
        for station in [7, 8, 9] {
            for version in [0, 1, MOST, u64::MAX] {
                let expected = [14, record, 0, 0];
                assert_eq!(answer(at(&bad, station, version), 0).0, expected);
            }
        }
    }
}
