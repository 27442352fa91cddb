//! Random lists, some of them damaged.

use crate::{agree, append, at, check, Tally, APPEND, AT, CHECK};
use compare::inputs::settings::settings_bytes;
use compare::inputs::{Random, Seed};
use compare::tables::Rooms;

/// Makes `count` lists of less than `most` records, and makes the three calls on each.
fn lists(random: &mut Random, count: usize, most: usize) -> Tally {
    let mut tally = Tally::default();
    for _ in 0..count {
        let settings = random.settings(most);
        let mut list = settings_bytes(&settings);
        if random.one_in(2) {
            random.damage_settings(&mut list);
        }
        let (station, version) = random.asked_of(&settings);
        let mut choice = random.choice();
        if random.one_in(4) {
            choice.bits = random.of(&[0, 1, 32, 33]);
            choice.probes = random.of(&[0, 1, 64, 65]);
            choice.read_only = random.of(&[0, 1, 2]);
        }
        let new = random.number();
        tally.add(&agree(&[
            (check(&list), Rooms::Enough),
            (at(&list, station, version), Rooms::Enough),
            (append(&list, station, choice), Rooms::Around),
            (append(&list, new, choice), Rooms::One(32)),
        ]));
    }
    tally
}

#[test]
fn random_lists() {
    let seed = Seed::fixed();
    let tally = lists(&mut seed.random(0), 20_000, 12);
    for kind in [CHECK, AT] {
        assert!([0, 14].iter().all(|&word| tally.of(kind, word) > 5_000));
    }
    let appended = [0, 7, 14, 15].map(|word| tally.of(APPEND, word));
    assert!(appended.iter().all(|&often| often > 5_000), "{appended:?}");
}

#[test]
fn random_long_lists() {
    let seed = Seed::fixed();
    lists(&mut seed.random(1), 200, 1_000);
}

/// A few with another seed each time.
#[test]
fn lists_of_a_fresh_seed() {
    let seed = Seed::fresh();
    lists(&mut seed.random(0), 1_000, 20);
}
