//! Settings lists checked, asked and appended to.

use super::case::{apart, room, Case, Compared};
use crate::inputs::settings::settings_bytes;
use crate::inputs::Random;
use crate::model::settings::{Choice, RECORD};
use crate::settings::{compare, Call, NAMES};
use crate::tables::{Rooms, ANSWERS};

/// A list, now and then damaged; a station and a version to ask it for; and a choice to
/// append, mostly good, with the room for its record.
pub fn settings(random: &mut Random) -> Case {
    let most = if random.one_in(50) { 200 } else { 8 };
    let records = random.settings(most);
    let (mut station, version) = random.asked_of(&records);
    let mut list = settings_bytes(&records);
    for _ in 0..random.below(3) {
        if random.one_in(3) {
            random.damage_settings(&mut list);
        }
    }
    let mut choice = random.choice();
    match random.below(16) {
        0 => choice.bits = random.number(),
        1 => choice.bits = random.of(&[0, 33]),
        2 => choice.probes = random.number(),
        3 => choice.probes = random.of(&[0, 65]),
        4 => choice.read_only = 2 + random.number() / 2,
        5 => station = random.number(),
        _ => {}
    }
    let room = match random.one_in(3) {
        true => random.below(2 * RECORD),
        false => RECORD,
    };
    let Choice {
        bits,
        probes,
        read_only,
    } = choice;
    let numbers = [station, version, bits, probes, read_only, room as u64];
    Case::new([list], numbers)
}

/// The three calls.
pub fn calls(case: &Case) -> Compared {
    let [settings] = case.lent();
    let [station, version, bits, probes, read_only, lent] = case.told();
    let choice = Choice {
        bits,
        probes,
        read_only,
    };
    let calls = [
        Call::Check { settings },
        Call::At {
            settings,
            station,
            version,
        },
        Call::Append {
            settings,
            station,
            choice,
        },
    ];
    let rooms = Rooms::One(room(lent));
    let tally = compare(&calls.map(|call| (call, rooms)))?;
    let refused = |word: usize| (0..NAMES.len()).any(|kind| tally.of(kind, word) > 0);
    Ok((1..ANSWERS).any(|word| apart(word as u64) && refused(word)))
}
