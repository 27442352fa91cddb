//! Settings lists (document 02, M-107): the proved library against the model in every
//! word and byte. `compare::settings` says what is held against what; what a plan makes of
//! them stands with the sessions and the walk.

#[path = "settings/append.rs"]
mod append;
#[path = "settings/ask.rs"]
mod ask;
#[path = "settings/check.rs"]
mod check;
#[path = "settings/literal.rs"]
mod literal;
#[path = "settings/random.rs"]
mod random;

use compare::inputs::settings::settings_bytes;
use compare::model::settings::{Choice, Setting};
use compare::settings::{ask as asked, compare, Call, Tally};
use compare::tables::Rooms;

/// The calls' places in a tally.
const CHECK: usize = 0;
const AT: usize = 1;
const APPEND: usize = 2;

fn choice(bits: u64, probes: u64, read_only: u64) -> Choice {
    Choice {
        bits,
        probes,
        read_only,
    }
}

fn setting(version: u64, station: u64, choice: Choice) -> Setting {
    Setting {
        version,
        station,
        choice,
    }
}

/// Three records: of station 7, of station 9 and of station 7 again, at versions 1, 2
/// and 5.
fn three() -> Vec<u8> {
    settings_bytes(&[
        setting(1, 7, choice(10, 7, 0)),
        setting(2, 9, choice(1, 1, 1)),
        setting(5, 7, choice(32, 64, 0)),
    ])
}

fn check(settings: &[u8]) -> Call<'_> {
    Call::Check { settings }
}

fn at(settings: &[u8], station: u64, version: u64) -> Call<'_> {
    Call::At {
        settings,
        station,
        version,
    }
}

fn append(settings: &[u8], station: u64, choice: Choice) -> Call<'_> {
    Call::Append {
        settings,
        station,
        choice,
    }
}

fn agree(calls: &[(Call, Rooms)]) -> Tally {
    compare(calls).unwrap_or_else(|why| panic!("{why}"))
}

/// Compares all three calls on each of these lists, asked and appended to as `three` can
/// be.
fn agree_on(lists: &[Vec<u8>]) -> Tally {
    let calls = lists.iter().flat_map(|list| {
        let choice = choice(20, 9, 1);
        [check(list), at(list, 7, 4), append(list, 9, choice)]
    });
    agree(&calls.map(|call| (call, Rooms::One(40))).collect::<Vec<_>>())
}

/// The library's answer to a call, which is the model's too, and what it wrote.
fn answer(call: Call, room: usize) -> ([u64; 4], Vec<u8>) {
    agree(&[(call, Rooms::One(room))]);
    asked(call, room)
}
