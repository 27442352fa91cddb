//! Where nothing is promised: replies that go as the document, a validator without
//! rows, changes that are made meanwhile, messages that get lost. What comes of it is
//! measured.

use super::{Apart, STATION, VALIDATOR};
use crate::inputs::Random;
use crate::model::table::{Hash, DEPENDENCIES};
use crate::sessions::published::plan_of;
use crate::talks::Pair;
use crate::units::Make;
use crate_under_test::facade::{Change, ChangeHash, Message};
use std::fmt;

#[derive(Clone, Copy, Debug, PartialEq, Eq)]
pub enum Case {
    /// The validator lacks all rows but one, and its filter is not crowded.
    Document,
    NoRows,
    NewAtStation,
    NewAtValidator,
    Lost,
}

pub const CASES: [Case; 5] = [
    Case::Document,
    Case::NoRows,
    Case::NewAtStation,
    Case::NewAtValidator,
    Case::Lost,
];

/// How many of the first messages may meet a new change or be lost.
const UNQUIET: usize = 8;

/// More messages than a talk of so few rows takes.
const TOO_LONG: usize = 200;

/// What came of talks of one kind.
#[derive(Clone, Debug, Default)]
pub struct Seen {
    pub talks: usize,
    /// Rows that one of the two held and the other lacked, at the start and made later.
    pub lacking: usize,
    /// Hashes that messages carried, until the rows were the same.
    pub carried: usize,
    /// Messages of each talk.
    pub messages: Vec<usize>,
    /// How many ended with the same rows at both.
    pub same: usize,
    /// How many did once both had gone on from their saved states.
    pub same_later: usize,
}

/// The columns of `Seen`, as a line over them.
pub const COLUMNS: &str =
    "  talks  lacking  carried  messages: middle  most  same rows  with saved states";

impl fmt::Display for Seen {
    fn fmt(&self, f: &mut fmt::Formatter) -> fmt::Result {
        let mut messages = self.messages.clone();
        messages.sort_unstable();
        let middle = messages[messages.len() / 2];
        let most = messages[messages.len() - 1];
        let Seen {
            talks,
            lacking,
            carried,
            same,
            same_later,
            ..
        } = self;
        write!(f, "{talks:>7}{lacking:>9}{carried:>9}{middle:>18}")?;
        write!(f, "{most:>6}{same:>11}{same_later:>19}")
    }
}

impl Random {
    fn outside(&mut self, case: Case) -> Apart {
        let mut apart = self.apart(3..41);
        match case {
            Case::Document => {
                let spread = self.crowded_hashes(apart.rows.len(), 1 << 32);
                for (row, hash) in apart.rows.iter_mut().zip(spread) {
                    row.hash = hash;
                }
                apart.held = vec![0];
            }
            Case::NoRows => apart.held.clear(),
            _ => {}
        }
        apart
    }
}

/// Talks of one kind, by units of a kind.
pub fn talks(make: Make, random: &mut Random, case: Case, count: usize) -> Seen {
    let mut seen = Seen::default();
    for _ in 0..count {
        let apart = random.outside(case);
        let mut pair = apart.pair([make; 2]);
        seen.lacking += pair.held(STATION).len() - pair.held(VALIDATOR).len();
        let messages = talk(random, &mut pair, case, UNQUIET, &mut seen);
        seen.messages.push(messages);
        let same = same_rows(&mut pair);
        if !same {
            for unit in &mut pair.units {
                let saved = unit.save();
                unit.restore(&saved);
            }
            talk(random, &mut pair, case, 0, &mut seen);
        }
        seen.talks += 1;
        seen.same += usize::from(same);
        seen.same_later += usize::from(same_rows(&mut pair));
    }
    seen
}

fn same_rows(pair: &mut Pair) -> bool {
    pair.held(STATION) == pair.held(VALIDATOR)
}

/// The units take turns until both are silent, the validator first; the first messages
/// are unquiet. How many messages there were.
fn talk(
    random: &mut Random,
    pair: &mut Pair,
    case: Case,
    unquiet: usize,
    seen: &mut Seen,
) -> usize {
    let (mut messages, mut silent, mut turn) = (0, 0, VALIDATOR);
    while silent < 2 {
        assert!(messages < TOO_LONG, "the units don't come to an end");
        let unquiet = messages < unquiet && random.one_in(3);
        let changed = match case {
            Case::NewAtStation if unquiet => Some(STATION),
            Case::NewAtValidator if unquiet => Some(VALIDATOR),
            _ => None,
        };
        if let Some(unit) = changed {
            new_change(random, pair, unit);
            seen.lacking += 1;
            silent = 0;
        }
        match pair.speak(turn) {
            None => silent += 1,
            Some(message) => {
                (messages, silent) = (messages + 1, 0);
                seen.carried += carried(&message).len();
                if case != Case::Lost || !unquiet {
                    pair.hear(1 - turn, &message);
                }
            }
        }
        turn = 1 - turn;
    }
    messages
}

/// A unit makes a change on its heads.
fn new_change(random: &mut Random, pair: &mut Pair, unit: usize) {
    let mut on = pair.units[unit].document().get_heads();
    on.truncate(DEPENDENCIES);
    let change = Change::new(ChangeHash(random.hash()), on, &[]);
    pair.load(unit, change.raw_bytes());
}

fn carried(message: &[u8]) -> Vec<Hash> {
    plan_of(&Message::decode(message).expect("a good message")).hashes
}
