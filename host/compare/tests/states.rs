//! Sessions and saved states: the proved library against the crate and the model.
//! `compare::states` says what is held against what.

#[path = "states/check.rs"]
mod check;
#[path = "states/literal.rs"]
mod literal;
#[path = "states/random.rs"]
mod random;
#[path = "states/read.rs"]
mod read;
#[path = "states/session.rs"]
mod session;
#[path = "states/write.rs"]
mod write;

use bisquetower::raw::{self, UNWRITTEN};
use compare::model::number_bytes;
use compare::model::state::WORDS;
use compare::states::{compare_reads, Reading, Tally};
use compare::writes::{compare_rooms, Write};

const TYPE: u8 = 0x43;
const REFUSED: [u64; 4] = [10, 0, 0, 0];

fn compare(reads: &[Reading]) -> Tally {
    let tally = compare_reads(reads).unwrap_or_else(|disagreement| panic!("{disagreement}"));
    assert_eq!(tally.total(), reads.len() as u64);
    tally
}

/// Compares these strings as states, all with this room.
fn compare_strings(strings: &[Vec<u8>], room: usize) -> Tally {
    let reads: Vec<Reading> = strings.iter().map(|s| Reading { s, room }).collect();
    compare(&reads)
}

fn one(s: &[u8], room: usize) -> Tally {
    compare(&[Reading { s, room }])
}

/// As many hashes as `count`, each other than the rest.
fn hashes(count: usize) -> Vec<u8> {
    let hash = |k: usize| (0..32).map(move |at| ((k >> (8 * (at % 2))) + at) as u8);
    (0..count).flat_map(hash).collect()
}

/// A state of `count` hashes, and a few bytes that are ignored.
fn state(count: usize, after: &[u8]) -> Vec<u8> {
    let number = number_bytes(count as u64);
    [&[TYPE][..], &number, &hashes(count), after].concat()
}

fn read(s: &[u8], shared: &mut [u8]) -> ([u64; 4], [u64; WORDS]) {
    let mut session = [UNWRITTEN; WORDS];
    let answer = raw::read_state(s, shared, &mut session);
    (answer, session)
}

fn compare_writes(shared: &[u8], count: usize, rooms: impl IntoIterator<Item = usize>) -> usize {
    let answers = compare_rooms(Write::State { shared, count }, rooms);
    let answers = answers.unwrap_or_else(|disagreement| panic!("{disagreement}"));
    answers.iter().filter(|answer| answer[0] == 0).count()
}
