//! Messages read and written: the proved library against the crate and the model.
//! `compare::messages` says what is held against what.

#[path = "messages/heads.rs"]
mod heads;
#[path = "messages/ignored.rs"]
mod ignored;
#[path = "messages/limits.rs"]
mod limits;
#[path = "messages/lists.rs"]
mod lists;
#[path = "messages/literal.rs"]
mod literal;
#[path = "messages/read.rs"]
mod read;
#[path = "messages/refused_writes.rs"]
mod refused_writes;
#[path = "messages/write.rs"]
mod write;

use bisquetower::limits::HAVES_WORDS;
use bisquetower::raw;
use compare::messages::{compare, Tally};
use compare::model::have::HAVES;
use compare::model::message::{ANSWER_WORDS, CHUNKS, CHUNK_WORDS};

/// Most of what one exchange with the library is worth.
const MANY: usize = 1 << 13;

fn agree<S: AsRef<[u8]>>(messages: &[S]) -> Tally {
    compare(messages).unwrap_or_else(|disagreement| panic!("{disagreement}"))
}

/// Compares messages that are made one after the other.
fn agree_all(messages: impl Iterator<Item = Vec<u8>>) -> Tally {
    let mut tally = Tally::default();
    let mut messages = messages.peekable();
    while messages.peek().is_some() {
        let some: Vec<Vec<u8>> = messages.by_ref().take(MANY).collect();
        tally.add(&agree(&some));
    }
    tally
}

/// Room for as many haves and chunks as a message may have.
const ROOM: [usize; 2] = [HAVES_WORDS, CHUNK_WORDS * CHUNKS];

/// What the library alone says, with room enough, and its two lists.
fn ask(s: &[u8]) -> ([u64; ANSWER_WORDS], Vec<u64>, Vec<u64>) {
    let [mut haves, mut chunks] = ROOM.map(|room| vec![0; room]);
    let words = raw::read_message(s, &mut haves, &mut chunks, &mut [0; HAVES]);
    (words, haves, chunks)
}

/// The first two words of an answer, after a comparison with model and crate.
fn first(s: &[u8]) -> [u64; 2] {
    agree(&[s]);
    let (words, ..) = ask(s);
    [words[0], words[1]]
}
