//! The stored samples of the crate's answers: that the library alone answers them
//! so, that they are varied, and that they are the ones that are made from the crate.

#[path = "samples/filters.rs"]
mod filters;
#[path = "samples/messages.rs"]
mod messages;
#[path = "samples/repeats.rs"]
mod repeats;
#[path = "samples/selections.rs"]
mod selections;
#[path = "samples/sessions.rs"]
mod sessions;
#[path = "samples/states.rs"]
mod states;
#[path = "samples/stored.rs"]
mod stored;
#[path = "samples/wire.rs"]
mod wire;

use bisquetower::raw::UNWRITTEN;
use compare::model::Refused;
use compare::samples::{decode, path, Record};

/// The records of a stored file, as many as its first line says.
fn stored<R: Record>() -> Vec<R> {
    let text = std::fs::read_to_string(path(R::FILE)).expect("the sample is read");
    decode(&text).unwrap_or_else(|why| panic!("{}: {why}", R::FILE))
}

/// Bytes that a buffer has more than the crate's answer, so that a longer one of the
/// library's is seen as it is.
const SPARE: usize = 3;

/// A buffer that a call is to write, with its answer.
struct Out {
    bytes: Vec<u8>,
    answer: [u64; 4],
}

impl Out {
    fn of(wanted: usize) -> Out {
        Out {
            bytes: vec![0x5a; wanted + SPARE],
            answer: [UNWRITTEN; 4],
        }
    }

    /// What was written, or the call's refusal.
    fn written(&self) -> Result<&[u8], Refused> {
        match self.answer {
            [0, length, 0, 0] => Ok(&self.bytes[..length as usize]),
            [number, value, ..] => Err((number, value)),
        }
    }
}

/// Whether an answer refuses as the crate does: it tells no places.
fn refuses(words: &[u64], (number, value): Refused) -> bool {
    words[0] == number && (number != 2 || words[1] == value)
}

/// How many records are so.
fn count<T>(records: &[T], so: impl Fn(&T) -> bool) -> usize {
    records.iter().filter(|record| so(record)).count()
}

/// That there are refusals of each kind, and reads, against what a replay counts on.
fn varied<T>(answers: &[&Result<T, Refused>]) {
    for kind in 1..=3 {
        let refused = count(
            answers,
            |answer| matches!(answer, Err((n, _)) if *n == kind),
        );
        assert!(refused >= 10, "{refused} refusals {kind}");
    }
    assert!(count(answers, |answer| answer.is_ok()) >= 20);
}
