//! Messages.

use crate::{count, refuses, stored, varied, Out};
use bisquetower::message::{View, ANSWER_WORDS, CHUNK_WORDS, HAVES, HAVE_WORDS};
use bisquetower::raw::{Batch, UNWRITTEN};
use bisquetower::refusal::Refusal;
use compare::messages::parts::{self, parts, Chunks};
use compare::samples::messages::{Read, Record};

/// A message to be read, with the lists that the library writes.
struct Asked {
    answer: [u64; ANSWER_WORDS],
    haves: Vec<u64>,
    chunks: Vec<u64>,
    ignored: [u64; HAVES],
}

impl Asked {
    /// With room for every have, and for as many chunks as there are bytes.
    fn of(record: &Record) -> Asked {
        Asked {
            answer: [UNWRITTEN; ANSWER_WORDS],
            haves: vec![0; HAVE_WORDS * HAVES],
            chunks: vec![0; CHUNK_WORDS * record.input.len()],
            ignored: [0; HAVES],
        }
    }

    fn view<'a>(&'a self, s: &'a [u8]) -> Result<View<'a>, Refusal> {
        View::of(s, self.answer, &self.haves, &self.chunks, self.ignored)
    }
}

fn read(records: &[Record]) -> Vec<Asked> {
    let mut asked: Vec<Asked> = records.iter().map(Asked::of).collect();
    let mut batch = Batch::new();
    for (record, one) in records.iter().zip(&mut asked) {
        let Asked {
            answer,
            haves,
            chunks,
            ignored,
        } = one;
        batch.read_message(&record.input, haves, chunks, ignored, answer);
    }
    batch.run();
    asked
}

/// A message that was read, to be written again.
struct Again<'a> {
    view: View<'a>,
    chunks: Chunks,
    out: Out,
}

fn write(again: &mut [Again]) {
    let mut batch = Batch::new();
    for Again { view, chunks, out } in again {
        let Out { bytes, answer } = out;
        parts::ask(&parts(view, chunks), &mut batch, bytes, answer);
    }
    batch.run();
}

/// What the library says of the stored messages: refusals, flags, and the bytes
/// that it writes of the parts that it read.
#[test]
fn the_library_answers_the_messages() {
    let records = stored::<Record>();
    let asked = read(&records);
    let (mut again, mut wanted) = (Vec::new(), Vec::new());
    for (record, one) in records.iter().zip(&asked) {
        match (&record.answer, one.view(&record.input)) {
            (Ok(read), Ok(view)) => {
                assert_eq!(view.flags(), read.flags, "{record:?}");
                again.push(Again {
                    view,
                    chunks: Chunks::of(&view),
                    out: Out::of(read.written.len()),
                });
                wanted.push(&read.written);
            }
            (Err(refused), Err(_)) => assert!(refuses(&one.answer, *refused), "{record:?}"),
            (_, view) => panic!("{record:?}: {view:?}"),
        }
    }
    write(&mut again);
    for (one, wanted) in again.iter().zip(wanted) {
        assert_eq!(one.out.written(), Ok(&wanted[..]), "{:?}", one.view);
    }
}

/// That there are refusals of each kind, reads, and flags of each kind.
#[test]
fn messages_are_varied() {
    let messages = stored::<Record>();
    assert!(messages.len() >= 400);
    varied(&messages.iter().map(|one| &one.answer).collect::<Vec<_>>());
    let read: Vec<&Read> = messages.iter().flat_map(|one| &one.answer).collect();
    assert!(count(&read, |one| one.flags.is_none()) >= 10);
    assert!(count(&read, |one| one.flags.is_some_and(|value| value > 0)) >= 10);
}
