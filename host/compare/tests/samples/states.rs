//! Saved states.

use crate::{refuses, stored, varied, Out};
use bisquetower::raw::{Batch, UNWRITTEN};
use compare::model::state::WORDS;
use compare::samples::states::Record;
use compare::samples::{decode, encode, Record as _};

/// What the library says of the stored states, and the bytes that it writes of
/// those that it read.
#[test]
fn the_library_answers_the_states() {
    let records = stored::<Record>();
    let fresh = |record: &Record| (Out::of(record.input.len()), [UNWRITTEN; WORDS]);
    let mut reads: Vec<(Out, [u64; WORDS])> = records.iter().map(fresh).collect();
    let mut batch = Batch::new();
    for (record, (shared, session)) in records.iter().zip(&mut reads) {
        let Out { bytes, answer } = shared;
        batch.read_state(&record.input, bytes, session, answer);
    }
    batch.run();
    let mut again = Vec::new();
    for (record, (shared, _)) in records.iter().zip(&reads) {
        match &record.answer {
            Ok(written) => {
                assert_eq!(shared.answer[0], 0, "{record:?}");
                again.push((record, written, shared, Out::of(written.len())));
            }
            Err(refused) => assert!(refuses(&shared.answer, *refused), "{record:?}"),
        }
    }
    let mut batch = Batch::new();
    for (_, _, shared, out) in &mut again {
        let count = shared.answer[1] as usize;
        batch.write_state(&shared.bytes, count, &mut out.bytes, &mut out.answer);
    }
    batch.run();
    for (record, written, _, out) in &again {
        assert_eq!(out.written(), Ok(&written[..]), "{record:?}");
    }
}

#[test]
fn states_are_varied() {
    let states = stored::<Record>();
    varied(&states.iter().map(|one| &one.answer).collect::<Vec<_>>());
}

/// What `decode` refuses: a file that is empty, cut, or has a line too many.
#[test]
fn a_wrong_number_of_records_is_seen() {
    let text = encode(&Record::sample());
    let cut = text.trim_end().rsplit_once('\n').expect("lines").0;
    let more = format!("{text}43 1\n");
    for text in ["", cut, &more] {
        assert!(decode::<Record>(text).is_err());
    }
    assert!(decode::<Record>(&text).is_ok());
}
