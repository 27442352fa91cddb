//! Hashes to send.

use crate::{count, stored, Out};
use bisquetower::raw::Batch;
use compare::inputs::index::index_of;
use compare::inputs::table::Row;
use compare::model::have::{contained, HAVE_WORDS};
use compare::model::table::HASH;
use compare::samples::selections::Record;

/// What the library chooses from the stored graphs.
#[test]
fn the_library_answers_the_selections() {
    let records = stored::<Record>();
    let tables: Vec<Vec<u8>> = records.iter().map(|record| record.table()).collect();
    let outs = records.iter().map(|record| Out::of(record.chosen.len()));
    let mut outs: Vec<Out> = outs.collect();
    let mut batch = Batch::new();
    for ((record, table), out) in records.iter().zip(&tables).zip(&mut outs) {
        let Record { s, haves, need, .. } = record;
        let (bytes, answer) = (&mut out.bytes, &mut out.answer);
        batch.hashes_to_send(table, &index_of(table), s, haves, need, bytes, answer);
    }
    batch.run();
    for (record, out) in records.iter().zip(&outs) {
        assert_eq!(out.written(), Ok(&record.chosen[..]), "{record:?}");
    }
}

/// Lists of all shapes, and filters that contain more rows than they have entries:
/// some of these are false yeses.
#[test]
fn selections_are_varied() {
    let records = stored::<Record>();
    let rows = |record: &Record| record.rows.len();
    let chosen = |record: &Record| record.chosen.len() / HASH;
    let crowded = |record: &Record| {
        record.haves.chunks(HAVE_WORDS).any(|have| {
            let yes = |row: &Row| contained(&record.s, have, &row.hash)[1];
            record.rows.iter().map(yes).sum::<u64>() > have[2].max(1)
        })
    };
    assert_eq!(records.len(), 60);
    assert!(records.iter().all(|record| rows(record) <= 24));
    assert!(count(&records, crowded) >= 10);
    assert!(count(&records, |record| record.haves.is_empty()) >= 5);
    assert!(count(&records, |record| record.haves.len() > HAVE_WORDS) >= 5);
    assert!(
        count(&records, |record| (1..rows(record))
            .contains(&chosen(record)))
            >= 10
    );
}
