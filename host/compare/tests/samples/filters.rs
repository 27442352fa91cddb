//! Filters.

use crate::{count, stored, Out};
use bisquetower::raw::{Batch, UNWRITTEN};
use compare::model::filter::{DEFAULT_BITS, DEFAULT_PROBES};
use compare::model::have::HAVE_WORDS;
use compare::model::table::HASH;
use compare::samples::filters::Record;

/// What the library builds and writes of the stored hashes.
#[test]
fn the_library_builds_the_filters() {
    let records = stored::<Record>();
    let fields = records.iter().map(|record| Out::of(record.filter.len()));
    let mut fields: Vec<Out> = fields.collect();
    let mut batch = Batch::new();
    for (record, field) in records.iter().zip(&mut fields) {
        let Out { bytes, answer } = field;
        batch.build_filter(DEFAULT_BITS, DEFAULT_PROBES, &record.hashes, bytes, answer);
    }
    batch.run();

    let outs = records.iter().map(|record| Out::of(record.filter.len()));
    let mut outs: Vec<Out> = outs.collect();
    let mut batch = Batch::new();
    for ((record, field), out) in records.iter().zip(&fields).zip(&mut outs) {
        let field = field.written().expect("the filter is built");
        let entries = (record.hashes.len() / HASH) as u64;
        let Out { bytes, answer } = out;
        batch.write_filter(entries, DEFAULT_BITS, DEFAULT_PROBES, field, bytes, answer);
    }
    batch.run();
    for (record, out) in records.iter().zip(&outs) {
        assert_eq!(out.written(), Ok(&record.filter[..]), "{record:?}");
    }
}

/// The records of the stored filters, one each, as the library reads them.
fn read_filters(records: &[Record]) -> Vec<[u64; HAVE_WORDS]> {
    let mut answers = vec![[UNWRITTEN; 8]; records.len()];
    let mut batch = Batch::new();
    for (Record { filter, .. }, answer) in records.iter().zip(&mut answers) {
        batch.read_filter(filter, 0, filter.len(), answer);
    }
    batch.run();
    let have = |[first, entries, bits, probes, place, length, ..]: [u64; 8]| {
        assert_eq!(first, 0, "a filter that the crate built is read");
        [0, 0, entries, bits, probes, place, length]
    };
    answers.into_iter().map(have).collect()
}

/// What the library says of hashes in the stored filters.
#[test]
fn the_library_asks_the_filters() {
    let records = stored::<Record>();
    let haves = read_filters(&records);
    let mut asked = Vec::new();
    for (record, have) in records.iter().zip(&haves) {
        for (hashes, yes) in [(&record.contained, 1), (&record.others, 0)] {
            let hashes = hashes.chunks(HASH);
            asked.extend(hashes.map(|hash| (record, have, hash, yes, [UNWRITTEN; 4])));
        }
    }
    let mut batch = Batch::new();
    for (record, have, hash, _, answer) in &mut asked {
        batch.filters_contain(&record.filter, &have[..], hash, answer);
    }
    batch.run();
    for (record, _, hash, yes, answer) in asked {
        assert_eq!(answer, [0, yes, 0, 0], "{hash:?} in {record:?}");
    }
}

#[test]
fn filters_are_varied() {
    let records = stored::<Record>();
    let false_yes = |record: &Record| {
        let own = |hash| record.hashes.chunks(HASH).any(|one| one == hash);
        record.contained.chunks(HASH).any(|hash| !own(hash))
    };
    assert_eq!(records.len(), 40);
    assert!(count(&records, false_yes) >= 5);
    assert!(count(&records, |record| record.filter.is_empty()) >= 1);
    assert!(count(&records, |record| !record.others.is_empty()) >= 20);
}
