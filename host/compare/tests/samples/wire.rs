//! Numbers, prefixed strings and hash lists.

use bisquetower::raw::{self, Read};
use compare::samples::path;
use compare::samples::wire::{decode, encode, sample, Record, FILE};
use compare::wire::READERS;

/// The library's answers against the stored ones: all words where the crate
/// answered, the refusal's number where it refused.
#[test]
fn the_library_answers_the_stored_sample() {
    let bytes = std::fs::read(path(FILE)).expect("the sample is read");
    let records = decode(&bytes).expect("the sample is made of records");
    let reads: Vec<Read> = records.iter().map(Record::read).collect();
    for (record, answer) in records.iter().zip(raw::read_many(&reads)) {
        let known = if record.answer[0] == 0 { 4 } else { 1 };
        assert_eq!(answer[..known], record.answer[..known], "{record:?}");
    }
}

/// The sample's bounds, and that each kind has answers of each sort, against
/// what a replay counts on.
#[test]
fn the_sample_is_small_and_varied() {
    let records = sample();
    assert_eq!(decode(&encode(&records)).as_ref(), Some(&records));
    assert!(encode(&records).len() < 120_000);
    for reader in READERS {
        for first_word in [0, 1, 3] {
            let like = |r: &&Record| r.reader == reader && r.answer[0] == first_word;
            assert!(
                records.iter().filter(like).count() >= 10,
                "{reader:?} {first_word}"
            );
        }
    }
}
