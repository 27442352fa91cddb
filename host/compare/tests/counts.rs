//! Captures counted, and counts added to totals (document 02, M-108): the proved library
//! against the model in every word, and against what the crate's own filter does over the
//! same rows. `compare::counts` says what is held against what.

#[path = "counts/capture.rs"]
mod capture;
#[path = "counts/literal.rs"]
mod literal;
#[path = "counts/random.rs"]
mod random;
#[path = "counts/totals.rs"]
mod totals;

use bisquetower::raw;
use compare::counts::{compare, Capture, Tally};
use compare::inputs::filter::hash_of;
use compare::inputs::table::{table_bytes, Row};
use compare::model::table::Hash;

/// A hash whose probes in a field of m bits are x, x + y and so on, where z is 0.
fn hash(x: u32, y: u32) -> Hash {
    let mut hash = hash_of([x, y, 0]);
    hash[31] = 1;
    hash
}

/// A table of these hashes, each on the one before it.
fn table(hashes: &[Hash]) -> Vec<u8> {
    let rows = hashes.iter().enumerate().map(|(row, &hash)| Row {
        hash,
        dependencies: (row.saturating_sub(1)..row).collect(),
    });
    table_bytes(&rows.collect::<Vec<_>>())
}

fn agree(captures: &[Capture]) -> Tally {
    compare(captures).unwrap_or_else(|why| panic!("{why}"))
}

/// The library's answer to a capture, which is the model's too.
fn answer(sender: &[u8], listener: &[u8], filter: &[u8]) -> [u64; 8] {
    let capture = Capture {
        sender,
        listener,
        filter,
    };
    agree(&[capture]);
    raw::count_capture(sender, listener, filter)
}

/// What is counted of a good capture.
fn counted(sender: &[u8], listener: &[u8], filter: &[u8]) -> [u64; 5] {
    let [first, counts @ .., seventh, eighth] = answer(sender, listener, filter);
    assert_eq!([first, seventh, eighth], [0; 3]);
    counts
}

/// The words of a refusal.
fn refused(number: u64, value: u64) -> [u64; 8] {
    [number, value, 0, 0, 0, 0, 0, 0]
}
