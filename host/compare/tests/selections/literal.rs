//! The smallest graphs at which readings of 01 part, as literals.

use crate::{chosen, diamond, hash};
use compare::model::have::OwnHave;
use compare::model::table::Hash;

/// P12: no last sync and only b missed; need c: c, b, d; need d: b, d; need c, c:
/// c, c, b, d.
#[test]
fn p12_only_b_missed() {
    let (table, [a, b, c, d]) = diamond();
    let have = [OwnHave::over(Vec::new(), 64, 7, &[a, c, d])];
    let send = |need: &[Hash]| chosen(&table, &have, need);
    assert_eq!(send(&[]), [b, d]);
    assert_eq!(send(&[c]), [c, b, d]);
    assert_eq!(send(&[d]), [b, d]);
    assert_eq!(send(&[c, c]), [c, c, b, d]);
}

/// The smallest inputs at which two readings of 01 part.
#[test]
fn settled_readings() {
    let (table, [a, b, c, d]) = diamond();
    let unknown = hash(77);
    // Without a have the held needs are all, in their order and with repeats.
    assert_eq!(chosen(&table, &[], &[d, unknown, a, d]), [d, a, d]);
    // Unknown last-sync hashes are ignored, in the first have too.
    let none = |last_sync: Vec<Hash>| OwnHave {
        last_sync,
        numbers: [0, 10, 7],
        field: Vec::new(),
    };
    let first = [none(vec![unknown]), none(Vec::new())];
    assert_eq!(chosen(&table, &first, &[]), [a, b, c, d]);
    // Needs below the last-sync hashes are sent, and come first.
    let below = [none(vec![unknown, b])];
    assert_eq!(chosen(&table, &below, &[a, b]), [a, b, c, d]);
    // Candidates lie beyond the last-sync hashes of all haves.
    let two = [none(vec![b]), none(vec![c])];
    assert_eq!(chosen(&table, &two, &[]), [d]);
    // A filter of all ones contains all: nothing but needs.
    let ones = OwnHave {
        last_sync: Vec::new(),
        numbers: [1, 8, 3],
        field: vec![0xff],
    };
    let nothing = chosen(&table, &[none(Vec::new()), ones.clone()], &[]);
    assert!(nothing.is_empty());
    assert_eq!(chosen(&table, &[ones], &[c, a, c]), [c, a, c]);
    // No rows.
    assert!(chosen(&[], &two, &[a]).is_empty());
}
