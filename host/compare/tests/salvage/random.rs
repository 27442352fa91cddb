//! Random hurt tables.

use crate::agree;
use compare::inputs::{Random, Seed};
use compare::salvage::{Rooms, Tally};
use compare::scaled;

/// How many tables go to the library at a time.
const AT_A_TIME: usize = 100;

/// Compares hurt tables of less than `most` rows.
fn tables(random: &mut Random, count: usize, most: usize) -> Tally {
    let mut tally = Tally::default();
    for _ in 0..count.div_ceil(AT_A_TIME) {
        let some: Vec<Vec<u8>> = (0..AT_A_TIME).map(|_| random.hurt_table(most)).collect();
        let lent: Vec<(&[u8], Rooms)> = some
            .iter()
            .map(|table| (&table[..], Rooms::Enough))
            .collect();
        tally.add(&agree(&lent));
    }
    tally
}

/// Every rule is broken often, and many tables are whole.
#[test]
fn random_tables() {
    let seed = Seed::fixed();
    let count = scaled(4_000, 60_000);
    let tally = tables(&mut seed.random(0), count, 14);
    let least = count as u64 / 50;
    assert!(tally.whole > least && tally.hurt > least, "{tally:?}");
    assert!(tally.kept > count as u64, "{tally:?}");
    for rule in 1..=5 {
        assert!(tally.dropped[rule] > least, "{tally:?}");
    }
}

#[test]
fn random_large_tables() {
    let seed = Seed::fixed();
    tables(&mut seed.random(1), 200, 500);
}

/// Some of them with every buffer.
#[test]
fn random_tables_into_every_buffer() {
    let seed = Seed::fixed();
    let mut random = seed.random(2);
    for _ in 0..scaled(4, 40) {
        let table = random.hurt_table(5);
        agree(&[(&table, Rooms::Every)]);
    }
}

/// A few with another seed each time.
#[test]
fn tables_of_a_fresh_seed() {
    let seed = Seed::fresh();
    tables(&mut seed.random(0), 2_000, 20);
}
