//! Random tables and lists, good and damaged, through all seven calls.

use crate::{
    beyond, build_index, check, check_tables, extend_index, heads, missing, with_record, Bytes,
    BEYOND, BUILD_INDEX, CHECK_TABLE, CHECK_TABLES, EXTEND_INDEX, HEADS, MISSING,
};
use compare::inputs::table::{
    row_faults, table_bytes, waiting_bytes, waiting_faults, LIKENESSES, SHAPES,
};
use compare::inputs::{Random, Seed};
use compare::model::table::HASH;
use compare::tables::{but_the_last, compare, Call, Rooms, Tally, NAMES};

/// What the random tests lend.
struct Lent {
    table: Bytes,
    index: Bytes,
    /// Of the rows but the last.
    shorter: Bytes,
    waiting: Bytes,
    hashes: Bytes,
    before: usize,
}

/// Tables, indexes and a list over a few hashes, so that they meet; each now and then
/// damaged.
fn lent(random: &mut Random, most: usize) -> Lent {
    let (held, waits, unknown) = (random.below(most), random.below(8), random.below(8));
    let likeness = LIKENESSES[random.below(4)];
    let mut all = random.hashes(held + waits + unknown, likeness);
    if random.one_in(8) && !all.is_empty() {
        let zero = random.below(all.len());
        all[zero] = [0; HASH];
    }
    let shape = SHAPES[random.below(SHAPES.len())];
    let rows = random.rows_of(&all[..held], shape);
    let waiting = random.waiting_rows(&all[held..held + waits], &all);
    let mut lent = Lent {
        table: table_bytes(&rows),
        index: Vec::new(),
        shorter: Vec::new(),
        waiting: waiting_bytes(&waiting),
        hashes: Vec::new(),
        before: random.below(held + 2),
    };
    if !all.is_empty() {
        for _ in 0..random.below(8) {
            lent.hashes.extend(all[random.below(all.len())]);
        }
    }
    if random.one_in(6) && held > 0 {
        let row = random.below(held);
        let faults = row_faults(&rows, row);
        let (_, record) = &faults[random.below(faults.len())];
        lent.table = with_record(&lent.table, row, record);
    }
    if random.one_in(6) && waits > 0 {
        let row = random.below(waits);
        let faults = waiting_faults(&rows, &waiting, row);
        let (_, record) = &faults[random.below(faults.len())];
        lent.waiting = with_record(&lent.waiting, row, record);
    }
    for bytes in [&mut lent.table, &mut lent.waiting, &mut lent.hashes] {
        if random.one_in(12) {
            random.damage(bytes);
        }
    }
    lent.index = random.index(&lent.table);
    lent.shorter = random.index(but_the_last(&lent.table));
    lent
}

fn compare_random(seed: Seed, rounds: usize, batch: usize, most: usize) -> Tally {
    let mut random = seed.random(most as u64);
    let mut tally = Tally::default();
    for round in 0..rounds {
        let all: Vec<Lent> = (0..batch).map(|_| lent(&mut random, most)).collect();
        let mut calls = Vec::new();
        for one in &all {
            let (table, waiting, hashes) = (&one.table, &one.waiting, &one.hashes);
            calls.extend([
                (check(table), Rooms::Enough),
                (
                    check_tables(table, waiting).beside(&one.index),
                    Rooms::Enough,
                ),
            ]);
            let writing = [
                heads(table, one.before).beside(&one.index),
                beyond(table, hashes).beside(&one.index),
                missing(table, waiting, hashes).beside(&one.index),
                build_index(table),
                extend_index(table).beside(&one.shorter),
            ];
            calls.extend(writing.map(|call| {
                let item = match call {
                    Call::BuildIndex { .. } | Call::ExtendIndex { .. } => 2,
                    _ => HASH,
                };
                let rooms = match random.below(3) {
                    0 => Rooms::One(random.below(item * most)),
                    _ => Rooms::Enough,
                };
                (call, rooms)
            }));
        }
        match compare(&calls) {
            Ok(seen) => tally.add(&seen),
            Err(disagreement) => panic!("round {round}: {disagreement}"),
        }
    }
    tally
}

/// Random small tables, good and damaged, through all seven calls.
#[test]
fn random_small_tables() {
    let tally = compare_random(Seed::fixed(), 20, 1_000, 12);
    let seen: [(usize, &[usize]); 7] = [
        (CHECK_TABLE, &[0, 6]),
        (CHECK_TABLES, &[0, 6, 9, 12]),
        (HEADS, &[0, 6, 7, 11, 12]),
        (BEYOND, &[0, 1, 6, 7, 12]),
        (MISSING, &[0, 1, 6, 7, 9, 12]),
        (BUILD_INDEX, &[0, 6, 7]),
        (EXTEND_INDEX, &[0, 6, 7, 12]),
    ];
    for (kind, words) in seen {
        for &word in words {
            let name = NAMES[kind];
            assert!(tally.of(kind, word) > 500, "{name}, {word}: {tally:?}");
        }
    }
}

/// Random tables of up to 100 rows.
#[test]
fn random_tables() {
    let tally = compare_random(Seed::fixed(), 10, 60, 100);
    let kinds = CHECK_TABLE..=EXTEND_INDEX;
    assert!(kinds
        .into_iter()
        .all(|kind| tally.of(kind, 0) > 200 && tally.of(kind, 6) > 50));
}

/// A few of both with another seed each time.
#[test]
fn random_tables_of_a_fresh_seed() {
    compare_random(Seed::fresh(), 1, 1_000, 12);
    compare_random(Seed::fresh(), 1, 60, 100);
}
