//! The model's hashes to send against the crate's.

use bisquetower::limits::{HAVES, ROWS};
use compare::inputs::Seed;
use compare::selections::{compare_model, Tally};
use std::ops::Range;

fn random_cases(seed: Seed, count: usize, rows: Range<usize>, haves: Range<usize>) -> Tally {
    let mut random = seed.random(0);
    let mut tally = Tally::default();
    for number in 0..count {
        let case = random.case(rows.clone(), haves.clone());
        match compare_model(&[case], &mut random) {
            Ok(seen) => tally.add(&seen),
            Err(disagreement) => panic!("case {number}: {disagreement}"),
        }
    }
    tally
}

#[test]
fn random_small_graphs() {
    let tally = random_cases(Seed::fixed(), 5_000, 0..24, 0..4);
    assert!(tally.chosen > 10_000 && tally.left > 10_000, "{tally:?}");
    assert!(tally.needs_first > 100 && tally.repeats > 100, "{tally:?}");
}

#[test]
fn random_large_graphs() {
    let tally = random_cases(Seed::fixed(), 60, 200..ROWS + 1, 1..HAVES + 1);
    assert!(tally.chosen > 1_000 && tally.left > 1_000, "{tally:?}");
}

/// A few small ones with another seed each time.
#[test]
fn graphs_of_a_fresh_seed() {
    random_cases(Seed::fresh(), 200, 0..24, 0..4);
}
