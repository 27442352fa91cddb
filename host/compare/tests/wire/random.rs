//! Random and damaged items.

use crate::at;
use bisquetower::raw::{Read, Reader};
use compare::inputs::{Random, Seed};
use compare::wire::{compare, Tally, READERS};

/// Compares random and damaged inputs, 10,000 a batch, each as every kind of item.
fn compare_inputs(seed: Seed, batches: usize) -> Tally {
    let mut random = seed.random(0);
    let mut tally = Tally::default();
    for batch in 0..batches {
        let inputs: Vec<_> = (0..10_000).map(|_| random.input(Random::item)).collect();
        let reads: Vec<Read> = inputs
            .iter()
            .flat_map(|(s, place, end)| READERS.map(|reader| at(reader, s, *place, *end)))
            .collect();
        match compare(&reads) {
            Ok(seen) => tally.add(&seen),
            Err(disagreement) => panic!("batch {batch}: {disagreement}"),
        }
    }
    tally
}

/// A million random and damaged inputs, each as every kind of item, against
/// crate and model.
#[test]
fn random_and_damaged_inputs() {
    let tally = compare_inputs(Seed::fixed(), 100);
    assert_eq!(tally.total(), 4_000_000);
    for first_word in [0, 1, 3] {
        assert!(
            READERS
                .iter()
                .all(|&reader| tally.of(reader, first_word) > 10_000),
            "{tally:?}"
        );
    }
    assert!(tally.of(Reader::Hashes, 4) > 10_000, "{tally:?}");
    assert!(tally.cut_filter_numbers > 10_000, "{tally:?}");
}

/// A few of them with another seed each time.
#[test]
fn inputs_of_a_fresh_seed() {
    compare_inputs(Seed::fresh(), 3);
}
