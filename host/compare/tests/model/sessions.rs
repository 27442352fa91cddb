//! The model's steps of a session against the crate's.

use compare::inputs::session::{Hearing, Saying};
use compare::inputs::{Random, Seed};
use compare::sessions::{compare_plans, compare_receipts};
use compare::tally::Tally;
use std::ops::Range;

/// Makes `count` steps of each kind.
fn steps(random: &mut Random, count: usize, rows: Range<usize>) -> [Tally; 2] {
    let mut tallies = [Tally::default(), Tally::default()];
    let whole = |tally: Result<Tally, String>| tally.unwrap_or_else(|why| panic!("{why}"));
    for _ in 0..count {
        let saying: Saying = random.saying(rows.clone());
        tallies[0].add(&whole(compare_plans(&[saying])));
        let hearing: Hearing = random.hearing(rows.clone());
        tallies[1].add(&whole(compare_receipts(&[hearing])));
    }
    tallies
}

#[test]
fn random_small_units() {
    let seed = Seed::fixed();
    let [plans, receipts] = steps(&mut seed.random(0), 250_000, 0..10);
    let kinds = ["nothing", "reset", "document", "no body", "list"];
    plans.has(5_000, &kinds);
    plans.has(5_000, &["no have", "need", "no heads", "reset flag"]);
    receipts.has(5_000, &["taken", "not loaded", "not read", "chunks"]);
    receipts.has(
        5_000,
        &["no heads", "unknown heads", "no flags", "new rows"],
    );
    plans.has(20, &["nothing", "reset", "document", "no body", "list"]);
    receipts.has(20, &["taken", "chunks", "unknown heads", "new rows"]);
}

#[test]
fn random_large_units() {
    let seed = Seed::fixed();
    let [plans, receipts] = steps(&mut seed.random(1), 500, 30..200);
    plans.has(20, &["nothing", "reset", "document", "no body", "list"]);
    receipts.has(20, &["taken", "chunks", "unknown heads", "new rows"]);
}

/// A few with another seed each time.
#[test]
fn steps_of_a_fresh_seed() {
    let seed = Seed::fresh();
    steps(&mut seed.random(0), 2_000, 0..16);
}
