//! Random tables, lists, sizes and budgets; the planner's own picks, foreign ones, and broken
//! ones.

use bisquetower::limits::ROWS;
use compare::inputs::{Random, Seed};
use compare::picks::{compare_checks, compare_picks, Given, Tally};
use compare::scaled;
use compare::tables::Rooms;
use std::ops::Range;

/// How many picks go to the library at a time, and how many of a list.
const AT_A_TIME: usize = 100;
const OF_A_LIST: usize = 4;

/// Compares the planner and picks of random lists.
fn lists(random: &mut Random, count: usize, rows: Range<usize>) -> Tally {
    let mut tally = Tally::default();
    for _ in 0..count.div_ceil(AT_A_TIME) {
        let mut picks = Vec::new();
        let mut givens = Vec::new();
        for _ in 0..AT_A_TIME {
            let radio = random.radio(rows.clone());
            let mut given = Given::of(&radio);
            if random.one_in(30) {
                match random.below(3) {
                    0 => random.damage(&mut given.table),
                    1 => random.damage(&mut given.list),
                    _ => given.index = random.other_index(&given.table),
                }
            }
            if random.one_in(30) {
                given.sizes = random.sizes(radio.sizes.len() + 1);
            }
            compare_picks(&given, Rooms::Enough).unwrap_or_else(|why| panic!("{why}"));
            picks.push([(); OF_A_LIST].map(|()| random.pick(&radio).concat()));
            givens.push(given);
        }
        let each = givens.iter().zip(&picks);
        let checks =
            each.flat_map(|(given, picks)| picks.iter().map(move |pick| (given, &pick[..])));
        let checks: Vec<(&Given, &[u8])> = checks.collect();
        let compared = compare_checks(&checks).unwrap_or_else(|why| panic!("{why}"));
        tally.add(&compared.0);
    }
    tally
}

#[test]
fn random_lists() {
    let seed = Seed::fixed();
    let count = scaled(4_000, 60_000);
    let tally = lists(&mut seed.random(0), count, 0..12);
    let most = count as u64;
    assert!(
        tally.accepted > most && tally.empty > most / 10,
        "{tally:?}"
    );
    assert!(
        tally.at_a_hash > most / 2 && tally.whole > most / 10,
        "{tally:?}"
    );
    assert!(tally.others > most / 50, "{tally:?}");
}

#[test]
fn random_large_lists() {
    let seed = Seed::fixed();
    lists(&mut seed.random(1), 200, 100..400);
    let mut random = seed.random(2);
    for _ in 0..4 {
        let radio = random.radio(ROWS - 40..ROWS + 1);
        let given = Given::of(&radio);
        compare_picks(&given, Rooms::Enough).unwrap_or_else(|why| panic!("{why}"));
    }
}

/// A few with another seed each time.
#[test]
fn lists_of_a_fresh_seed() {
    let seed = Seed::fresh();
    lists(&mut seed.random(0), 1_000, 0..20);
}
