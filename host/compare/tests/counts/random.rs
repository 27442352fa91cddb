//! Random captures and totals, some of them damaged.

use crate::agree;
use compare::counts::{compare_additions, Tally};
use compare::inputs::counts::Captured;
use compare::inputs::{Random, Seed};
use compare::scaled;

/// How many captures go to the library at a time.
const AT_A_TIME: usize = 100;

/// Compares captures of less than `most` rows, one in `damaged` of them damaged.
fn captures(random: &mut Random, count: usize, most: usize, damaged: usize) -> Vec<Tally> {
    let mut one = || {
        let mut capture = random.capture(most);
        if random.one_in(damaged) {
            random.damage_capture(&mut capture);
        }
        capture
    };
    let mut tallies = Vec::new();
    for _ in 0..count.div_ceil(AT_A_TIME) {
        let some: Vec<Captured> = (0..AT_A_TIME).map(|_| one()).collect();
        let lent: Vec<_> = some.iter().map(Captured::lent).collect();
        tallies.push(agree(&lent));
    }
    tallies
}

fn often(tallies: &[Tally], first_word: usize) -> u64 {
    tallies.iter().map(|tally| tally.of(first_word)).sum()
}

#[test]
fn random_captures() {
    let seed = Seed::fixed();
    let tallies = captures(&mut seed.random(0), scaled(4_000, 40_000), 14, 3);
    let least = scaled(2_000, 20_000) as u64;
    assert!(often(&tallies, 0) > least);
    for (word, share) in [(1, 100), (3, 100), (4, 200), (5, 200), (6, 10)] {
        let often = often(&tallies, word);
        assert!(often > least / share, "{word}: {often}");
    }
    // Rows are tested in most, and many of them contained.
    let [.., tested, contained] = tallies.iter().fold([0; 5], |sums, tally| {
        std::array::from_fn(|k| sums[k] + tally.counts[k])
    });
    assert!(
        tested > least && contained > least / 4,
        "{contained} of {tested}"
    );
    assert!(contained < tested / 2, "{contained} of {tested}");
}

#[test]
fn random_large_captures() {
    let seed = Seed::fixed();
    captures(&mut seed.random(1), 200, 400, 6);
}

#[test]
fn random_totals() {
    let seed = Seed::fixed();
    let mut random = seed.random(2);
    let additions: Vec<_> = (0..20_000).map(|_| random.addition()).collect();
    let added = compare_additions(&additions).unwrap_or_else(|why| panic!("{why}"));
    assert!((2_000..18_000).contains(&added), "{added}");
}

/// A few with another seed each time.
#[test]
fn captures_of_a_fresh_seed() {
    let seed = Seed::fresh();
    let mut random = seed.random(0);
    captures(&mut random, 1_000, 20, 3);
    let additions: Vec<_> = (0..1_000).map(|_| random.addition()).collect();
    compare_additions(&additions).unwrap_or_else(|why| panic!("{why}"));
}
