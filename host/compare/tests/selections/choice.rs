//! What is chosen from random graphs and from graphs at their limits.

use crate::random_cases;
use bisquetower::limits::{HASHES, HASHES_TO_SEND, HAVES, ROWS};
use compare::inputs::selection::Case;
use compare::inputs::table::{table_bytes, Likeness, Shape, SHAPES};
use compare::inputs::{Random, Seed};
use compare::model::have::OwnHave;
use compare::model::table::{Hash, HASH};
use compare::selections::{compare_cases, Tally};

/// Random graphs of up to 24 rows with up to three haves, crowded filters among
/// them, and needs with repeats, unknown and waiting hashes, against crate and
/// model.
#[test]
fn small_graphs() {
    let seed = Seed::fixed();
    let mut random = seed.random(0);
    let mut tally = Tally::default();
    for _ in 0..40 {
        tally.add(&random_cases(&mut random, 500, 0..25, 0..4).0);
    }
    assert_eq!(tally.cases, 20_000);
    assert!(tally.chosen > 50_000 && tally.left > 50_000, "{tally:?}");
    assert!(tally.needs_first > 500 && tally.repeats > 500, "{tally:?}");
}

/// A few of them with another seed each time.
#[test]
fn graphs_of_a_fresh_seed() {
    let seed = Seed::fresh();
    let mut random = seed.random(0);
    random_cases(&mut random, 500, 0..25, 0..4);
    random_cases(&mut random, 2, 100..ROWS + 1, 1..HAVES + 1);
}

/// Random choices with up to as many rows and haves as there may be.
#[test]
fn large_graphs() {
    let seed = Seed::fixed();
    let mut random = seed.random(2);
    let mut tally = Tally::default();
    for haves in [1..2, 1..3, 1..5, 1..HAVES + 1] {
        for _ in 0..4 {
            tally.add(&random_cases(&mut random, 12, 100..ROWS + 1, haves.clone()).0);
        }
        tally.add(&random_cases(&mut random, 6, ROWS..ROWS + 1, haves).0);
    }
    assert_eq!(tally.cases, 4 * (4 * 12 + 6));
    assert!(tally.chosen > 10_000 && tally.left > 10_000, "{tally:?}");
}

/// Rows that depend on nothing, and filters over every second one of them with so
/// few bits that many of the others are a false yes, against crate and model.
#[test]
fn false_yeses() {
    let mut random = Random(26);
    let (mut yeses, mut chosen) = (0, 0);
    for _ in 0..20 {
        let limit = random.of(&[16, 256, 1 << 20]);
        let hashes = random.crowded_hashes(200, limit);
        let added: Vec<Hash> = hashes.iter().copied().step_by(2).collect();
        let case = Case {
            table: table_bytes(&random.rows_of(&hashes, Shape::Wide)),
            waiting: Vec::new(),
            haves: vec![OwnHave::over(Vec::new(), 3, 2, &added)],
            need: Vec::new(),
        };
        let (tally, _) = compare_cases(&[case], &mut random).unwrap();
        // What was added is contained.
        yeses += 100 - tally.chosen;
        chosen += tally.chosen;
    }
    assert!(yeses > 400 && chosen > 400, "{yeses}, {chosen}");
}

/// Every shape of table at its limit with a need of as many hashes as a list has, each of
/// them held and none of it in S: the limit of hashes to send is never passed, and the most
/// that can be sent is as many needs as a list has, and the rows.
#[test]
fn as_much_as_there_may_be() {
    let mut random = Random(21);
    for shape in SHAPES {
        let hashes = random.hashes(ROWS, Likeness::Spread);
        let table = table_bytes(&random.rows_of(&hashes, shape));
        let all = OwnHave {
            last_sync: vec![hashes[0]],
            numbers: [0, 10, 7],
            field: Vec::new(),
        };
        // The first row is below the last sync, and needed again and again.
        let need = vec![hashes[0]; HASHES];
        let case = Case {
            table,
            waiting: Vec::new(),
            haves: vec![all],
            need,
        };
        let (tally, lists) = compare_cases(&[case], &mut random).unwrap();
        let most = HASHES + ROWS - 1;
        assert!(most < HASHES_TO_SEND);
        assert_eq!(tally.chosen, most as u64, "{shape:?}");
        assert_eq!(lists[0].len(), HASH * most);
    }
}
