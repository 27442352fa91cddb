//! Catch-ups whose replies are picks: "the m + 1 rounds and the m rows stay", where every
//! change fits the budget. `compare::walk` looks at each round.

use compare::inputs::index::index_of;
use compare::inputs::pick::accepted;
use compare::inputs::table::Row;
use compare::inputs::{Random, Seed};
use compare::model::pick::Radio;
use compare::model::plan::{By, Picking};
use compare::model::table::{table, Hash, ROW};
use compare::picks::{compare_picks, picked, Given};
use compare::scaled;
use compare::tables::Rooms;
use compare::units::{modelled, proved, Make};
use compare::walk::{catch_up, catch_up_picked, Apart, CaughtUp, Spread};

/// What the planner picks, beside the model.
fn planned(bytes: &[u8], list: &[Hash], sizes: &[u64], budget: u64) -> Picking {
    let given = Given {
        table: bytes.to_vec(),
        index: index_of(bytes),
        list: list.concat(),
        sizes: sizes.to_vec(),
        budget,
    };
    compare_picks(&given, Rooms::Enough).unwrap_or_else(|why| panic!("{why}"));
    Picking {
        sizes: sizes.to_vec(),
        budget,
        pick: picked(&given),
    }
}

/// Any pick that is accepted, of a row at least if there is one.
fn any(random: &mut Random, bytes: &[u8], list: &[Hash], sizes: &[u64], budget: u64) -> Picking {
    let table = table(bytes).expect("a good table");
    let radio = Radio {
        table: &table,
        list,
        sizes,
        budget,
    };
    let one_in = 1 + random.below(4);
    let pick = accepted(&radio, || random.one_in(one_in));
    Picking {
        sizes: sizes.to_vec(),
        budget,
        pick: pick.concat(),
    }
}

/// A catch-up with other sizes and another budget in each round, which takes every change;
/// picked by the planner or by others.
fn freely(random: &mut Random, makes: [Make; 2], apart: &Apart) -> Option<CaughtUp> {
    let planner = random.one_in(2);
    let sizes: Vec<u64> = (0..apart.rows.len())
        .map(|_| random.below(9) as u64)
        .collect();
    let mut by = Vec::new();
    for _ in 0..2 {
        by.push(loop {
            let by = random.by_good();
            if by.settings().is_some() {
                break by;
            }
        });
    }
    catch_up_picked(makes, apart, |unit| by[unit].clone(), &mut |table, list| {
        let most = sizes.iter().max().copied().unwrap_or(0);
        let budget = most + random.below(12) as u64;
        match planner {
            true => planned(table, list, &sizes, budget),
            false => any(random, table, list, &sizes, budget),
        }
    })
}

fn catch_ups(random: &mut Random, count: usize, makes: [Make; 2]) -> Spread {
    let mut spread = Spread::default();
    for _ in 0..count {
        let apart = random.apart(3..41);
        if let Some(done) = freely(random, makes, &apart) {
            spread.count(&done);
        }
    }
    spread
}

#[test]
fn random_catch_ups() {
    let seed = Seed::fixed();
    let count = scaled(300, 10_000);
    let spread = catch_ups(&mut seed.random(0), count, [proved; 2]);
    let (kept, longest) = (spread.catch_ups(), spread.at_the_bound());
    println!("\n{count} catch-ups with picks, {kept} with rows lacking by list");
    print!("{spread}");
    assert!(3 * kept > count as u64, "{kept}");
    assert!(10 * longest > kept, "{longest}");
}

/// The model's units, and one of each.
#[test]
fn catch_ups_of_the_model() {
    let seed = Seed::fixed();
    let mut random = seed.random(1);
    let kinds: [[Make; 2]; 3] = [[modelled; 2], [proved, modelled], [modelled, proved]];
    for makes in kinds {
        let spread = catch_ups(&mut random, 100, makes);
        assert!(spread.catch_ups() > 30);
    }
}

/// A few with another seed each time.
#[test]
fn catch_ups_of_a_fresh_seed() {
    let seed = Seed::fresh();
    catch_ups(&mut seed.random(0), 50, [proved; 2]);
}

/// A chain of which the last rows are lacking, with filters that tell them apart.
fn chain(rows: usize, lacking: usize) -> Apart {
    let mut random = Random(8);
    let row = |row: usize| Row {
        hash: random.hash(),
        dependencies: (row.saturating_sub(1)..row).collect(),
    };
    Apart {
        rows: (0..rows).map(row).collect(),
        held: (0..rows - lacking).collect(),
    }
}

/// A round for as many rows as fit: m rows take m rounds where each fits alone, and one
/// where all of them do.
#[test]
fn rounds_by_the_budget() {
    let apart = chain(40, 10);
    assert_eq!(catch_up(proved, &apart).expect("by list").replies.len(), 1);
    for (budget, rounds) in [(1, 10), (2, 5), (3, 4), (5, 2), (9, 2), (10, 1), (99, 1)] {
        let done = catch_up_picked([proved; 2], &apart, |_| By::Crate, &mut |table, list| {
            planned(table, list, &vec![1; table.len() / ROW], budget)
        });
        let done = done.expect("by list");
        assert_eq!((done.lacking, done.replies.len()), (10, rounds), "{budget}");
        let most = done.replies.iter().map(Vec::len).max();
        assert_eq!(most, Some(10.min(budget as usize)));
    }
}
