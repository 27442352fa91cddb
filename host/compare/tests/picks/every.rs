//! Small tables, with every pick and every list: beside the model, and beside 02's sentence
//! of what is accepted, said here without places.

use crate::{given, hash, hashes};
use compare::inputs::strings;
use compare::picks::{compare_checks, compare_picks, Given, Tally};
use compare::tables::Rooms;
use std::collections::BTreeSet;

/// Rows 0; 1 on 0; 2 on 0; 3 on 1 and 2; and 4, which is no row.
const ON: [&[usize]; 4] = [&[], &[0], &[0], &[1, 2]];
const STRANGER: usize = 4;
const SIZES: [u64; 4] = [1, 2, 3, 1];

/// Every sequence of up to `length` of these numbers.
fn sequences(numbers: &[u8], length: usize) -> Vec<Vec<usize>> {
    let each = (0..=length).flat_map(|length| strings(numbers, length));
    each.map(|string| string.into_iter().map(usize::from).collect())
        .collect()
}

/// "Accepted: hashes from the list, each once, in table order; every dependency that is
/// itself in the list goes with it; the sizes sum to no more than the budget; and an empty
/// pick only if the list is empty or no single hash makes an acceptable pick by itself."
fn accepted(list: &BTreeSet<usize>, budget: u64, pick: &[usize]) -> bool {
    let but_the_last = |pick: &[usize]| {
        let fits = |row: &usize| {
            *row != STRANGER
                && list.contains(row)
                && ON[*row]
                    .iter()
                    .all(|on| !list.contains(on) || pick.contains(on))
        };
        let ascend = pick.windows(2).all(|two| two[0] < two[1]);
        ascend && pick.iter().all(fits) && pick.iter().map(|row| SIZES[*row]).sum::<u64>() <= budget
    };
    but_the_last(pick) && (!pick.is_empty() || !list.iter().any(|row| but_the_last(&[*row])))
}

#[test]
fn every_pick_of_every_list() {
    let picks = sequences(&[0, 1, 2, 3, 4], 4);
    let lent: Vec<Vec<u8>> = picks.iter().map(|pick| hashes(pick)).collect();
    let mut tally = Tally::default();
    // Every set of rows and the stranger, and budgets up to more than all of them.
    for set in 0..1 << 5 {
        let list: Vec<usize> = (0..5).filter(|row| set >> row & 1 == 1).collect();
        let own: BTreeSet<usize> = list.iter().copied().collect();
        for budget in 0..=8 {
            let given = given(&ON, &list, &SIZES, budget);
            let checks: Vec<(&Given, &[u8])> =
                lent.iter().map(|pick| (&given, &pick[..])).collect();
            let compared = compare_checks(&checks).unwrap_or_else(|why| panic!("{why}"));
            for (pick, answer) in picks.iter().zip(&compared.1) {
                let said = accepted(&own, budget, pick);
                assert_eq!(
                    answer[0] == 0,
                    said,
                    "{list:?}, {budget}: {pick:?} {answer:?}"
                );
            }
            tally.add(&compared.0);
            compare_picks(&given, Rooms::Enough).unwrap_or_else(|why| panic!("{why}"));
        }
    }
    assert!(tally.accepted > 400 && tally.empty > 50, "{tally:?}");
    assert!(tally.at_a_hash > 100_000 && tally.whole > 400, "{tally:?}");
}

/// Lists with repeats and in any order are as the set of their hashes.
#[test]
fn every_list_is_as_its_set() {
    let mut seen = 0;
    for list in sequences(&[0, 1, 3, 4], 4) {
        let mut set = list.clone();
        set.sort_unstable();
        set.dedup();
        for budget in [0, 1, 2, 3, 4] {
            let [own, sorted] =
                [&list, &set].map(|list| compare::picks::picked(&given(&ON, list, &SIZES, budget)));
            assert_eq!(own, sorted, "{list:?}");
            seen += 1;
        }
        let given = given(&ON, &list, &SIZES, 4);
        compare_picks(&given, Rooms::Enough).unwrap_or_else(|why| panic!("{why}"));
    }
    assert_eq!(seen, 5 * 341);
}

/// Budgets from 0 up: what the planner picks by hand.
#[test]
fn every_budget() {
    let picked = |list: &[usize], budget: u64| {
        let picked = compare::picks::picked(&given(&ON, list, &SIZES, budget));
        let row = |own: &[u8]| (0..4).find(|&row| hash(row) == *own);
        let rows: Option<Vec<usize>> = picked.chunks(32).map(row).collect();
        rows.expect("rows")
    };
    let all = [3, 2, 1, 0, 4];
    let expected: [&[usize]; 8] = [
        &[],
        &[0],
        &[0],
        &[0, 1],
        &[0, 1],
        &[0, 1],
        &[0, 1, 2],
        &[0, 1, 2, 3],
    ];
    for (budget, expected) in expected.iter().enumerate() {
        assert_eq!(picked(&all, budget as u64), *expected, "{budget}");
    }
    // Without row 0 in the list both that depend on it may go.
    assert_eq!(picked(&[1, 2, 3], 3), [1]);
    assert_eq!(picked(&[2, 3], 3), [2]);
    assert_eq!(picked(&[2, 3], 4), [2, 3]);
    assert_eq!(picked(&[3], 1), [3]);
    // Row 2 is too large then, and row 3 depends on it.
    assert_eq!(picked(&[2, 3], 2), []);
    assert_eq!(picked(&[1, 2, 3], 4), [1]);
}
