//! What docs/ABI.md shows under Picks.

use crate::{checked, given, hashes, picks};
use compare::picks::{picked, Given};

/// Rows a, b on a, c on a, d on b and c, all of them listed, in a budget.
fn shown(budget: u64) -> Given {
    let on: [&[usize]; 4] = [&[], &[0], &[0], &[1, 2]];
    given(&on, &[0, 1, 2, 3], &[10, 20, 30, 40], budget)
}

#[test]
fn the_page_on_picks() {
    for (budget, rows) in [(60, &[0, 1, 2][..]), (99, &[0, 1, 2]), (9, &[])] {
        let own = shown(budget);
        assert_eq!(picks(&own), [0, 32 * rows.len() as u64]);
        assert_eq!(picked(&own), hashes(rows));
    }
    for (budget, rows, answer) in [
        (30, &[0, 1][..], [0, 0]),
        (29, &[0, 1], [17, 2]),
        (100, &[0, 1, 3], [17, 2]),
        (100, &[1, 0], [17, 1]),
        (10, &[], [17, 0]),
    ] {
        assert_eq!(checked(&shown(budget), &hashes(rows)), answer);
    }
}
