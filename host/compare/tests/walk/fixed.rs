//! Rows to which the validator's filter says yes, wrongly, every one: their hashes
//! have the same words.

use compare::inputs::settings::{LARGEST, LEAST};
use compare::inputs::table::Row;
use compare::model::plan::By;
use compare::model::table::Hash;
use compare::units::proved;
use compare::walk::{catch_up_by, Apart};

/// The hash of a row, by which rows lie as their numbers do.
fn hash(row: usize) -> Hash {
    let mut hash = [0x11; 32];
    hash[30..].copy_from_slice(&(row as u16).to_be_bytes());
    hash
}

/// Rows on those that are told, of which the validator holds the first.
fn hidden(on: Vec<Vec<usize>>, held: usize) -> Apart {
    let row = |(row, dependencies)| Row {
        hash: hash(row),
        dependencies,
    };
    Apart {
        rows: on.into_iter().enumerate().map(row).collect(),
        held: (0..held).collect(),
    }
}

/// That these are the replies, by the numbers of their rows, with filters of the crate's
/// numbers, of the least and of the most that are allowed: a filter of any numbers says
/// yes to a hash whose words are those of one that is in it.
fn replies(apart: &Apart, expected: &[Vec<usize>]) {
    let expected: Vec<Vec<Hash>> = expected
        .iter()
        .map(|rows| rows.iter().copied().map(hash).collect())
        .collect();
    for by in [By::Crate, By::Passed(LEAST), By::Passed(LARGEST)] {
        let done = catch_up_by([proved; 2], apart, |_| by.clone());
        let done = done.expect("replies by list");
        assert_eq!(done.replies, expected, "{by:?}");
    }
}

/// A chain of `rows` rows, each on the one before it; the first is held. Round one brings
/// nothing, and each round after it one row, from the head down.
fn chain(rows: usize) {
    let on = (0..rows).map(|row| (row.saturating_sub(1)..row).collect());
    let apart = hidden(on.collect(), 1);
    let mut expected = vec![Vec::new()];
    expected.extend((1..rows).rev().map(|row| vec![row]));
    assert_eq!(expected.len(), rows);
    replies(&apart, &expected);
}

#[test]
fn a_chain_of_three() {
    chain(3);
}

#[test]
fn a_chain_of_twelve() {
    chain(12);
}

#[test]
fn a_chain_of_which_forty_are_lacking() {
    chain(41);
}

/// Chains side by side on the one row that is held, all of their heads hidden: a round
/// brings a row of each.
#[test]
fn chains_side_by_side() {
    let (chains, depth) = (5, 6);
    let on = (0..=chains * depth).map(|row: usize| match row {
        0 => Vec::new(),
        _ => vec![row.saturating_sub(chains)],
    });
    let apart = hidden(on.collect(), 1);
    let mut expected = vec![Vec::new()];
    let round = |k: usize| (1 + chains * k..1 + chains * (k + 1)).collect();
    expected.extend((0..depth).rev().map(round));
    replies(&apart, &expected);
}

/// Twice fifteen rows on one and one on the fifteen, on top of rows that are held.
#[test]
fn wide_merges() {
    let (held, wide) = (64, 15);
    let mut on: Vec<Vec<usize>> = (0..held)
        .map(|row: usize| (row.saturating_sub(1)..row).collect())
        .collect();
    let mut expected = Vec::new();
    for _ in 0..2 {
        let first = on.len();
        on.extend(vec![vec![first - 1]; wide]);
        on.push((first..first + wide).collect());
        expected.extend([(first..first + wide).collect(), vec![first + wide]]);
    }
    expected.push(Vec::new());
    expected.reverse();
    replies(&hidden(on, held), &expected);
}
