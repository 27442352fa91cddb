//! Picks that fit a radio (M-110): the proved library against the model, by itself and in
//! plans. `compare::picks` and `compare::sessions` say what is held against what.

#[path = "picks/buffers.rs"]
mod buffers;
#[path = "picks/catch_ups.rs"]
mod catch_ups;
#[path = "picks/every.rs"]
mod every;
#[path = "picks/limits.rs"]
mod limits;
#[path = "picks/literal.rs"]
mod literal;
#[path = "picks/offers.rs"]
mod offers;
#[path = "picks/plans.rs"]
mod plans;
#[path = "picks/random.rs"]
mod random;
#[path = "picks/refused_plans.rs"]
mod refused_plans;

use compare::inputs::index::index_of;
use compare::inputs::table::{table_bytes, Row};
use compare::model::table::Hash;
use compare::picks::{compare_checks, compare_picks, Given};
use compare::tables::Rooms;

/// A hash by its number.
fn hash(n: usize) -> Hash {
    let mut hash = [0x22; 32];
    // Hashes descend while rows ascend.
    hash[..2].copy_from_slice(&(0xf000 - n as u16).to_be_bytes());
    hash
}

fn hashes(numbers: &[usize]) -> Vec<u8> {
    numbers.iter().flat_map(|&n| hash(n)).collect()
}

/// Rows on those that are told.
fn rows(on: &[&[usize]]) -> Vec<u8> {
    let row = |(row, on): (usize, &&[usize])| Row {
        hash: hash(row),
        dependencies: on.to_vec(),
    };
    table_bytes(&on.iter().enumerate().map(row).collect::<Vec<_>>())
}

/// A list of rows by their numbers, in a budget.
fn given(on: &[&[usize]], list: &[usize], sizes: &[u64], budget: u64) -> Given {
    let table = rows(on);
    Given {
        index: index_of(&table),
        table,
        list: hashes(list),
        sizes: sizes.to_vec(),
        budget,
    }
}

/// The first two words of what the check answers, after a comparison with the model.
fn checked(given: &Given, pick: &[u8]) -> [u64; 2] {
    let compared = compare_checks(&[(given, pick)]);
    let (_, answers) = compared.unwrap_or_else(|why| panic!("{why}"));
    let [first, second, third, fourth] = answers[0];
    assert_eq!([third, fourth], [0, 0]);
    [first, second]
}

/// The first two words of what the planner answers, after a comparison with the model in
/// buffers around what is wanted.
fn picks(given: &Given) -> [u64; 2] {
    let compare = |rooms| compare_picks(given, rooms).unwrap_or_else(|why| panic!("{why}"));
    compare(Rooms::Around);
    let [first, second, third, fourth] = compare(Rooms::Enough)[0];
    assert_eq!([third, fourth], [0, 0]);
    [first, second]
}
