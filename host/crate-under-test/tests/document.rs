//! The stand-in document keeps document 01's rules for tables.

mod common;

use common::{change, document, hash, hashes, waiting_document};
use crate_under_test::facade::*;
use crate_under_test::PatchLog;

fn load(document: &mut Automerge, bytes: &[u8]) -> Result<usize, AutomergeError> {
    document.load_incremental_log_patches(bytes, &mut PatchLog::inactive())
}

#[test]
fn p11_beyond_b_in_a_diamond() {
    let diamond = document(&[(0, &[]), (1, &[0]), (2, &[0]), (3, &[1, 2])]);
    assert_eq!(diamond.rows_beyond(&hashes(&[1])), hashes(&[2, 3]));
    assert_eq!(diamond.rows_beyond(&hashes(&[77])), hashes(&[0, 1, 2, 3]));
    assert_eq!(diamond.get_heads(), hashes(&[3]));
}

#[test]
fn heads_ascend_and_rows_beyond_keep_table_order() {
    let two = document(&[(9, &[]), (4, &[]), (6, &[])]);
    assert_eq!(two.get_heads(), hashes(&[4, 6, 9]));
    assert_eq!(two.rows_beyond(&[]), hashes(&[9, 4, 6]));
}

#[test]
fn missing_asks_waiting_changes_and_ends_in_a_cycle() {
    let waiting: [(u32, &[u32]); 3] = [(5, &[0, 8, 6]), (6, &[5, 7]), (20, &[21])];
    let document = waiting_document(&[(0, &[])], &waiting);
    let missing = |list: &[u32]| document.missing_deps_from(hashes(list).into_iter());
    assert_eq!(missing(&[0]), hashes(&[]));
    assert_eq!(missing(&[9, 9]), hashes(&[9]));
    assert_eq!(missing(&[5]), hashes(&[7, 8]));
    assert_eq!(missing(&[5, 6, 0, 3]), hashes(&[3, 7, 8]));
}

#[test]
fn bad_rows_are_refused() {
    let rows = |list: Vec<Change>| Automerge::from_rows(list, Vec::new());
    let later = rows(vec![change(0, &[1]), change(1, &[])]);
    assert_eq!(later, Err(AutomergeError::BadRow { row: 0 }));
    let twice = rows(vec![change(0, &[]), change(0, &[])]);
    assert_eq!(twice, Err(AutomergeError::BadRow { row: 1 }));
    let held = Automerge::from_rows(vec![change(0, &[])], vec![change(0, &[])]);
    assert_eq!(held, Err(AutomergeError::BadWaitingRow { row: 0 }));
}

#[test]
fn loading_lets_changes_wait_and_moves_them() {
    let mut unit = Automerge::new();
    let early = [change(2, &[1]), change(1, &[0])];
    let bytes: Vec<u8> = early.iter().flat_map(Change::raw_bytes).copied().collect();
    assert_eq!(load(&mut unit, &bytes), Ok(0));
    assert_eq!(load(&mut unit, &bytes), Ok(0));
    assert_eq!(unit.waiting(), early);
    assert_eq!(load(&mut unit, change(0, &[]).raw_bytes()), Ok(3));
    let order: Vec<ChangeHash> = unit.rows().iter().map(Change::hash).collect();
    assert_eq!(order, hashes(&[0, 1, 2]));
    assert!(unit.waiting().is_empty());
}

#[test]
fn a_saved_document_loads_to_the_same_rows() {
    let saved = document(&[(3, &[]), (1, &[3]), (2, &[3, 1])]);
    let mut unit = Automerge::new();
    assert_eq!(load(&mut unit, &saved.save()), Ok(3));
    assert_eq!(unit, saved);
    assert!(!Automerge::new().save().is_empty());
    assert_eq!(load(&mut Automerge::new(), &[]), Ok(0));
}

#[test]
fn bad_bytes_fail_and_change_nothing() {
    let mut bytes = change(1, &[]).raw_bytes().to_vec();
    let place = bytes.len();
    bytes.extend(&change(2, &[]).raw_bytes()[..40]);
    let mut unit = document(&[(0, &[])]);
    let before = unit.clone();
    assert_eq!(
        load(&mut unit, &bytes),
        Err(AutomergeError::BadRecord { place })
    );
    assert_eq!(
        load(&mut unit, &[0xff]),
        Err(AutomergeError::BadRecord { place: 0 })
    );
    assert_eq!(unit, before);
    assert!(!unit.has_change(&hash(1)));
}
