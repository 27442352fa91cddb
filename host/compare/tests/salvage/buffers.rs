//! Buffers of every length.

use crate::{agree, row, table};
use bisquetower::raw;
use compare::inputs::table::set_number;
use compare::model::table::{ROW, ROWS};
use compare::salvage::Rooms;

/// A table that keeps three rows and drops three.
fn hurt() -> Vec<u8> {
    let mut table = table(&[&[], &[0], &[0, 1], &[], &[1, 2, 3], &[3]]);
    set_number(row(&mut table, 1), 0, 112);
    table
}

/// Every length of either buffer, for tables that are whole, hurt, cut, lost as a whole, and
/// without rows: what isn't written stays as it was, and after a refusal all of it does.
#[test]
fn every_length() {
    let whole = table(&[&[], &[0]]);
    let mut lost = table(&[&[], &[0], &[1]]);
    set_number(row(&mut lost, 0), 9, 1);
    let hurt = hurt();
    let cut = &hurt[..hurt.len() - 100];
    let lent: [&[u8]; 6] = [&whole, &hurt, cut, &lost, &[], &[7; 255]];
    for table in lent {
        let tally = agree(&[(table, Rooms::Every)]);
        assert!(tally.answered > 0, "{tally:?}");
    }
    let tally = agree(&[(&hurt, Rooms::Every)]);
    assert!(tally.too_short > 2 * (3 * ROW as u64 + 6), "{tally:?}");
}

/// The words that are wanted: bytes of the rows, then entries of the report, of which one is
/// two words.
#[test]
fn what_is_wanted() {
    let table = hurt();
    let ask = |bytes: usize, words: usize| {
        let (mut rows, mut report) = (vec![9; bytes], vec![9; words]);
        let answer = raw::salvage(&table, &mut rows, &mut report);
        let untouched = rows.iter().all(|&byte| byte == 9) && report.iter().all(|&word| word == 9);
        assert_eq!(untouched, answer[0] != 0, "{answer:?}");
        answer
    };
    let bytes = 3 * ROW;
    assert_eq!(ask(bytes, 6), [0, bytes as u64, 3, 0]);
    assert_eq!(ask(bytes + 1, 7), [0, bytes as u64, 3, 0]);
    assert_eq!(ask(bytes - 1, 6), [7, bytes as u64, 0, 0]);
    assert_eq!(ask(0, 6), [7, bytes as u64, 0, 0]);
    for words in 0..6 {
        assert_eq!(ask(bytes, words), [7, 3, 0, 0]);
        // Both are too short: the rows are told.
        assert_eq!(ask(bytes - 1, words), [7, bytes as u64, 0, 0]);
    }
}

/// A table that is too long is told before its buffers are looked at.
#[test]
fn too_long_for_any_buffer() {
    for length in [ROW * ROWS + 1, ROW * ROWS + ROW, ROW * ROWS * 2] {
        let long = vec![0; length];
        for room in [(0, 0), (ROW, 2), (ROW * ROWS, 2 * ROWS)] {
            let tally = agree(&[(&long, Rooms::One(room))]);
            assert_eq!((tally.too_long, tally.answered), (2, 0));
        }
        assert_eq!(raw::salvage(&long, &mut [], &mut []), [4, 0, 0, 0]);
    }
}
