//! Every byte of a table, and every cut.

use crate::{agree_all, row, salvaged, table};
use compare::inputs::table::{set_number, table_bytes, Likeness, Shape};
use compare::inputs::Random;
use compare::model::table::{ROW, ROWS};
use compare::salvage::Tally;

/// Rows that depend on none, on one, on several and on one that several depend on.
fn small() -> Vec<u8> {
    table(&[&[], &[0], &[0, 1], &[], &[1, 2, 3], &[4]])
}

/// Every byte of a good table is another in turn, each of its bits alone and all of them.
#[test]
fn every_byte_of_a_table() {
    let good = small();
    let flips = (0..8).map(|bit| 1 << bit).chain([0xff]);
    let mut hurt = Vec::new();
    for flip in flips {
        for place in 0..good.len() {
            let mut table = good.clone();
            table[place] ^= flip;
            hurt.push(table);
        }
    }
    let tally = agree_all(&hurt);
    for rule in [1, 2, 3, 5] {
        assert!(tally.dropped[rule] > 50, "{tally:?}");
    }
    assert!(tally.whole > 100, "{tally:?}");
}

/// Every value of every byte of three rows, but for their hashes, of which a few bytes say as
/// much as all of them.
#[test]
fn every_value_of_a_row() {
    let good = small();
    let mut tally = Tally::default();
    for own in [0, 2, 5] {
        for place in [0, 1, 31].into_iter().chain(32..ROW) {
            let hurt: Vec<Vec<u8>> = (0..=255)
                .map(|byte| {
                    let mut table = good.clone();
                    table[ROW * own + place] = byte;
                    table
                })
                .collect();
            tally.add(&agree_all(&hurt));
        }
    }
    for (rule, least) in [
        (1, 3 * 255),
        (2, 255),
        (3, 3 * 255 * 200),
        (5, 5 * 255 * 200),
    ] {
        assert!(tally.dropped[rule] > least, "{tally:?}");
    }
}

/// Two rows of which one has the other's hash but for a byte, at each place.
#[test]
fn hashes_that_differ_in_a_byte() {
    let mut hurt = Vec::new();
    for place in 0..32 {
        for byte in [1, 0x80, 0xff] {
            let mut table = table(&[&[], &[], &[0]]);
            let first = row(&mut table, 0)[..32].to_vec();
            row(&mut table, 1)[..32].copy_from_slice(&first);
            hurt.push(table.clone());
            row(&mut table, 1)[place] ^= byte;
            hurt.push(table);
        }
    }
    let tally = agree_all(&hurt);
    assert_eq!((tally.whole, tally.hurt), (96, 96));
    assert_eq!(tally.dropped, [0, 0, 0, 0, 96, 0]);
}

/// Every cut of a good table and of a hurt one: the bytes behind the last whole row are told,
/// and nothing else of them.
#[test]
fn every_cut() {
    let good = small();
    let mut hurt = good.clone();
    set_number(row(&mut hurt, 1), 0, 112);
    for table in [&good, &hurt] {
        let cuts: Vec<Vec<u8>> = (0..=table.len()).map(|end| table[..end].to_vec()).collect();
        agree_all(&cuts);
        for cut in [0, 1, 255, 256, 257, 511, 512, table.len() - 1] {
            let (dropped, rows, partial) = salvaged(&table[..cut]);
            assert_eq!(partial, (cut % ROW) as u64);
            assert_eq!(rows.len() / ROW + dropped.len(), cut / ROW);
        }
    }
}

/// The largest tables of several shapes, whole and hurt; one byte more is refused.
#[test]
fn the_largest_tables() {
    let mut random = Random(109);
    for (shape, likeness) in [
        (Shape::Deep, Likeness::Descending),
        (Shape::Any, Likeness::Spread),
        (Shape::Wide, Likeness::Alike),
    ] {
        let good = table_bytes(&random.rows(ROWS, shape, likeness));
        let mut bad = good.clone();
        set_number(row(&mut bad, ROWS / 2), 0, 112);
        let mut repeats = good.clone();
        repeats.copy_within(..32, ROW * (ROWS - 1));
        let longer = [&good[..], &[0]].concat();
        let tally = agree_all(&[good, bad, repeats, longer]);
        assert_eq!((tally.answered, tally.too_long), (6, 2));
        assert_eq!((tally.whole, tally.hurt), (1, 2));
        assert_eq!((tally.dropped[1], tally.dropped[4]), (1, 1));
    }
}
