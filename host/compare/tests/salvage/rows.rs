//! Rows written out: each rule at its edge, which of several is told, repeats and chains.

use crate::{agree_all, dropped, hash, row, salvaged, table};
use compare::inputs::table::{row_faults, set_number, table_bytes, Likeness, Row, SHAPES};
use compare::inputs::Random;
use compare::model::salvage::{COUNT, LOST_DEPENDENCY, REPEATED_HASH, ROW_NUMBERS, ZEROS};
use compare::model::table::{DEPENDENCIES, ROW};

/// A table of `count` rows on nothing, of which one was changed.
fn wide(count: usize, own: usize, change: impl Fn(&mut [u8])) -> Vec<u8> {
    let rows: Vec<Row> = (0..count)
        .map(|row| Row {
            hash: [row as u8 + 1; 32],
            dependencies: vec![],
        })
        .collect();
    let mut table = table_bytes(&rows);
    change(row(&mut table, own));
    table
}

/// As many dependencies as a row has room for, and one more.
#[test]
fn counts() {
    let on = |count: usize| {
        wide(120, 115, |row| {
            set_number(row, 0, count);
            for k in 1..=DEPENDENCIES {
                set_number(row, k, k);
            }
        })
    };
    assert_eq!(DEPENDENCIES, 111);
    assert_eq!(dropped(&on(111)), []);
    assert_eq!(dropped(&on(112)), [(115, COUNT)]);
    assert_eq!(dropped(&on(255)), [(115, COUNT)]);
    assert_eq!(dropped(&on(256)), [(115, COUNT)]);
    assert_eq!(dropped(&on(65_535)), [(115, COUNT)]);
    // Numbers that aren't counted are stray.
    assert_eq!(dropped(&on(110)), [(115, ZEROS)]);
    assert_eq!(dropped(&on(0)), [(115, ZEROS)]);
}

/// Row numbers that are equal, descend, or are the own or a later one, at the first place
/// and at others.
#[test]
fn row_numbers() {
    let on = |numbers: &[usize]| {
        wide(12, 8, |row| {
            set_number(row, 0, numbers.len());
            for (k, &number) in numbers.iter().enumerate() {
                set_number(row, k + 1, number);
            }
        })
    };
    let good: [&[usize]; 4] = [&[], &[7], &[0, 7], &[0, 1, 2, 3, 4, 5, 6, 7]];
    for numbers in good {
        assert_eq!(dropped(&on(numbers)), [], "{numbers:?}");
    }
    let bad: [&[usize]; 12] = [
        &[8],
        &[9],
        &[11],
        &[12],
        &[65_535],
        &[256],
        &[0, 0],
        &[1, 0],
        &[7, 6],
        &[0, 8],
        &[0, 1, 1],
        &[3, 4, 2],
    ];
    for numbers in bad {
        assert_eq!(dropped(&on(numbers)), [(8, ROW_NUMBERS)], "{numbers:?}");
    }
    // The first row has none before it.
    let first = wide(2, 0, |row| set_number(row, 0, 1));
    assert_eq!(dropped(&first), [(0, ROW_NUMBERS)]);
}

/// A byte at each place that isn't in use.
#[test]
fn zeros() {
    let mut hurt = Vec::new();
    for used in [0, 1, 3] {
        for place in 34 + 2 * used..ROW {
            for byte in [1, 0x80, 0xff] {
                hurt.push(wide(6, 4, |row| {
                    set_number(row, 0, used);
                    for k in 0..used {
                        set_number(row, k + 1, k);
                    }
                    row[place] = byte;
                }));
            }
        }
    }
    let tally = agree_all(&hurt);
    assert_eq!(tally.dropped[ZEROS as usize], hurt.len() as u64);
    assert_eq!(tally.kept, 5 * hurt.len() as u64);
}

/// Of several rules that a row breaks the first is told, and nothing more.
#[test]
fn the_first_rule() {
    let mut table = table(&[&[], &[0], &[0], &[]]);
    set_number(row(&mut table, 1), 0, 112);
    // Row 3 has the hash of row 0, a stray number, wrong numbers and too many of them, and
    // is on the lost row 1; each is set right in turn.
    let own = row(&mut table, 3);
    own[..32].copy_from_slice(&hash(1));
    for (which, number) in [(0, 112), (1, 1), (2, 1), (3, 5)] {
        set_number(own, which, number);
    }
    let told = |table: &[u8]| dropped(table)[1..].to_vec();
    assert_eq!(told(&table), [(3, COUNT)]);
    set_number(row(&mut table, 3), 0, 2);
    assert_eq!(told(&table), [(3, ROW_NUMBERS)]);
    set_number(row(&mut table, 3), 2, 2);
    assert_eq!(told(&table), [(3, ZEROS)]);
    set_number(row(&mut table, 3), 3, 0);
    assert_eq!(told(&table), [(3, REPEATED_HASH)]);
    row(&mut table, 3)[..32].copy_from_slice(&hash(9));
    assert_eq!(told(&table), [(3, LOST_DEPENDENCY)]);
    set_number(row(&mut table, 3), 1, 0);
    assert_eq!(told(&table), []);
}

/// The hash of a kept row is a repeat; that of a dropped one, whatever it was dropped for,
/// isn't, and stands for the first that is kept.
#[test]
fn repeats() {
    let mut twice = table(&[&[], &[0], &[]]);
    row(&mut twice, 2)[..32].copy_from_slice(&hash(1));
    assert_eq!(dropped(&twice), [(2, REPEATED_HASH)]);
    for (which, number, rule) in [(0, 112, COUNT), (1, 1, ROW_NUMBERS), (9, 1, ZEROS)] {
        let mut table = table(&[&[], &[0], &[0], &[0], &[1], &[2]]);
        set_number(row(&mut table, 1), which, number);
        for again in [2, 3] {
            row(&mut table, again)[..32].copy_from_slice(&hash(2));
        }
        let (dropped, kept, _) = salvaged(&table);
        // Row 4 is on the dropped row itself and not on its repeat; row 5 is on that.
        let expected = [(1, rule), (3, REPEATED_HASH), (4, LOST_DEPENDENCY)];
        assert_eq!(dropped, expected);
        let names: Vec<u8> = kept.chunks(ROW).map(|row| row[0]).collect();
        assert_eq!(names, [1, 2, 6]);
        assert_eq!(&kept[2 * ROW + 32..][..4], [1, 0, 1, 0]);
    }
    // A row that was lost may come again too, and so may one that was a repeat itself.
    let mut lost = table(&[&[], &[0], &[1], &[], &[]]);
    set_number(row(&mut lost, 1), 0, 112);
    row(&mut lost, 3)[..32].copy_from_slice(&hash(3));
    row(&mut lost, 4)[..32].copy_from_slice(&hash(3));
    let expected = [(1, COUNT), (2, LOST_DEPENDENCY), (4, REPEATED_HASH)];
    assert_eq!(dropped(&lost), expected);
}

/// A chain whose row k is bad is lost from there on, and a fan only by that row.
#[test]
fn chains() {
    let chain: Vec<Vec<usize>> = (0..20usize)
        .map(|row| (row.saturating_sub(1)..row).collect())
        .collect();
    let chain: Vec<&[usize]> = chain.iter().map(Vec::as_slice).collect();
    for bad in 0..20 {
        let mut table = table(&chain);
        set_number(row(&mut table, bad), 0, 112);
        let (dropped, kept, _) = salvaged(&table);
        assert_eq!(dropped.len(), 20 - bad);
        assert_eq!(dropped[0], (bad as u64, COUNT));
        let lost = dropped[1..].iter().all(|one| one.1 == LOST_DEPENDENCY);
        assert!(lost);
        assert_eq!(kept, table[..ROW * bad]);
    }
    let fan: Vec<&[usize]> = (0..20)
        .map(|row| if row == 0 { &[][..] } else { &[0] })
        .collect();
    let mut table = table(&fan);
    set_number(row(&mut table, 7), 0, 112);
    assert_eq!(dropped(&table), [(7, COUNT)]);
    set_number(row(&mut table, 0), 0, 112);
    assert_eq!(salvaged(&table).1, []);
}

/// Rows swapped, doubled and taken out, each pair of a table, and the numbers of what is left.
#[test]
fn rows_moved() {
    let good = table(&[&[], &[0], &[0, 1], &[], &[1, 2, 3], &[4]]);
    let rows: Vec<&[u8]> = good.chunks(ROW).collect();
    let mut hurt = Vec::new();
    for one in 0..rows.len() {
        let without: Vec<&[u8]> = [&rows[..one], &rows[one + 1..]].concat();
        hurt.push(without.concat());
        for other in 0..rows.len() {
            let mut swapped = rows.clone();
            swapped.swap(one, other);
            hurt.push(swapped.concat());
            let mut doubled = rows.clone();
            doubled.insert(other, rows[one]);
            hurt.push(doubled.concat());
            let mut written_over = rows.clone();
            written_over[other] = rows[one];
            hurt.push(written_over.concat());
        }
    }
    let tally = agree_all(&hurt);
    for rule in [2, 4, 5] {
        assert!(tally.dropped[rule] > 20, "{tally:?}");
    }
}

/// Every way in which a row of good tables goes bad, beside the check of tables: it names the
/// same row first.
#[test]
fn every_fault() {
    let mut random = Random(9);
    for shape in SHAPES {
        let rows = random.rows(130, shape, Likeness::Spread);
        let good = table_bytes(&rows);
        for own in [0, 1, 2, 64, 129] {
            let faults = row_faults(&rows, own);
            let hurt: Vec<Vec<u8>> = faults
                .iter()
                .map(|(_, record)| {
                    let mut table = good.clone();
                    row(&mut table, own).copy_from_slice(record);
                    table
                })
                .collect();
            let tally = agree_all(&hurt);
            assert_eq!(tally.hurt, hurt.len() as u64);
            for table in hurt.iter().step_by(11) {
                let [number, first, ..] = bisquetower::raw::check_table(table);
                assert_eq!((number, first), (6, dropped(table)[0].0));
            }
        }
    }
}
