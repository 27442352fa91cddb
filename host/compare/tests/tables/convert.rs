//! Rows of before and rows of now (change request M-106), each written as the other.

use crate::{agree, answer, ask, diamond, table, with_record, Bytes};
use compare::inputs::table::{row_faults, table_bytes, Likeness, Row, Shape, SHAPES};
use compare::inputs::Random;
use compare::model::table::{converted, DEPENDENCIES, HASH, NOW, OLD, ROW, ROWS};
use compare::tables::{Call, Rooms};

const WIDEN: usize = 7;
const NARROW: usize = 8;

fn widen(table: &[u8]) -> Call<'_> {
    Call::WidenRows { table }
}

fn narrow(table: &[u8]) -> Call<'_> {
    Call::NarrowRows { table }
}

/// What a call writes.
fn made(call: Call) -> Bytes {
    let ([first, length, ..], bytes) = ask(call, NOW.row() * ROWS);
    assert_eq!((first, length), (0, bytes.len() as u64));
    bytes
}

/// Rows that old ones have room for.
fn narrow_rows(random: &mut Random, count: usize, shape: Shape) -> Vec<Row> {
    let mut rows = random.rows(count, shape, Likeness::Spread);
    for row in &mut rows {
        row.dependencies.truncate(OLD.dependencies);
    }
    rows
}

/// There and back is the same bytes, both ways round, at every kind of size.
#[test]
fn there_and_back() {
    let mut random = Random(70);
    for shape in SHAPES {
        for count in [0, 1, 2, 3, 15, 16, 17, 255, OLD.rows - 1, OLD.rows] {
            let wide = table_bytes(&narrow_rows(&mut random, count, shape));
            let old = made(narrow(&wide));
            assert_eq!(old.len(), count * OLD.row());
            assert_eq!(made(widen(&old)), wide, "{shape:?}, {count} rows");
            assert_eq!(made(narrow(&wide)), old);
        }
    }
}

/// Every buffer length of small tables, and lengths around those of larger ones.
#[test]
fn buffers() {
    let mut random = Random(71);
    for count in [0, 1, 3] {
        let wide = table_bytes(&narrow_rows(&mut random, count, Shape::Any));
        let old = made(narrow(&wide));
        agree(&[(widen(&old), Rooms::Every), (narrow(&wide), Rooms::Every)]);
    }
    let wide = table_bytes(&narrow_rows(&mut random, OLD.rows, Shape::Any));
    let old = made(narrow(&wide));
    let tally = agree(&[(widen(&old), Rooms::Around), (narrow(&wide), Rooms::Around)]);
    for kind in [WIDEN, NARROW] {
        assert!(tally.of(kind, 0) > 0 && tally.of(kind, 7) > 0);
    }
}

/// Every way in which a row of before or of now is bad names that row.
#[test]
fn bad_rows() {
    let mut random = Random(72);
    for count in [1, 2, 17, 40] {
        let rows = narrow_rows(&mut random, count, Shape::Any);
        let wide = table_bytes(&rows);
        let old = made(narrow(&wide));
        for row in [0, count / 2, count - 1] {
            for (why, record) in row_faults(&rows, row) {
                let bad = with_record(&wide, row, &record);
                assert_eq!(answer(narrow(&bad), 0), [6, row as u64], "{why}");
                let first = &record[..OLD.row().min(record.len())];
                let mut bad = old.clone();
                bad[OLD.row() * row..][..first.len()].copy_from_slice(first);
                agree(&[(widen(&bad), Rooms::Enough)]);
            }
        }
    }
}

/// Every bit of a small table of before changed.
#[test]
fn every_bit_of_old_rows() {
    let old = made(narrow(&diamond()));
    let flipped = (0..8 * old.len()).map(|bit| {
        let mut old = old.clone();
        old[bit / 8] ^= 1 << (bit % 8);
        old
    });
    let flipped: Vec<Bytes> = flipped.collect();
    let calls: Vec<_> = flipped
        .iter()
        .map(|old| (widen(old), Rooms::Enough))
        .collect();
    let tally = agree(&calls);
    assert!(tally.of(WIDEN, 0) > 100 && tally.of(WIDEN, 6) > 100);
}

/// Lengths that are no whole rows, and tables past their rows.
#[test]
fn lengths() {
    let mut random = Random(73);
    let wide = table_bytes(&random.rows(ROWS, Shape::Recent, Likeness::Spread));
    for length in [0, 1, ROW - 1, ROW, ROW + 1, 2 * ROW - 1, 2 * ROW] {
        agree(&[(narrow(&wide[..length]), Rooms::Around)]);
    }
    let old = converted(NOW, OLD, &wide[..ROW * OLD.rows]).expect("narrow rows");
    for length in [0, 1, 63, 64, 65, 127, 128, OLD.row() * OLD.rows] {
        agree(&[(widen(&old[..length]), Rooms::Around)]);
    }
    // 4 above the rows of before comes after 6, and 13 after both.
    assert_eq!(answer(narrow(&wide[..ROW * (OLD.rows + 1)]), 0), [4, 0]);
    assert_eq!(answer(narrow(&wide), 0), [4, 0]);
    let longer = [&wide[..], &[0]].concat();
    assert_eq!(answer(narrow(&longer), 0), [4, 0]);
    let mut bad = wide.clone();
    bad[ROW * (ROWS - 1) + HASH] = 0xff;
    assert_eq!(answer(narrow(&bad), 0), [6, ROWS as u64 - 1]);
    let longer = [&old[..], &[0]].concat();
    assert_eq!(answer(widen(&longer), 0), [4, 0]);
}

/// A table whose row `own` depends on the `count` rows before it.
fn wide_at(own: usize, count: usize, rows: usize) -> Bytes {
    let lists: Vec<Vec<usize>> = (0..rows)
        .map(|row| match row == own {
            true => (own - count..own).collect(),
            false => Vec::new(),
        })
        .collect();
    let rows = lists.iter().zip(0u16..);
    let rows: Vec<(u16, &[usize])> = rows.map(|(list, n)| (n, list.as_slice())).collect();
    table(&rows)
}

/// Rows of 15 dependencies are narrowed, those of 16 to 111 refused with the first of them.
#[test]
fn wide_rows() {
    for count in 0..=DEPENDENCIES {
        let table = wide_at(DEPENDENCIES + 3, count, DEPENDENCIES + 5);
        let [first, value] = answer(narrow(&table), OLD.row() * (DEPENDENCIES + 5));
        match count <= OLD.dependencies {
            true => assert_eq!([first, value], [0, (OLD.row() * (DEPENDENCIES + 5)) as u64]),
            false => assert_eq!([first, value], [13, DEPENDENCIES as u64 + 3]),
        }
    }
    // With too little room too, and past the rows of before 4 comes first.
    assert_eq!(answer(narrow(&wide_at(20, 16, 22)), 0), [13, 20]);
    assert_eq!(answer(narrow(&wide_at(20, 16, OLD.rows)), 0), [13, 20]);
    assert_eq!(answer(narrow(&wide_at(20, 16, OLD.rows + 1)), 0), [4, 0]);
}
