//! The index beside a table: built, extended, not believed, and what is found through it.

use crate::{
    agree, answer, ask, beyond, build_index, check_tables, diamond, extend_index, heads, list,
    missing, table, waiting, with_record, written, Bytes, First, BEYOND, BUILD_INDEX, CHECK_TABLES,
    EXTEND_INDEX, HEADS, MISSING, ROOM,
};
use compare::inputs::index::{index_bytes, index_faults, index_of};
use compare::inputs::table::{row_faults, table_bytes, Likeness, Row, Shape, LIKENESSES, SHAPES};
use compare::inputs::{strings, Random};
use compare::model::table::{Hash, HASH, ROW, ROWS};
use compare::tables::{but_the_last, Call, Rooms, Tally};

const BAD_INDEX: First = [12, 0];

/// Every call that is lent an index, over this table.
fn calls_over<'a>(table: &'a [u8], hashes: &'a [u8]) -> [Call<'a>; 4] {
    [
        check_tables(table, &[]),
        heads(table, table.len() / ROW),
        beyond(table, hashes),
        missing(table, &[], hashes),
    ]
}

/// The index that the library writes; neither model nor stand-in is asked.
fn bytes(call: Call) -> Bytes {
    let ([first, length, ..], bytes) = ask(call, ROOM);
    assert_eq!((first, length), (0, bytes.len() as u64));
    bytes
}

/// The smallest tables at which readings of M-100 part.
#[test]
fn settled_readings() {
    // No rows have an index of no bytes, and there is no last row to extend it by.
    assert_eq!(bytes(build_index(&[])), []);
    for call in calls_over(&[], &[]) {
        assert_eq!(answer(call.beside(&[]), ROOM)[0], 0);
        for other in [&[0][..], &[0, 0], &[255, 255]] {
            assert_eq!(answer(call.beside(other), ROOM), BAD_INDEX);
        }
    }
    assert_eq!(answer(extend_index(&[]).beside(&[]), 0), BAD_INDEX);
    assert_eq!(answer(extend_index(&[]).beside(&[0, 0]), 2), BAD_INDEX);
    // Entries are little-endian, in ascending order of hash.
    let rows = table(&[(9, &[]), (4, &[]), (6, &[])]);
    assert_eq!(bytes(build_index(&rows)), [1, 0, 2, 0, 0, 0]);
    assert_eq!(bytes(extend_index(&rows)), [1, 0, 2, 0, 0, 0]);
    assert_eq!(bytes(build_index(&rows[..ROW])), [0, 0]);
    assert_eq!(bytes(extend_index(&rows[..ROW])), [0, 0]);
    let down: Vec<(u16, &[usize])> = (0..300).rev().map(|n| (n, &[][..])).collect();
    let built = bytes(build_index(&table(&down)));
    assert_eq!(built[..4], [43, 1, 42, 1]);
    assert_eq!(built[598..], [0, 0]);
    // The index of another table with as many rows fits if these ascend alike.
    let alike = table(&[(900, &[]), (1, &[]), (2, &[0])]);
    let other = table(&[(4, &[]), (9, &[]), (6, &[])]);
    for call in calls_over(&rows, &list(&[4, 5])) {
        assert_eq!(answer(call.beside(&index_of(&alike)), ROOM)[0], 0);
        assert_eq!(answer(call.beside(&index_of(&other)), ROOM), BAD_INDEX);
    }
    // What is asked of it is asked of the whole table, though only the first rows' heads
    // are wanted.
    let shorter = index_of(but_the_last(&rows));
    assert_eq!(answer(heads(&rows, 2).beside(&shorter), ROOM), BAD_INDEX);
    assert_eq!(answer(heads(&rows, 4).beside(&shorter), ROOM), BAD_INDEX);
    assert_eq!(answer(heads(&rows, 4), ROOM), [11, 0]);
}

/// Every string of up to five entries that are rows or nearly, beside three rows: one of
/// them fits.
#[test]
fn every_short_index_of_three_rows() {
    let rows = table(&[(9, &[]), (4, &[]), (6, &[0, 1])]);
    let asked = list(&[4, 7]);
    let mut tally = Tally::default();
    for length in 0..=5 {
        let all: Vec<Bytes> = strings(&[0, 1, 2, 3], length)
            .map(|entries| index_bytes(&entries.iter().map(|&row| row.into()).collect::<Vec<_>>()))
            .collect();
        for some in all.chunks(200) {
            let calls = some.iter().flat_map(|index| {
                let extend = extend_index(&rows);
                let calls = calls_over(&rows, &asked).into_iter().chain([extend]);
                calls.map(|call| (call.beside(index), Rooms::Enough))
            });
            tally.add(&agree(&calls.collect::<Vec<_>>()));
        }
    }
    let all = 1 + 4 + 16 + 64 + 256 + 1_024;
    assert_eq!(tally.of(CHECK_TABLES, 0), 1);
    assert_eq!(tally.of(CHECK_TABLES, 12), all - 1);
    // Those that write do so over two fills.
    for kind in [HEADS, BEYOND, MISSING, EXTEND_INDEX] {
        assert_eq!([0, 12].map(|word| tally.of(kind, word)), [2, 2 * (all - 1)]);
    }
}

/// Every bit of an index flipped, and every length of it.
#[test]
fn every_bit_and_every_length() {
    let mut random = Random(31);
    for (count, likeness) in [(5, Likeness::Spread), (40, Likeness::Alike)] {
        let rows = random.rows(count, Shape::Recent, likeness);
        let table = table_bytes(&rows);
        let own = index_of(&table);
        let flipped = (0..8 * own.len()).map(|bit| {
            let mut index = own.clone();
            index[bit / 8] ^= 1 << (bit % 8);
            index
        });
        let lengths = (0..own.len() + 9).map(|length| {
            let mut index = own.clone();
            index.resize(length, 0);
            index
        });
        let others: Vec<Bytes> = flipped.chain(lengths).collect();
        let calls = others.iter().flat_map(|index| {
            let calls = calls_over(&table, &rows[0].hash).into_iter();
            calls.map(|call| (call.beside(index), Rooms::Enough))
        });
        let tally = agree(&calls.collect::<Vec<_>>());
        assert_eq!(tally.of(CHECK_TABLES, 0), 1);
        assert_eq!(tally.of(CHECK_TABLES, 12), others.len() as u64 - 1);
    }
}

/// Every way in which an index doesn't fit, in tables of all sizes: 12 of every call, and
/// nothing is written.
#[test]
fn an_index_that_doesnt_fit_is_noticed() {
    let mut random = Random(32);
    for (k, count) in [0, 1, 2, 3, 17, 64, 255, 256, 257, ROWS - 1, ROWS]
        .into_iter()
        .enumerate()
    {
        let rows = random.rows(count, SHAPES[k % SHAPES.len()], LIKENESSES[k % 4]);
        let table = table_bytes(&rows);
        let asked = random.hash();
        let faults = index_faults(&index_of(&table));
        let calls = faults.iter().flat_map(|(_, index)| {
            let calls = calls_over(&table, &asked).into_iter();
            calls.map(|call| (call.beside(index), Rooms::Enough))
        });
        let tally = agree(&calls.collect::<Vec<_>>());
        let shorter = index_faults(&index_of(but_the_last(&table)));
        let extending = shorter
            .iter()
            .map(|(_, index)| (extend_index(&table).beside(index), Rooms::Enough));
        let extended = agree(&extending.collect::<Vec<_>>());
        let noticed = |tally: &Tally, kind| tally.of(kind, 12) as usize;
        assert_eq!(noticed(&tally, CHECK_TABLES), faults.len(), "{count} rows");
        for kind in [HEADS, BEYOND, MISSING] {
            assert_eq!(noticed(&tally, kind), 2 * faults.len(), "{count} rows");
        }
        assert_eq!(noticed(&extended, EXTEND_INDEX), 2 * shorter.len());
    }
}

/// A bad row is told whatever the index, and a long table too: that of the good table,
/// one that fits nothing, or what sorting the bad rows gives.
#[test]
fn a_bad_row_comes_first() {
    let mut random = Random(33);
    let good_waiting = waiting(&[(10, &[11])]);
    for (k, count) in [1, 2, 3, 17, 65].into_iter().enumerate() {
        let rows = random.rows(count, SHAPES[k], LIKENESSES[k % 4]);
        let good = table_bytes(&rows);
        let own = index_of(&good);
        let (_, other) = index_faults(&own).swap_remove(k);
        for row in [0, count / 2, count - 1] {
            for (why, record) in row_faults(&rows, row) {
                let bad = with_record(&good, row, &record);
                let indexes = [own.clone(), other.clone(), index_of(&bad), Vec::new()];
                for index in &indexes {
                    let calls = [
                        check_tables(&bad, &good_waiting),
                        heads(&bad, 0),
                        beyond(&bad, &[]),
                        missing(&bad, &[], &[]),
                        extend_index(&bad),
                    ];
                    for call in calls {
                        let ([first, at, ..], _) = ask(call.beside(index), ROOM);
                        assert_eq!([first, at], [6, row as u64], "row {row} of {count}, {why}");
                    }
                }
            }
        }
    }
    // A hash twice, and an index that skips or names both.
    let twice = table(&[(5, &[]), (7, &[]), (5, &[])]);
    for entries in [&[0, 2, 1][..], &[2, 0, 1], &[0, 1], &[2, 1], &[0, 1, 2]] {
        let index = index_bytes(entries);
        assert_eq!(answer(heads(&twice, 3).beside(&index), ROOM), [6, 2]);
    }
    let long = vec![0; ROW * ROWS + 1];
    assert_eq!(answer(heads(&long, 0).beside(&[1]), ROOM), [4, 0]);
    assert_eq!(answer(extend_index(&long).beside(&[1]), ROOM), [4, 0]);
    assert_eq!(answer(build_index(&long), 0), [4, 0]);
}

/// Built, and extended by the last row, in tables of all shapes and sizes: a plain sort
/// of the rows.
#[test]
fn built_and_extended_is_sorted() {
    let mut random = Random(34);
    for count in [0, 1, 2, 3, 63, 64, 65, 255, 256, 257, ROWS - 1, ROWS] {
        for (k, shape) in SHAPES.into_iter().enumerate() {
            let rows = random.rows(count, shape, LIKENESSES[(k + count) % 4]);
            let table = table_bytes(&rows);
            let mut sorted: Vec<(Hash, usize)> =
                rows.iter().map(|row| row.hash).zip(0..count).collect();
            sorted.sort();
            let sorted: Vec<usize> = sorted.into_iter().map(|(_, row)| row).collect();
            assert_eq!(bytes(build_index(&table)), index_bytes(&sorted));
            let calls = [build_index(&table), extend_index(&table)];
            let tally = agree(&calls.map(|call| (call, Rooms::Around)));
            assert!(tally.of(BUILD_INDEX, 0) > 0);
            assert_eq!(tally.of(EXTEND_INDEX, 0) > 0, count > 0);
        }
    }
}

/// Extended row by row from nothing: at each row what building gives, up to as many rows
/// as there may be.
#[test]
fn extended_row_by_row_is_built() {
    let mut random = Random(35);
    for (k, likeness) in LIKENESSES.into_iter().enumerate() {
        let count = if k == 0 { ROWS } else { 130 };
        let table = table_bytes(&random.rows(count, Shape::Recent, likeness));
        let mut index = Bytes::new();
        for row in 0..count {
            let first = &table[..ROW * (row + 1)];
            index = bytes(extend_index(first).beside(&index));
            if row < 130 || row % 64 == 63 {
                assert_eq!(index, bytes(build_index(first)), "{likeness:?}, row {row}");
            }
        }
        assert_eq!(index, index_of(&table));
    }
}

/// A hash just before and just after another.
fn neighbours(hash: &Hash) -> [Hash; 2] {
    let moved = |from: u8, to: u8| {
        let mut near = *hash;
        // The last byte that has somewhere to go carries the others along.
        for byte in near.iter_mut().rev() {
            let ends = *byte == from;
            *byte = match ends {
                true => to,
                false => byte.wrapping_add(if from == 0 { 255 } else { 1 }),
            };
            if !ends {
                break;
            }
        }
        near
    };
    [moved(0, 255), moved(255, 0)]
}

/// Each hash of a table is found at its row, and its neighbours aren't: in tables of every
/// size up to 70 and around powers of two.
#[test]
fn every_hash_is_found_and_no_other() {
    let mut random = Random(36);
    let sizes = (1..=70).chain([127, 128, 129, 255, 256, 257, 511, 512, 513, ROWS - 1, ROWS]);
    for (k, count) in sizes.enumerate() {
        let hashes = random.hashes(count, LIKENESSES[k % 4]);
        let rows: Vec<Row> = random.rows_of(&hashes, Shape::Wide);
        let table = table_bytes(&rows);
        // Missing: what isn't found, each once, ascending.
        let mut strange: Vec<Hash> = hashes.iter().flat_map(neighbours).collect();
        strange.extend([[0; HASH], [255; HASH]]);
        strange.retain(|hash| !hashes.contains(hash));
        strange.sort();
        strange.dedup();
        let not_found: Vec<Hash> = strange
            .chunks(512)
            .zip(hashes.chunks(512).cycle())
            .flat_map(|(strange, held)| {
                let asked = [strange, held].concat().concat();
                written(missing(&table, &[], &asked))
            })
            .collect();
        assert_eq!(not_found, strange, "{count} rows");
        // Beyond one row of a wide table: all the others, in their order.
        let asked: Vec<usize> = match count <= 70 {
            true => (0..count).collect(),
            false => (0..count).step_by(count / 16).chain([count - 1]).collect(),
        };
        for row in asked {
            let mut others = hashes.clone();
            others.remove(row);
            let list = [&neighbours(&hashes[row])[..1], &[hashes[row]]].concat();
            let list: Vec<Hash> = list
                .into_iter()
                .filter(|one| !others.contains(one))
                .collect();
            let found = written(beyond(&table, &list.concat()));
            assert_eq!(found, others, "row {row} of {count}");
        }
    }
}

/// The diamond through every call with each of the indexes of four rows: one fits.
#[test]
fn every_order_of_four_rows() {
    let rows = diamond();
    let mut fits = 0;
    for order in strings(&[0, 1, 2, 3], 4) {
        let order: Vec<usize> = order.into_iter().map(usize::from).collect();
        let index = index_bytes(&order);
        for call in calls_over(&rows, &list(&[2])) {
            let [first, _] = answer(call.beside(&index), ROOM);
            let own = order == [0, 1, 2, 3];
            assert_eq!(first, if own { 0 } else { 12 }, "{order:?}");
            fits += usize::from(own);
        }
    }
    assert_eq!(fits, 4);
}
