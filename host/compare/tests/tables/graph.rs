//! Heads and rows beyond, in tables of all shapes and sizes.

use crate::{agree, beyond, check, heads, Bytes, BEYOND, CHECK_TABLE, HEADS};
use compare::inputs::table::{table_bytes, Likeness, Row, Shape, LIKENESSES, SHAPES};
use compare::inputs::Random;
use compare::model::table::{Hash, HASH, HASHES, ROWS};
use compare::tables::{Rooms, ANSWERS};

/// Good tables of every shape and size: their rows, heads and rows beyond lists
/// of none, all, one, the heads, unknown and repeated hashes.
#[test]
fn tables_of_all_shapes_and_sizes() {
    let mut random = Random(16);
    for count in [0, 1, 2, 63, 64, 65, 256, ROWS - 1, ROWS] {
        for (k, shape) in SHAPES.into_iter().enumerate() {
            let rows = random.rows(count, shape, LIKENESSES[(k + count) % 4]);
            let table = table_bytes(&rows);
            let lists = lists_over(&rows, &mut random);
            let mut calls = vec![check(&table), heads(&table, count)];
            calls.extend(lists.iter().map(|hashes| beyond(&table, hashes)));
            let rooms = if count < 64 {
                Rooms::Around
            } else {
                Rooms::Enough
            };
            let calls: Vec<_> = calls.into_iter().map(|call| (call, rooms)).collect();
            let tally = agree(&calls);
            let refused: u64 = (1..ANSWERS).map(|word| tally.of(CHECK_TABLE, word)).sum();
            assert_eq!(refused, 0, "{count} rows, {shape:?}");
        }
    }
}

/// Lists to ask a table's rows beyond.
fn lists_over(rows: &[Row], random: &mut Random) -> Vec<Bytes> {
    let all: Vec<Hash> = rows.iter().map(|row| row.hash).collect();
    let unknown = random.hashes(3, Likeness::Spread);
    let mut lists = vec![Vec::new(), unknown.concat(), all.concat()];
    if let (Some(first), Some(last)) = (all.first(), all.last()) {
        let middle = all[all.len() / 2];
        lists.extend([first.to_vec(), last.to_vec()]);
        lists.push([middle, unknown[0], middle, *first, middle].concat());
        // One byte away from a held hash.
        let mut near = middle;
        near[random.below(HASH)] ^= 0x80;
        lists.push(near.to_vec());
        let some = (0..=random.below(8)).map(|_| all[random.below(all.len())]);
        lists.push(some.collect::<Vec<_>>().concat());
        let most = (0..HASHES).map(|k| if k % 8 == 0 { middle } else { unknown[k % 3] });
        lists.push(most.collect::<Vec<_>>().concat());
    }
    lists
}

/// The heads of every prefix of a table, and one row more than there are.
#[test]
fn heads_of_every_prefix() {
    let mut random = Random(17);
    let mut every = |count: usize, shape, likeness, step: usize| {
        let table = table_bytes(&random.rows(count, shape, likeness));
        let near = [count.saturating_sub(1), count, count + 1, usize::MAX];
        let calls: Vec<_> = (0..count)
            .step_by(step)
            .chain(near)
            .map(|before| (heads(&table, before), Rooms::Enough))
            .collect();
        agree(&calls)
    };
    for (k, shape) in SHAPES.into_iter().enumerate() {
        for count in [0, 1, 2, 63, 64, 65] {
            let tally = every(count, shape, LIKENESSES[(k + count) % 4], 1);
            assert_eq!(tally.of(HEADS, 11), 4, "{count} rows, {shape:?}");
        }
    }
    every(256, Shape::Recent, Likeness::Spread, 1);
    every(256, Shape::Wide, Likeness::Alike, 5);
    every(ROWS, Shape::Any, Likeness::Spread, 101);
    every(ROWS - 1, Shape::Diamonds, Likeness::Descending, 101);
}

/// The rows beyond each row of a table alone, and beyond each pair of some rows.
#[test]
fn rows_beyond_one_and_two_rows() {
    let mut random = Random(18);
    for shape in SHAPES {
        let rows = random.rows(65, shape, Likeness::Spread);
        let table = table_bytes(&rows);
        let some = rows.iter().step_by(6);
        let pairs = some.clone().flat_map(|one| {
            some.clone()
                .map(move |other| [one.hash, other.hash].concat())
        });
        let lists: Vec<Bytes> = rows.iter().map(|row| row.hash.to_vec()).collect();
        let lists: Vec<Bytes> = lists.into_iter().chain(pairs).collect();
        let calls: Vec<_> = lists
            .iter()
            .map(|hashes| (beyond(&table, hashes), Rooms::Enough))
            .collect();
        let tally = agree(&calls);
        assert_eq!(tally.of(BEYOND, 0), 2 * (65 + 11 * 11), "{shape:?}");
    }
}
