//! Buffers of every size.

use crate::{
    agree, beyond, build_index, extend_index, heads, missing, BEYOND, BUILD_INDEX, EXTEND_INDEX,
    HEADS, MISSING,
};
use compare::inputs::table::{table_bytes, waiting_bytes, Likeness, Shape, LIKENESSES, SHAPES};
use compare::inputs::Random;
use compare::model::table::ROWS;
use compare::tables::{Rooms, NAMES};

/// Every size of buffer from none to three bytes too many, for small answers of
/// the calls that write, and the sizes around what is wanted for large
/// ones.
#[test]
fn buffers_of_every_size() {
    let mut random = Random(21);
    for (k, shape) in SHAPES.into_iter().enumerate() {
        let count = 9;
        let all = random.hashes(count + 8, LIKENESSES[k % 4]);
        let rows = random.rows_of(&all[..count], shape);
        let table = table_bytes(&rows);
        let waiting = waiting_bytes(&random.waiting_rows(&all[count..count + 4], &all));
        let asked = all[count - 1..].concat();
        let calls = [
            heads(&table, count),
            beyond(&table, &rows[count / 2].hash),
            beyond(&table, &[]),
            missing(&table, &waiting, &asked),
            build_index(&table),
            extend_index(&table),
        ];
        let tally = agree(&calls.map(|call| (call, Rooms::Every)));
        for kind in [HEADS, BEYOND, MISSING] {
            // Four sizes on two fills do for each call.
            let good = if kind == BEYOND { 16 } else { 8 };
            assert_eq!(tally.of(kind, 0), good, "{}, {shape:?}", NAMES[kind]);
            assert!(tally.of(kind, 7) > 60, "{}, {shape:?}", NAMES[kind]);
        }
        for kind in [BUILD_INDEX, EXTEND_INDEX] {
            // An index of nine rows has eighteen bytes.
            let answers = [0, 7].map(|word| tally.of(kind, word));
            assert_eq!(answers, [2 * 4, 2 * 18], "{}, {shape:?}", NAMES[kind]);
        }
    }
    for count in [64, 256, ROWS] {
        let table = table_bytes(&random.rows(count, Shape::Wide, Likeness::Spread));
        let unknown = random.hashes(count, Likeness::Spread).concat();
        let calls = [
            heads(&table, count),
            beyond(&table, &[]),
            missing(&[], &[], &unknown),
            build_index(&table),
            extend_index(&table),
        ];
        let tally = agree(&calls.map(|call| (call, Rooms::Around)));
        for kind in [HEADS, BEYOND, MISSING, BUILD_INDEX, EXTEND_INDEX] {
            assert_eq!(tally.of(kind, 7), 16, "{}, {count}", NAMES[kind]);
        }
    }
}
