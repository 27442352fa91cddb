//! Tables checked, heads, rows beyond, what is missing, indexes, and rows of two widths.

use super::case::{apart, room, Case, Compared};
use crate::inputs::index::Beside;
use crate::inputs::table::{
    row_faults, table_bytes, waiting_bytes, waiting_faults, LIKENESSES, SHAPES,
};
use crate::inputs::Random;
use crate::model::table::{converted, HASH, NOW, OLD};
use crate::tables::{but_the_last, compare, Call, Rooms, ANSWERS, NAMES};

/// Tables, indexes and a list over a few hashes, so that they meet, each now and then
/// damaged; how many rows were there before, and room for what is found.
pub fn tables(random: &mut Random) -> Case {
    let most = if random.one_in(50) { 100 } else { 12 };
    let (held, waits, unknown) = (random.below(most), random.below(8), random.below(8));
    let likeness = random.of(&LIKENESSES);
    let all = random.hashes(held + waits + unknown, likeness);
    let shape = random.of(&SHAPES);
    let rows = random.rows_of(&all[..held], shape);
    let waiting = random.waiting_rows(&all[held..held + waits], &all);
    let (mut table, mut queue) = (table_bytes(&rows), waiting_bytes(&waiting));
    let mut hashes = Vec::new();
    for _ in 0..random.below(8).min(all.len()) {
        hashes.extend(random.of(&all));
    }
    if random.one_in(6) && held > 0 {
        let row = random.below(held);
        let faults = row_faults(&rows, row);
        let (_, record) = &faults[random.below(faults.len())];
        table[record.len() * row..][..record.len()].copy_from_slice(record);
    }
    if random.one_in(6) && waits > 0 {
        let row = random.below(waits);
        let faults = waiting_faults(&rows, &waiting, row);
        let (_, record) = &faults[random.below(faults.len())];
        queue[record.len() * row..][..record.len()].copy_from_slice(record);
    }
    for bytes in [&mut table, &mut queue, &mut hashes] {
        if random.one_in(12) {
            random.damage(bytes);
        }
    }
    let index = random.index(&table);
    let shorter = random.index(but_the_last(&table));
    let numbers = [random.below(held + 2), random.below(HASH * most)];
    Case::new(
        [table, index, shorter, queue, hashes],
        numbers.map(|n| n as u64),
    )
}

/// All nine calls, with room enough and with the room that is told. What is widened are
/// the table's rows as they were before, where they can be said so, else its bytes.
pub fn calls(case: &Case) -> Compared {
    let ([table, index, shorter, waiting, hashes], [before, lent]) = (case.lent(), case.told());
    let before = before as usize;
    let [index, shorter] = [index, shorter].map(|bytes| Beside::Other(bytes));
    let [tables, heads, beyond, missing] = Call::looking_up(table, index, before, waiting, hashes);
    let old = converted(NOW, OLD, table).unwrap_or_else(|_| table.to_vec());
    let all = [
        Call::CheckTable { table },
        tables,
        heads,
        beyond,
        missing,
        Call::BuildIndex { table },
        Call::ExtendIndex {
            table,
            index: shorter,
        },
        Call::WidenRows { table: &old },
        Call::NarrowRows { table },
    ];
    let told = Rooms::One(room(lent));
    let tally = compare(&all.map(|call| (call, Rooms::Enough)))?;
    compare(&all.map(|call| (call, told)))?;
    let refused = |word: usize| (0..NAMES.len()).any(|kind| tally.of(kind, word) > 0);
    Ok((1..ANSWERS).any(|word| apart(word as u64) && refused(word)))
}
