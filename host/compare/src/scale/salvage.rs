//! Hurt tables salvaged.

use super::case::{Case, Compared};
use crate::inputs::Random;
use crate::model::salvage::salvaged;
use crate::salvage::{compare, Rooms};
use bisquetower::limits::{ROWS, TABLE_SIZE};

/// A table, now and then too long, and buffers that are now and then too short.
pub fn hurt(random: &mut Random) -> Case {
    let most = if random.one_in(50) { 200 } else { 14 };
    let mut table = random.hurt_table(most);
    if random.one_in(2_000) {
        table.resize(TABLE_SIZE + 1 + random.below(300), 0);
    }
    let wanted = salvaged(&table).unwrap_or_default();
    let mut around = |wanted: usize| match random.below(6) {
        0 => random.below(wanted + 1),
        1 => wanted.saturating_sub(1),
        _ => wanted + random.below(9),
    };
    let (rows, words) = (around(wanted.rows.len()), around(2 * wanted.report.len()));
    Case::new([table], [rows as u64, words as u64])
}

pub fn salvage(case: &Case) -> Compared {
    let [table] = case.lent();
    let [rows, words] = case.told();
    // No longer than what every table has room in.
    let room = (
        rows.min(TABLE_SIZE as u64) as usize,
        words.min(2 * ROWS as u64) as usize,
    );
    let tally = compare(&[(table, Rooms::One(room))])?;
    Ok(tally.answered == 0)
}
