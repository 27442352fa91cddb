//! Saved states read and written.

use super::case::{apart, room, Case, Compared};
use crate::inputs::Random;
use crate::model::number_bytes;
use crate::states::{compare_reads, Reading};
use crate::writes::{compare_write, Write};
use bisquetower::limits::HASH_SIZE;

/// Shared heads, now and then around their limit.
fn count(random: &mut Random) -> usize {
    match random.one_in(300) {
        true => random.many_hashes(),
        false => random.below(6),
    }
}

/// A saved state, mostly good, and room for its shared heads.
pub fn state(random: &mut Random) -> Case {
    let count = count(random);
    let after = random.below(4);
    let heads = random.bytes(HASH_SIZE * count + after);
    let mut s = [&[0x43][..], &number_bytes(count as u64), &heads].concat();
    for _ in 0..random.below(3) {
        random.damage(&mut s);
    }
    let room = match random.one_in(4) {
        true => random.below(100),
        false => HASH_SIZE * count,
    };
    Case::new([s], [room as u64])
}

pub fn read(case: &Case) -> Compared {
    let ([s], [lent]) = (case.lent(), case.told());
    let room = room(lent);
    let tally = compare_reads(&[Reading { s, room }])?;
    Ok(tally.answers[4] + tally.answers[7] > 0)
}

/// Lent heads, how many of them are shared, and the room to write them.
pub fn written(random: &mut Random) -> Case {
    let count = count(random);
    let more = random.below(40);
    let lent = random.bytes(HASH_SIZE * count + more);
    let said = match random.below(8) {
        0 => random.word(),
        1 => count as u64 + 1,
        _ => count as u64,
    };
    let room = match random.one_in(3) {
        true => random.below(2 * HASH_SIZE * count + 8),
        false => HASH_SIZE * count + 3,
    };
    Case::new([lent], [said, room as u64])
}

pub fn write(case: &Case) -> Compared {
    let ([shared], [count, lent]) = (case.lent(), case.told());
    let count = count as usize;
    let answer = compare_write(Write::State { shared, count }, room(lent))?;
    Ok(apart(answer[0]))
}
