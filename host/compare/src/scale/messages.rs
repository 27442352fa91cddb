//! Messages read and written.

use super::case::{apart, room, Case, Compared};
use crate::inputs::Random;
use crate::messages::{compare, compare_lists};
use crate::model::message::bytes;
use crate::writes::{compare_write, Write};

/// A message, mostly good, and room for its haves and chunks, in words.
pub fn message(random: &mut Random) -> Case {
    let rooms = [random.below(40) as u64, random.below(16) as u64];
    Case::new([random.message()], rooms)
}

/// Reads a message with room enough, and writes what was read; and reads it with just
/// the room that is told.
pub fn read(case: &Case) -> Compared {
    let ([s], rooms) = (case.lent(), case.told());
    let tally = compare(&[s])?;
    compare_lists(s, &[rooms.map(room)])?;
    Ok(tally.cut_numbers + tally.answers[4] + tally.answers[5] > 0)
}

/// A seed, and whether a part is to break a rule.
pub fn written(random: &mut Random) -> Case {
    Case::new([], [random.word(), random.below(2) as u64])
}

/// Writes a message from its parts into some room.
pub fn write(case: &Case) -> Compared {
    let [seed, spoilt] = case.told();
    let mut random = Random(seed);
    let mut parts = random.own_parts();
    if spoilt > 0 {
        match random.below(6) {
            0 => random.damage(&mut parts.heads),
            1 => random.damage(&mut parts.need),
            2 => random.damage(&mut parts.s),
            3 => random.damage(&mut parts.chunks),
            4 if !parts.haves.is_empty() => {
                let word = random.below(parts.haves.len());
                parts.haves[word] = random.number();
            }
            _ => parts.lengths.push(random.number()),
        }
    }
    let wanted = bytes(&parts.parts()).map_or(64, |bytes| bytes.len());
    let lent = random.below(2 * wanted);
    let answer = compare_write(Write::Message(parts.parts()), lent)?;
    Ok(apart(answer[0]))
}
