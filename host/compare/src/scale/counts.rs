//! Captures counted, and counts added to totals.

use super::case::{apart, Case, Compared};
use crate::counts::{compare, compare_additions, Addition, Capture};
use crate::inputs::Random;
use crate::tables::ANSWERS;

/// A capture, one in three of them damaged.
pub fn capture(random: &mut Random) -> Case {
    let most = if random.one_in(50) { 200 } else { 12 };
    let mut capture = random.capture(most);
    if random.one_in(3) {
        random.damage_capture(&mut capture);
    }
    Case::new([capture.sender, capture.listener, capture.filter], [])
}

pub fn count(case: &Case) -> Compared {
    let [sender, listener, filter] = case.lent();
    let tally = compare(&[Capture {
        sender,
        listener,
        filter,
    }])?;
    Ok((1..ANSWERS).any(|word| apart(word as u64) && tally.of(word) > 0))
}

/// Five totals, and five counts.
pub fn addition(random: &mut Random) -> Case {
    let Addition { totals, counts } = random.addition();
    Case {
        bytes: Vec::new(),
        numbers: [totals, counts].concat(),
    }
}

pub fn add(case: &Case) -> Compared {
    let numbers: [u64; 10] = case.told();
    let [totals, counts] = [&numbers[..5], &numbers[5..]];
    let five = |numbers: &[u64]| numbers.try_into().expect("five numbers");
    let added = compare_additions(&[Addition {
        totals: five(totals),
        counts: five(counts),
    }])?;
    Ok(added == 0)
}
