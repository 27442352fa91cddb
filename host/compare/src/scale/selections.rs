//! Hashes to send.

use super::case::{apart, Case, Compared};
use crate::inputs::index::Beside;
use crate::inputs::selection::{lend, Case as Choice};
use crate::inputs::Random;
use crate::selections::{compare, compare_cases, Selection};
use crate::tables::Rooms;
use bisquetower::limits::{HAVES, ROWS};

/// A seed, and most rows and haves; now and then as many as there may be.
pub fn selection(random: &mut Random) -> Case {
    let [rows, haves] = match random.one_in(400) {
        true => [ROWS, HAVES],
        false => [random.below(24), random.below(4)],
    };
    Case::new([], [random.word(), rows as u64, haves as u64])
}

fn drawn(case: &Case) -> (Choice, Random) {
    let [seed, rows, haves] = case.told();
    let mut random = Random(seed);
    let [rows, haves] =
        [(rows, ROWS), (haves, HAVES)].map(|(told, most)| 0..told.min(most as u64) as usize + 1);
    (random.case(rows, haves), random)
}

/// The whole list in its order, beside the model's and the crate's.
pub fn choose(case: &Case) -> Compared {
    let (one, mut random) = drawn(case);
    compare_cases(&[one], &mut random)?;
    Ok(false)
}

/// With some parts damaged, beside the model's.
pub fn choose_damaged(case: &Case) -> Compared {
    let (one, mut random) = drawn(case);
    let (s, mut haves) = lend(&one.haves, &mut random);
    let (mut table, mut need) = (one.table, one.need.concat());
    for _ in 0..1 + random.below(2) {
        match random.below(3) {
            0 if !haves.is_empty() => {
                let word = random.below(haves.len());
                haves[word] = match random.below(3) {
                    0 => random.number(),
                    1 => haves[word].wrapping_sub(1),
                    _ => haves[word].wrapping_add(1),
                };
            }
            1 => random.damage(&mut table),
            _ => random.damage(&mut need),
        }
    }
    let index = random.index(&table);
    let rooms = match random.one_in(4) {
        true => Rooms::One(random.below(200)),
        false => Rooms::Enough,
    };
    let selection = Selection {
        table: &table,
        index: Beside::Other(&index),
        s: &s,
        haves: &haves,
        need: &need,
    };
    let answers = compare(selection, rooms)?;
    Ok(answers.iter().any(|answer| apart(answer[0])))
}
