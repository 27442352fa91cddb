//! Random selections, damaged.

use compare::inputs::index::Beside;
use compare::inputs::selection::lend;
use compare::inputs::Seed;
use compare::selections::{compare, Selection};
use compare::tables::{Rooms, ANSWERS};

/// Random selections with some parts damaged, against the model.
#[test]
fn random_and_damaged() {
    let seed = Seed::fixed();
    let mut random = seed.random(3);
    let mut seen = [0; ANSWERS];
    for round in 0..5_000 {
        let case = random.case(0..12, 0..4);
        let (s, mut haves) = lend(&case.haves, &mut random);
        let (mut table, mut need) = (case.table, case.need.concat());
        for _ in 0..random.below(3) {
            match random.below(4) {
                0 if !haves.is_empty() => {
                    let word = random.below(haves.len());
                    haves[word] = match random.below(3) {
                        0 => random.number(),
                        1 => haves[word].wrapping_sub(1),
                        _ => haves[word].wrapping_add(1),
                    };
                }
                1 => random.damage(&mut table),
                2 => random.damage(&mut need),
                _ => drop(need.pop()),
            }
        }
        let index = random.index(&table);
        let selection = Selection {
            table: &table,
            index: Beside::Other(&index),
            s: &s,
            haves: &haves,
            need: &need,
        };
        let room = match random.one_in(4) {
            true => Rooms::One(random.below(200)),
            false => Rooms::Enough,
        };
        match compare(selection, room) {
            Ok(answers) => seen[answers[0][0] as usize] += 1,
            Err(disagreement) => panic!("round {round}: {disagreement}"),
        }
    }
    assert!(
        [0, 1, 6, 7, 10, 12].iter().all(|&first| seen[first] > 100),
        "{seen:?}"
    );
}
