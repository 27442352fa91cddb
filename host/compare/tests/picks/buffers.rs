//! Buffers of every length: what isn't written stays as it was, and after a refusal all of it
//! does.

use crate::given;
use compare::inputs::Random;
use compare::picks::{compare_picks, Given};
use compare::tables::Rooms;

#[test]
fn every_length() {
    let on: [&[usize]; 4] = [&[], &[0], &[0], &[1, 2]];
    for budget in [0, 1, 3, 7] {
        let own = given(&on, &[3, 1, 2, 0, 1], &[1, 2, 3, 1], budget);
        let answers = compare_picks(&own, Rooms::Every).unwrap_or_else(|why| panic!("{why}"));
        let wanted = answers.len() - 4;
        for (room, answer) in answers.iter().enumerate() {
            let expected = match room < wanted {
                true => [7, wanted as u64, 0, 0],
                false => [0, wanted as u64, 0, 0],
            };
            assert_eq!(*answer, expected);
        }
    }
}

#[test]
fn random_lists_into_every_buffer() {
    let mut random = Random(5);
    for _ in 0..60 {
        let own = Given::of(&random.radio(0..9));
        compare_picks(&own, Rooms::Every).unwrap_or_else(|why| panic!("{why}"));
    }
}
