//! Random states, and random sessions over random lists.

use crate::check::{all_of, Buffers, HAVE};
use crate::{compare, compare_writes, read, TYPE};
use bisquetower::limits::HASHES;
use bisquetower::raw;
use compare::inputs::{Random, Seed};
use compare::model::number_bytes;
use compare::model::state::{checked, Lists, WORDS};
use compare::states::{check_many, Reading, Tally};

/// Compares the reads of `count` random states, some of them damaged.
fn compare_states(random: &mut Random, count: usize) -> Tally {
    let mut inputs = Vec::new();
    for _ in 0..count {
        let count = if random.one_in(200) {
            HASHES
        } else {
            random.below(6)
        };
        let after = random.below(4);
        let heads = random.bytes(32 * count + after);
        let mut s = [&[TYPE][..], &number_bytes(count as u64), &heads].concat();
        for _ in 0..random.below(3) {
            random.damage(&mut s);
        }
        let room = match random.below(4) {
            0 => random.below(100),
            _ => 32 * count,
        };
        inputs.push((s, room));
    }
    let reads = inputs.iter().map(|(s, room)| Reading { s, room: *room });
    compare(&reads.collect::<Vec<_>>())
}

/// Random states, some damaged, read; and random lists written, then read back.
#[test]
fn random_states() {
    let seed = Seed::fixed();
    let mut random = seed.random(0);
    let tally = compare_states(&mut random, 20_000);
    let seen = [0, 1, 2, 3, 4, 7].iter().all(|&k| tally.answers[k] > 20);
    assert!(seen, "{tally:?}");
    for _ in 0..300 {
        let count = random.below(40);
        let more = random.below(40);
        let shared = random.bytes(32 * count + more);
        let mut out = vec![0; 3 + 32 * count];
        let answer = raw::write_state(&shared, count, &mut out);
        assert_eq!(answer[0], 0);
        out.truncate(answer[1] as usize);
        compare_writes(&shared, count, [out.len() - 1, out.len(), out.len() + 1]);
        let mut back = vec![0; 32 * count];
        assert_eq!(read(&out, &mut back).0, [0, count as u64, 0, 0]);
        assert_eq!(back, shared[..32 * count]);
    }
}

/// A few states with another seed each time.
#[test]
fn states_of_a_fresh_seed() {
    let seed = Seed::fresh();
    compare_states(&mut seed.random(0), 1_000);
}

/// Random sessions over random lists, against the model.
#[test]
fn random_sessions() {
    let seed = Seed::fixed();
    let mut random = seed.random(0);
    let buffers = Buffers::new();
    let mut inputs = Vec::new();
    for _ in 0..3_000 {
        let mut words = all_of(random.below(4) as u64);
        let mut haves = HAVE.repeat(4);
        let mut sent = buffers.hashes[..128].to_vec();
        for _ in 0..1 + random.below(3) {
            match random.below(4) {
                0 => words[random.below(WORDS)] = random.below(6) as u64,
                1 => words[random.below(WORDS)] = random.number(),
                2 => {
                    let word = random.below(28);
                    haves[word] = haves[word]
                        .wrapping_add(random.below(3) as u64)
                        .wrapping_sub(1);
                }
                _ => sent[random.below(128)] = random.below(4) as u8,
            }
        }
        inputs.push((words, haves, sent));
    }
    let whole = buffers.lists();
    let sessions: Vec<([u64; WORDS], Lists)> = inputs
        .iter()
        .map(|(words, haves, sent)| {
            let lists = Lists {
                shared: &sent[..96],
                haves,
                sent,
                ..whole
            };
            (*words, lists)
        })
        .collect();
    let mut good = 0;
    for ((words, lists), answer) in sessions.iter().zip(check_many(&sessions)) {
        assert_eq!(answer, checked(words, lists), "{words:?}");
        good += u64::from(answer == [0; 4]);
    }
    assert!((500..2_500).contains(&good), "{good}");
}
