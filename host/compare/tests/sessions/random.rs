//! Random steps over random sessions, tables and messages, some of them damaged, in
//! buffers that are long enough or just not.

use bisquetower::limits::{ROWS, ROW_SIZE as ROW};
use compare::guarded::FILLS;
use compare::inputs::session::{Hearing, Saying};
use compare::inputs::{Random, Seed};
use compare::model::plan::By;
use compare::model::state::WORDS;
use compare::scaled;
use compare::sessions::lent::Lent;
use compare::sessions::library::{
    compare_plans, compare_receipts, same_as_plan, Planning, Receiving,
};
use compare::sessions::{publish, same_but_for_numbers, same_session};
use compare::tables::ANSWERS;
use std::ops::Range;

/// How often each answer was given, by its first word.
type Seen = [u64; ANSWERS];

/// Makes a buffer's length another one.
fn resize(random: &mut Random, rooms: &mut [usize]) {
    let k = random.below(rooms.len());
    rooms[k] = match random.below(3) {
        0 => rooms[k].saturating_sub(1 + random.below(40)),
        1 => random.below(100),
        _ => rooms[k] + random.below(40),
    };
}

/// Spoils a session.
fn spoil(random: &mut Random, session: &mut Lent) {
    match random.below(4) {
        0 => session.words[random.below(WORDS)] = random.number(),
        1 => session.sent.reverse(),
        2 if !session.haves.is_empty() => {
            let word = random.below(session.haves.len());
            session.haves[word] = random.number();
        }
        _ => drop(session.shared.pop()),
    }
}

fn plan_steps(random: &mut Random, batches: usize, of: usize, rows: Range<usize>) -> Seen {
    plan_steps_by(|_| By::Crate, random, batches, of, rows)
}

/// The same by numbers that are told each time: those that are the crate's are also held
/// against `bt_plan`, and the others against the crate but for their filters.
fn plan_steps_by(
    by: fn(&mut Random) -> By,
    random: &mut Random,
    batches: usize,
    of: usize,
    rows: Range<usize>,
) -> Seen {
    let mut seen = Seen::default();
    for _ in 0..batches {
        let sayings: Vec<Saying> = (0..of).map(|_| random.saying(rows.clone())).collect();
        let mut spoilt = Vec::new();
        let plannings = sayings.iter().map(|saying| {
            let mut session = Lent::in_guise(&saying.session, random);
            let (mut table, mut waiting) = (saying.table.clone(), saying.waiting.clone());
            spoilt.push(random.one_in(5));
            if spoilt[spoilt.len() - 1] {
                match random.below(3) {
                    0 => spoil(random, &mut session),
                    1 => random.damage(&mut table),
                    _ => random.damage(&mut waiting),
                }
            }
            let mut planning = Planning::by(by(random), session, table, waiting);
            if random.one_in(10) {
                planning.index = random.other_index(&planning.table);
            }
            if random.one_in(3) {
                resize(random, &mut planning.rooms);
            }
            planning
        });
        let plannings: Vec<Planning> = plannings.collect();
        let left = compare_plans(&plannings, &FILLS).unwrap_or_else(|why| panic!("{why}"));
        for planning in &plannings {
            same_as_plan(planning).unwrap_or_else(|why| panic!("{why}"));
        }
        for ((saying, left), spoilt) in sayings.iter().zip(&left).zip(spoilt) {
            seen[left.answer[0] as usize] += 1;
            if left.answer[0] == 0 && !spoilt {
                let same = same_but_for_numbers(saying, left);
                same.unwrap_or_else(|why| panic!("{why}"));
            }
        }
    }
    seen
}

fn receive_steps(random: &mut Random, batches: usize, of: usize, rows: Range<usize>) -> Seen {
    let mut seen = Seen::default();
    for _ in 0..batches {
        let hearings: Vec<Hearing> = (0..of).map(|_| random.hearing(rows.clone())).collect();
        let outcomes: Vec<_> = hearings.iter().map(publish).collect();
        let mut spoilt = Vec::new();
        let receivings = hearings.iter().zip(&outcomes).map(|(hearing, outcome)| {
            let mut session = Lent::in_guise(&hearing.session, random);
            let (mut table, mut before, loaded) = match outcome {
                Some(one) => (one.table.clone(), one.before, one.loaded),
                None => (
                    hearing.table.clone(),
                    hearing.table.len() / ROW,
                    hearing.loaded,
                ),
            };
            spoilt.push(random.one_in(5));
            if spoilt[spoilt.len() - 1] {
                match random.below(3) {
                    0 => spoil(random, &mut session),
                    1 => random.damage(&mut table),
                    _ => before = random.below(12),
                }
            }
            let loaded = if loaded { 1 + random.number() / 2 } else { 0 };
            let message = hearing.message.clone();
            let mut receiving = Receiving::new(session, table, before, message, loaded);
            if random.one_in(10) {
                receiving.index = random.other_index(&receiving.table);
            }
            if random.one_in(3) {
                resize(random, &mut receiving.rooms);
            }
            receiving
        });
        let receivings: Vec<Receiving> = receivings.collect();
        let left = compare_receipts(&receivings, &FILLS).unwrap_or_else(|why| panic!("{why}"));
        for ((outcome, left), spoilt) in outcomes.iter().zip(&left).zip(spoilt) {
            seen[left.answer[0] as usize] += 1;
            if let (0 | 8, Some(outcome), false) = (left.answer[0], outcome, spoilt) {
                assert_eq!(left.answer[0] == 0, outcome.taken);
                let after = left.session.value().expect("a good session");
                same_session(&after, &outcome.state).unwrap_or_else(|why| panic!("{why}"));
            }
        }
    }
    seen
}

fn often(seen: &Seen, least: u64, answers: &[usize]) {
    let all = answers.iter().all(|&answer| seen[answer] >= least);
    assert!(all, "{seen:?}");
}

#[test]
fn random_plans() {
    let seed = Seed::fixed();
    let seen = plan_steps(&mut seed.random(0), scaled(100, 2_500), 200, 0..10);
    often(&seen, 100, &[0, 6, 7, 9, 10, 12]);
}

/// By numbers that are passed and by settings lists, good and bad.
#[test]
fn random_plans_by_settings() {
    let seed = Seed::fixed();
    let batches = scaled(100, 1_000);
    let seen = plan_steps_by(Random::by, &mut seed.random(4), batches, 200, 0..10);
    often(&seen, 100, &[0, 6, 7, 9, 10, 12, 14]);
}

#[test]
fn random_receipts() {
    let seed = Seed::fixed();
    let seen = receive_steps(&mut seed.random(1), scaled(100, 2_500), 200, 0..10);
    often(&seen, 100, &[0, 1, 6, 7, 8, 10, 11, 12]);
}

/// Up to as many rows as there may be.
#[test]
fn random_large_steps() {
    let seed = Seed::fixed();
    let seen = plan_steps(&mut seed.random(2), 4, 20, 300..ROWS + 1);
    often(&seen, 20, &[0]);
    let seen = receive_steps(&mut seed.random(3), 4, 20, 300..ROWS + 1);
    often(&seen, 20, &[0]);
    let seen = plan_steps_by(Random::by, &mut seed.random(5), 4, 20, 300..ROWS + 1);
    often(&seen, 20, &[0]);
}

/// A few with another seed each time.
#[test]
fn steps_of_a_fresh_seed() {
    let seed = Seed::fresh();
    plan_steps(&mut seed.random(0), 5, 200, 0..12);
    plan_steps_by(Random::by, &mut seed.random(2), 5, 200, 0..12);
    receive_steps(&mut seed.random(1), 5, 200, 0..12);
}
