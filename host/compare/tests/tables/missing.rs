//! What is missing, through as many waiting rows as there may be.

use crate::{agree, answer, check_tables, missing, with_record, Bytes, MISSING, ROOM};
use compare::inputs::table::{table_bytes, waiting_bytes, Likeness, Shape, WaitingRow};
use compare::inputs::Random;
use compare::model::table::{Hash, DEPENDENCIES, HASH, HASHES, ROWS, WAITING_ROW, WAITING_ROWS};
use compare::tables::Rooms;

/// What is missing through chains, cycles and trees of waiting rows, up to as many as there
/// may be, in the table's order, against it and mixed.
#[test]
fn missing_through_many_waiting_rows() {
    let mut random = Random(19);
    for count in [1, 2, 64, WAITING_ROWS] {
        let all = random.hashes(count + 3, Likeness::Spread);
        let (own, ends) = all.split_at(count);
        let rows = random.rows(4, Shape::Deep, Likeness::Spread);
        let table = table_bytes(&rows);
        let mut mixed: Vec<usize> = (0..count).collect();
        for k in 1..count {
            mixed.swap(k, random.below(k + 1));
        }
        let forward: Vec<usize> = (0..count).collect();
        let back: Vec<usize> = (0..count).rev().collect();
        for order in [forward, back, mixed] {
            for last in [ends[0], own[order[0]], rows[3].hash] {
                let mut chain: Vec<Vec<Hash>> = vec![Vec::new(); count];
                for two in order.windows(2) {
                    chain[two[0]] = vec![rows[0].hash, own[two[1]], own[two[0]]];
                }
                chain[order[count - 1]] = vec![last, ends[1], ends[1]];
                let waiting = chain.into_iter().zip(own).map(|(dependencies, &hash)| {
                    let row = WaitingRow { hash, dependencies };
                    row.bytes()
                });
                let waiting: Bytes = waiting.flatten().collect();
                let far = order[count - 1];
                let lists = [own[order[0]].to_vec(), [own[far], ends[2]].concat()];
                for hashes in &lists {
                    let tally = agree(&[(missing(&table, &waiting, hashes), Rooms::Enough)]);
                    assert_eq!(tally.of(MISSING, 0), 2);
                }
            }
        }
    }
}

/// Both tables at their largest: one good, one whose last waiting row is held by
/// the last row, and what is missing from every waiting row and from every row.
#[test]
fn both_tables_at_their_largest() {
    let mut random = Random(22);
    let all = random.hashes(ROWS + WAITING_ROWS + 100, Likeness::Spread);
    let (held, others) = all.split_at(ROWS);
    let (own, _) = others.split_at(WAITING_ROWS);
    let table = table_bytes(&random.rows_of(held, Shape::Any));
    let rows = random.waiting_rows(own, &all);
    let waiting = waiting_bytes(&rows);
    let all_rows = [0, WAITING_ROWS as u64];
    assert_eq!(answer(check_tables(&table, &waiting), 0), all_rows);
    for list in [own.concat(), held.concat(), own[0].to_vec()] {
        agree(&[(missing(&table, &waiting, &list), Rooms::Enough)]);
    }
    let mut last = rows[WAITING_ROWS - 1].clone();
    for taken in [held[ROWS - 1], own[WAITING_ROWS - 2], own[0]] {
        last.hash = taken;
        let bad = with_record(&waiting, WAITING_ROWS - 1, &last.bytes());
        let last_row = [9, WAITING_ROWS as u64 - 1];
        assert_eq!(answer(check_tables(&table, &bad), 0), last_row);
    }
}

/// Waiting rows that ask for all of these unknown hashes, `each` of them a row, and for each
/// hash `repeats` times.
fn asking(own: &[Hash], unknown: &[Hash], each: usize, repeats: usize) -> Bytes {
    let mut rows: Vec<WaitingRow> = Vec::new();
    let mut asked = unknown.iter().cycle().take(unknown.len() * repeats);
    for &hash in own {
        let dependencies: Vec<Hash> = asked.by_ref().take(each).copied().collect();
        rows.push(WaitingRow { hash, dependencies });
    }
    assert!(asked.next().is_none(), "every hash is asked for");
    waiting_bytes(&rows)
}

/// Exactly as many missing hashes as there may be and one more: passed, under waiting
/// rows, and both; a hash that is asked for twice counts once.
#[test]
fn missing_around_its_limit() {
    let mut random = Random(20);
    let all = random.hashes(WAITING_ROWS + HASHES + 1, Likeness::Spread);
    let (own, unknown) = all.split_at(WAITING_ROWS);
    let answer_of = |waiting: &[u8], hashes: &[u8]| {
        let rooms = Rooms::Around;
        let tally = agree(&[(missing(&[], waiting, hashes), rooms)]);
        [0, 4, 7].map(|word| tally.of(MISSING, word) > 0)
    };
    let good = [true, false, true];
    let refused = [false, true, false];
    let passed = unknown[..HASHES].concat();
    assert_eq!(answer_of(&[], &passed), good);
    // As few rows as can ask for one more.
    let few = &own[..(HASHES + 1).div_ceil(DEPENDENCIES)];
    let asked = few.concat();
    let waiting = asking(few, &unknown[..HASHES], DEPENDENCIES, 1);
    assert_eq!(answer_of(&waiting, &asked), good);
    let waiting = asking(few, &unknown[..HASHES + 1], DEPENDENCIES, 1);
    assert_eq!(answer_of(&waiting, &asked), refused);
    // All waiting rows with as many each; the last one with one more.
    let all_own = own.concat();
    let each = HASHES / WAITING_ROWS;
    let waiting = asking(own, &unknown[..HASHES], each, 1);
    let call = missing(&[], &waiting, &all_own);
    agree(&[(call, Rooms::Enough)]);
    let last = WAITING_ROW * (WAITING_ROWS - 1);
    let mut more = waiting.clone();
    more[last + HASH] = each as u8 + 1;
    more[last + (2 + each) * HASH..][..HASH].copy_from_slice(&unknown[HASHES]);
    let call = missing(&[], &more, &all_own);
    assert_eq!(answer(call, ROOM), [4, 0]);
    // One less passed, and one waiting that asks one more, two more, or again.
    let both = [&unknown[..HASHES - 1], &own[..1]].concat().concat();
    let waiting = |asked: &[Hash]| {
        let row = WaitingRow {
            hash: own[0],
            dependencies: asked.to_vec(),
        };
        waiting_bytes(&[row])
    };
    let last = |count: usize, end: usize| waiting(&unknown[end - count..end]);
    assert_eq!(answer_of(&last(1, HASHES), &both), good);
    assert_eq!(answer_of(&last(2, HASHES + 1), &both), refused);
    assert_eq!(answer_of(&last(DEPENDENCIES, HASHES), &both), good);
    // As many entries as waiting rows have, of as many hashes as there are rows.
    let some = &unknown[..WAITING_ROWS];
    let waiting = asking(own, some, DEPENDENCIES, DEPENDENCIES);
    let call = missing(&[], &waiting, &all_own);
    agree(&[(call, Rooms::Enough)]);
}
