//! Plans with picks: random sessions, tables and picks, some of them damaged. Where the pick
//! is all there is to send, in its order, or the body is the document, everything is as
//! `bt_plan` leaves it, and so as the crate says it.

use bisquetower::limits::{ROWS, ROW_SIZE as ROW};
use compare::guarded::FILLS;
use compare::inputs::session::Saying;
use compare::inputs::{Random, Seed};
use compare::model::plan::{By, Picking, A_MESSAGE, OF_THE_CRATE};
use compare::scaled;
use compare::sessions::lent::Lent;
use compare::sessions::library::{compare_plans, offer, plan, same_as_whole, Offering, Planning};
use compare::sessions::{same_as_the_crate, same_but_for_numbers};
use compare::tables::ANSWERS;
use std::ops::Range;

#[derive(Debug, Default)]
struct Seen {
    answers: [u64; ANSWERS],
    /// Messages that carry a part of the list; ones that are as without a pick, and of these
    /// those with a body; documents.
    parts: u64,
    wholes: u64,
    whole_bodies: u64,
    documents: u64,
}

/// A settings list of either kind, or none.
fn by(random: &mut Random) -> By {
    loop {
        let by = random.by();
        if by.settings().is_some() {
            return by;
        }
    }
}

/// What the library has to send by list; nothing where it refuses.
fn offered(session: &Lent, table: &[u8]) -> (bool, Vec<[u8; 32]>) {
    let offer = offer(&Offering::new(session.clone(), table.to_vec()));
    (offer.document, offer.list)
}

fn steps(random: &mut Random, batches: usize, of: usize, rows: Range<usize>) -> Seen {
    let mut seen = Seen::default();
    for _ in 0..batches {
        let sayings: Vec<Saying> = (0..of).map(|_| random.saying(rows.clone())).collect();
        let plannings = sayings.iter().map(|saying| {
            let session = Lent::in_guise(&saying.session, random);
            let (mut table, mut waiting) = (saying.table.clone(), saying.waiting.clone());
            let (_, list) = offered(&session, &table);
            let picking = random.picking(&table, table.len() / ROW, list);
            if random.one_in(8) {
                match random.below(2) {
                    0 => random.damage(&mut table),
                    _ => random.damage(&mut waiting),
                }
            }
            let mut planning = Planning::by(by(random), session, table, waiting).picking(picking);
            if random.one_in(12) {
                planning.index = random.other_index(&planning.table);
            }
            if random.one_in(6) {
                let k = random.below(6);
                planning.rooms[k] = random.below(planning.rooms[k] + 1);
            }
            planning
        });
        let plannings: Vec<Planning> = plannings.collect();
        let left = compare_plans(&plannings, &FILLS).unwrap_or_else(|why| panic!("{why}"));
        for (planning, left) in plannings.iter().zip(&left) {
            seen.answers[left.answer[0] as usize] += 1;
            let Some(plan) = &left.plan else { continue };
            let (document, list) = offered(&planning.session, &planning.table);
            seen.documents += u64::from(plan.document);
            seen.parts += u64::from(!document && plan.hashes.len() < list.len());
            let whole = document || plan.hashes == list;
            if whole && planning.by.numbers() == Ok(OF_THE_CRATE) {
                same_as_whole(planning).unwrap_or_else(|why| panic!("{why}"));
                seen.wholes += 1;
                seen.whole_bodies += u64::from(!plan.hashes.is_empty());
            }
        }
    }
    seen
}

#[test]
fn random_plans() {
    let seed = Seed::fixed();
    let batches = scaled(60, 800);
    let seen = steps(&mut seed.random(0), batches, 200, 0..10);
    for answer in [0, 1, 6, 7, 9, 12, 14, 17] {
        assert!(seen.answers[answer] > 60, "{seen:?}");
    }
    let least = batches as u64;
    assert!(seen.parts > least && seen.wholes > least, "{seen:?}");
    assert!(
        seen.whole_bodies > least && seen.documents > least,
        "{seen:?}"
    );
}

#[test]
fn random_large_plans() {
    let seed = Seed::fixed();
    let seen = steps(&mut seed.random(1), 4, 10, 300..ROWS + 1);
    assert!(seen.answers[0] > 5, "{seen:?}");
}

/// A few with another seed each time.
#[test]
fn plans_of_a_fresh_seed() {
    let seed = Seed::fresh();
    steps(&mut seed.random(0), 5, 200, 0..12);
}

/// A pick of the whole list in a budget that takes it: the message is the crate's where the
/// list is in table order; else it has the same hashes in table order, each once.
#[test]
fn whole_lists_beside_the_crate() {
    let seed = Seed::fixed();
    let mut random = seed.random(2);
    let (mut same, mut sorted) = (0, 0);
    for _ in 0..scaled(2_000, 20_000) {
        let saying = random.saying(0..12);
        let session = Lent::laid(&saying.session);
        let (document, list) = offered(&session, &saying.table);
        let rows = saying.table.chunks_exact(ROW).map(|row| &row[..32]);
        let pick: Vec<u8> = rows
            .filter(|hash| list.iter().any(|one| one == hash))
            .flatten()
            .copied()
            .collect();
        let picking = Picking {
            sizes: vec![7; saying.table.len() / ROW],
            budget: 7 * (pick.len() / 32) as u64,
            pick: pick.clone(),
        };
        let plain = Planning::new(session, saying.table.clone(), saying.waiting.clone());
        let planning = plain.clone().picking(picking);
        let left = compare_plans(&[planning.clone(), planning.clone()], &FILLS);
        let left = left.unwrap_or_else(|why| panic!("{why}")).remove(0);
        if left.answer[..2] != [0, A_MESSAGE] {
            // It isn't for the pick that there is no message.
            assert_eq!(left.answer, plan(&plain).answer);
            continue;
        }
        if document || pick == list.concat() {
            same_as_whole(&planning).unwrap_or_else(|why| panic!("{why}"));
            same_but_for_numbers(&saying, &left).unwrap_or_else(|why| panic!("{why}"));
            same += u64::from(left.plan.is_some());
        } else if let (Some(mut own), Some(whole)) = (left.plan, plan(&plain).plan) {
            assert_eq!(own.hashes.concat(), pick);
            own.hashes.clone_from(&whole.hashes);
            assert_eq!(own, whole);
            // The session is the same, whatever the order.
            let after = left.session.value().expect("a good session");
            same_as_the_crate(&saying, Some(&own), &after).unwrap_or_else(|why| panic!("{why}"));
            sorted += 1;
        }
    }
    assert!(same > 500 && sorted > 50, "{same} {sorted}");
}
