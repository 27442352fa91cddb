//! What a pick is made of: sessions of any content, over good and bad tables.

use bisquetower::limits::ROWS;
use compare::inputs::{Random, Seed};
use compare::model::plan::OF_THE_CRATE;
use compare::model::plan::{planned, Planned};
use compare::model::state::WORDS;
use compare::model::table::{table, waiting};
use compare::scaled;
use compare::sessions::lent::Lent;
use compare::sessions::library::{compare_offers, plan, Offering, Planning};
use compare::tables::ANSWERS;
use std::ops::Range;

/// How often each answer was given; and how often documents and lists were offered.
#[derive(Debug, Default)]
struct Seen {
    answers: [u64; ANSWERS],
    documents: u64,
    lists: u64,
    /// Those that were held against what is planned without a pick.
    beside_plans: u64,
}

fn offers(random: &mut Random, count: usize, rows: Range<usize>) -> Seen {
    let mut seen = Seen::default();
    for _ in 0..count {
        let saying = random.saying(rows.clone());
        let mut session = Lent::in_guise(&saying.session, random);
        let mut lent = saying.table.clone();
        let spoilt = random.one_in(5);
        if spoilt {
            match random.below(3) {
                0 => session.words[random.below(WORDS)] = random.number(),
                1 => session.sent.reverse(),
                _ => random.damage(&mut lent),
            }
        }
        let mut offering = Offering::new(session.clone(), lent);
        if random.one_in(10) {
            offering.index = random.other_index(&offering.table);
        }
        if random.one_in(4) {
            offering.room = random.below(offering.room + 1);
        }
        let offers = compare_offers(std::slice::from_ref(&offering));
        let offer = offers.unwrap_or_else(|why| panic!("{why}")).remove(0);
        seen.answers[offer.answer[0] as usize] += 1;
        if offer.answer[0] != 0 {
            continue;
        }
        seen.documents += u64::from(offer.document);
        seen.lists += u64::from(!offer.document && !offer.list.is_empty());
        if spoilt {
            continue;
        }
        // What goes without a pick is what is offered.
        let table = table(&saying.table).expect("a good table");
        let waits = waiting(&table, &saying.waiting).expect("a good table");
        let said = planned(OF_THE_CRATE, &table, &waits, &saying.session);
        if let Ok(Planned::Message(..)) = said {
            let planning = Planning::new(session, saying.table, saying.waiting);
            let plan = plan(&planning).plan.expect("a message");
            assert_eq!((offer.document, offer.list), (plan.document, plan.hashes));
            seen.beside_plans += 1;
        }
    }
    seen
}

#[test]
fn random_offers() {
    let seed = Seed::fixed();
    let count = scaled(4_000, 60_000);
    let seen = offers(&mut seed.random(0), count, 0..10);
    let least = count as u64 / 60;
    for answer in [0, 6, 7, 10, 12] {
        assert!(seen.answers[answer] > least, "{seen:?}");
    }
    assert!(seen.documents > least && seen.lists > least, "{seen:?}");
    assert!(seen.beside_plans > 10 * least, "{seen:?}");
}

#[test]
fn random_large_offers() {
    let seed = Seed::fixed();
    let seen = offers(&mut seed.random(1), 40, 300..ROWS + 1);
    assert!(seen.answers[0] > 10, "{seen:?}");
}

/// A few with another seed each time.
#[test]
fn offers_of_a_fresh_seed() {
    let seed = Seed::fresh();
    offers(&mut seed.random(0), 1_000, 0..14);
}
