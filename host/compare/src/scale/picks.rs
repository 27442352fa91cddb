//! Picks of lists, by the planner and by others; offers, and plans with a pick.

use super::case::{apart, Case, Compared};
use super::sessions::drawn;
use crate::guarded::FILLS;
use crate::model::plan::{By, OF_THE_CRATE};
use crate::model::table::ROW;
use crate::picks::{compare_checks, compare_picks, Given};
use crate::sessions::lent::Lent;
use crate::sessions::library::{compare_offers, compare_plans, same_as_whole, Offering, Planning};
use crate::tables::Rooms;

/// A list that is picked from, and some picks of it, now and then damaged.
pub fn pick(case: &Case) -> Compared {
    let (mut random, rows) = drawn(case);
    let radio = random.radio(rows);
    let mut given = Given::of(&radio);
    if random.one_in(6) {
        match random.below(4) {
            0 => random.damage(&mut given.table),
            1 => random.damage(&mut given.list),
            2 => given.index = random.other_index(&given.table),
            _ => given.sizes = random.sizes(radio.sizes.len() + 1),
        }
    }
    let rooms = match random.one_in(4) {
        true => Rooms::One(random.below(200)),
        false => Rooms::Enough,
    };
    let picked = compare_picks(&given, rooms)?;
    let mut picks = [(); 3].map(|()| random.pick(&radio).concat());
    if random.one_in(8) {
        random.damage(&mut picks[0]);
    }
    let checks = picks.each_ref().map(|pick| (&given, &pick[..]));
    let (_, answers) = compare_checks(&checks)?;
    let mut words = picked.iter().chain(&answers);
    Ok(words.any(|answer| apart(answer[0])))
}

/// What a session offers, and its plan with a pick of that; where the pick is all of it, or
/// the body is the document, beside `bt_plan` too.
pub fn plan_picked(case: &Case) -> Compared {
    let (mut random, rows) = drawn(case);
    let saying = random.saying(rows);
    let session = Lent::in_guise(&saying.session, &mut random);
    let mut offering = Offering::new(session.clone(), saying.table.clone());
    if random.one_in(4) {
        offering.room = random.below(offering.room + 1);
    }
    let offer = compare_offers(&[offering])?.remove(0);
    let rows = saying.table.len() / ROW;
    let picking = random.picking(&saying.table, rows, offer.list.clone());
    let (mut table, mut waiting) = (saying.table, saying.waiting);
    let spoilt = random.one_in(8);
    if spoilt {
        match random.below(2) {
            0 => random.damage(&mut table),
            _ => random.damage(&mut waiting),
        }
    }
    let by = match random.by() {
        By::Passed(_) => By::Crate,
        other => other,
    };
    let mut planning = Planning::by(by, session, table, waiting).picking(picking);
    if random.one_in(12) {
        planning.index = random.other_index(&planning.table);
    }
    if random.one_in(4) {
        let k = random.below(planning.rooms.len());
        planning.rooms[k] = random.below(planning.rooms[k] + 40);
    }
    let left = compare_plans(&[planning.clone(), planning.clone()], &FILLS)?;
    let left = &left[0];
    // Of a table that was damaged and is good, another list is to be sent.
    let offered = offer.answer[0] == 0 && !spoilt;
    let plan = left.plan.as_ref().filter(|_| offered);
    let whole = plan.is_some_and(|plan| offer.document || plan.hashes == offer.list);
    if whole && planning.by.numbers() == Ok(OF_THE_CRATE) {
        same_as_whole(&planning)?;
    }
    Ok(apart(left.answer[0]) || apart(offer.answer[0]))
}
