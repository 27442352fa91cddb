//! Sessions checked and set read-only; what is planned and received; units that talk.

use super::case::{apart, Case, Compared};
use super::script;
use crate::guarded::FILLS;
use crate::inputs::Random;
use crate::model::plan::By;
use crate::model::state::{checked, Session, WORDS};
use crate::model::table::{ROW, ROWS};
use crate::same_answer;
use crate::sessions::lent::Lent;
use crate::sessions::library::{
    compare_plans, compare_receipts, same_as_plan, Planning, Receiving,
};
use crate::sessions::{publish, same_but_for_numbers, same_session};
use crate::states::{check_many, published, words_of};
use crate::talks::{talks, talks_by};
use crate::units::proved;
use crate::walk::both::{compare_talks, talk_freely};
use crate::walk::catch_up_freely;
use bisquetower::raw;
use std::ops::Range;

/// A seed, and most rows; now and then as many as there may be.
pub fn unit(random: &mut Random) -> Case {
    let rows = match random.one_in(500) {
        true => ROWS,
        false => random.below(12),
    };
    Case::new([], [random.word(), rows as u64])
}

/// A seed, and most rows of two units.
pub fn two_units(random: &mut Random) -> Case {
    Case::new([], [random.word(), random.below(24) as u64])
}

/// The numbers of a case's seed, and how many rows there may be.
pub(super) fn drawn(case: &Case) -> (Random, Range<usize>) {
    let [seed, rows] = case.told();
    (Random(seed), 0..rows.min(ROWS as u64) as usize + 1)
}

/// Makes a session bad, most of the time.
fn spoil(random: &mut Random, session: &mut Lent) {
    match random.below(4) {
        0 => session.words[random.below(WORDS)] = random.number(),
        1 => session.sent.reverse(),
        2 if !session.haves.is_empty() => {
            let word = random.below(session.haves.len());
            session.haves[word] = random.number();
        }
        _ => drop(session.shared.pop()),
    }
}

/// Makes a buffer's length another one.
fn resize(random: &mut Random, rooms: &mut [usize]) {
    let k = random.below(rooms.len());
    rooms[k] = match random.below(3) {
        0 => rooms[k].saturating_sub(1 + random.below(40)),
        1 => random.below(100),
        _ => rooms[k] + random.below(40),
    };
}

/// A session of any content, good or bad, checked; and its words set read-only or not.
pub fn check(case: &Case) -> Compared {
    let (mut random, rows) = drawn(case);
    let graph = random.graph(rows);
    let mut session = Lent::in_guise(&random.session(&graph), &mut random);
    if random.one_in(2) {
        spoil(&mut random, &mut session);
    }
    let answer = check_many(&[(session.words, session.lists())])[0];
    same_answer(answer, checked(&session.words, &session.lists()))?;

    let on = random.one_in(2);
    let before = Session::of(&session.words);
    raw::set_read_only(&mut session.words, on.into());
    let after = before.set_read_only(on);
    if Session::of(&session.words) != after {
        return Err(format!("{before:?} set to {on} isn't the model's"));
    }
    if answer[0] == 0 {
        let mut crates = published(&before);
        crates.set_read_only(on);
        if words_of(&crates) != after.words() {
            return Err(format!("{before:?} set to {on} isn't the crate's"));
        }
    }
    Ok(apart(answer[0]))
}

/// What a unit says next: beside the model's in every word and byte, and beside the
/// crate's if nothing is spoilt.
pub fn plan(case: &Case) -> Compared {
    planned(case, |_| By::Crate)
}

/// The same by numbers that are passed or stand in a settings list; where these are the
/// crate's, beside `bt_plan` too.
pub fn plan_by(case: &Case) -> Compared {
    planned(case, Random::by)
}

fn planned(case: &Case, by: fn(&mut Random) -> By) -> Compared {
    let (mut random, rows) = drawn(case);
    let saying = random.saying(rows);
    let by = by(&mut random);
    let mut session = Lent::in_guise(&saying.session, &mut random);
    let (mut table, mut waiting) = (saying.table.clone(), saying.waiting.clone());
    let spoilt = random.one_in(5);
    if spoilt {
        match random.below(3) {
            0 => spoil(&mut random, &mut session),
            1 => random.damage(&mut table),
            _ => random.damage(&mut waiting),
        }
    }
    let mut planning = Planning::by(by, session, table, waiting);
    if random.one_in(10) {
        planning.index = random.other_index(&planning.table);
    }
    if random.one_in(3) {
        resize(&mut random, &mut planning.rooms);
    }
    let left = compare_plans(&[planning.clone(), planning.clone()], &FILLS)?;
    let left = &left[0];
    same_as_plan(&planning)?;
    if left.answer[0] == 0 && !spoilt {
        same_but_for_numbers(&saying, left)?;
    }
    Ok(apart(left.answer[0]))
}

/// What a message does to a session, in the same way.
pub fn receive(case: &Case) -> Compared {
    let (mut random, rows) = drawn(case);
    let hearing = random.hearing(rows);
    let outcome = publish(&hearing);
    let mut session = Lent::in_guise(&hearing.session, &mut random);
    let (mut table, mut before, loaded) = match &outcome {
        Some(one) => (one.table.clone(), one.before, one.loaded),
        None => {
            let rows = hearing.table.len() / ROW;
            (hearing.table.clone(), rows, hearing.loaded)
        }
    };
    let spoilt = random.one_in(5);
    if spoilt {
        match random.below(3) {
            0 => spoil(&mut random, &mut session),
            1 => random.damage(&mut table),
            _ => before = random.below(12),
        }
    }
    let loaded = if loaded { 1 + random.number() / 2 } else { 0 };
    let message = hearing.message.clone();
    let mut receiving = Receiving::new(session, table, before, message, loaded);
    if random.one_in(10) {
        receiving.index = random.other_index(&receiving.table);
    }
    if random.one_in(3) {
        resize(&mut random, &mut receiving.rooms);
    }
    let left = compare_receipts(&[receiving.clone(), receiving], &FILLS)?;
    let left = &left[0];
    if let (0 | 8, Some(outcome), false) = (left.answer[0], &outcome, spoilt) {
        if (left.answer[0] == 0) != outcome.taken {
            return Err(format!("{hearing:?}: the crate took it: {}", outcome.taken));
        }
        let after = left.session.value().expect("a good session");
        same_session(&after, &outcome.state)?;
    }
    Ok(apart(left.answer[0]))
}

/// Two units that talk until both are silent: of the library, and one of each.
pub fn talk(case: &Case) -> Compared {
    let (mut random, rows) = drawn(case);
    talks(proved, &mut random, 1, rows.len());
    Ok(false)
}

/// Two units that talk so by numbers that are others at each end and each time, beside
/// two of the model.
pub fn talk_by(case: &Case) -> Compared {
    let (mut random, rows) = drawn(case);
    talks_by(proved, &mut random, 1, rows.len());
    Ok(false)
}

/// A catch-up by such numbers, beside the walk.
pub fn catch_up(case: &Case) -> Compared {
    let (mut random, rows) = drawn(case);
    let apart = random.apart(3..3 + rows.len());
    catch_up_freely(&mut random, &apart);
    Ok(false)
}

/// Two ends that each have news, by pairs of the library, of the crate and of one each; and
/// by numbers that are others at each end and each time.
pub fn both_ends(case: &Case) -> Compared {
    let (mut random, rows) = drawn(case);
    let news = random.news_of(rows.len() - 1);
    compare_talks(proved, &news);
    talk_freely(&mut random, &news);
    Ok(false)
}

/// The bytes of a script.
pub fn script_bytes(random: &mut Random) -> Case {
    let length = 16 + random.below(160);
    Case::new([random.bytes(length)], [])
}

/// Two units at odds: of the library, and one of each.
pub fn play(case: &Case) -> Compared {
    let [bytes] = case.lent();
    script::compare(bytes);
    Ok(false)
}
