//! The steps of a session: what is planned and what is received, the model beside
//! the crate (`compare_plans`, `compare_receipts`), and the library beside the model
//! (`library`). The crate runs over the stand-in document, which loads a message's
//! changes itself; the others are told what was loaded, as a host tells it.

pub mod lent;
pub mod library;
pub mod published;

use crate::inputs::session::{Hearing, Saying};
use crate::inputs::shown;
use crate::model::plan::{self, Plan, Planned, A_MESSAGE};
use crate::model::receive::{self, Received, Said};
use crate::model::session::Value;
use crate::model::state::READ_ONLY;
use crate::model::table::{self, Table};
use crate::sessions::library::PlanLeft;
use crate::tables::document;
use crate::tally::Tally;
use crate::units::table_of;
use crate_under_test::facade::{Message, State, SyncDoc};

/// Past a limit, which the crate hasn't.
pub const APART: &str = "apart";

/// Counts what was planned over a table of `rows` rows, by kind.
fn count_plan(tally: &mut Tally, planned: &Planned, rows: usize) {
    let plan = match planned {
        Planned::Nothing => return tally.count("nothing"),
        Planned::Reset(_) => return tally.count("reset"),
        Planned::Message(plan, _) => plan,
    };
    tally.count(match (plan.document, plan.hashes.is_empty()) {
        (true, _) => "document",
        (false, true) => "no body",
        (false, false) => "list",
    });
    tally.count_if(plan.haves.is_empty(), "no have");
    tally.count_if(!plan.need.is_empty(), "need");
    tally.count_if(plan.heads.is_empty() && rows > 0, "no heads");
    tally.count_if(plan.flags & plan::FLAG_RESET != 0, "reset flag");
}

/// Compares what the model plans with what the crate says, and the sessions after
/// it.
pub fn compare_plans(steps: &[Saying]) -> Result<Tally, String> {
    let mut tally = Tally::default();
    for step in steps {
        let table = good_table(&step.table);
        let waiting = table::waiting(&table, &step.waiting).expect("a good table");
        let Ok(planned) = plan::planned(plan::OF_THE_CRATE, &table, &waiting, &step.session) else {
            tally.count(APART);
            continue;
        };
        let (plan, after) = match &planned {
            Planned::Nothing => (None, &step.session),
            Planned::Reset(plan) => (Some(plan), &step.session),
            Planned::Message(plan, after) => (Some(plan), after),
        };
        same_as_the_crate(step, plan, after)?;
        count_plan(&mut tally, &planned, table.rows.len());
    }
    Ok(tally)
}

fn good_table(lent: &[u8]) -> Table {
    table::table(lent).expect("a good table")
}

/// That this is what the crate says, and the session after it.
pub fn same_as_the_crate(step: &Saying, plan: Option<&Plan>, after: &Value) -> Result<(), String> {
    let document = document(&step.table, &step.waiting);
    let mut state = published::state(&step.session);
    let said = document.generate_sync_message(&mut state);
    let message = plan.map(|plan| published::message(plan, &document));
    match message == said {
        true => same_session(after, &state).map_err(|why| format!("{step:?}: {why}")),
        false => Err(format!("{step:?}: {message:?} isn't the crate's {said:?}")),
    }
}

/// That what the library planned is what the crate says, but for the numbers of its own
/// filter, which may be others here.
pub fn same_but_for_numbers(step: &Saying, left: &PlanLeft) -> Result<(), String> {
    let after = left.session.value().expect("a good session");
    let mut plan = left.plan.clone();
    // A reset's filter has the crate's numbers in any case.
    if let (A_MESSAGE, Some(plan)) = (left.answer[1], &mut plan) {
        let table = good_table(&step.table);
        let have = || plan::own_have(plan::OF_THE_CRATE, &table, &step.session);
        plan.haves.iter_mut().for_each(|own| *own = have());
    }
    same_as_the_crate(step, plan.as_ref(), &after)
}

/// That a session is the crate's.
pub fn same_session(ours: &Value, state: &State) -> Result<(), String> {
    let crates = published::value(state);
    match *ours == crates {
        true => Ok(()),
        false => Err(format!("the session {ours:?} isn't the crate's {crates:?}")),
    }
}

/// What was taken, by kind.
fn count_taken(tally: &mut Tally, said: &Said, table: &Table, before: usize) {
    let unknown = !said.heads.iter().all(|hash| table.holds(hash));
    tally.count("taken");
    tally.count_if(said.chunks, "chunks");
    tally.count_if(said.heads.is_empty(), "no heads");
    tally.count_if(unknown, "unknown heads");
    tally.count_if(said.flags.is_none(), "no flags");
    tally.count_if(table.rows.len() > before, "new rows");
}

/// A message that the crate took or couldn't load: its session after it, and what a
/// host tells.
pub struct Outcome {
    pub taken: bool,
    pub state: State,
    pub table: Vec<u8>,
    pub before: usize,
    pub loaded: bool,
}

/// What the crate makes of a message; none if it doesn't read it.
pub fn publish(hearing: &Hearing) -> Option<Outcome> {
    let message = Message::decode(&hearing.message).ok()?;
    let mut document = document(&hearing.table, &[]);
    let before = document.rows().len();
    let mut state = published::state(&hearing.session);
    let looked_at = !message.changes.is_empty() && !hearing.session.is(READ_ONLY);
    let taken = document.receive_sync_message(&mut state, message).is_ok();
    assert!(looked_at || taken, "nothing was to be loaded");
    Some(Outcome {
        taken,
        state,
        table: table_of(&document),
        before,
        loaded: if looked_at { taken } else { hearing.loaded },
    })
}

/// Compares what the model makes of messages with what the crate does.
pub fn compare_receipts(steps: &[Hearing]) -> Result<Tally, String> {
    let mut tally = Tally::default();
    for step in steps {
        let told = |why: String| format!("{step:?}, {}: {why}", shown(&step.message));
        compare_receipt(step, &mut tally).map_err(told)?;
    }
    Ok(tally)
}

fn compare_receipt(step: &Hearing, tally: &mut Tally) -> Result<(), String> {
    let outcome = publish(step);
    let said = match (Said::of(&step.message), &outcome) {
        (Err((4 | 5, _)), _) => {
            tally.count(APART);
            return Ok(());
        }
        (Err(_), None) => {
            tally.count("not read");
            return Ok(());
        }
        (Err(_), Some(_)) => return Err("the crate reads it".to_string()),
        (Ok(said), _) => said,
    };
    let outcome = outcome.ok_or("the crate doesn't read it")?;
    let Outcome { before, loaded, .. } = outcome;
    let table = good_table(&outcome.table);
    match receive::received(&table, before, &step.session, &said, loaded) {
        Received::Took(next) => {
            count_taken(tally, &said, &table, before);
            same_session(&next, &outcome.state)
        }
        Received::NotLoaded(left) => {
            tally.count("not loaded");
            same_session(&left, &outcome.state)
        }
        Received::Refused(_) => {
            tally.count(APART);
            Ok(())
        }
    }
}
