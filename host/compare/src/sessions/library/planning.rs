//! Calls that plan.

use super::{sixteen, sixteen_of, SPARE};
use crate::guarded::{Fill, Guarded, FILLS};
use crate::inputs::index::index_of;
use crate::model::have::haves;
use crate::model::plan::{self, By, Picking, Plan, Planned, ANSWER_WORDS, NOTHING, OF_THE_CRATE};
use crate::model::state::{Lists, WORDS};
use crate::model::table::{hashes_of, HASH};
use crate::model::Refused;
use crate::same_answer;
use crate::sessions::lent::Lent;
use bisquetower::raw::{Batch, UNWRITTEN};

/// What a call is lent that plans.
#[derive(Clone, Debug)]
pub struct Planning {
    pub by: By,
    /// What goes of a list. Its call is told the numbers by a settings list, which is empty
    /// where they are the crate's.
    pub picking: Option<Picking>,
    pub session: Lent,
    pub table: Vec<u8>,
    pub index: Vec<u8>,
    pub waiting: Vec<u8>,
    /// How long the buffers are, in the order in which their room is tested: heads,
    /// need, have, hash list, last-sent, sent.
    pub rooms: [usize; 6],
}

impl Planning {
    /// By the crate's numbers, with the table's own index and room to spare.
    pub fn new(session: Lent, table: Vec<u8>, waiting: Vec<u8>) -> Planning {
        Planning::by(By::Crate, session, table, waiting)
    }

    /// By other numbers.
    pub fn by(by: By, session: Lent, table: Vec<u8>, waiting: Vec<u8>) -> Planning {
        let planning = Planning {
            by,
            picking: None,
            session,
            index: index_of(&table),
            table,
            waiting,
            rooms: [0; 6],
        };
        planning.roomy()
    }

    /// The same with a pick.
    pub fn picking(mut self, picking: Picking) -> Planning {
        self.picking = Some(picking);
        self.roomy()
    }

    /// With room to spare.
    fn roomy(mut self) -> Planning {
        self.rooms = self.wants().map(|want| want + SPARE);
        self
    }

    /// What the model plans, were there room for everything.
    pub fn model(&self) -> Result<Planned, Refused> {
        let Lent { words, .. } = &self.session;
        let (table, index) = (&self.table, &self.index);
        let lists = self.session.lists();
        let picking = self.picking.as_ref();
        let (by, waiting) = (&self.by, &self.waiting);
        plan::of_lent(by, picking, words, &lists, table, index, waiting)
    }

    /// How long the buffers have to be, those of the session for what they have too.
    pub fn wants(&self) -> [usize; 6] {
        let mut wants = self.model().map_or([2 * HASH; 6], |one| plan::wants(&one));
        wants[4] = wants[4].max(self.session.last_sent.len());
        wants[5] = wants[5].max(self.session.sent.len());
        wants
    }
}

/// What a call left that plans.
#[derive(Clone, Debug, PartialEq, Eq)]
pub struct PlanLeft {
    pub answer: [u64; ANSWER_WORDS],
    pub plan: Option<Plan>,
    pub session: Lent,
}

/// A call that plans, and what it is lent to write.
struct PlanCall<'a> {
    planning: &'a Planning,
    answer: [u64; ANSWER_WORDS],
    words: Guarded<u64>,
    /// In the order of their rooms.
    buffers: [Guarded<u8>; 6],
}

impl<'a> PlanCall<'a> {
    fn new(planning: &'a Planning, fill: Fill) -> Self {
        let Lent {
            words,
            last_sent,
            sent,
            ..
        } = &planning.session;
        let content = |k| match k {
            4 => &last_sent[..],
            5 => &sent[..],
            _ => &[],
        };
        let buffer = |k: usize| Guarded::holding(content(k), planning.rooms[k], fill);
        PlanCall {
            planning,
            answer: [UNWRITTEN; ANSWER_WORDS],
            words: Guarded::holding(words, WORDS, fill),
            buffers: std::array::from_fn(buffer),
        }
    }

    /// Has the model write what is expected; returns its answer.
    fn expect(&mut self) -> [u64; ANSWER_WORDS] {
        let Planning {
            by,
            picking,
            session,
            table,
            index,
            waiting,
            ..
        } = self.planning;
        let lists = Lists {
            last_sent: self.buffers[4].left(),
            sent: self.buffers[5].left(),
            ..session.lists()
        };
        let (picking, words) = (picking.as_ref(), &session.words);
        let planned = plan::of_lent(by, picking, words, &lists, table, index, waiting);
        let [heads, need, have, list, last_sent, sent] =
            self.buffers.each_mut().map(Guarded::expected);
        let mut buffers = plan::Buffers {
            heads,
            need,
            have,
            list,
            last_sent,
            sent,
        };
        plan::put_all(&planned, sixteen(self.words.expected()), &mut buffers)
    }

    fn ask<'m>(&'m mut self, batch: &mut Batch<'m>) {
        let Planning {
            by,
            picking,
            session,
            table,
            index,
            waiting,
            ..
        } = self.planning;
        let [heads, need, have, list, last_sent, sent] = self.buffers.each_mut().map(Guarded::lent);
        // What all four are lent, behind what tells the numbers and the pick.
        macro_rules! ask {
            ($call:ident, $($numbers:expr),*) => {
                batch.$call(
                    $($numbers,)*
                    sixteen(self.words.lent()),
                    &session.shared,
                    last_sent,
                    &session.their_heads,
                    &session.their_need,
                    &session.haves,
                    &session.bytes,
                    sent,
                    table,
                    index,
                    waiting,
                    heads,
                    need,
                    have,
                    list,
                    &mut self.answer,
                )
            };
        }
        match (by, picking) {
            (By::Crate, None) => ask!(plan,),
            (By::Passed(numbers), None) => ask!(plan_with, numbers.bits, numbers.probes),
            (
                By::Settings {
                    list: settings,
                    station,
                    version,
                },
                None,
            ) => ask!(plan_settled, settings, *station, *version),
            (_, Some(picking)) => {
                let (settings, station, version) = by.settings().expect("no numbers are passed");
                let Picking {
                    sizes,
                    budget,
                    pick,
                } = picking;
                ask!(
                    plan_picked,
                    settings,
                    station,
                    version,
                    sizes,
                    *budget,
                    pick
                )
            }
        }
    }

    fn agrees(&self, expected: [u64; ANSWER_WORDS]) -> Result<(), String> {
        same_answer(self.answer, expected)?;
        let named = |name: &str, why| format!("of the {name}, {why}");
        self.words.agrees().map_err(|why| named("session", why))?;
        let names = ["heads", "need", "have", "hashes", "last-sent", "sent"];
        for (name, buffer) in names.iter().zip(&self.buffers) {
            buffer.agrees().map_err(|why| named(name, why))?;
        }
        Ok(())
    }

    fn left(&self) -> PlanLeft {
        let [heads, need, have, list, last_sent, sent] = self.buffers.each_ref().map(Guarded::left);
        PlanLeft {
            answer: self.answer,
            plan: plan_in(&self.answer, heads, need, have, list),
            session: Lent {
                words: sixteen_of(self.words.left()),
                last_sent: last_sent.to_vec(),
                sent: sent.to_vec(),
                ..self.planning.session.clone()
            },
        }
    }
}

/// What the library plans; the model isn't asked.
pub fn plan(planning: &Planning) -> PlanLeft {
    let mut call = PlanCall::new(planning, Fill::One);
    let mut batch = Batch::new();
    call.ask(&mut batch);
    batch.run();
    call.left()
}

/// The message that an answer and buffers are, if one is said.
fn plan_in(
    answer: &[u64; ANSWER_WORDS],
    heads: &[u8],
    need: &[u8],
    have: &[u8],
    list: &[u8],
) -> Option<Plan> {
    if answer[0] != 0 || answer[1] == NOTHING {
        return None;
    }
    let first = |list: &[u8], count: u64| hashes_of(&list[..HASH * count as usize]);
    let record = match answer[7] {
        0 => &[],
        _ => &answer[8..15],
    };
    let haves = haves(have, record).expect("a have over its bytes");
    Some(Plan {
        version: answer[2],
        flags: answer[3],
        document: answer[4] != 0,
        heads: first(heads, answer[5]),
        need: first(need, answer[6]),
        haves: haves.iter().map(|have| have.own()).collect(),
        hashes: first(list, answer[15]),
    })
}

/// Compares what the library plans with what the model does; the first that disagrees
/// is the error.
pub fn compare_plans(plannings: &[Planning], fills: &[Fill]) -> Result<Vec<PlanLeft>, String> {
    let fills = fills.iter().cycle();
    let calls = plannings.iter().zip(fills);
    let mut calls: Vec<PlanCall> = calls.map(|(one, &fill)| PlanCall::new(one, fill)).collect();
    let expected: Vec<_> = calls.iter_mut().map(PlanCall::expect).collect();
    let mut batch = Batch::new();
    for call in &mut calls {
        call.ask(&mut batch);
    }
    batch.run();
    let left = |(call, expected): (&PlanCall, _)| {
        let told = |why| format!("{:?}: {why}", call.planning);
        call.agrees(expected).map_err(told)?;
        Ok(call.left())
    };
    calls.iter().zip(expected).map(left).collect()
}

/// That a call by numbers that happen to be the crate's leaves what `bt_plan` does, in every
/// word and byte; whether it is one.
pub fn same_as_plan(planning: &Planning) -> Result<bool, String> {
    let by = &planning.by;
    if *by == By::Crate || by.numbers() != Ok(OF_THE_CRATE) {
        return Ok(false);
    }
    same_as_whole(planning)?;
    Ok(true)
}

/// That a call leaves what `bt_plan` does, in every word and byte: by the crate's numbers,
/// and with a pick that is all there is to send, if it has one.
pub fn same_as_whole(planning: &Planning) -> Result<(), String> {
    let left = plan(planning);
    let plain = plan(&Planning {
        by: By::Crate,
        picking: None,
        ..planning.clone()
    });
    match left == plain {
        true => Ok(()),
        false => Err(format!("{planning:?}: {left:?} isn't bt_plan's {plain:?}")),
    }
}

/// The answer to one that plans, the same over both fills.
pub fn plan_answer(planning: &Planning) -> [u64; ANSWER_WORDS] {
    let both = [planning.clone(), planning.clone()];
    let left = compare_plans(&both, &FILLS).unwrap_or_else(|why| panic!("{why}"));
    left[0].answer
}
