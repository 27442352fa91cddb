//! A host over the model.

use super::{load, parts_for, table_of, waiting_of, Heard, Picks, Unit};
use crate::model::message;
use crate::model::plan::{self, By, Picking, Planned};
use crate::model::receive::{self, Received, Said};
use crate::model::session::Value;
use crate::model::state::{self, READ_ONLY, WORDS};
use crate::model::table::{self, hashes_of, Table, Waiting, HASH};
use crate::model::Refused;
use crate_under_test::facade::Automerge;

struct Modelled {
    document: Automerge,
    session: Value,
}

/// A unit of the model.
pub fn modelled(document: Automerge, session: Value) -> Box<dyn Unit> {
    Box::new(Modelled { document, session })
}

impl Modelled {
    /// What it says of a plan that is made of its table and what waits.
    fn say(
        &mut self,
        plan: impl FnOnce(&Value, &[u8], &Table, &Waiting) -> Result<Planned, Refused>,
    ) -> Option<Vec<u8>> {
        let bytes = table_of(&self.document);
        let table = table::table(&bytes).expect("a good table");
        let waiting = table::waiting(&table, &waiting_of(&self.document)).expect("a good table");
        let planned = plan(&self.session, &bytes, &table, &waiting);
        let planned = planned.expect("within the limits");
        let plan = match planned {
            Planned::Nothing => return None,
            Planned::Reset(plan) => plan,
            Planned::Message(plan, after) => {
                self.session = after;
                plan
            }
        };
        let parts = parts_for(&plan, &self.document);
        Some(message::bytes(&parts.parts()).expect("within the limits"))
    }
}

impl Unit for Modelled {
    fn speak(&mut self) -> Option<Vec<u8>> {
        self.speak_by(&By::Crate)
    }

    fn speak_by(&mut self, by: &By) -> Option<Vec<u8>> {
        let numbers = by.numbers().expect("a good list");
        self.say(|s, _, table, waiting| plan::planned(numbers, table, waiting, s))
    }

    fn speak_picked(&mut self, by: &By, pick: &mut Picks) -> Option<Vec<u8>> {
        let numbers = by.numbers().expect("a good list");
        self.say(|s, bytes, table, waiting| {
            let (document, list) = plan::body(table, s);
            let picking = match document {
                true => Picking::default(),
                false => pick(bytes, &list),
            };
            plan::planned_picked(numbers, table, waiting, s, &picking)
        })
    }

    fn hear(&mut self, message: &[u8]) -> Heard {
        let (Ok(places), Ok(said)) = (message::parse(message), Said::of(message)) else {
            return Heard::NotRead;
        };
        let before = self.document.rows().len();
        let chunk = |[place, length]: &[u64; 2]| &message[*place as usize..][..*length as usize];
        let changes: Vec<&[u8]> = places.chunks.iter().map(chunk).collect();
        let loads = said.chunks && !self.session.is(READ_ONLY);
        let loaded = !loads || load(&mut self.document, &changes.concat());
        let table = table::table(&table_of(&self.document)).expect("a good table");
        match receive::received(&table, before, &self.session, &said, loaded) {
            Received::Took(next) => {
                self.session = next;
                Heard::Taken
            }
            Received::NotLoaded(left) => {
                self.session = left;
                Heard::NotLoaded
            }
            Received::Refused(refused) => panic!("within the limits: {refused:?}"),
        }
    }

    fn set_read_only(&mut self, on: bool) {
        self.session.set_read_only(on);
    }

    fn save(&self) -> Vec<u8> {
        let shared = self.session.shared.concat();
        state::bytes(&shared, shared.len() / HASH).expect("within the limits")
    }

    fn restore(&mut self, state: &[u8]) {
        let (mut shared, mut words) = (vec![0; state.len()], [0; WORDS]);
        let answer = state::read(state, &mut shared, &mut words);
        assert_eq!(answer[0], 0, "a saved state");
        self.session = Value {
            shared: hashes_of(&shared[..HASH * answer[1] as usize]),
            their_have: Some(Vec::new()),
            ..Value::default()
        };
    }

    fn session(&self) -> Value {
        self.session.clone()
    }

    fn document(&mut self) -> &mut Automerge {
        &mut self.document
    }
}
