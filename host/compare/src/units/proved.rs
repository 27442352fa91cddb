//! A host over the library. Each of its steps is held against the model in every word
//! and byte.

use super::{load, parts_for, table_of, waiting_of, Heard, Picks, Unit};
use crate::guarded::FILLS;
use crate::inputs::index::index_of;
use crate::messages::parts;
use crate::model::message;
use crate::model::plan::{By, Picking};
use crate::model::session::Value;
use crate::model::state::{READ_ONLY, WORDS};
use crate::model::table::ROW;
use crate::sessions::lent::Lent;
use crate::sessions::library::{
    compare_offers, compare_plans, compare_receipts, Offering, Planning, Receiving,
};
use bisquetower::raw;
use crate_under_test::facade::Automerge;

struct Proved {
    document: Automerge,
    session: Lent,
    index: Vec<u8>,
}

/// A unit of the library.
pub fn proved(document: Automerge, session: Value) -> Box<dyn Unit> {
    let session = Lent::laid(&session);
    let index = built(&table_of(&document));
    Box::new(Proved {
        document,
        session,
        index,
    })
}

fn built(table: &[u8]) -> Vec<u8> {
    written(2 * (table.len() / ROW), |out| raw::build_index(table, out))
}

/// What a call writes that is to write `length` bytes.
fn written(length: usize, call: impl FnOnce(&mut [u8]) -> [u64; 4]) -> Vec<u8> {
    let mut out = vec![0; length];
    assert_eq!(call(&mut out), [0, length as u64, 0, 0]);
    out
}

impl Proved {
    /// The table, once its index has followed it row by row; it is built anew where the
    /// document is another one.
    fn indexed(&mut self) -> Vec<u8> {
        let table = table_of(&self.document);
        let first = table.get(..ROW * (self.index.len() / 2));
        if first.is_none_or(|rows| index_of(rows) != self.index) {
            self.index = built(&table);
        }
        for row in self.index.len() / 2..table.len() / ROW {
            self.index = written(2 * (row + 1), |out| {
                raw::extend_index(&table[..ROW * (row + 1)], &self.index, out)
            });
        }
        table
    }

    /// What the library plans by these numbers.
    fn planning(&mut self, by: &By) -> Planning {
        let (table, waiting) = (self.indexed(), waiting_of(&self.document));
        let mut planning = Planning::by(by.clone(), self.session.clone(), table, waiting);
        planning.index.clone_from(&self.index);
        planning
    }

    /// Says what the library plans.
    fn say(&mut self, planning: Planning) -> Option<Vec<u8>> {
        let left = compare_plans(&[planning], &FILLS).unwrap_or_else(|why| panic!("{why}"));
        let left = left.into_iter().next().expect("one answer");
        assert_eq!(left.answer[0], 0, "within the limits");
        self.session = left.session;
        let plan = left.plan?;
        let own = parts_for(&plan, &self.document);
        let wanted = message::bytes(&own.parts()).expect("within the limits");
        let mut out = vec![0; wanted.len()];
        assert_eq!(parts::write(&own.parts(), &mut out)[0], 0);
        Some(out)
    }
}

impl Unit for Proved {
    fn speak(&mut self) -> Option<Vec<u8>> {
        self.speak_by(&By::Crate)
    }

    fn speak_by(&mut self, by: &By) -> Option<Vec<u8>> {
        let planning = self.planning(by);
        self.say(planning)
    }

    fn speak_picked(&mut self, by: &By, pick: &mut Picks) -> Option<Vec<u8>> {
        let planning = self.planning(by);
        let mut offering = Offering::new(self.session.clone(), planning.table.clone());
        offering.index.clone_from(&self.index);
        let offers = compare_offers(&[offering]).unwrap_or_else(|why| panic!("{why}"));
        let picking = match offers[0].document {
            true => Picking::default(),
            false => pick(&planning.table, &offers[0].list),
        };
        self.say(planning.picking(picking))
    }

    fn hear(&mut self, message: &[u8]) -> Heard {
        let before = self.document.rows().len();
        let changes = message::parse(message).map(|places| {
            let chunk =
                |[place, length]: &[u64; 2]| &message[*place as usize..][..*length as usize];
            let chunks: Vec<&[u8]> = places.chunks.iter().map(chunk).collect();
            (!chunks.is_empty()).then(|| chunks.concat())
        });
        let read_only = self.session().is(READ_ONLY);
        let loaded = match changes {
            Ok(Some(changes)) if !read_only => load(&mut self.document, &changes),
            _ => true,
        };
        let (table, session) = (self.indexed(), self.session.clone());
        let mut receiving = Receiving::new(session, table, before, message.to_vec(), loaded.into());
        receiving.index.clone_from(&self.index);
        let left = compare_receipts(&[receiving], &FILLS).unwrap_or_else(|why| panic!("{why}"));
        let left = left.into_iter().next().expect("one answer");
        self.session = left.session;
        match left.answer[0] {
            0 => Heard::Taken,
            8 => Heard::NotLoaded,
            1..4 => Heard::NotRead,
            _ => panic!("within the limits: {:?}", left.answer),
        }
    }

    fn set_read_only(&mut self, on: bool) {
        raw::set_read_only(&mut self.session.words, on.into());
    }

    fn save(&self) -> Vec<u8> {
        let Lent { words, shared, .. } = &self.session;
        let mut out = vec![0; 3 + shared.len()];
        let answer = raw::write_state(shared, words[0] as usize, &mut out);
        assert_eq!(answer[0], 0);
        out.truncate(answer[1] as usize);
        out
    }

    fn restore(&mut self, state: &[u8]) {
        let (mut shared, mut words) = (vec![0; state.len()], [0; WORDS]);
        assert_eq!(raw::read_state(state, &mut shared, &mut words)[0], 0);
        self.session = Lent {
            words,
            shared,
            ..Lent::default()
        };
    }

    fn session(&self) -> Value {
        self.session.value().expect("a good session")
    }

    fn document(&mut self) -> &mut Automerge {
        &mut self.document
    }
}
