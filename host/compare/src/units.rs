//! Units that talk: a document, which stands in for the host's, and a session.
//! The crate's own takes both steps itself; the others are hosts that load changes,
//! lend tables and write what is planned.

mod modelled;
mod proved;
mod published;

pub use modelled::modelled;
pub use proved::proved;
pub use published::published;

use crate::inputs::message::OwnParts;
use crate::inputs::table::{table_bytes, waiting_bytes, Row, WaitingRow};
use crate::model::plan::{By, Picking, Plan};
use crate::model::session::{laid, Value};
use crate::model::table::Hash;
use crate_under_test::facade::{Automerge, Change, ChangeHash};
use crate_under_test::PatchLog;

/// What became of a message.
#[derive(Clone, Copy, Debug, PartialEq, Eq)]
pub enum Heard {
    Taken,
    NotLoaded,
    NotRead,
}

pub trait Unit {
    /// The bytes of what it says next, if there is something to say.
    fn speak(&mut self) -> Option<Vec<u8>>;

    /// The same with a filter of other numbers. The crate's own unit has no other.
    fn speak_by(&mut self, by: &By) -> Option<Vec<u8>> {
        assert_eq!(*by, By::Crate, "this unit has the crate's numbers");
        self.speak()
    }

    /// The same with a pick of what there is to send by list, which is made of the table's
    /// bytes and that list. The crate's own unit has none.
    fn speak_picked(&mut self, _: &By, _: &mut Picks) -> Option<Vec<u8>> {
        panic!("this unit sends all of a list");
    }

    fn hear(&mut self, message: &[u8]) -> Heard;

    fn set_read_only(&mut self, on: bool);

    /// The session as a saved state.
    fn save(&self) -> Vec<u8>;

    /// Goes on from a saved state.
    fn restore(&mut self, state: &[u8]);

    fn session(&self) -> Value;

    fn document(&mut self) -> &mut Automerge;
}

/// Makes a pick of a list.
pub type Picks<'a> = dyn FnMut(&[u8], &[Hash]) -> Picking + 'a;

/// Makes a unit of some kind.
pub type Make = fn(Automerge, Value) -> Box<dyn Unit>;

/// The table of a document's rows.
pub fn table_of(document: &Automerge) -> Vec<u8> {
    let rows = document.rows();
    let row_of: std::collections::HashMap<ChangeHash, usize> = rows
        .iter()
        .enumerate()
        .map(|(row, change)| (change.hash(), row))
        .collect();
    let row = |change: &Change| {
        let mut dependencies: Vec<usize> =
            change.dependencies().iter().map(|d| row_of[d]).collect();
        dependencies.sort_unstable();
        dependencies.dedup();
        Row {
            hash: change.hash().0,
            dependencies,
        }
    };
    table_bytes(&rows.iter().map(row).collect::<Vec<_>>())
}

/// The table of the changes that wait.
pub fn waiting_of(document: &Automerge) -> Vec<u8> {
    let row = |change: &Change| WaitingRow {
        hash: change.hash().0,
        dependencies: change.dependencies().iter().map(|hash| hash.0).collect(),
    };
    waiting_bytes(&document.waiting().iter().map(row).collect::<Vec<_>>())
}

/// The chunks for a plan: a list goes change by change in a message of version 1 and
/// as one chunk in one of version 2; of no changes there is none. The document is
/// one chunk.
pub fn chunks_for(plan: &Plan, document: &Automerge) -> Vec<Vec<u8>> {
    if plan.document {
        return vec![document.save()];
    }
    let change = |hash: &[u8; 32]| {
        let held = document.rows().iter().find(|row| row.hash().0 == *hash);
        held.expect("what is planned is held").raw_bytes().to_vec()
    };
    let changes: Vec<Vec<u8>> = plan.hashes.iter().map(change).collect();
    match plan.version {
        2 if !changes.is_empty() => vec![changes.concat()],
        _ => changes,
    }
}

/// The message of a plan, to be written.
fn parts_for(plan: &Plan, document: &Automerge) -> OwnParts {
    let chunks = chunks_for(plan, document);
    let (haves, s) = laid(&plan.haves);
    OwnParts {
        version: plan.version,
        heads: plan.heads.concat(),
        need: plan.need.concat(),
        s,
        haves,
        lengths: chunks.iter().map(|chunk| chunk.len() as u64).collect(),
        chunks: chunks.concat(),
        flags: plan.flags,
    }
}

/// Loads changes, as a host does before a message is taken; whether that went well.
pub fn load(document: &mut Automerge, changes: &[u8]) -> bool {
    let loaded = document.load_incremental_log_patches(changes, &mut PatchLog::inactive());
    loaded.is_ok()
}
