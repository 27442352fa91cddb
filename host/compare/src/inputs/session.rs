//! Sessions of any content, ones too that no run would reach, and messages for them.

use super::message::Draft;
use super::selection::Graph;
use super::table::{table_bytes, waiting_bytes, Row};
use super::Random;
use crate::model::have::OwnHave;
use crate::model::session::Value;
use crate::model::table::{Hash, ROW};
use crate_under_test::facade::{Change, ChangeHash};
use std::collections::HashSet;
use std::ops::Range;

/// A unit that may say something.
#[derive(Clone, Debug)]
pub struct Saying {
    pub table: Vec<u8>,
    pub waiting: Vec<u8>,
    pub session: Value,
}

/// A unit that hears a message.
#[derive(Clone, Debug)]
pub struct Hearing {
    /// Of the rows before.
    pub table: Vec<u8>,
    pub session: Value,
    pub message: Vec<u8>,
    /// What the host says of loading where nothing is to be loaded.
    pub loaded: bool,
}

/// The record of a change, as the stand-in document loads it.
pub fn record(rows: &[Row], row: usize) -> Vec<u8> {
    let on = rows[row].dependencies.iter();
    let on = on.map(|&row| ChangeHash(rows[row].hash)).collect();
    let change = Change::new(ChangeHash(rows[row].hash), on, &[]);
    change.raw_bytes().to_vec()
}

/// Rows that no row depends on, ascending.
fn heads(rows: &[Row]) -> Vec<Hash> {
    let depended_on: HashSet<usize> = rows
        .iter()
        .flat_map(|row| row.dependencies.clone())
        .collect();
    let heads = (0..rows.len()).filter(|row| !depended_on.contains(row));
    let mut heads: Vec<Hash> = heads.map(|row| rows[row].hash).collect();
    heads.sort();
    heads
}

impl Random {
    /// A hash list of one kind or another: none, the heads of all rows or of some,
    /// rows, anything; sometimes in another order, or with repeats.
    fn list(&mut self, graph: &Graph) -> Vec<Hash> {
        let count = self.below(5);
        let strangers = &graph.hashes[graph.rows.len()..];
        let mut list = match self.below(8) {
            0 => Vec::new(),
            1 | 2 => heads(&graph.rows),
            3 => heads(&graph.rows[..self.below(graph.rows.len() + 1)]),
            4 if !graph.rows.is_empty() => (0..count).map(|_| self.of(graph.held())).collect(),
            5 => (0..count).map(|_| self.of(strangers)).collect(),
            _ => (0..count).map(|_| self.of(&graph.hashes)).collect(),
        };
        match self.below(8) {
            0 => list.reverse(),
            1 => list.extend(list.clone()),
            2 => list.extend(list.first().copied()),
            _ => {}
        }
        list
    }

    fn haves_of(&mut self, graph: &Graph, most: usize) -> Vec<OwnHave> {
        let count = self.below(most + 1);
        let have = |_| self.have_of(graph.held(), graph.unknown());
        let mut haves: Vec<OwnHave> = (0..count).map(have).collect();
        // An unknown hash in the first one leaves nothing to say but a reset.
        if let (Some(first), false) = (haves.first_mut(), self.one_in(3)) {
            first.last_sync.retain(|hash| graph.held().contains(hash));
        }
        haves
    }

    /// A session of any content.
    pub fn session(&mut self, graph: &Graph) -> Value {
        let ours = heads(&graph.rows);
        Value {
            shared: self.list(graph),
            last_sent: match self.one_in(3) {
                true => self.list(graph),
                false => ours.clone(),
            },
            their_heads: match self.below(6) {
                0 => None,
                1 => Some(Vec::new()),
                2 => Some(ours),
                _ => Some(self.list(graph)),
            },
            their_need: (!self.one_in(6)).then(|| self.list(graph)),
            their_have: (!self.one_in(6)).then(|| self.haves_of(graph, 3)),
            sent: match self.one_in(3) {
                true => Default::default(),
                false => [self.list(graph), self.list(graph)]
                    .concat()
                    .into_iter()
                    .collect(),
            },
            flags: std::array::from_fn(|_| self.one_in(2)),
        }
    }

    pub fn saying(&mut self, rows: Range<usize>) -> Saying {
        let graph = self.graph(rows);
        let waiting = match self.one_in(3) {
            true => Vec::new(),
            false => self.waiting_rows(graph.waits(), &graph.hashes),
        };
        Saying {
            table: table_bytes(&graph.rows),
            waiting: waiting_bytes(&waiting),
            session: self.session(&graph),
        }
    }

    pub fn hearing(&mut self, rows: Range<usize>) -> Hearing {
        let graph = self.graph(rows);
        let rows = graph.rows.len();
        let before = match self.one_in(3) {
            true => self.below(rows + 1),
            false => rows - self.below(rows.min(3) + 1),
        };
        let session = self.session(&graph);
        let mut message = self.draft_for(&graph, before).bytes();
        if self.one_in(12) {
            self.damage(&mut message);
        }
        Hearing {
            table: table_bytes(&graph.rows)[..ROW * before].to_vec(),
            session,
            message,
            loaded: self.one_in(2),
        }
    }

    /// A message for a unit that holds the first rows of a graph.
    fn draft_for(&mut self, graph: &Graph, before: usize) -> Draft {
        let heads = match self.one_in(4) {
            true => heads(&graph.rows[..before]),
            false => self.list(graph),
        };
        let have = |have: &OwnHave| (have.last_sync.clone(), have.filter_string());
        Draft {
            first: 0x42 + self.below(2) as u8,
            heads,
            need: self.list(graph),
            haves: self.haves_of(graph, 3).iter().map(have).collect(),
            chunks: self.chunks_for(&graph.rows, before),
            flags: match self.below(8) {
                0 | 1 => None,
                2 => Some(Vec::new()),
                3 => Some(self.bytes(3)),
                _ => Some(vec![0x02, 0x80 + self.below(8) as u8]),
            },
            after: Vec::new(),
        }
    }

    /// No chunks, or what loads, waits, is known or can't be loaded; in one chunk or
    /// in several, some of no bytes.
    fn chunks_for(&mut self, rows: &[Row], before: usize) -> Vec<Vec<u8>> {
        let mut records: Vec<Vec<u8>> = match self.below(8) {
            0..3 => return Vec::new(),
            3..6 => (before..rows.len()).map(|row| record(rows, row)).collect(),
            _ => {
                let some = (0..rows.len()).filter(|_| self.one_in(2));
                let mut some: Vec<Vec<u8>> = some.map(|row| record(rows, row)).collect();
                some.reverse();
                some
            }
        };
        if self.one_in(6) {
            let place = self.below(records.len() + 1);
            let size = self.below(4);
            records.insert(place, self.bytes(size));
        }
        match self.one_in(2) {
            true => vec![records.concat()],
            false => records,
        }
    }
}
