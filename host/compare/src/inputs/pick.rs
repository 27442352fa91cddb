//! Lists of what is to be sent, sizes and budgets; and picks of them: the planner's own, ones
//! that others made, and broken ones.

use super::table::table_bytes;
use super::Random;
use crate::model::pick::Radio;
use crate::model::plan::Picking;
use crate::model::table::{table, Hash, Table};
use std::ops::Range;

/// What is picked from.
#[derive(Clone, Debug, PartialEq, Eq)]
pub struct OwnRadio {
    pub table: Vec<u8>,
    pub list: Vec<Hash>,
    pub sizes: Vec<u64>,
    pub budget: u64,
    /// Hashes that aren't held.
    pub strangers: Vec<Hash>,
}

impl OwnRadio {
    /// What the model makes of it; the table is good.
    fn with<T>(&self, look: impl FnOnce(&Radio) -> T) -> T {
        let table = table(&self.table).expect("a good table");
        look(&Radio {
            table: &table,
            list: &self.list,
            sizes: &self.sizes,
            budget: self.budget,
        })
    }
}

/// Every row that may go with what was chosen before it, is chosen where `wants` says so. One
/// goes in any case if it may go by itself.
pub fn accepted(radio: &Radio, mut wants: impl FnMut() -> bool) -> Vec<Hash> {
    let Table { rows, .. } = radio.table;
    let (mut pick, mut left) = (Vec::new(), radio.budget);
    let mut alone = None;
    for (row, &size) in rows.iter().zip(radio.sizes) {
        let mut on = row.dependencies.iter().map(|&on| rows[on].hash);
        let listed = radio.list.contains(&row.hash);
        if listed && size <= radio.budget && on.clone().all(|on| !radio.list.contains(&on)) {
            alone.get_or_insert(row.hash);
        }
        let together = on.all(|on| !radio.list.contains(&on) || pick.contains(&on));
        if listed && together && size <= left && wants() {
            pick.push(row.hash);
            left -= size;
        }
    }
    if pick.is_empty() {
        pick.extend(alone);
    }
    pick
}

impl Random {
    /// One size a row: none, alike, small, any, or so large that two of them pass 64 bits.
    pub fn sizes(&mut self, rows: usize) -> Vec<u64> {
        let kind = self.below(6);
        let like = self.below(5) as u64;
        let mut size = || match kind {
            0 => like,
            1 | 2 => self.below(5) as u64,
            3 => self.below(1_000) as u64,
            4 => u64::MAX / 2 + self.below(4) as u64,
            _ => self.number(),
        };
        (0..rows).map(|_| size()).collect()
    }

    /// A budget for rows of these sizes: nothing, some, all of them or a little less, any.
    pub fn budget(&mut self, sizes: &[u64]) -> u64 {
        let sum = |sizes: &mut dyn Iterator<Item = &u64>| {
            sizes.fold(0_u64, |sum, size| sum.saturating_add(*size))
        };
        match self.below(8) {
            0 => self.below(3) as u64,
            1 => sum(&mut sizes.iter()),
            2 => sum(&mut sizes.iter()).saturating_sub(1),
            3 => u64::MAX,
            4 => self.number(),
            _ => {
                let some: Vec<u64> = sizes.iter().filter(|_| self.one_in(3)).copied().collect();
                sum(&mut some.iter())
            }
        }
    }

    /// A list of rows: none, all, or some; in table order, or with others before them, with
    /// repeats, in any order, or with hashes that aren't held.
    fn listed(&mut self, held: &[Hash], strangers: &[Hash]) -> Vec<Hash> {
        let one_in = 1 + self.below(3);
        let mut list: Vec<Hash> = match self.below(10) {
            0 => Vec::new(),
            1 | 2 => held.to_vec(),
            _ => held
                .iter()
                .filter(|_| self.one_in(one_in))
                .copied()
                .collect(),
        };
        match self.below(6) {
            0 => self.shuffle(&mut list),
            1 => {
                let more: Vec<Hash> = list.iter().filter(|_| self.one_in(3)).copied().collect();
                list.splice(0..0, more);
            }
            2 => {
                let place = self.below(list.len() + 1);
                list.insert(place, self.of(strangers));
            }
            _ => {}
        }
        list
    }

    /// A table with a number of rows in this range, a list, one size a row, and a budget.
    pub fn radio(&mut self, rows: Range<usize>) -> OwnRadio {
        let graph = self.graph(rows);
        let strangers = graph.hashes[graph.rows.len()..].to_vec();
        let list = self.listed(graph.held(), &strangers);
        let sizes = self.sizes(graph.rows.len());
        OwnRadio {
            table: table_bytes(&graph.rows),
            list,
            budget: self.budget(&sizes),
            sizes,
            strangers,
        }
    }

    /// The planner's pick, another one that is accepted, or one that may break a rule.
    pub fn pick(&mut self, radio: &OwnRadio) -> Vec<Hash> {
        match self.below(8) {
            0 | 1 => radio.with(|radio| radio.pick()),
            2 | 3 => radio.with(|radio| accepted(radio, || self.one_in(2))),
            4 => radio.with(|radio| {
                let listed = radio.table.rows.iter().map(|row| row.hash);
                listed.filter(|hash| radio.list.contains(hash)).collect()
            }),
            _ => {
                let mut pick = radio.with(|radio| accepted(radio, || self.one_in(2)));
                for _ in 0..1 + self.below(2) {
                    self.spoil_pick(radio, &mut pick);
                }
                pick
            }
        }
    }

    /// Takes a hash away, puts one in, or exchanges some.
    fn spoil_pick(&mut self, radio: &OwnRadio, pick: &mut Vec<Hash>) {
        let place = self.below(pick.len() + 1);
        let held: Vec<Hash> = radio.with(|radio| {
            let rows = radio.table.rows.iter();
            rows.map(|row| row.hash).collect()
        });
        match self.below(8) {
            0 => pick.clear(),
            1 if place < pick.len() => drop(pick.remove(place)),
            2 if place < pick.len() => pick.insert(place, pick[self.below(pick.len())]),
            3 if !radio.list.is_empty() => pick.insert(place, self.of(&radio.list)),
            4 if !held.is_empty() => pick.insert(place, self.of(&held)),
            5 => pick.insert(place, self.of(&radio.strangers)),
            6 if place < pick.len() => pick[place] = self.of(&radio.strangers),
            _ => self.shuffle(pick),
        }
    }

    /// A pick as it is lent with a plan over a list, with sizes that now and then aren't one
    /// a row, and bytes that aren't whole hashes.
    pub fn picking(&mut self, table: &[u8], rows: usize, list: Vec<Hash>) -> Picking {
        let sizes = self.sizes(rows);
        let radio = OwnRadio {
            table: table.to_vec(),
            list,
            budget: self.budget(&sizes),
            sizes,
            strangers: vec![self.hash()],
        };
        let mut pick = self.pick(&radio).concat();
        let (mut sizes, budget) = (radio.sizes, radio.budget);
        match self.below(20) {
            0 => sizes.push(0),
            1 => drop(sizes.pop()),
            2 => pick.extend(self.bytes(7)),
            3 => drop(pick.pop()),
            _ => {}
        }
        Picking {
            sizes,
            budget,
            pick,
        }
    }
}
