//! Change request M-111's exchange, in plain Rust over the rules for tables, filters and
//! hashes to send: what an end says, and what it does when the other one's message comes.
//! Sessions have no part in it.

use super::have::{Have, OwnHave};
use super::selection::chosen;
use super::table::{Hash, Row, Table, Waiting};
use super::walk::{Giving, Stated};
use std::collections::BTreeSet;

/// A change: its hash, and those that it depends on.
pub type On = (Hash, Vec<Hash>);

/// Where an end stands.
#[derive(Default)]
pub struct End {
    table: Table,
    /// W: what waits beside the table.
    waits: Waiting,
    /// T: what it has named and the other end isn't known to have.
    sent: BTreeSet<Hash>,
    heard: Option<Stated>,
    /// All that it has named.
    named: Vec<Hash>,
}

impl End {
    /// "nothing waiting or sent": an end of these changes, each after those that it depends
    /// on.
    pub fn new(changes: &[On]) -> End {
        let mut end = End::default();
        for (hash, on) in changes {
            end.hold(*hash, on);
        }
        end
    }

    fn hold(&mut self, hash: Hash, on: &[Hash]) {
        let dependencies = on.iter().map(|hash| self.table.row_of[hash]).collect();
        self.table.row_of.insert(hash, self.table.rows.len());
        self.table.rows.push(Row { hash, dependencies });
    }

    fn heads_heard(&self) -> &[Hash] {
        self.heard.as_ref().map_or(&[], |said| &said.heads)
    }

    /// "Need is what is then missing from the heads last heard, in the first exchange too;
    /// the have follows the walk with those heads as A's".
    pub fn states(&self, giving: &Giving) -> Stated {
        let heads = self.table.heads(self.table.rows.len()).expect("all rows");
        let heard = self.heads_heard();
        let need = self.table.missing(&self.waits, heard).expect("a few rows");
        let gives = need.iter().all(|hash| heard.contains(hash));
        let have = gives.then(|| {
            let beyond = self.table.beyond(&giving.last_sync);
            let last_sync = giving.last_sync.clone();
            OwnHave::over(last_sync, giving.bits, giving.probes, &beyond)
        });
        Stated { heads, need, have }
    }

    /// The hashes to send for what it heard last, less those sent; "an end that has heard
    /// nothing yet needs and lists nothing".
    pub fn lists(&self) -> Vec<Hash> {
        let Some(said) = &self.heard else {
            return Vec::new();
        };
        let haves: Vec<Have> = said.have.iter().map(OwnHave::have).collect();
        let mut list = chosen(&self.table, &haves, &said.need);
        list.retain(|hash| !self.sent.contains(hash));
        list
    }

    /// It has named these.
    pub fn names(&mut self, list: &[Hash]) {
        self.sent.extend(list);
        self.named.extend(list);
    }

    /// A message comes, with these changes: "what came has joined the table or W" before
    /// anything else is said, and what was sent loses the heads heard and all below them.
    pub fn hears(&mut self, said: Stated, changes: Vec<On>) {
        self.waits.extend(changes);
        loop {
            let held = |on: &[Hash]| on.iter().all(|hash| self.table.holds(hash));
            let ready = self.waits.iter().filter(|(_, on)| held(on));
            let ready: Vec<Hash> = ready.map(|(hash, _)| *hash).collect();
            if ready.is_empty() {
                break;
            }
            for hash in ready {
                let on = self.waits.remove(&hash).expect("it waits");
                self.hold(hash, &on);
            }
        }
        let reached = self.table.reached(&said.heads);
        let row_of = &self.table.row_of;
        self.sent.retain(|hash| !reached.contains(&row_of[hash]));
        self.heard = Some(said);
    }

    pub fn holds(&self, hash: &Hash) -> bool {
        self.table.holds(hash)
    }

    pub fn rows(&self) -> usize {
        self.table.rows.len()
    }

    pub fn held(&self) -> BTreeSet<Hash> {
        self.table.rows.iter().map(|row| row.hash).collect()
    }

    pub fn waiting(&self) -> BTreeSet<Hash> {
        self.waits.keys().copied().collect()
    }

    pub fn sent(&self) -> &BTreeSet<Hash> {
        &self.sent
    }

    pub fn named(&self) -> &[Hash] {
        &self.named
    }
}
