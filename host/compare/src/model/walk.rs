//! Document 01's "The catch-up walk", its five steps in plain Rust over the rules for
//! tables, filters and hashes to send. Sessions have no part in it.

use super::have::{Have, OwnHave};
use super::selection::chosen;
use super::table::{Hash, Row, Table, Waiting};
use std::collections::BTreeSet;

/// Where a walk stands.
pub struct Walk {
    a: Table,
    b: Table,
    /// W: what waits beside B.
    waits: Waiting,
    /// T: what A has named and B isn't known to have.
    sent: BTreeSet<Hash>,
    rounds: usize,
}

/// What B says in a round.
#[derive(Clone, Debug, PartialEq, Eq)]
pub struct Stated {
    pub heads: Vec<Hash>,
    pub need: Vec<Hash>,
    pub have: Option<OwnHave>,
}

/// What B gives in a have.
#[derive(Clone, Debug)]
pub struct Giving {
    /// L, of hashes that B holds.
    pub last_sync: Vec<Hash>,
    pub bits: u64,
    pub probes: u64,
}

impl Walk {
    /// "A is fixed; B is a dependency-closed part of A; W and T are empty": B by its
    /// hashes, each after those that it depends on.
    pub fn new(a: Table, b: &[Hash]) -> Walk {
        let mut walk = Walk {
            a,
            b: Table::default(),
            waits: Waiting::new(),
            sent: BTreeSet::new(),
            rounds: 0,
        };
        for hash in b {
            let on = walk.on(hash);
            walk.hold(*hash, &on);
        }
        walk
    }

    /// The hashes that a row of A depends on.
    fn on(&self, hash: &Hash) -> Vec<Hash> {
        let row = &self.a.rows[self.a.row_of[hash]];
        let on = row.dependencies.iter();
        on.map(|&row| self.a.rows[row].hash).collect()
    }

    /// Puts a row at B's end.
    fn hold(&mut self, hash: Hash, on: &[Hash]) {
        let dependencies = on.iter().map(|hash| self.b.row_of[hash]).collect();
        self.b.row_of.insert(hash, self.b.rows.len());
        self.b.rows.push(Row { hash, dependencies });
    }

    /// Steps 1 and 2.
    pub fn state(&self, giving: &Giving) -> Stated {
        assert!(giving.last_sync.iter().all(|hash| self.b.holds(hash)));
        let heads = self.b.heads(self.b.rows.len()).expect("all rows");
        let goal = self.a.heads(self.a.rows.len()).expect("all rows");
        let need = match self.rounds {
            0 => Vec::new(),
            _ => self.b.missing(&self.waits, &goal).expect("a few rows"),
        };
        let gives = need.iter().all(|hash| goal.contains(hash));
        let have = gives.then(|| {
            let beyond = self.b.beyond(&giving.last_sync);
            OwnHave::over(
                giving.last_sync.clone(),
                giving.bits,
                giving.probes,
                &beyond,
            )
        });
        Stated { heads, need, have }
    }

    /// Steps 3 and 4, but for what T gains.
    pub fn offer(&mut self, stated: &Stated) -> Vec<Hash> {
        let reached = self.a.reached(&stated.heads);
        let row_of = &self.a.row_of;
        self.sent.retain(|hash| !reached.contains(&row_of[hash]));
        let haves: Vec<Have> = stated.have.iter().map(OwnHave::have).collect();
        let mut offer = chosen(&self.a, &haves, &stated.need);
        offer.retain(|hash| !self.sent.contains(hash));
        offer
    }

    /// The end of step 4, and step 5. The reply is the offer, or a part of it.
    pub fn reply(&mut self, reply: &[Hash]) {
        self.sent.extend(reply);
        for hash in reply {
            let on = self.on(hash);
            self.waits.insert(*hash, on);
        }
        let ready = |walk: &Walk| {
            let held = |on: &Vec<Hash>| on.iter().all(|hash| walk.b.holds(hash));
            let mut waits = walk.waits.iter();
            waits.find(|(_, on)| held(on)).map(|(hash, _)| *hash)
        };
        while let Some(hash) = ready(self) {
            let on = self.waits.remove(&hash).expect("it waits");
            self.hold(hash, &on);
        }
        self.rounds += 1;
    }

    pub fn holds(&self, hash: &Hash) -> bool {
        self.b.holds(hash)
    }

    /// How many rows B lacks.
    pub fn lacks(&self) -> usize {
        self.a.rows.len() - self.b.rows.len()
    }

    pub fn rounds(&self) -> usize {
        self.rounds
    }

    pub fn held(&self) -> BTreeSet<Hash> {
        self.b.rows.iter().map(|row| row.hash).collect()
    }

    pub fn waiting(&self) -> BTreeSet<Hash> {
        self.waits.keys().copied().collect()
    }

    pub fn sent(&self) -> &BTreeSet<Hash> {
        &self.sent
    }
}
