//! Stand-in for the crate's `Automerge`: rows and waiting changes by document
//! 01's rules. The calls below have the names and types under which the
//! published files call them; their rules are 01's, since the crate's own bodies
//! can't be had. No limit of 01 is kept here: refusals are the port's.

use crate::change::DOCUMENT;
use crate::change_graph::ChangeGraph;
use crate::{AutomergeError, Change, ChangeHash, PatchLog};
use std::collections::{BTreeSet, HashSet};

#[derive(Clone, Debug, Default, PartialEq, Eq)]
pub struct Automerge {
    pub(crate) change_graph: ChangeGraph,
    /// The change of each row, in table order.
    rows: Vec<Change>,
    waiting: Vec<Change>,
}

impl Automerge {
    /// A document without rows.
    pub fn new() -> Self {
        Self::default()
    }

    /// Any document that 01's tables can say: each row depends on earlier rows,
    /// no hash stands twice. Waiting changes may name anything, and stay waiting
    /// until something loads.
    pub fn from_rows(rows: Vec<Change>, waiting: Vec<Change>) -> Result<Self, AutomergeError> {
        let mut document = Self::new();
        for (row, change) in rows.into_iter().enumerate() {
            if !document.add(change) {
                return Err(AutomergeError::BadRow { row });
            }
        }
        for (row, change) in waiting.into_iter().enumerate() {
            if document.knows(&change.hash()) {
                return Err(AutomergeError::BadWaitingRow { row });
            }
            document.waiting.push(change);
        }
        Ok(document)
    }

    /// The rows in table order.
    pub fn rows(&self) -> &[Change] {
        &self.rows
    }

    /// The waiting changes in order of arrival.
    pub fn waiting(&self) -> &[Change] {
        &self.waiting
    }

    pub fn get_heads(&self) -> Vec<ChangeHash> {
        self.change_graph.heads()
    }

    /// Whether a row has this hash; a waiting change isn't held.
    pub fn has_change(&self, hash: &ChangeHash) -> bool {
        self.change_graph.holds(hash)
    }

    /// 01, "Missing from H", each hash once and ascending.
    pub fn missing_deps_from(&self, hashes: impl Iterator<Item = ChangeHash>) -> Vec<ChangeHash> {
        let mut missing = BTreeSet::new();
        let mut asked = HashSet::new();
        let mut open: Vec<ChangeHash> = hashes.collect();
        while let Some(hash) = open.pop() {
            if self.has_change(&hash) || !asked.insert(hash) {
                continue;
            }
            match self.waiting.iter().find(|change| change.hash() == hash) {
                Some(change) => open.extend(change.dependencies()),
                None => {
                    missing.insert(hash);
                }
            }
        }
        missing.into_iter().collect()
    }

    /// The rows beyond `list`, in table order.
    pub fn rows_beyond(&self, list: &[ChangeHash]) -> Vec<ChangeHash> {
        self.change_graph.get_hashes(list).into_owned()
    }

    /// Drops from `hashes` the known heads and their ancestors.
    pub(crate) fn filter_changes(
        &self,
        heads: &[ChangeHash],
        hashes: &mut BTreeSet<ChangeHash>,
    ) -> Result<(), AutomergeError> {
        let reached = self.change_graph.ancestors(heads);
        hashes.retain(|hash| !self.change_graph.row(hash).is_some_and(|row| reached[row]));
        Ok(())
    }

    /// The changes in the order asked for, repeats kept.
    pub(crate) fn get_changes_by_hashes(
        &self,
        hashes: impl Iterator<Item = ChangeHash>,
    ) -> Result<Vec<Change>, AutomergeError> {
        hashes
            .map(|hash| match self.change_graph.row(&hash) {
                Some(row) => Ok(self.rows[row].clone()),
                None => Err(AutomergeError::UnknownHash(hash)),
            })
            .collect()
    }

    /// The rows as bytes that loading takes; waiting changes aren't saved.
    pub fn save(&self) -> Vec<u8> {
        let mut bytes = vec![DOCUMENT];
        for change in &self.rows {
            bytes.extend(change.raw_bytes());
        }
        bytes
    }

    /// Adds each change whose dependencies are all held, lets the others wait,
    /// then moves waiting ones until none can move. Returns the rows gained. Bad
    /// bytes change nothing.
    pub fn load_incremental_log_patches(
        &mut self,
        bytes: &[u8],
        _: &mut PatchLog,
    ) -> Result<usize, AutomergeError> {
        let before = self.rows.len();
        for change in Change::read_all(bytes)? {
            if !self.knows(&change.hash()) && !self.add(change.clone()) {
                self.waiting.push(change);
            }
        }
        self.move_waiting();
        Ok(self.rows.len() - before)
    }

    fn move_waiting(&mut self) {
        loop {
            let before = self.waiting.len();
            for change in std::mem::take(&mut self.waiting) {
                if !self.add(change.clone()) {
                    self.waiting.push(change);
                }
            }
            if self.waiting.len() == before {
                return;
            }
        }
    }

    /// Adds a row if it isn't held and its dependencies are; says whether it did.
    fn add(&mut self, change: Change) -> bool {
        let added = self.change_graph.add(change.hash(), change.dependencies());
        if added {
            self.rows.push(change);
        }
        added
    }

    fn knows(&self, hash: &ChangeHash) -> bool {
        self.has_change(hash) || self.waiting.iter().any(|change| change.hash() == *hash)
    }
}
