//! Stand-in for the crate's change graph, by document 01's rules for the change
//! table: heads, ancestors and rows beyond are 01's, and so is their order.

use crate::ChangeHash;
use std::borrow::Cow;
use std::collections::HashMap;

#[derive(Clone, Debug, Default, PartialEq, Eq)]
pub(crate) struct ChangeGraph {
    hashes: Vec<ChangeHash>,
    /// For each row the rows it depends on, all of them earlier.
    dependencies: Vec<Vec<usize>>,
    row_of: HashMap<ChangeHash, usize>,
}

impl ChangeGraph {
    pub(crate) fn len(&self) -> usize {
        self.hashes.len()
    }

    pub(crate) fn holds(&self, hash: &ChangeHash) -> bool {
        self.row_of.contains_key(hash)
    }

    /// The row with this hash, if it is held.
    pub(crate) fn row(&self, hash: &ChangeHash) -> Option<usize> {
        self.row_of.get(hash).copied()
    }

    /// Adds a row. Says no, and adds nothing, if the hash is held already or a
    /// dependency isn't.
    pub(crate) fn add(&mut self, hash: ChangeHash, dependencies: &[ChangeHash]) -> bool {
        let rows: Option<Vec<usize>> = dependencies.iter().map(|d| self.row(d)).collect();
        let Some(mut rows) = rows else { return false };
        if self.holds(&hash) {
            return false;
        }
        rows.sort_unstable();
        rows.dedup();
        self.row_of.insert(hash, self.hashes.len());
        self.hashes.push(hash);
        self.dependencies.push(rows);
        true
    }

    /// 01, "Heads": rows that no row depends on, ascending bytes.
    pub(crate) fn heads(&self) -> Vec<ChangeHash> {
        let mut depended_on = vec![false; self.len()];
        for &row in self.dependencies.iter().flatten() {
            depended_on[row] = true;
        }
        let mut heads = self.unmarked(&depended_on);
        heads.sort_unstable();
        heads
    }

    /// A mark for each row that is in `list` or an ancestor of it. Dependencies
    /// are earlier rows, so one pass from the last row down is enough.
    pub(crate) fn ancestors(&self, list: &[ChangeHash]) -> Vec<bool> {
        let mut marked = vec![false; self.len()];
        for row in list.iter().filter_map(|hash| self.row(hash)) {
            marked[row] = true;
        }
        for row in (0..self.len()).rev() {
            if marked[row] {
                for &dependency in &self.dependencies[row] {
                    marked[dependency] = true;
                }
            }
        }
        marked
    }

    /// 01, "Rows beyond L": neither in `list` nor ancestors of it, in table
    /// order; unknown hashes in `list` are ignored.
    pub(crate) fn get_hashes(&self, list: &[ChangeHash]) -> Cow<'_, [ChangeHash]> {
        if list.is_empty() {
            return Cow::Borrowed(&self.hashes);
        }
        Cow::Owned(self.unmarked(&self.ancestors(list)))
    }

    /// The direct dependencies of a row; none of an unknown hash.
    pub(crate) fn deps(&self, hash: &ChangeHash) -> impl Iterator<Item = ChangeHash> + '_ {
        let rows = self.row(hash).map(|row| self.dependencies[row].as_slice());
        rows.unwrap_or_default()
            .iter()
            .map(|&dependency| self.hashes[dependency])
    }

    fn unmarked(&self, marked: &[bool]) -> Vec<ChangeHash> {
        let rows = self.hashes.iter().zip(marked);
        rows.filter(|(_, &marked)| !marked)
            .map(|(&hash, _)| hash)
            .collect()
    }
}
