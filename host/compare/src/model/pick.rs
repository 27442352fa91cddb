//! Document 02's M-110, messages that fit the radio, in plain Rust: written from its
//! sentences, with sets of hashes and sums that can't overflow. The list may have repeats,
//! and hashes that aren't held.

use super::table::{hash_list_up_to, indexed, Hash, Table};
use super::{words, Refused};
use bisquetower::limits::{HASHES, HASHES_TO_SEND};
use std::collections::HashSet;

/// "the hash list to send less what was sent, each row's size and the budget".
#[derive(Clone, Copy)]
pub struct Radio<'a> {
    pub table: &'a Table,
    pub list: &'a [Hash],
    pub sizes: &'a [u64],
    pub budget: u64,
}

impl Radio<'_> {
    /// The refusal of a pick, if it isn't accepted: "with the place of the first hash that
    /// breaks a rule or, for the sum, an empty pick or sizes not one a row, the pick's
    /// length".
    pub fn check(&self, pick: &[Hash]) -> Result<(), Refused> {
        let whole = (17, pick.len() as u64);
        let listed: HashSet<&Hash> = self.list.iter().collect();
        if let Some(place) = self.first_broken(&listed, pick) {
            return Err((17, place as u64));
        }
        if self.sizes.len() != self.table.rows.len() || self.sum(pick) > self.budget.into() {
            return Err(whole);
        }
        // "an empty pick only if the list is empty or no single hash makes an acceptable
        // pick by itself".
        let alone = |hash: &Hash| {
            let single = [*hash];
            let fits = self.first_broken(&listed, &single).is_none();
            fits && self.sum(&single) <= self.budget.into()
        };
        match pick.is_empty() && self.list.iter().any(alone) {
            true => Err(whole),
            false => Ok(()),
        }
    }

    /// "hashes from the list, each once, in table order; every dependency that is itself in
    /// the list goes with it".
    fn first_broken(&self, listed: &HashSet<&Hash>, pick: &[Hash]) -> Option<usize> {
        let picked: HashSet<&Hash> = pick.iter().collect();
        let mut above = None;
        pick.iter().position(|hash| {
            let Some(&row) = self.table.row_of.get(hash) else {
                return true;
            };
            let ordered = above.is_none_or(|above| above < row);
            above = Some(row);
            let on = self.table.rows[row].dependencies.iter();
            let mut on = on.map(|&on| &self.table.rows[on].hash);
            let together = on.all(|on| !listed.contains(on) || picked.contains(on));
            !(listed.contains(hash) && ordered && together)
        })
    }

    fn sum(&self, pick: &[Hash]) -> u128 {
        let rows = pick.iter().map(|hash| self.table.row_of[hash]);
        rows.map(|row| u128::from(self.sizes[row])).sum()
    }

    /// What the planner picks, of one size a row: in table order, whatever still fits and
    /// has its listed dependencies picked.
    pub fn pick(&self) -> Vec<Hash> {
        let listed: HashSet<&Hash> = self.list.iter().collect();
        let (mut picked, mut pick) = (HashSet::new(), Vec::new());
        let mut left = self.budget;
        for (row, size) in self.table.rows.iter().zip(self.sizes) {
            let mut on = row.dependencies.iter().map(|&on| self.table.rows[on].hash);
            let goes = listed.contains(&row.hash)
                && on.all(|on| !listed.contains(&on) || picked.contains(&on))
                && *size <= left;
            if goes {
                picked.insert(row.hash);
                pick.push(row.hash);
                left -= size;
            }
        }
        pick
    }
}

/// What is lent to the calls on picks.
#[derive(Clone, Copy)]
pub struct Lent<'a> {
    pub table: &'a [u8],
    pub index: &'a [u8],
    pub list: &'a [u8],
    pub sizes: &'a [u64],
    pub budget: u64,
}

impl Lent<'_> {
    /// 4 and 6 for the table, 12 for its index, 4 and 1 for the list, of as many hashes as
    /// there may be to send.
    fn taken(&self) -> Result<(Table, Vec<Hash>), Refused> {
        let table = indexed(self.table, self.index)?;
        let list = hash_list_up_to(HASHES_TO_SEND, self.list)?;
        Ok((table, list))
    }

    fn radio<'a>(&'a self, table: &'a Table, list: &'a [Hash]) -> Radio<'a> {
        Radio {
            table,
            list,
            sizes: self.sizes,
            budget: self.budget,
        }
    }

    /// The planner's hashes: 17 with 0 for sizes that aren't one a row, for there is no pick
    /// yet.
    pub fn pick(&self) -> Result<Vec<Hash>, Refused> {
        let (table, list) = self.taken()?;
        match self.sizes.len() == table.rows.len() {
            true => Ok(self.radio(&table, &list).pick()),
            false => Err((17, 0)),
        }
    }

    /// The words that the check answers.
    pub fn check(&self, pick: &[u8]) -> [u64; 4] {
        let checked = self.taken().and_then(|(table, list)| {
            let pick = hash_list_up_to(HASHES, pick)?;
            self.radio(&table, &list).check(&pick)
        });
        words(checked.map(|()| [0; 3]))
    }
}
