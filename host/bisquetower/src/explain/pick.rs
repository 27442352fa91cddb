//! Picks that weren't accepted: which hash breaks which rule, or what all of them do.

use super::written::items;
use super::{BAD_PICK, LIMIT};
use crate::cause::{Cause, List, Pick, Rule};
use crate::hash::HASH;
use crate::refusal::Refusal;
use crate::{ChangeHash, Limits, Table};
use std::collections::{HashMap, HashSet};

/// The refusal of a list that was to be picked from.
pub(crate) fn picking(
    table: &[u8],
    list: &[ChangeHash],
    sizes: &[u64],
    refusal: Refusal,
) -> Refusal {
    let cause = match refusal.number {
        LIMIT => long_list(list),
        BAD_PICK => uneven(table, sizes),
        _ => None,
    };
    cause.map_or(refusal, |cause| refusal.because(cause))
}

/// The refusal of a pick from this list.
pub(crate) fn pick(
    table: &[u8],
    list: &[ChangeHash],
    sizes: &[u64],
    budget: u64,
    pick: &[ChangeHash],
    refusal: Refusal,
) -> Refusal {
    let cause = match refusal.number {
        LIMIT => long_list(list).or_else(|| long_pick(pick)),
        BAD_PICK => {
            let rows = Rows::of(table, list, pick);
            let place = refusal.value as usize;
            match pick.get(place) {
                Some(_) => rows.broken(pick, place),
                None => uneven(table, sizes).or_else(|| rows.whole(sizes, budget, pick)),
            }
        }
        _ => None,
    };
    cause.map_or(refusal, |cause| refusal.because(cause))
}

fn long_list(list: &[ChangeHash]) -> Option<Cause> {
    let most = Limits::told().hashes_to_send;
    items(List::Passed("listed hashes"), list.len(), most)
}

pub(super) fn long_pick(pick: &[ChangeHash]) -> Option<Cause> {
    items(
        List::Passed("picked hashes"),
        pick.len(),
        Limits::told().hashes,
    )
}

fn uneven(table: &[u8], sizes: &[u64]) -> Option<Cause> {
    let (sizes, rows) = (sizes.len(), table.len() / Table::ROW);
    (sizes != rows).then(|| because(Pick::Sizes { sizes, rows }))
}

fn because(rule: Pick) -> Cause {
    Cause::new(Rule::Pick(rule), None)
}

/// The rows that a pick is looked up in.
struct Rows<'a> {
    rows: Vec<&'a [u8]>,
    row_of: HashMap<&'a [u8], usize>,
    listed: HashSet<usize>,
    picked: HashSet<usize>,
}

impl<'a> Rows<'a> {
    fn of(table: &'a [u8], list: &[ChangeHash], pick: &[ChangeHash]) -> Rows<'a> {
        let rows: Vec<&[u8]> = table.chunks_exact(Table::ROW).collect();
        let row_of: HashMap<&[u8], usize> = rows.iter().map(|row| &row[..HASH]).zip(0..).collect();
        let among = |hashes: &[ChangeHash]| {
            let rows = hashes.iter().filter_map(|hash| row_of.get(&hash.0[..]));
            rows.copied().collect()
        };
        let (listed, picked) = (among(list), among(pick));
        Rows {
            rows,
            row_of,
            listed,
            picked,
        }
    }

    fn row(&self, hash: &ChangeHash) -> Option<usize> {
        self.row_of.get(&hash.0[..]).copied()
    }

    /// What is wrong with the hash at a place.
    fn broken(&self, pick: &[ChangeHash], place: usize) -> Option<Cause> {
        let Some(row) = self.row(&pick[place]) else {
            return Some(because(Pick::Unknown(place)));
        };
        let before = place.checked_sub(1);
        let before = before.and_then(|before| self.row(&pick[before]));
        let rule = if !self.listed.contains(&row) {
            Pick::Unlisted { place, row }
        } else if let Some(after) = before.filter(|before| *before >= row) {
            Pick::Order { place, row, after }
        } else {
            let on = self.left_behind(row)?;
            Pick::Without { place, on }
        };
        Some(because(rule))
    }

    /// The first row that a row depends on which is listed and not picked.
    fn left_behind(&self, row: usize) -> Option<usize> {
        let numbers = self.rows[row][HASH..].chunks_exact(2);
        let mut numbers = numbers.map(|two| usize::from(u16::from_le_bytes([two[0], two[1]])));
        let count = numbers.next()?;
        let mut on = numbers.take(count);
        on.find(|on| self.listed.contains(on) && !self.picked.contains(on))
    }

    /// What is wrong with a pick whose hashes break no rule, of one size a row.
    fn whole(&self, sizes: &[u64], budget: u64, pick: &[ChangeHash]) -> Option<Cause> {
        let own = pick.iter().filter_map(|hash| self.row(hash));
        let sum: u128 = own.map(|row| u128::from(sizes[row])).sum();
        if sum > budget.into() {
            return Some(because(Pick::Sum { sum, budget }));
        }
        let alone = |row: &&usize| sizes[**row] <= budget && self.left_behind(**row).is_none();
        let first = self.listed.iter().filter(alone).min()?;
        pick.is_empty().then(|| because(Pick::Empty(*first)))
    }
}
