//! Document 01's "Hashes to send", in plain Rust: with sets of row numbers that
//! grow until nothing is new.

use super::filter::contains;
use super::have::{haves, limited, Have};
use super::Refused;
use crate::model::table::{hash_list, indexed, Hash, Table, HASH};
use std::collections::{BTreeSet, HashSet};

/// The hashes to send: "held needs outside S, then S in table order", and with no
/// have the held needs alone. 10 for the haves comes first, then 4 and 6 for the
/// table, 12 for its index, 4 and 1 for the need, and 4 for the haves.
pub fn hashes_to_send(
    lent: &[u8],
    index: &[u8],
    s: &[u8],
    records: &[u64],
    need: &[u8],
) -> Result<Vec<Hash>, Refused> {
    let haves = haves(s, records)?;
    let table = indexed(lent, index)?;
    let need = hash_list(need)?;
    limited(&haves)?;
    Ok(chosen(&table, &haves, &need))
}

/// What is chosen from a good table, for good haves and a need.
pub(super) fn chosen(table: &Table, haves: &[Have], need: &[Hash]) -> Vec<Hash> {
    let sent = match haves.is_empty() {
        true => BTreeSet::new(),
        false => missed(table, haves),
    };
    // "Held needs in request order, repeats kept."
    let held = need.iter().filter_map(|hash| table.row_of.get(hash));
    let outside = held.filter(|row| !sent.contains(row));
    let rows = outside.chain(&sent);
    rows.map(|&row| table.rows[row].hash).collect()
}

/// S, "every candidate missed by all filters, plus its direct and indirect
/// dependents among the candidates", where "candidates are the rows beyond all
/// haves' last-sync hashes".
fn missed(table: &Table, haves: &[Have]) -> BTreeSet<usize> {
    let last_sync: Vec<Hash> = haves
        .iter()
        .flat_map(|have| have.last_sync.chunks(HASH))
        .map(|hash| hash.try_into().expect("a hash's bytes"))
        .collect();
    let known: HashSet<usize> = table.reached(&last_sync);
    let candidates = (0..table.rows.len()).filter(|row| !known.contains(row));
    let candidates: Vec<usize> = candidates.collect();
    let missed = |&row: &usize| {
        let hash = &table.rows[row].hash;
        !haves.iter().any(|have| contains(&have.filter, hash))
    };
    let mut sent: BTreeSet<usize> = candidates.iter().copied().filter(missed).collect();
    loop {
        let before = sent.len();
        for &row in &candidates {
            let on = &table.rows[row].dependencies;
            if on.iter().any(|dependency| sent.contains(dependency)) {
                sent.insert(row);
            }
        }
        if sent.len() == before {
            return sent;
        }
    }
}
