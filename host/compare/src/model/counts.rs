//! Document 02's M-108, the night's false yeses, in plain Rust: written from its
//! sentences, with a set of the sender's hashes, every bit of a field looked at by itself,
//! and sums that can't be passed.

use super::filter::{contains, numbers, Filter};
use super::table::{table, Hash, Table};
use super::{words, Refused};
use std::collections::HashSet;

/// "entries, field bits, set bits .., listener rows outside the sender's table (those
/// tested), and how many of them the filter nevertheless contains".
pub type Counts = [u64; 5];

/// What is counted of a capture. "Refusals: those of filters and tables": the sender's
/// table's, then the listener's, then the filter's, in the order in which a capture is named.
pub fn counted(sender: &[u8], listener: &[u8], filter: &[u8]) -> Result<Counts, Refused> {
    let (sender, listener) = (table(sender)?, table(listener)?);
    let [entries, bits, probes, place, length] = numbers(filter, 0, filter.len())?;
    let filter = Filter {
        entries,
        bits,
        probes,
        field: &filter[place as usize..][..length as usize],
    };
    let held: HashSet<Hash> = hashes(&sender).collect();
    let tested: Vec<Hash> = hashes(&listener)
        .filter(|hash| !held.contains(hash))
        .collect();
    let contained = tested.iter().filter(|hash| contains(&filter, *hash));
    Ok([
        entries,
        8 * length,
        set_bits(filter.field),
        tested.len() as u64,
        contained.count() as u64,
    ])
}

fn hashes(table: &Table) -> impl Iterator<Item = Hash> + '_ {
    table.rows.iter().map(|row| row.hash)
}

/// "set bits": bit after bit of byte after byte.
fn set_bits(field: &[u8]) -> u64 {
    let bits = field
        .iter()
        .flat_map(|byte| (0..8).map(move |k| byte >> k & 1));
    bits.map(u64::from).sum()
}

/// The eight words that counting a capture has to answer.
pub fn count(sender: &[u8], listener: &[u8], filter: &[u8]) -> [u64; 8] {
    match counted(sender, listener, filter) {
        Ok([entries, field, set, tested, contained]) => {
            [0, entries, field, set, tested, contained, 0, 0]
        }
        Err((number, value)) => [number, value, 0, 0, 0, 0, 0, 0],
    }
}

/// Adds counts to totals, and what that has to answer: "16, returning 0, a total would pass
/// 64 bits". A capture that gets a refusal "adds to no total".
pub fn add(totals: &mut Counts, counts: Counts) -> [u64; 4] {
    let sums = totals.iter().zip(counts);
    let sums: Vec<u128> = sums
        .map(|(&total, more)| u128::from(total) + u128::from(more))
        .collect();
    let within: Option<Vec<u64>> = sums.iter().map(|&sum| sum.try_into().ok()).collect();
    words(match within {
        Some(sums) => {
            totals.copy_from_slice(&sums);
            Ok([0, 0, 0])
        }
        None => Err((16, 0)),
    })
}
