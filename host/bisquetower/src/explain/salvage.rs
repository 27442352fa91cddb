//! Rows that were dropped from a hurt table: what broke in each, and which of its bytes did.

use super::rows::{field, row_numbers, Wrong};
use crate::cause::{self, Cause, Row};
use crate::hash::HASH;
use crate::salvage::{Dropped, Rule};
use crate::{Limits, Table};
use std::collections::{HashMap, HashSet};

/// The dropped rows of a table, with what broke in them. All rows that aren't among these
/// were kept.
pub(crate) fn dropped(table: &[u8], entries: &[(usize, Rule)]) -> Vec<Dropped> {
    let most = Limits::told().dependencies;
    let rows: Vec<&[u8]> = table.chunks_exact(Table::ROW).collect();
    let gone: HashSet<usize> = entries.iter().map(|(row, _)| *row).collect();
    let kept = (0..rows.len()).filter(|row| !gone.contains(row));
    let row_of: HashMap<&[u8], usize> = kept.map(|row| (&rows[row][..HASH], row)).collect();
    let explained = |&(row, rule): &(usize, Rule)| {
        let own = rows[row];
        let wrong = match rule {
            Rule::Count | Rule::RowNumbers | Rule::Zeros => row_numbers(own, row, most),
            Rule::RepeatedHash => {
                let earlier = row_of.get(&own[..HASH]);
                earlier.map(|&earlier| (Row::Twice(earlier), 0..HASH))
            }
            Rule::LostDependency => lost(own, &gone),
        };
        Dropped::new(row, rule, wrong.map(|wrong| in_row(row, wrong)))
    };
    entries.iter().map(explained).collect()
}

/// The first row number in use of a row that is gone.
fn lost(own: &[u8], gone: &HashSet<usize>) -> Option<Wrong> {
    let number = |k: usize| {
        let two = &own[field(k)];
        usize::from(u16::from_le_bytes([two[0], two[1]]))
    };
    let mut used = 1..=number(0);
    let lost = used.find(|&k| gone.contains(&number(k)))?;
    Some((Row::Lost(number(lost)), field(lost)))
}

/// The cause that a row was dropped, whose bytes count from its own first.
fn in_row(row: usize, (rule, place): Wrong) -> Cause {
    let start = Table::ROW * row;
    let place = start + place.start..start + place.end;
    Cause::new(cause::Rule::Dropped { row, rule }, Some(place))
}
