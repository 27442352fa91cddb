//! What to send to a peer.

use crate::hash::{bytes_of, hashes_in, ChangeHash, HASH};
use crate::have::{self, Have};
use crate::refusal::Refusal;
use crate::{explain, raw, room, Table};

/// The hashes to send to a peer that has this and asks for that: the held needs, as
/// they were asked for, and, where the peer has said what it has, every row beyond it
/// that all filters miss with whatever depends on such a row, in table order.
///
/// ```
/// use bisquetower::{hashes_to_send, ChangeHash, Filter, Have, Table};
///
/// let [a, b, c, d] = [b'a', b'b', b'c', b'd'].map(|name| ChangeHash([name; 32]));
/// let table = Table::from_changes([
///     (a, vec![]), (b, vec![a]), (c, vec![a]), (d, vec![b, c]),
/// ])?;
/// let all_but_b = Have { last_sync: vec![], bloom: Filter::from_hashes([a, c, d])? };
/// assert_eq!(hashes_to_send(&table, &[all_but_b], &[c])?, [c, b, d]);
/// # Ok::<(), bisquetower::Refusal>(())
/// ```
#[doc(alias = "get_hashes_to_send")]
pub fn hashes_to_send(
    table: &Table,
    have: &[Have],
    need: &[ChangeHash],
) -> Result<Vec<ChangeHash>, Refusal> {
    let (haves, bytes) = have::lend(have);
    let lent = bytes_of(need);
    let room = HASH * table.rows() + lent.len();
    let list = room::written(room, |out| {
        raw::hashes_to_send(table.as_bytes(), table.index(), &bytes, &haves, &lent, out)
    });
    let list = list.map_err(|refusal| explain::selecting(have, need.len(), refusal))?;
    Ok(hashes_in(&list))
}
