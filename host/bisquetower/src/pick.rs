//! What goes now of what is to be sent.

use crate::hash::{bytes_of, hashes_in, ChangeHash, HASH};
use crate::refusal::{answer, Refusal};
use crate::{explain, raw, room, Table};

impl Table {
    /// Picks what goes now of a list of hashes that is to be sent, so that the sizes of what
    /// goes sum to no more than the budget: in table order each listed row that still fits
    /// and whose listed dependencies go too. `sizes` has one number a row, in any unit that
    /// the budget has; those of rows that aren't listed count for nothing.
    ///
    /// Refusal 4 for a list of more than [`HASHES_TO_SEND`](crate::limits::HASHES_TO_SEND)
    /// hashes, 17 for sizes that aren't one a row.
    ///
    /// ```
    /// use bisquetower::{ChangeHash, Table};
    ///
    /// let [a, b, c, d] = [b'a', b'b', b'c', b'd'].map(|name| ChangeHash([name; 32]));
    /// let table = Table::from_changes([
    ///     (a, vec![]), (b, vec![a]), (c, vec![a]), (d, vec![b]),
    /// ])?;
    /// let (list, sizes) = ([d, b, c], [1, 2, 9, 2]);
    /// // The change c is too large, and d doesn't go without b.
    /// assert_eq!(table.pick(&list, &sizes, 4)?, [b, d]);
    /// assert_eq!(table.pick(&list, &sizes, 3)?, [b]);
    /// assert_eq!(table.pick(&list, &sizes, 1)?, []);
    /// # Ok::<(), bisquetower::Refusal>(())
    /// ```
    pub fn pick(
        &self,
        list: &[ChangeHash],
        sizes: &[u64],
        budget: u64,
    ) -> Result<Vec<ChangeHash>, Refusal> {
        let pick = picked(self.as_bytes(), self.index(), list, sizes, budget)?;
        Ok(hashes_in(&pick))
    }

    /// Whether a pick is accepted, whoever made it: its hashes are in the list, each once and
    /// in table order; every dependency that is itself in the list goes with them; their
    /// sizes sum to no more than the budget; and it is empty only where no single hash of the
    /// list makes a pick that is accepted. What [`pick`](Table::pick) picks always is.
    ///
    /// Refusal 17 if it isn't, with the index of the first hash that breaks a rule, else with
    /// how many hashes it has, if its sum or that it is empty does, or the sizes aren't one a
    /// row; the refusal says which. 4 for too long a list, as in [`pick`](Table::pick), and
    /// for a pick of more than [`HASHES`](crate::limits::HASHES) hashes.
    ///
    /// ```
    /// use bisquetower::{ChangeHash, Table};
    ///
    /// let [a, b, c] = [b'a', b'b', b'c'].map(|name| ChangeHash([name; 32]));
    /// let table = Table::from_changes([(a, vec![]), (b, vec![a]), (c, vec![b])])?;
    /// let (list, sizes) = ([b, c], [30, 20, 10]);
    /// table.check_pick(&list, &sizes, 30, &[b, c])?;
    /// table.check_pick(&list, &sizes, 25, &[b])?;
    ///
    /// let without_b = table.check_pick(&list, &sizes, 30, &[c]).unwrap_err();
    /// assert_eq!((without_b.number, without_b.value), (17, 0));
    /// assert_eq!(
    ///     without_b.sentence(),
    ///     "the picked hash at index 0 depends on row 1, which is in the list and isn't picked"
    /// );
    /// let much = table.check_pick(&list, &sizes, 29, &[b, c]).unwrap_err();
    /// assert_eq!((much.number, much.value), (17, 2));
    /// assert_eq!(much.sentence(), "the sizes of the picked rows sum to 30; the budget is 29");
    /// # Ok::<(), bisquetower::Refusal>(())
    /// ```
    pub fn check_pick(
        &self,
        list: &[ChangeHash],
        sizes: &[u64],
        budget: u64,
        pick: &[ChangeHash],
    ) -> Result<(), Refusal> {
        let (table, index) = (self.as_bytes(), self.index());
        let (listed, lent) = (bytes_of(list), bytes_of(pick));
        let checked = answer(raw::check_pick(table, index, &listed, sizes, budget, &lent));
        let explained = |refusal| explain::pick(table, list, sizes, budget, pick, refusal);
        checked.map(|_| ()).map_err(explained)
    }
}

/// The planner's pick, as hashes one after the other. What is picked is rows of the list, so
/// there is room for all of it.
pub(crate) fn picked(
    table: &[u8],
    index: &[u8],
    list: &[ChangeHash],
    sizes: &[u64],
    budget: u64,
) -> Result<Vec<u8>, Refusal> {
    let listed = bytes_of(list);
    let room = listed.len().min(HASH * (table.len() / Table::ROW));
    let pick = room::written(room, |out| {
        raw::pick(table, index, &listed, sizes, budget, out)
    });
    pick.map_err(|refusal| explain::picking(table, list, sizes, refusal))
}
