//! The index that every call is lent beside a change table, kept so that nobody has to
//! ask for one.

use crate::refusal::Refusal;
use crate::{raw, room, Table};
use std::cmp::Ordering;

/// Bytes of an entry.
const ENTRY: usize = 2;

/// How many rows are taken in one by one; for more of them building afresh is less work.
const FEW: usize = 4;

/// The refusal of an index that doesn't fit its table.
const BAD_INDEX: u64 = 12;

/// The numbers of a table's rows in ascending order of hash, two bytes each,
/// little-endian.
#[derive(Clone, Debug, Default, PartialEq, Eq)]
pub(crate) struct Index(Vec<u8>);

/// The row that an entry names.
fn row_of(entry: &[u8; ENTRY]) -> usize {
    usize::from(u16::from_le_bytes(*entry))
}

impl Index {
    /// A table's own, if the table is good.
    pub(crate) fn of(table: &[u8]) -> Result<Index, Refusal> {
        let room = ENTRY * (table.len() / Table::ROW);
        room::written(room, |out| raw::build_index(table, out)).map(Index)
    }

    /// That of a table which has one row more than this one's.
    pub(crate) fn extended(&self, table: &[u8]) -> Result<Index, Refusal> {
        let room = self.0.len() + ENTRY;
        room::written(room, |out| raw::extend_index(table, &self.0, out)).map(Index)
    }

    /// The row that is found by halving, for rows that come before what is looked for,
    /// are it, or come after it in ascending order of hash.
    pub(crate) fn find(&self, order: impl Fn(usize) -> Ordering) -> Option<usize> {
        let entries = self.entries();
        let place = entries.binary_search_by(|entry| order(row_of(entry)));
        place.ok().map(|place| row_of(&entries[place]))
    }

    fn entries(&self) -> &[[u8; ENTRY]] {
        self.0.as_chunks().0
    }

    pub(crate) fn as_bytes(&self) -> &[u8] {
        &self.0
    }

    /// What a call answers that is lent this table's index. The table may be another one
    /// than the last time: the call itself says whether what is kept still fits, and a
    /// refused call has changed nothing.
    pub(crate) fn beside<const WORDS: usize>(
        &mut self,
        table: &[u8],
        mut call: impl FnMut(&[u8]) -> [u64; WORDS],
    ) -> [u64; WORDS] {
        self.follow(table);
        let answer = call(&self.0);
        if answer[0] != BAD_INDEX {
            return answer;
        }
        *self = Index::of(table).unwrap_or_default();
        call(&self.0)
    }

    /// Takes in what came to the table. Of a bad table any index does: its rows are
    /// refused first.
    fn follow(&mut self, table: &[u8]) {
        let (kept, rows) = (self.0.len() / ENTRY, table.len() / Table::ROW);
        let next = match rows.checked_sub(kept) {
            Some(0) => return,
            Some(1..=FEW) => (kept + 1..=rows).try_fold(self.clone(), |index, rows| {
                index.extended(&table[..Table::ROW * rows])
            }),
            _ => Index::of(table),
        };
        *self = next.unwrap_or_default();
    }
}

#[cfg(test)]
mod tests {
    use super::*;
    use crate::ChangeHash;

    /// Rows on nothing, with these hashes.
    fn table(names: &[u8]) -> Vec<u8> {
        Table::lay(names.iter().map(|&name| (ChangeHash([name; 32]), vec![])))
    }

    /// How often a call is made, and the rows in the end.
    fn heads(index: &mut Index, table: &[u8]) -> (usize, Vec<usize>) {
        let (mut calls, mut out) = (0, vec![0; table.len()]);
        let rows = table.len() / Table::ROW;
        let answer = index.beside(table, |index| {
            calls += 1;
            raw::heads(table, index, rows, &mut out)
        });
        assert_eq!(answer[..2], [0, 32 * rows as u64]);
        (calls, index.entries().iter().map(row_of).collect())
    }

    #[test]
    fn it_follows_a_table_and_notices_another_one() {
        let mut index = Index::default();
        assert_eq!(heads(&mut index, &[]), (1, vec![]));
        assert_eq!(heads(&mut index, &table(b"bca")), (1, vec![2, 0, 1]));
        assert_eq!(heads(&mut index, &table(b"bcad")), (1, vec![2, 0, 1, 3]));
        // As many rows, with others in their place.
        assert_eq!(heads(&mut index, &table(b"dcba")), (2, vec![3, 2, 1, 0]));
        // One row more than there were, but not after the same ones.
        assert_eq!(
            heads(&mut index, &table(b"abcde")),
            (2, vec![0, 1, 2, 3, 4])
        );
        assert_eq!(heads(&mut index, &table(b"ba")), (1, vec![1, 0]));
    }

    #[test]
    fn a_bad_table_is_refused_for_itself() {
        let mut index = Index::of(&table(b"ba")).unwrap();
        for names in [&b"bb"[..], b"bab", b"baca"] {
            let bad = table(names);
            let answer = index.beside(&bad, |index| raw::heads(&bad, index, 0, &mut []));
            assert_eq!(answer[..2], [6, names.len() as u64 - 1]);
        }
        assert_eq!(Index::of(&table(b"bb")).unwrap_err().number, 6);
    }
}
