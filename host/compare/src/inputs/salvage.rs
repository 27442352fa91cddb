//! Hurt tables: good ones whose rows and bytes were damaged, once or a few times.

use super::table::{row_faults, set_number, table_bytes, Row, LIKENESSES, SHAPES};
use super::Random;
use crate::model::table::{DEPENDENCIES, HASH, ROW};

impl Random {
    /// A table of less than `most` rows, hurt up to three times.
    pub fn hurt_table(&mut self, most: usize) -> Vec<u8> {
        let (count, shape, likeness) = (self.below(most), self.of(&SHAPES), self.of(&LIKENESSES));
        let rows = self.rows(count, shape, likeness);
        let mut table = self.hurt_rows(&rows);
        for _ in 0..self.below(4) {
            self.hurt(&mut table);
        }
        table
    }

    /// The records of good rows, of which now and then one is bad in one of the ways in which
    /// a row can be, and its good record stands right behind it or not.
    fn hurt_rows(&mut self, rows: &[Row]) -> Vec<u8> {
        let mut table = table_bytes(rows);
        if rows.is_empty() || self.one_in(2) {
            return table;
        }
        let row = self.below(rows.len());
        let place = ROW * row;
        let faults = row_faults(rows, row);
        let (_, bad) = &faults[self.below(faults.len())];
        match self.one_in(3) {
            // The same change again, which is then kept.
            true => drop(table.splice(place..place, *bad)),
            false => table[place..][..ROW].copy_from_slice(bad),
        }
        table
    }

    /// One hurt: of bytes, of a number, of a hash, or of whole rows.
    pub fn hurt(&mut self, table: &mut Vec<u8>) {
        let rows = table.len() / ROW;
        if rows == 0 {
            return table.extend(self.bytes(1));
        }
        let (one, other) = (ROW * self.below(rows), ROW * self.below(rows));
        match self.below(10) {
            0 => {
                let place = self.below(table.len());
                table[place] ^= 1 << self.below(8);
            }
            1 => (0..ROW).for_each(|k| table.swap(one + k, other + k)),
            2 => table.copy_within(one..one + ROW, other),
            3 => table.copy_within(one..one + HASH, other),
            4 => drop(table.drain(one..one + ROW)),
            5 => {
                let row = table[one..][..ROW].to_vec();
                drop(table.splice(other..other, row));
            }
            6 => self.hurt_number(&mut table[one..][..ROW], rows),
            7 => {
                // A stretch that was erased.
                let end = (one + self.below(2 * ROW)).min(table.len());
                let erased = self.of(&[0, 0xff]);
                table[one..end].fill(erased);
            }
            8 => table.truncate(self.below(table.len() + 1)),
            _ => {
                let bytes = self.bytes(HASH);
                table[one..][..HASH].copy_from_slice(&bytes);
            }
        }
    }

    /// Another count or row number, in use or not, that is small or any.
    fn hurt_number(&mut self, row: &mut [u8], rows: usize) {
        let which = match self.one_in(2) {
            true => self.below(4),
            false => self.below(1 + DEPENDENCIES),
        };
        let number = match self.one_in(3) {
            true => self.below(1 << 16),
            false => self.below(rows + 2),
        };
        set_number(row, which, number);
    }

    /// A hurt of a unit's table that mostly leaves the rows which are kept as they were: their
    /// hashes and what they depend on.
    pub fn hurt_plainly(&mut self, table: &mut Vec<u8>) {
        let rows = table.len() / ROW;
        if rows == 0 {
            return;
        }
        let own = self.below(rows);
        let place = ROW * own;
        match self.below(6) {
            0 => set_number(&mut table[place..], 0, DEPENDENCIES + 1),
            1 => set_number(&mut table[place..], DEPENDENCIES, 1 + self.below(rows)),
            2 => {
                set_number(&mut table[place..], 0, 1);
                set_number(&mut table[place..], 1, own);
            }
            3 => table[place..][..ROW].fill(0xff),
            4 => table.truncate(self.below(table.len()).max(ROW)),
            // The hash of an earlier row; of the first that is nothing.
            _ => table.copy_within(..HASH, place),
        }
    }
}
