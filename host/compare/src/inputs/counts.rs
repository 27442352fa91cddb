//! Captures: tables that share some of their rows, with filters of every kind, each now and
//! then damaged; and totals near the end of 64 bits.

use super::table::{row_faults, table_bytes, Row, LIKENESSES, SHAPES};
use super::Random;
use crate::counts::{Addition, Capture};
use crate::model::counts::Counts;
use crate::model::filter::{built, bytes, Filter};
use crate::model::number_bytes;
use crate::model::table::{converted, Hash, NOW, OLD, ROW, ROWS};
use bisquetower::limits::{HASHES, PROBES};

/// The parts of a capture.
#[derive(Clone, Debug, PartialEq, Eq)]
pub struct Captured {
    pub sender: Vec<u8>,
    pub listener: Vec<u8>,
    pub filter: Vec<u8>,
}

impl Captured {
    pub fn lent(&self) -> Capture<'_> {
        Capture {
            sender: &self.sender,
            listener: &self.listener,
            filter: &self.filter,
        }
    }
}

/// The longest field of the filters that no hash was put in: their last word, of eight
/// bytes, is of any length, and up to two are before it.
pub const ODD_FIELD: usize = 17;

/// The filter of these numbers over a field.
pub fn filter_bytes(entries: u64, bits: u64, probes: u64, field: &[u8]) -> Vec<u8> {
    let filter = Filter {
        entries,
        bits,
        probes,
        field,
    };
    bytes(&filter).expect("a good filter")
}

/// The filter that has these hashes.
pub fn filter_of(bits: u64, probes: u64, hashes: &[Hash]) -> Vec<u8> {
    let field = built(bits, probes, &hashes.concat()).expect("a field for a list");
    filter_bytes(hashes.len() as u64, bits, probes, &field)
}

impl Random {
    /// A good capture of two tables of less than `most` rows.
    pub fn capture(&mut self, most: usize) -> Captured {
        let [sender, listener] = self.two_tables(most);
        let filter = self.captured_filter(&sender, &listener);
        Captured {
            sender: table_bytes(&sender),
            listener: table_bytes(&listener),
            filter,
        }
    }

    /// Two tables: of the same rows, of which one goes on, of none that both have, or of
    /// some; now and then one has no rows.
    fn two_tables(&mut self, most: usize) -> [Vec<Row>; 2] {
        let all = self.hashes_that_meet(2 * most);
        let (own, shared) = (self.below(most), self.below(most));
        let other = self.below(most - shared);
        let (first, second) = all.split_at(most);
        let mut sender = first[..own].to_vec();
        let mut listener = match self.below(6) {
            0 => sender.clone(),
            1 => [&sender[..], &second[..other]].concat(),
            2 => sender[..own.min(shared)].to_vec(),
            3 => second[..other].to_vec(),
            _ => [&second[..other], &first[..shared]].concat(),
        };
        if self.one_in(12) {
            sender.clear();
        }
        if self.one_in(12) {
            listener.clear();
        }
        if self.one_in(2) {
            listener.reverse();
        }
        [sender, listener].map(|hashes| {
            let shape = self.of(&SHAPES);
            self.rows_of(&hashes, shape)
        })
    }

    /// Hashes, mostly such that a filter often says yes to one that it doesn't have.
    fn hashes_that_meet(&mut self, count: usize) -> Vec<Hash> {
        match self.below(3) {
            0 => {
                let likeness = self.of(&LIKENESSES);
                self.hashes(count, likeness)
            }
            1 => self.crowded_hashes(count, 8),
            _ => self.crowded_hashes(count, 200),
        }
    }

    /// A good filter: over the sender's rows, or over those that the listener lacks, at any
    /// bits and probes; of a field that is short and odd, or full; without entries; and now
    /// and then with bytes behind it.
    fn captured_filter(&mut self, sender: &[Row], listener: &[Row]) -> Vec<u8> {
        let own: Vec<Hash> = sender.iter().map(|row| row.hash).collect();
        let (bits, probes) = (1 + self.below(12) as u64, self.below(9) as u64);
        let mut filter = match self.below(8) {
            0 => Vec::new(),
            1 => [0, self.number() >> 32, self.number() >> 32]
                .map(number_bytes)
                .concat(),
            2 | 3 => self.odd_filter(),
            4 => {
                let lacks = |hash: &Hash| listener.iter().all(|row| row.hash != *hash);
                let beyond: Vec<Hash> = own.into_iter().filter(lacks).collect();
                filter_of(bits, probes, &beyond[..beyond.len().min(HASHES)])
            }
            5 => filter_of(10, 7, &own[..own.len().min(HASHES)]),
            _ => filter_of(bits, probes, &own[..own.len().min(HASHES)]),
        };
        if !filter.is_empty() && self.one_in(4) {
            let behind = 1 + self.below(9);
            filter.extend(self.bytes(behind));
        }
        filter
    }

    /// A filter whose field is any bytes, some of which its entries don't ask for.
    pub fn odd_filter(&mut self) -> Vec<u8> {
        let size = 1 + self.below(ODD_FIELD);
        let spare = self.below(8) as u64;
        let field = self.field(size);
        let all = 8 * size as u64;
        let probes = self.below(PROBES + 1) as u64;
        match self.one_in(2) {
            true => filter_bytes(all - spare, 1, probes, &field),
            false => filter_bytes(1, all - spare, probes, &field),
        }
    }

    /// One change of a capture: of a row, of a table's length or width, or of the filter.
    pub fn damage_capture(&mut self, capture: &mut Captured) {
        let table = match self.below(3) {
            0 => &mut capture.sender,
            1 => &mut capture.listener,
            _ => {
                match self.one_in(2) {
                    true => self.damage(&mut capture.filter),
                    false => capture.filter = self.filter(),
                }
                return;
            }
        };
        let rows = table.len() / ROW;
        match self.below(8) {
            0 => self.damage(table),
            // As rows were before, two of which needn't be one of now.
            1 => *table = converted(NOW, OLD, table).unwrap_or_default(),
            2 if self.one_in(200) => table.resize(ROW * ROWS + 1 + self.below(2 * ROW), 0),
            3 => table.truncate(self.below(table.len() + 1)),
            _ if rows == 0 => table.push(self.byte()),
            _ => self.spoil_row(table),
        }
    }

    /// A row of a good table becomes a bad one.
    fn spoil_row(&mut self, table: &mut [u8]) {
        let rows = rows_in(table);
        let row = self.below(rows.len());
        let faults = row_faults(&rows, row);
        let (_, record) = &faults[self.below(faults.len())];
        table[ROW * row..][..ROW].copy_from_slice(record);
    }

    /// Counts: small ones, or of any width.
    pub fn counts(&mut self) -> Counts {
        let small = self.one_in(2);
        std::array::from_fn(|_| match small {
            true => self.below(1_000) as u64,
            false => self.number(),
        })
    }

    /// Totals and counts to add, in which a sum is now and then the last that there is, the
    /// first that is none, or any.
    pub fn addition(&mut self) -> Addition {
        let (totals, mut counts) = (self.counts(), self.counts());
        for (count, total) in counts.iter_mut().zip(totals) {
            let last = u64::MAX - total;
            match self.below(12) {
                0 => *count = last,
                1 => *count = last.saturating_add(1),
                2 => *count = self.word(),
                // Of two numbers as wide as can be, one is kept within what is left.
                _ => *count = (*count).min(last),
            }
        }
        Addition { totals, counts }
    }
}

/// The rows that stand in a good table.
fn rows_in(table: &[u8]) -> Vec<Row> {
    let row = |record: &[u8]| {
        let (hash, numbers) = record.split_at(32);
        let mut numbers = numbers
            .chunks(2)
            .map(|two| u16::from_le_bytes([two[0], two[1]]).into());
        let count = numbers.next().unwrap_or(0);
        Row {
            hash: hash.try_into().expect("a hash"),
            dependencies: numbers.take(count).collect(),
        }
    };
    table.chunks_exact(ROW).map(row).collect()
}
