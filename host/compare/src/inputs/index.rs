//! Indexes that are worth trying: a table's own, and every way in which one doesn't
//! fit.

use crate::inputs::table::{places, table_bytes, Fault, Likeness, Shape};
use crate::inputs::Random;
use crate::model::table::{HASH, ROW, ROWS};

/// The index that is lent beside a table.
#[derive(Clone, Copy, Debug)]
pub enum Beside<'a> {
    /// The table's own.
    Own,
    Other(&'a [u8]),
}

impl Beside<'_> {
    pub fn of(self, table: &[u8]) -> Vec<u8> {
        match self {
            Beside::Own => index_of(table),
            Beside::Other(index) => index.to_vec(),
        }
    }
}

/// The index of a table: the numbers of its whole rows, sorted by hash. A bad table has
/// one too, which is lent with it.
pub fn index_of(table: &[u8]) -> Vec<u8> {
    let mut rows: Vec<usize> = (0..table.len() / ROW).collect();
    rows.sort_by_key(|&row| &table[ROW * row..][..HASH]);
    index_bytes(&rows)
}

/// These row numbers, in this order.
pub fn index_bytes(rows: &[usize]) -> Vec<u8> {
    let entries = rows.iter().map(|&row| row as u16);
    entries.flat_map(u16::to_le_bytes).collect()
}

fn numbers(index: &[u8]) -> Vec<usize> {
    let entries = index.chunks_exact(2);
    entries
        .map(|two| u16::from_le_bytes([two[0], two[1]]).into())
        .collect()
}

/// Every way in which an index doesn't fit the table that it is the index of.
pub fn index_faults(own: &[u8]) -> Vec<Fault<Vec<u8>>> {
    let rows = numbers(own);
    let count = rows.len();
    let mut faults = lengths(own);
    let mut add = |why: String, rows: &[usize]| faults.push((why, index_bytes(rows)));
    for place in places(count) {
        let mut less = rows.clone();
        less.remove(place);
        add(format!("without entry {place}"), &less);
        let mut more = rows.clone();
        more.insert(place, rows[place]);
        add(format!("entry {place} once more"), &more);
        for number in [count, count + 1, count + 256, 1 << 15, 65_535] {
            let mut past = rows.clone();
            past[place] = number;
            add(format!("entry {place} is {number}"), &past);
        }
        for bit in [0, 1, 7, 8, 15] {
            let mut flipped = rows.clone();
            flipped[place] ^= 1 << bit;
            add(format!("bit {bit} of entry {place}"), &flipped);
        }
        for other in [0, place + 1, count - 1] {
            if other >= count || other == place {
                continue;
            }
            let mut twice = rows.clone();
            twice[place] = rows[other];
            add(format!("entry {place} is entry {other}"), &twice);
            let mut swapped = rows.clone();
            swapped.swap(place, other);
            add(format!("entries {place} and {other} swapped"), &swapped);
        }
    }
    let mut turned = rows.clone();
    turned.rotate_left(count.min(1));
    let back: Vec<usize> = rows.iter().rev().copied().collect();
    let forward: Vec<usize> = (0..count).collect();
    let high: Vec<usize> = rows.iter().map(|row| row << 8 | row >> 8).collect();
    add("turned by one".to_string(), &turned);
    add("descending".to_string(), &back);
    add("in table order".to_string(), &forward);
    add("big-endian".to_string(), &high);
    add("zeros".to_string(), &vec![0; count]);
    // Only the index itself fits.
    faults.retain(|(_, index)| index != own);
    faults
}

/// Other lengths than the index has.
fn lengths(own: &[u8]) -> Vec<Fault<Vec<u8>>> {
    let mut faults = vec![
        ("empty".to_string(), Vec::new()),
        ("a byte more".to_string(), [own, &[0]].concat()),
        ("one entry more".to_string(), [own, &[0, 0]].concat()),
        ("twice".to_string(), [own, own].concat()),
    ];
    let next = (own.len() / 2) as u16;
    let next = [own, &next.to_le_bytes()].concat();
    faults.push(("the next row's number more".to_string(), next));
    for length in [
        2 * ROWS - 1,
        2 * ROWS,
        2 * ROWS + 1,
        2 * ROWS + 2,
        (1 << 16) + 1,
    ] {
        let mut long = own.to_vec();
        long.resize(length, 0);
        faults.push((format!("{length} bytes"), long));
    }
    for cut in [1, 2, 3].into_iter().filter(|&cut| cut <= own.len()) {
        let less = own[..own.len() - cut].to_vec();
        faults.push((format!("{cut} bytes less"), less));
        faults.push((format!("{cut} bytes less in front"), own[cut..].to_vec()));
    }
    faults
}

impl Random {
    /// A table's own index, and now and then another.
    pub fn index(&mut self, table: &[u8]) -> Vec<u8> {
        match self.one_in(8) {
            true => self.other_index(table),
            false => index_of(table),
        }
    }

    /// An index that mostly doesn't fit: a faulty one, a damaged one, or that of another
    /// table with as many rows.
    pub fn other_index(&mut self, table: &[u8]) -> Vec<u8> {
        let mut index = index_of(table);
        match self.below(3) {
            0 => {
                let mut faults = index_faults(&index);
                let which = self.below(faults.len());
                faults.swap_remove(which).1
            }
            1 => {
                self.damage(&mut index);
                index
            }
            _ => {
                let other = self.rows(index.len() / 2, Shape::Wide, Likeness::Spread);
                index_of(&table_bytes(&other))
            }
        }
    }
}
