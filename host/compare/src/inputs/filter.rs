//! Random filters, damaged, and hashes that probe at the edges of a field.

use super::{number_forms, Random};
use crate::model::filter::{field_size, Filter};
use crate::model::have::HAVE_WORDS;
use crate::model::number_bytes;
use bisquetower::limits::{FIELD_SIZE, PROBES};

/// The longest field of most random filters, and of a few.
const SHORT: u128 = 48;
const LONG: u128 = FIELD_SIZE as u128;

impl Random {
    /// One of these.
    pub fn of<T: Copy>(&mut self, some: &[T]) -> T {
        some[self.below(some.len())]
    }

    /// Entries and bits whose field is short, or now and then up to its limit.
    pub fn entries_and_bits(&mut self) -> (u64, u64) {
        let most = if self.one_in(400) { LONG } else { SHORT };
        let bits = 1 + self.below(64) as u64;
        let entries = 1 + self.below((8 * most / u128::from(bits)) as usize) as u64;
        // As many bits an entry as there were entries, in half of them.
        match self.one_in(2) {
            true => (entries, bits),
            false => (bits, entries),
        }
    }

    /// A field of which about every second, fourth or eighth bit is clear, or none.
    pub fn field(&mut self, size: usize) -> Vec<u8> {
        let mut field = self.bytes(size);
        for _ in 0..self.below(4) {
            let more = self.bytes(size);
            field.iter_mut().zip(more).for_each(|(byte, m)| *byte |= m);
        }
        if self.one_in(16) {
            field.fill(0xff);
        }
        field
    }

    /// A good number of probes.
    pub fn probes(&mut self) -> u64 {
        self.below(PROBES + 1) as u64
    }

    /// The three numbers: good ones, or one of them at or past a limit.
    fn filter_numbers(&mut self) -> [u64; 3] {
        let (entries, bits) = self.entries_and_bits();
        let mut numbers = [entries, bits, self.probes()];
        match self.below(12) {
            0 => numbers[0] = 0,
            1 => numbers[1] = 0,
            2 => numbers[2] = (PROBES - 4 + self.below(10)) as u64,
            3 => numbers[self.below(3)] = self.number() >> 28,
            4 => numbers[1] = (8 * FIELD_SIZE - 6 + self.below(12)) as u64,
            _ => {}
        }
        numbers
    }

    /// A filter, whole or damaged, with a few bytes after it.
    pub fn filter(&mut self) -> Vec<u8> {
        let [entries, bits, probes] = self.filter_numbers();
        let size = field_size(entries, bits);
        // A field past its limit isn't looked at.
        let size = if size > LONG { 8 } else { size as usize };
        let mut numbers = [entries, bits, probes].map(number_bytes);
        if self.one_in(8) {
            numbers[self.below(3)] = self.going_on();
        }
        let mut filter = [numbers.concat(), self.bytes(size)].concat();
        if self.one_in(2) {
            let more = self.below(4);
            filter.extend(self.bytes(more));
        }
        if self.one_in(3) {
            for _ in 0..=self.below(3) {
                self.damage(&mut filter);
            }
        }
        filter
    }

    /// A hash that probes at the edges of a field of m bits, or anywhere.
    pub fn probing(&mut self, m: u32) -> [u8; 32] {
        let mut hash: [u8; 32] = self.bytes(32).try_into().expect("32 bytes");
        if self.one_in(4) {
            let words = std::array::from_fn(|_| self.of(&edges(m)));
            hash[..12].copy_from_slice(&hash_of(words)[..12]);
        }
        hash
    }

    /// Haves over one buffer: each filter's field, with last-sync hashes and
    /// other bytes around it, in any order.
    pub fn haves(&mut self, filters: &[Filter]) -> (Vec<u8>, Vec<u64>) {
        let mut s = self.bytes(3);
        let mut haves = vec![0; HAVE_WORDS * filters.len()];
        let mut order: Vec<usize> = (0..filters.len()).collect();
        for k in (1..order.len()).rev() {
            order.swap(k, self.below(k + 1));
        }
        for k in order {
            let Filter {
                entries,
                bits,
                probes,
                field,
            } = filters[k];
            let count = self.below(3);
            let hashes = s.len();
            s.extend(self.bytes(32 * count));
            let place = s.len();
            s.extend(field);
            let after = self.below(4);
            s.extend(self.bytes(after));
            let numbers = [hashes, count].map(|n| n as u64);
            let stands = [place, field.len()].map(|n| n as u64);
            let record = [&numbers[..], &[entries, bits, probes], &stands].concat();
            haves[HAVE_WORDS * k..][..HAVE_WORDS].copy_from_slice(&record);
        }
        (s, haves)
    }
}

/// Words at the edges of a field of m bits.
pub fn edges(m: u32) -> [u32; 6] {
    [0, 1, m - 1, m, m + 1, u32::MAX]
}

/// The hash of three words and zeros.
pub fn hash_of(words: [u32; 3]) -> [u8; 32] {
    let mut hash = [0; 32];
    let bytes = words.iter().flat_map(|word| word.to_le_bytes());
    hash.iter_mut().zip(bytes).for_each(|(to, from)| *to = from);
    hash
}

/// Filters in which each of the three numbers in turn has every form of a number,
/// with a field of two bytes.
pub fn number_forms_in_filters() -> Vec<Vec<u8>> {
    let mut filters = Vec::new();
    for turn in 0..3 {
        for form in number_forms() {
            let mut parts = [vec![1], vec![10], vec![7], vec![0x0b, 0x0f]];
            parts[turn] = form;
            filters.push(parts.concat());
        }
    }
    filters
}
