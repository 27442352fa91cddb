//! Inputs that are worth trying: boundary numbers in good and bad forms, and
//! random items, damaged.

pub mod counts;
pub mod filter;
pub mod index;
pub mod message;
pub mod pick;
pub mod salvage;
pub mod selection;
pub mod session;
pub mod settings;
pub mod table;

use crate::model::{number_bytes, prefixed_bytes};
use bisquetower::limits::{HASHES, HASH_SIZE};
use std::fmt::Write as _;

/// 0, both sides of every seven bits, of 32 bits, of the list limit and of 63
/// bits, and the largest.
pub fn boundary_values() -> Vec<u64> {
    let mut values = vec![0, 1, u64::MAX - 1, u64::MAX];
    let powers = (1..=9).map(|k| 7 * k).chain([5, 31, 32]);
    for at in powers.map(|power| 1 << power).chain([HASHES as u64]) {
        values.extend([at - 1, at, at + 1]);
    }
    values.sort();
    values.dedup();
    values
}

/// A number in more bytes than it wants: the last one goes on, and zeros follow.
pub fn overlong(n: u64, extra: usize) -> Vec<u8> {
    let mut bytes = number_bytes(n);
    *bytes.last_mut().expect("a number has a byte") |= 0x80;
    bytes.extend(vec![0x80; extra - 1]);
    bytes.push(0);
    bytes
}

/// Every byte as the last one of a number of `size` bytes, over low and high bits.
pub fn last_bytes(size: usize) -> Vec<Vec<u8>> {
    let mut forms = Vec::new();
    for before in [0x80, 0xff] {
        for last in 0..=u8::MAX {
            let mut bytes = vec![before; size - 1];
            bytes.push(last);
            forms.push(bytes);
        }
    }
    forms
}

/// The boundary values in their shortest form and in longer ones; every fifth,
/// sixth, tenth and eleventh byte; bytes that only go on, up to twelve of them.
pub fn number_forms() -> Vec<Vec<u8>> {
    let mut forms = Vec::new();
    for value in boundary_values() {
        forms.push(number_bytes(value));
        forms.extend((1..=4).map(|extra| overlong(value, extra)));
    }
    for size in [5, 6, 10, 11] {
        forms.extend(last_bytes(size));
    }
    for size in 0..=12 {
        forms.push(vec![0x80; size]);
        forms.push(vec![0xff; size]);
    }
    forms
}

/// The numbered string of `length` bytes from this alphabet.
pub fn string(alphabet: &[u8], length: usize, mut number: usize) -> Vec<u8> {
    let mut string = vec![0; length];
    for byte in &mut string {
        *byte = alphabet[number % alphabet.len()];
        number /= alphabet.len();
    }
    string
}

/// Every string of `length` bytes from this alphabet.
pub fn strings(alphabet: &[u8], length: usize) -> impl Iterator<Item = Vec<u8>> + '_ {
    let count = alphabet.len().pow(length as u32);
    (0..count).map(move |number| string(alphabet, length, number))
}

pub fn every_byte() -> Vec<u8> {
    (0..=u8::MAX).collect()
}

/// Up to forty bytes in hexadecimal, then how many there are.
pub fn shown(bytes: &[u8]) -> String {
    let mut text = String::from("[");
    for byte in bytes.iter().take(40) {
        let _ = write!(text, "{byte:02x} ");
    }
    let _ = write!(text, "] ({} bytes)", bytes.len());
    text
}

/// The seed of a random test. A test that fails says it.
pub struct Seed(u64);

/// What sets the seed of every random test.
const SEED: &str = "COMPARE_SEED";

impl Seed {
    /// The one that is told, or always the same.
    pub fn fixed() -> Seed {
        Seed(told().unwrap_or(20_120_047_200))
    }

    /// The one that is told, or another each time, from the clock.
    pub fn fresh() -> Seed {
        let clock = || {
            let now = std::time::SystemTime::now();
            let since = now.duration_since(std::time::UNIX_EPOCH);
            Random(since.map_or(0, |time| time.as_nanos() as u64)).word()
        };
        Seed(told().unwrap_or_else(clock))
    }

    /// The numbers of this seed; those of another `salt` are others.
    pub fn random(&self, salt: u64) -> Random {
        Random(self.0 ^ salt)
    }
}

fn told() -> Option<u64> {
    let seed = std::env::var(SEED).ok()?;
    Some(seed.parse().expect("COMPARE_SEED is a number"))
}

impl Drop for Seed {
    fn drop(&mut self) {
        if std::thread::panicking() {
            eprintln!("{SEED}={} makes this run again", self.0);
        }
    }
}

/// Random numbers, which one seed gives again each time (SplitMix64).
pub struct Random(pub u64);

impl Random {
    pub fn word(&mut self) -> u64 {
        self.0 = self.0.wrapping_add(0x9e37_79b9_7f4a_7c15);
        let mut z = self.0;
        z = (z ^ (z >> 30)).wrapping_mul(0xbf58_476d_1ce4_e5b9);
        z = (z ^ (z >> 27)).wrapping_mul(0x94d0_49bb_1331_11eb);
        z ^ (z >> 31)
    }

    pub fn below(&mut self, limit: usize) -> usize {
        (self.word() % limit as u64) as usize
    }

    pub fn one_in(&mut self, n: usize) -> bool {
        self.below(n) == 0
    }

    pub fn byte(&mut self) -> u8 {
        self.word() as u8
    }

    pub fn bytes(&mut self, length: usize) -> Vec<u8> {
        let words = (0..length.div_ceil(8)).flat_map(|_| self.word().to_le_bytes());
        words.take(length).collect()
    }

    /// A number of any width, each as often as another.
    pub fn number(&mut self) -> u64 {
        let width = self.below(64);
        self.word() >> width
    }

    /// Bytes that go on, and mostly one that ends.
    fn going_on(&mut self) -> Vec<u8> {
        let length = self.below(12);
        let mut bytes: Vec<u8> = (0..length).map(|_| self.byte() | 0x80).collect();
        if !self.one_in(3) {
            let last = self.below(0x80) >> self.below(8);
            bytes.push(last as u8);
        }
        bytes
    }

    /// How many hashes a list has, on either side of its limit.
    pub fn many_hashes(&mut self) -> usize {
        HASHES - 4 + self.below(8)
    }

    fn hash_list(&mut self) -> Vec<u8> {
        let near_the_limit = self.one_in(100);
        let count = if near_the_limit {
            self.many_hashes()
        } else {
            self.below(5)
        };
        let hashes = self.bytes(HASH_SIZE * count);
        [number_bytes(count as u64), hashes].concat()
    }

    /// One change: a bit, a byte, a byte more or less, or the end cut off.
    pub fn damage(&mut self, bytes: &mut Vec<u8>) {
        let length = bytes.len();
        if length == 0 {
            return bytes.push(self.byte());
        }
        // Half of the changes near the start, where the numbers stand.
        let near = if self.one_in(2) {
            length.min(4)
        } else {
            length
        };
        let place = self.below(near);
        match self.below(6) {
            0 => bytes[place] ^= 1 << self.below(8),
            1 => bytes[place] = self.byte(),
            2 => bytes.insert(place, self.byte()),
            3 => drop(bytes.remove(place)),
            4 => bytes.truncate(self.below(length)),
            _ => bytes[place] ^= 0x80,
        }
    }

    /// An item of some kind, whole or damaged, with a few bytes after it.
    pub fn item(&mut self) -> Vec<u8> {
        let mut item = match self.below(6) {
            0 => number_bytes(self.number()),
            1 | 2 => self.going_on(),
            3 => {
                let length = self.below(200);
                prefixed_bytes(&self.bytes(length))
            }
            4 => self.hash_list(),
            _ => {
                let length = self.below(40);
                self.bytes(length)
            }
        };
        if self.one_in(2) {
            let more = self.below(4);
            item.extend(self.bytes(more));
        }
        if self.one_in(2) {
            for _ in 0..=self.below(3) {
                self.damage(&mut item);
            }
        }
        item
    }

    /// Bytes, the place of an item in them, and the end of its part. Both are
    /// now and then anywhere, past the bytes too.
    pub fn input(&mut self, item: impl Fn(&mut Random) -> Vec<u8>) -> (Vec<u8>, usize, usize) {
        let before = self.below(4);
        let bytes = [self.bytes(before), item(self)].concat();
        let at = if self.one_in(8) {
            self.place(bytes.len())
        } else {
            before
        };
        let end = if self.one_in(4) {
            self.place(bytes.len())
        } else {
            bytes.len()
        };
        (bytes, at, end)
    }

    /// A place in or just past `length` bytes, or far away.
    fn place(&mut self, length: usize) -> usize {
        match self.below(8) {
            0 => usize::MAX - self.below(3),
            1 => self.word() as usize,
            _ => self.below(length + 4),
        }
    }
}
