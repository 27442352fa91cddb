//! Messages that are worth trying: drafts, good or bad, random ones, and a few
//! good ones of telling shapes to be cut and damaged.

use super::selection::lend;
use super::{overlong, Random};
use crate::model::filter::field_size;
use crate::model::have::OwnHave;
use crate::model::message::Parts;
use crate::model::table::{Hash, HASH};
use crate::model::{number_bytes, prefixed_bytes};
use bisquetower::limits::PROBES;

/// A message before it is spelt as bytes.
#[derive(Clone, Debug, Default, PartialEq, Eq)]
pub struct Draft {
    pub first: u8,
    pub heads: Vec<Hash>,
    pub need: Vec<Hash>,
    /// Last-sync hashes, and the bytes of the filter's string.
    pub haves: Vec<(Vec<Hash>, Vec<u8>)>,
    pub chunks: Vec<Vec<u8>>,
    /// The bytes of the flags section.
    pub flags: Option<Vec<u8>>,
    /// What stands after all that is read.
    pub after: Vec<u8>,
}

impl Draft {
    /// An empty message of the first kind.
    pub fn new() -> Draft {
        Draft {
            first: 0x42,
            ..Draft::default()
        }
    }

    pub fn bytes(&self) -> Vec<u8> {
        self.spelt(&mut number_bytes)
    }

    /// With every count and length spelt by this.
    pub fn spelt(&self, number: &mut impl FnMut(u64) -> Vec<u8>) -> Vec<u8> {
        let mut bytes = vec![self.first];
        for list in [&self.heads, &self.need] {
            bytes.extend(number(list.len() as u64));
            bytes.extend(list.concat());
        }
        bytes.extend(number(self.haves.len() as u64));
        for (last_sync, filter) in &self.haves {
            bytes.extend(number(last_sync.len() as u64));
            bytes.extend(last_sync.concat());
            bytes.extend(number(filter.len() as u64));
            bytes.extend(filter);
        }
        bytes.extend(number(self.chunks.len() as u64));
        for chunk in &self.chunks {
            bytes.extend(number(chunk.len() as u64));
            bytes.extend(chunk);
        }
        if let Some(flags) = &self.flags {
            bytes.extend(number(flags.len() as u64));
            bytes.extend(flags);
        }
        bytes.extend(&self.after);
        bytes
    }
}

/// A message that is to be written, with what it owns.
#[derive(Clone, Debug, Default)]
pub struct OwnParts {
    pub version: u64,
    pub heads: Vec<u8>,
    pub need: Vec<u8>,
    pub s: Vec<u8>,
    pub haves: Vec<u64>,
    pub chunks: Vec<u8>,
    pub lengths: Vec<u64>,
    pub flags: u64,
}

impl OwnParts {
    pub fn parts(&self) -> Parts<'_> {
        Parts {
            version: self.version,
            heads: &self.heads,
            need: &self.need,
            s: &self.s,
            haves: &self.haves,
            chunks: &self.chunks,
            lengths: &self.lengths,
            flags: self.flags,
        }
    }
}

/// Bytes that tell something in a message: counts of none, one and two; first
/// bytes, of which 42 as a count of haves is too many; a number that goes on; a
/// flag, which is a number that goes on as well.
pub const TELLING: [u8; 7] = [0x00, 0x01, 0x02, 0x42, 0x43, 0x80, 0x84];

/// A message up to its first have's filter string.
pub const UP_TO_FILTER: [u8; 5] = [0x42, 0x00, 0x00, 0x01, 0x00];

/// Bytes that tell something from there on: strings of up to five bytes, filters
/// with entries, without bits, and of a probe too many, and a number that goes on.
pub const TELLING_OF_FILTERS: [u8; 7] = [0x00, 0x01, 0x03, 0x04, 0x05, PROBES as u8 + 1, 0x80];

/// Good messages, each with something the others haven't.
pub fn good_messages() -> Vec<Vec<u8>> {
    let hash = |n: u8| [n; HASH];
    let of_one = vec![0x01, 0x0a, 0x07, 0x0b, 0x0f];
    let mut messages = vec![
        // P1 to P5 of document 01.
        vec![0x42, 0, 0, 0, 0],
        vec![0x42, 0, 0, 0, 0, 0],
        vec![0x42, 0, 0, 0, 0, 0x02, 0x02, 0x84],
        vec![0x42, 0, 0, 1, 0, 0, 0, 0x02, 0x02, 0x84],
        vec![0x42, 0, 0, 1, 0, 0, 0, 0x02, 0x02, 0x86],
    ];
    let full = Draft {
        first: 0x43,
        heads: vec![hash(0x80), hash(0x01)],
        need: vec![hash(0x20)],
        haves: vec![(vec![hash(0xff), hash(0x00)], of_one.clone())],
        chunks: vec![vec![1, 2, 3], Vec::new()],
        flags: Some(vec![0x02, 0x85, 0x07, 0x86]),
        after: vec![0x80, 0x00],
    };
    messages.push(full.bytes());
    // Filters without entries and with bytes after the field; no flags.
    let odd = Draft {
        haves: vec![
            (vec![hash(0x42)], vec![0, 0, 0x80, 1, 5, 5]),
            (Vec::new(), [of_one, vec![9, 9]].concat()),
            (Vec::new(), filter_string(9, 128, PROBES as u64)),
        ],
        chunks: vec![vec![0x80], vec![0x80; 2], vec![0x00; 3]],
        ..Draft::new()
    };
    messages.push(odd.bytes());
    // Counts and lengths of two bytes.
    let long = Draft {
        chunks: [vec![vec![0x01]; 129], vec![vec![0x7f; 130]]].concat(),
        flags: Some(vec![0x81; 128]),
        ..Draft::new()
    };
    messages.push(long.bytes());
    messages
}

/// Each message with each of its bytes changed to every other, one at a time.
pub fn damaged_once(messages: &[Vec<u8>]) -> impl Iterator<Item = Vec<u8>> + '_ {
    let places = messages
        .iter()
        .flat_map(|message| (0..message.len()).map(move |place| (message, place)));
    places.flat_map(|(message, place)| {
        (1..=u8::MAX).map(move |change| {
            let mut damaged = message.clone();
            damaged[place] ^= change;
            damaged
        })
    })
}

/// Every prefix of each message, the whole of it too.
pub fn prefixes(messages: &[Vec<u8>]) -> impl Iterator<Item = Vec<u8>> + '_ {
    messages
        .iter()
        .flat_map(|message| (0..=message.len()).map(|cut| message[..cut].to_vec()))
}

impl Random {
    /// A message that mostly is good: short lists, filters whole, flags and bytes
    /// after them; some with a number misspelt or a part damaged.
    pub fn message(&mut self) -> Vec<u8> {
        let draft = self.draft();
        let mut message = match self.one_in(4) {
            true => draft.spelt(&mut |n| self.misspelt(n)),
            false => draft.bytes(),
        };
        if self.one_in(4) {
            for _ in 0..=self.below(2) {
                self.damage(&mut message);
            }
        }
        message
    }

    /// A number that is well spelt most of the time, else too long, one too many
    /// or too few, or anything.
    fn misspelt(&mut self, n: u64) -> Vec<u8> {
        match self.below(24) {
            0 => overlong(n, 1 + self.below(2)),
            1 => number_bytes(n + 1),
            2 => number_bytes(n.saturating_sub(1)),
            3 => self.going_on(),
            4 => number_bytes(self.number()),
            _ => number_bytes(n),
        }
    }

    pub fn draft(&mut self) -> Draft {
        let first = match self.below(60) {
            0 => self.byte(),
            other => 0x42 + (other % 2) as u8,
        };
        Draft {
            first,
            heads: self.few_hashes(4),
            need: self.few_hashes(3),
            haves: (0..self.few(4))
                .map(|_| (self.few_hashes(3), self.filter_string()))
                .collect(),
            chunks: (0..self.few(6)).map(|_| self.few_bytes(12)).collect(),
            flags: (!self.one_in(4)).then(|| self.few_bytes(4)),
            after: match self.one_in(6) {
                true => self.few_bytes(6),
                false => Vec::new(),
            },
        }
    }

    /// A message to be written that keeps every rule.
    pub fn own_parts(&mut self) -> OwnParts {
        let haves: Vec<OwnHave> = (0..self.few(4)).map(|_| self.own_have()).collect();
        let (s, haves) = lend(&haves, self);
        let lengths: Vec<u64> = (0..self.few(6)).map(|_| self.below(20) as u64).collect();
        let surplus = self.below(8).saturating_sub(4);
        let length = lengths.iter().sum::<u64>() as usize + surplus;
        OwnParts {
            version: self.below(4) as u64,
            heads: self.few_hashes(5).concat(),
            need: self.few_hashes(4).concat(),
            s,
            haves,
            chunks: self.bytes(length),
            lengths,
            flags: match self.one_in(3) {
                true => self.number(),
                false => self.below(0x80) as u64,
            },
        }
    }

    fn own_have(&mut self) -> OwnHave {
        let last_sync = self.few_hashes(3);
        let numbers = match self.below(4) {
            0 => [0, 10, 7],
            1 => [0, self.number() >> 32, self.number() >> 32],
            _ => {
                let (entries, bits) = self.entries_and_bits();
                [entries, bits, self.probes()]
            }
        };
        let size = field_size(numbers[0], numbers[1]) as usize;
        OwnHave {
            last_sync,
            numbers,
            field: self.bytes(size),
        }
    }

    /// A number below `limit`, 0 in a third of the cases.
    fn few(&mut self, limit: usize) -> usize {
        match self.one_in(3) {
            true => 0,
            false => self.below(limit),
        }
    }

    fn few_bytes(&mut self, limit: usize) -> Vec<u8> {
        let length = self.below(limit);
        self.bytes(length)
    }

    fn few_hashes(&mut self, limit: usize) -> Vec<Hash> {
        (0..self.few(limit)).map(|_| self.hash()).collect()
    }

    /// The bytes of a have's filter: none, a good filter with a short field, or now
    /// and then one that is bad in some way.
    fn filter_string(&mut self) -> Vec<u8> {
        match self.below(12) {
            0..3 => Vec::new(),
            3 => self.filter(),
            4 => {
                let numbers = [0, self.number() >> 32, self.number() >> 32];
                [numbers.map(number_bytes).concat(), self.few_bytes(3)].concat()
            }
            _ => {
                let (entries, bits) = (1 + self.below(6) as u64, 1 + self.below(12) as u64);
                let probes = self.below(10) as u64;
                let field = self.bytes((entries * bits).div_ceil(8) as usize);
                let numbers = [entries, bits, probes].map(number_bytes).concat();
                let after = self.below(8).saturating_sub(6);
                [numbers, field, self.bytes(after)].concat()
            }
        }
    }
}

/// The string of a filter of these entries, bits and probes, its field of one byte
/// again and again.
pub fn filter_string(entries: u64, bits: u64, probes: u64) -> Vec<u8> {
    let size = (entries * bits).div_ceil(8) as usize;
    let numbers = [entries, bits, probes].map(number_bytes).concat();
    [numbers, vec![0x5a; size]].concat()
}

/// A message whose one chunk makes it `size` bytes long, of at least 1,000.
pub fn message_of_size(size: usize) -> Vec<u8> {
    let bare = Draft::new().bytes();
    // The count of chunks stands last in it.
    let start = &bare[..bare.len() - 1];
    let rest = size - start.len() - 1;
    let sizes = (rest.saturating_sub(9)..rest).rev();
    let chunk = sizes
        .map(|length| prefixed_bytes(&vec![0x11; length]))
        .find(|chunk| chunk.len() == rest);
    [start, &[1], &chunk.expect("some length fits")].concat()
}
