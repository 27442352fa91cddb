//! An input of any kind: lent bytes and numbers.

use crate::inputs::Random;
use bisquetower::limits::TO_SEND_SIZE;
use std::fmt::Write as _;
use std::panic::{catch_unwind, AssertUnwindSafe};

#[derive(Clone, Debug, Default, PartialEq, Eq)]
pub struct Case {
    pub bytes: Vec<Vec<u8>>,
    pub numbers: Vec<u64>,
}

impl Case {
    pub fn new<const B: usize, const N: usize>(bytes: [Vec<u8>; B], numbers: [u64; N]) -> Case {
        Case {
            bytes: bytes.into(),
            numbers: numbers.into(),
        }
    }

    /// How many bytes there are, how many of their bits are set, and the numbers, the
    /// last one first, for a seed is the first: less in the first of these that differs
    /// is smaller.
    pub fn size(&self) -> (usize, u32, Vec<u64>) {
        let bytes = || self.bytes.iter().flatten();
        let bits = bytes().map(|byte| byte.count_ones()).sum();
        let numbers = self.numbers.iter().rev().copied().collect();
        (bytes().count(), bits, numbers)
    }

    /// The bytes, as many as the kind has.
    pub fn lent<const B: usize>(&self) -> &[Vec<u8>; B] {
        self.bytes[..].try_into().expect("the kind's bytes")
    }

    /// The numbers, as many as the kind has.
    pub fn told<const N: usize>(&self) -> [u64; N] {
        self.numbers[..].try_into().expect("the kind's numbers")
    }
}

/// Whether the library's answer to an input is apart from the crate's as
/// docs/DIFFERENCES.md says; the error is a difference of another kind.
pub type Compared = Result<bool, String>;

/// What is compared, and how its inputs are made.
#[derive(Clone, Copy)]
pub struct Kind {
    pub name: &'static str,
    /// What the bytes of a case are, and the size of an item of them.
    pub bytes: &'static [(&'static str, usize)],
    pub numbers: &'static [&'static str],
    /// How many inputs there are in a round.
    pub a_round: usize,
    pub make: fn(&mut Random) -> Case,
    pub held: fn(&Case) -> Compared,
}

impl Kind {
    /// Compares; what panics differs too.
    pub fn compare(&self, case: &Case) -> Compared {
        let held = catch_unwind(AssertUnwindSafe(|| (self.held)(case)));
        held.unwrap_or_else(|why| {
            let text = why.downcast_ref::<String>().map(String::as_str);
            let text = text.or_else(|| why.downcast_ref::<&str>().copied());
            Err(text.unwrap_or("it panics").to_string())
        })
    }

    /// A case in full, an item a line.
    pub fn shown(&self, case: &Case) -> String {
        let mut text = String::new();
        for ((name, item), bytes) in self.bytes.iter().zip(&case.bytes) {
            let _ = writeln!(text, "  {name}, {} bytes", bytes.len());
            // Single bytes stand 32 in a line.
            let line = if *item == 1 { 32 } else { *item };
            for items in bytes.chunks(line) {
                let hexes: Vec<String> = items.iter().map(|byte| format!("{byte:02x}")).collect();
                let _ = writeln!(text, "    {}", hexes.join(" "));
            }
        }
        for (name, number) in self.numbers.iter().zip(&case.numbers) {
            let _ = writeln!(text, "  {name} {number}");
        }
        text
    }
}

/// Whether an answer is one that the crate has none of: refusals 4 to 7 and 9 to 17 of
/// documents 01 and 02.
pub fn apart(first_word: u64) -> bool {
    matches!(first_word, 4..=7 | 9..=17)
}

/// How long a buffer may be that is lent by number: as the longest list that is written.
pub fn room(number: u64) -> usize {
    number.min(TO_SEND_SIZE as u64) as usize
}
