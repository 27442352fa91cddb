//! Small documents for the tests.

// Each test file uses its own part of these.
#![allow(dead_code)]

use crate_under_test::facade::*;

/// A hash whose order follows `n`: its big-endian number, then bytes that spread
/// the three words a filter looks at.
pub fn hash(n: u32) -> ChangeHash {
    let mut bytes = [0; 32];
    let mut spread = Random(u64::from(n) + 1);
    for part in bytes[4..].chunks_mut(4) {
        part.copy_from_slice(&(spread.next() as u32).to_le_bytes());
    }
    bytes[..4].copy_from_slice(&n.to_be_bytes());
    ChangeHash(bytes)
}

/// A hash with these three little-endian words.
pub fn words(x: u32, y: u32, z: u32) -> ChangeHash {
    let mut bytes = [0; 32];
    for (part, word) in bytes.chunks_mut(4).zip([x, y, z]) {
        part.copy_from_slice(&word.to_le_bytes());
    }
    ChangeHash(bytes)
}

pub fn hashes(numbers: &[u32]) -> Vec<ChangeHash> {
    numbers.iter().map(|&n| hash(n)).collect()
}

pub fn change(n: u32, dependencies: &[u32]) -> Change {
    Change::new(hash(n), hashes(dependencies), &n.to_le_bytes())
}

pub fn document(rows: &[(u32, &[u32])]) -> Automerge {
    waiting_document(rows, &[])
}

pub fn waiting_document(rows: &[(u32, &[u32])], waiting: &[(u32, &[u32])]) -> Automerge {
    let changes = |list: &[(u32, &[u32])]| list.iter().map(|(n, d)| change(*n, d)).collect();
    Automerge::from_rows(changes(rows), changes(waiting)).expect("a good document")
}

/// A message without flags section and chunks.
pub fn message(heads: &[u32]) -> Message {
    Message {
        heads: hashes(heads),
        need: Vec::new(),
        have: Vec::new(),
        changes: ChunkList::empty(),
        flags: None,
        version: MessageVersion::V1,
    }
}

/// Random numbers that are the same on every run.
pub struct Random(pub u64);

impl Random {
    pub fn next(&mut self) -> u64 {
        self.0 = self.0.wrapping_add(0x9e37_79b9_7f4a_7c15);
        let mut z = self.0;
        z = (z ^ (z >> 30)).wrapping_mul(0xbf58_476d_1ce4_e5b9);
        z = (z ^ (z >> 27)).wrapping_mul(0x94d0_49bb_1331_11eb);
        z ^ (z >> 31)
    }

    pub fn below(&mut self, limit: u32) -> u32 {
        (self.next() % u64::from(limit)) as u32
    }
}
