//! Tables, haves and needs from which hashes to send are chosen: random graphs,
//! and filters so crowded that false yeses are frequent.

use super::filter::hash_of;
use super::Random;
use crate::inputs::table::{table_bytes, waiting_bytes, Row, LIKENESSES, SHAPES};
use crate::model::filter::field_size;
use crate::model::have::{OwnHave, HAVE_WORDS};
use crate::model::table::{Hash, HASH, HASHES};
use std::ops::Range;

/// What hashes to send are chosen from, and waiting rows, whose hashes may be
/// needed but aren't held.
#[derive(Clone, Debug)]
pub struct Case {
    pub table: Vec<u8>,
    pub waiting: Vec<u8>,
    pub haves: Vec<OwnHave>,
    pub need: Vec<Hash>,
}

/// Rows, and strangers: changes that wait, and unknown ones.
#[derive(Clone, Debug)]
pub struct Graph {
    pub rows: Vec<Row>,
    /// Those of the rows first, then the strangers'.
    pub hashes: Vec<Hash>,
}

impl Graph {
    pub fn held(&self) -> &[Hash] {
        &self.hashes[..self.rows.len()]
    }

    pub fn waits(&self) -> &[Hash] {
        &self.hashes[self.rows.len()..][..WAITS]
    }

    pub fn unknown(&self) -> &[Hash] {
        &self.hashes[self.rows.len() + WAITS..]
    }
}

/// How many changes may wait, of the strangers.
const WAITS: usize = 4;
const STRANGERS: usize = 8;

/// Haves over one buffer, in any order and with other bytes between them.
pub fn lend(haves: &[OwnHave], random: &mut Random) -> (Vec<u8>, Vec<u64>) {
    let mut s = random.bytes(3);
    let mut records = vec![0; HAVE_WORDS * haves.len()];
    let mut order: Vec<usize> = (0..haves.len()).collect();
    for k in (1..order.len()).rev() {
        order.swap(k, random.below(k + 1));
    }
    for k in order {
        let have = &haves[k];
        let mut put = |bytes: &[u8]| {
            let place = s.len() as u64;
            s.extend(bytes);
            let after = random.below(4);
            s.extend(random.bytes(after));
            place
        };
        let hashes = put(&have.last_sync.concat());
        let field = put(&have.field);
        let [entries, bits, probes] = have.numbers;
        let (count, length) = (have.last_sync.len() as u64, have.field.len() as u64);
        let record = [hashes, count, entries, bits, probes, field, length];
        records[HAVE_WORDS * k..][..HAVE_WORDS].copy_from_slice(&record);
    }
    (s, records)
}

impl Random {
    /// Hashes whose three words are below a limit, so that their probes often meet;
    /// none of them twice.
    pub fn crowded_hashes(&mut self, count: usize, limit: usize) -> Vec<Hash> {
        let mut one = || {
            let words = [(); 3].map(|()| self.below(limit) as u32);
            let mut hash = hash_of(words);
            hash[12..].copy_from_slice(&self.bytes(HASH - 12));
            hash
        };
        (0..count).map(|_| one()).collect()
    }

    /// A graph with a number of rows in this range, and hashes of changes that aren't held.
    pub fn graph(&mut self, rows: Range<usize>) -> Graph {
        let count = rows.start + self.below(rows.len());
        let all = count + STRANGERS;
        let hashes = match self.below(3) {
            0 => {
                let likeness = self.of(&LIKENESSES);
                self.hashes(all, likeness)
            }
            1 => self.crowded_hashes(all, 4),
            _ => self.crowded_hashes(all, 64),
        };
        let shape = self.of(&SHAPES);
        let rows = self.rows_of(&hashes[..count], shape);
        Graph { rows, hashes }
    }

    /// A graph with a number of rows in this range, with haves and a need.
    pub fn case(&mut self, rows: Range<usize>, haves: Range<usize>) -> Case {
        let graph = self.graph(rows);
        let Graph { rows, hashes } = &graph;
        let (held, waits, unknown) = (graph.held(), graph.waits(), graph.unknown());
        let waiting = self.waiting_rows(waits, hashes);
        let haves = (0..haves.start + self.below(haves.len()))
            .map(|_| self.have_of(held, unknown))
            .collect();
        let need = (0..self.below(12))
            .map(|_| match self.below(5) {
                0 => self.of(unknown),
                1 => self.of(waits),
                _ if held.is_empty() => self.of(unknown),
                // Often one of the first few, so that some stand twice.
                2 => held[self.below(held.len().min(3))],
                _ => self.of(held),
            })
            .collect();
        Case {
            table: table_bytes(rows),
            waiting: waiting_bytes(&waiting),
            haves,
            need,
        }
    }

    /// A have of someone who holds some of these hashes and unknown ones.
    pub(super) fn have_of(&mut self, held: &[Hash], unknown: &[Hash]) -> OwnHave {
        let mut last_sync = Vec::new();
        for _ in 0..self.below(4) {
            let one = match self.one_in(4) || held.is_empty() {
                true => self.of(unknown),
                // Mostly early rows, so that something lies beyond them.
                false => held[self.below(held.len()) / (1 + self.below(8))],
            };
            last_sync.push(one);
        }
        let numbers = match self.below(10) {
            0 => [0, self.number() >> 32, self.number() >> 32],
            1 | 2 => {
                let (entries, bits) = self.entries_and_bits();
                [entries, bits, self.below(5) as u64]
            }
            _ => {
                let one_in = 1 + self.below(5);
                let all_but = self.one_in(2);
                let chosen = |_: &&Hash| self.one_in(one_in) != all_but;
                let mut hashes: Vec<Hash> = held.iter().filter(chosen).copied().collect();
                hashes.push(unknown[0]);
                let (bits, probes) = match self.one_in(3) {
                    true => (10, 7),
                    false => (1 + self.below(6) as u64, self.below(4) as u64),
                };
                hashes.truncate(HASHES);
                return OwnHave::over(last_sync, bits, probes, &hashes);
            }
        };
        let size = match numbers[0] {
            0 => 0,
            entries => field_size(entries, numbers[1]) as usize,
        };
        OwnHave {
            last_sync,
            numbers,
            field: self.field(size),
        }
    }
}
