//! Hashes to send: the library against the model in every word and byte, and what
//! is chosen beside what the crate chooses. The crate's `get_hashes_to_send` runs
//! over the stand-in document, whose graph rests on document 01.

use crate::guarded::{Fill, Guarded, FILLS};
use crate::inputs::index::{index_of, Beside};
use crate::inputs::selection::{lend, Case};
use crate::inputs::{shown, Random};
use crate::model::selection::hashes_to_send;
use crate::model::table::{Hash, HASH, ROW};
use crate::model::{self, Refused};
use crate::same_answer;
use crate::sessions::published::haves as published_haves;
use crate::tables::{document, Rooms};
use bisquetower::raw::{self, Batch};
use crate_under_test::facade::{self, ChangeHash};

/// What the crate chooses.
pub fn published(case: &Case) -> Vec<Hash> {
    let document = document(&case.table, &case.waiting);
    let need: Vec<ChangeHash> = case.need.iter().copied().map(ChangeHash).collect();
    let haves = published_haves(&case.haves);
    let chosen = facade::hashes_to_send(&document, &haves, &need);
    chosen.iter().map(|hash| hash.0).collect()
}

/// What was chosen, so that no test passes by having tried too little.
#[derive(Clone, Copy, Debug, Default, PartialEq, Eq)]
pub struct Tally {
    pub cases: u64,
    /// Hashes that were chosen, and rows that were not though there were haves.
    pub chosen: u64,
    pub left: u64,
    /// Lists that begin with a held need outside S.
    pub needs_first: u64,
    /// Lists in which a hash stands twice.
    pub repeats: u64,
}

impl Tally {
    pub fn add(&mut self, other: &Tally) {
        self.cases += other.cases;
        self.chosen += other.chosen;
        self.left += other.left;
        self.needs_first += other.needs_first;
        self.repeats += other.repeats;
    }

    fn count(&mut self, case: &Case, chosen: &[Hash]) {
        let rows = case.table.len() / ROW;
        let place = |hash: &Hash| {
            let mut rows = case.table.chunks(ROW);
            rows.position(|row| row[..HASH] == *hash)
        };
        self.cases += 1;
        self.chosen += chosen.len() as u64;
        if !case.haves.is_empty() {
            self.left += rows.saturating_sub(chosen.len()) as u64;
            // S ascends by row; so a first hash that doesn't is a need.
            let two = chosen.first().zip(chosen.get(1));
            let descends = two.is_some_and(|(a, b)| place(a) >= place(b));
            self.needs_first += u64::from(descends);
        }
        let mut sorted = chosen.to_vec();
        sorted.sort();
        sorted.dedup();
        self.repeats += u64::from(sorted.len() < chosen.len());
    }
}

/// Compares what the model chooses with what the crate does, the whole list in
/// its order.
pub fn compare_model(cases: &[Case], random: &mut Random) -> Result<Tally, String> {
    let mut tally = Tally::default();
    for case in cases {
        let (s, records) = lend(&case.haves, random);
        let index = index_of(&case.table);
        let chosen = hashes_to_send(&case.table, &index, &s, &records, &case.need.concat());
        let crates = published(case);
        if chosen.as_ref() != Ok(&crates) {
            return Err(format!("{case:?}: {chosen:?} isn't the crate's {crates:?}"));
        }
        tally.count(case, &crates);
    }
    Ok(tally)
}

/// What the library is lent to choose from.
#[derive(Clone, Copy)]
pub struct Selection<'a> {
    pub table: &'a [u8],
    pub index: Beside<'a>,
    pub s: &'a [u8],
    pub haves: &'a [u64],
    pub need: &'a [u8],
}

impl Selection<'_> {
    fn model(&self) -> Result<Vec<Hash>, Refused> {
        let index = self.index.of(self.table);
        hashes_to_send(self.table, &index, self.s, self.haves, self.need)
    }

    fn shown(&self) -> String {
        let Selection {
            table,
            index,
            s,
            haves,
            need,
        } = self;
        let index = shown(&index.of(table));
        let [table, s, need] = [table, s, need].map(|bytes| bytes.len());
        let lent = format!("a table of {table} bytes, index {index}");
        format!("{lent}, haves {haves:?} over {s}, a need of {need}")
    }
}

/// A selection with one buffer.
struct Asked<'a> {
    selection: Selection<'a>,
    index: Vec<u8>,
    expected: [u64; 4],
    answer: [u64; 4],
    out: Guarded<u8>,
}

impl<'a> Asked<'a> {
    fn new(
        selection: Selection<'a>,
        chosen: &Result<Vec<Hash>, Refused>,
        room: usize,
        fill: Fill,
    ) -> Self {
        let mut out = Guarded::new(room, fill);
        let wanted = chosen.as_ref().map(|hashes| hashes.concat());
        Asked {
            selection,
            index: selection.index.of(selection.table),
            expected: model::write(out.expected(), wanted.map_err(|&refused| refused)),
            answer: [raw::UNWRITTEN; 4],
            out,
        }
    }

    fn ask<'m>(&'m mut self, batch: &mut Batch<'m>) {
        let Selection {
            table,
            s,
            haves,
            need,
            ..
        } = self.selection;
        let (out, answer) = (self.out.lent(), &mut self.answer);
        batch.hashes_to_send(table, &self.index, s, haves, need, out, answer);
    }

    fn agrees(&self) -> Result<(), String> {
        let (selection, room) = (self.selection, self.out.room());
        let told = |why| format!("{} into {room} bytes: {why}", selection.shown());
        same_answer(self.answer, self.expected).map_err(told)?;
        self.out.agrees().map_err(told)
    }

    fn written(&self) -> &[u8] {
        match self.answer {
            [0, length, ..] => &self.out.left()[..length as usize],
            _ => &[],
        }
    }
}

/// Compares the library's answers and memory with the model's, for each of the
/// buffers over two patterns; returns the answers by buffer.
pub fn compare(selection: Selection, rooms: Rooms) -> Result<Vec<[u64; 4]>, String> {
    let chosen = selection.model();
    // A refused call gets some buffers too.
    let wanted = chosen.as_ref().map_or(2, |hashes| hashes.len()) * HASH;
    let mut asked = Vec::new();
    for room in rooms.sizes(wanted) {
        asked.extend(FILLS.map(|fill| Asked::new(selection, &chosen, room, fill)));
    }
    let mut batch = Batch::new();
    for one in &mut asked {
        one.ask(&mut batch);
    }
    batch.run();
    for one in &asked {
        one.agrees()?;
    }
    Ok(asked
        .iter()
        .step_by(FILLS.len())
        .map(|one| one.answer)
        .collect())
}

/// Compares what the library chooses with what the model and the crate do, the
/// whole list in its order, twice in one process. Returns the library's lists too.
pub fn compare_cases(cases: &[Case], random: &mut Random) -> Result<(Tally, Vec<Vec<u8>>), String> {
    let lent: Vec<(Vec<u8>, Vec<u64>, Vec<u8>)> = cases
        .iter()
        .map(|case| {
            let (s, records) = lend(&case.haves, random);
            (s, records, case.need.concat())
        })
        .collect();
    let mut asked = Vec::new();
    for (case, (s, haves, need)) in cases.iter().zip(&lent) {
        let selection = Selection {
            table: &case.table,
            index: Beside::Own,
            s,
            haves,
            need,
        };
        let chosen = selection.model();
        let room = HASH * chosen.as_ref().map_or(1, |hashes| 1 + hashes.len());
        asked.extend(FILLS.map(|fill| Asked::new(selection, &chosen, room, fill)));
    }
    let mut batch = Batch::new();
    for one in &mut asked {
        one.ask(&mut batch);
    }
    batch.run();
    let mut tally = Tally::default();
    let mut lists = Vec::new();
    for (case, two) in cases.iter().zip(asked.chunks(FILLS.len())) {
        for one in two {
            one.agrees()?;
        }
        let crates = published(case);
        let told = two[0].selection.shown();
        if two[0].answer[0] != 0 || two.iter().any(|one| one.written() != crates.concat()) {
            return Err(format!("{told}: the list isn't the crate's {crates:?}"));
        }
        tally.count(case, &crates);
        lists.push(two[0].written().to_vec());
    }
    Ok((tally, lists))
}
