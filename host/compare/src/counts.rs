//! The calls that count captures and add what was counted (document 02, M-108): the library
//! against the model in every word, and in all that was lent. The crate counts nothing, so
//! what is counted is counted again by its own filter: asked for the same rows, and with the
//! bits of its field as the host counts them.

use crate::guarded::{Fill, Guarded, FILLS};
use crate::inputs::shown;
use crate::model::counts::{add, count, Counts};
use crate::model::table::{HASH, ROW};
use crate::published::change_hash;
use crate::same_answer;
use crate::tables::ANSWERS;
use bisquetower::raw::{self, Batch};
use crate_under_test::facade;
use std::collections::HashSet;

/// A filter, with the change table of its sender and one of its listener.
#[derive(Clone, Copy, Debug)]
pub struct Capture<'a> {
    pub sender: &'a [u8],
    pub listener: &'a [u8],
    pub filter: &'a [u8],
}

impl<'a> Capture<'a> {
    fn parts(&self) -> [&'a [u8]; 3] {
        [self.sender, self.listener, self.filter]
    }

    fn shown(&self) -> String {
        let [sender, listener, filter] = self.parts().map(shown);
        format!("filter {filter}, sender {sender}, listener {listener}")
    }

    /// What is counted of a good capture by the crate's filter, over the rows as they stand
    /// in the tables' bytes.
    fn by_the_crate(&self) -> Result<Counts, String> {
        let filter = facade::read_filter(self.filter);
        let filter = filter.map_err(|kind| format!("the crate doesn't read it: {kind:?}"))?;
        let parts = facade::filter_parts(&filter);
        let hashes = |table: &'a [u8]| table.chunks(ROW).map(|row| &row[..HASH]);
        let held: HashSet<&[u8]> = hashes(self.sender).collect();
        let (mut tested, mut contained) = (0, 0);
        for hash in hashes(self.listener).filter(|hash| !held.contains(hash)) {
            tested += 1;
            contained += u64::from(filter.contains_hash(&change_hash(hash)));
        }
        let set = parts.field.iter().map(|byte| u64::from(byte.count_ones()));
        Ok([
            parts.entries.into(),
            8 * parts.field.len() as u64,
            set.sum(),
            tested,
            contained,
        ])
    }
}

/// How often captures gave each answer, and what was counted.
#[derive(Clone, Copy, Debug, Default)]
pub struct Tally {
    /// By the answer's first word.
    answers: [u64; ANSWERS],
    /// The counts of all of them together.
    pub counts: Counts,
}

impl Tally {
    pub fn of(&self, first_word: usize) -> u64 {
        self.answers[first_word]
    }

    fn add(&mut self, answer: [u64; 8]) {
        self.answers[answer[0] as usize] += 1;
        if answer[0] == 0 {
            let sums = self.counts.iter_mut().zip(&answer[1..]);
            sums.for_each(|(sum, count)| *sum += count);
        }
    }
}

/// A capture, its parts with items around them that no call may change.
struct Asked<'a> {
    capture: Capture<'a>,
    lent: [Guarded<u8>; 3],
    answer: [u64; 8],
}

impl<'a> Asked<'a> {
    fn new(capture: Capture<'a>) -> Self {
        let lend = |part: &[u8]| Guarded::holding(part, part.len(), Fill::One);
        Asked {
            capture,
            lent: capture.parts().map(lend),
            answer: [raw::UNWRITTEN; 8],
        }
    }

    fn agrees(&self) -> Result<(), String> {
        let Capture {
            sender,
            listener,
            filter,
        } = self.capture;
        same_answer(self.answer, count(sender, listener, filter))?;
        self.lent.iter().try_for_each(Guarded::agrees)?;
        if self.answer[0] != 0 {
            return Ok(());
        }
        let by_the_crate = self.capture.by_the_crate()?;
        match self.answer[1..6] == by_the_crate {
            true => Ok(()),
            false => Err(format!("by the crate's filter it is {by_the_crate:?}")),
        }
    }
}

/// Counts each capture, and compares the answer with the model's and with what the crate's
/// filter does; the first that disagrees is the error.
pub fn compare(captures: &[Capture]) -> Result<Tally, String> {
    let mut asked: Vec<Asked> = captures.iter().copied().map(Asked::new).collect();
    let mut batch = Batch::new();
    for Asked { lent, answer, .. } in &mut asked {
        let [sender, listener, filter] = lent.each_ref().map(Guarded::left);
        batch.count_capture(sender, listener, filter, answer);
    }
    batch.run();
    let mut tally = Tally::default();
    for one in &asked {
        let told = |why| format!("{}: {why}", one.capture.shown());
        one.agrees().map_err(told)?;
        tally.add(one.answer);
    }
    Ok(tally)
}

/// Totals, and counts that are to be added to them.
#[derive(Clone, Copy, Debug, PartialEq, Eq)]
pub struct Addition {
    pub totals: Counts,
    pub counts: Counts,
}

/// An addition with one buffer, in which the totals stand.
struct Adding {
    addition: Addition,
    totals: Guarded<u64>,
    expected: [u64; 4],
    answer: [u64; 4],
}

impl Adding {
    fn new(addition: Addition, fill: Fill) -> Self {
        let Addition { totals, counts } = addition;
        let mut left = totals;
        let expected = add(&mut left, counts);
        let mut lent = Guarded::holding(&totals, totals.len(), fill);
        lent.expected().copy_from_slice(&left);
        Adding {
            addition,
            totals: lent,
            expected,
            answer: [raw::UNWRITTEN; 4],
        }
    }

    fn lend<'m>(&'m mut self, batch: &mut Batch<'m>) {
        let totals = self.totals.lent().try_into().expect("as many totals");
        let [entries, field, set, tested, contained] = self.addition.counts;
        let answer = &mut self.answer;
        batch.add_counts(totals, entries, field, set, tested, contained, answer);
    }
}

/// Adds each, and compares answer and totals with the model's; how many were added.
pub fn compare_additions(additions: &[Addition]) -> Result<u64, String> {
    let both = |&addition| FILLS.map(|fill| Adding::new(addition, fill));
    let mut adding: Vec<Adding> = additions.iter().flat_map(both).collect();
    let mut batch = Batch::new();
    for one in &mut adding {
        one.lend(&mut batch);
    }
    batch.run();
    for one in &adding {
        let agrees = same_answer(one.answer, one.expected).and_then(|()| one.totals.agrees());
        agrees.map_err(|why| format!("{:?}: {why}", one.addition))?;
    }
    let added = adding.iter().filter(|one| one.answer[0] == 0).count();
    Ok((added / FILLS.len()) as u64)
}
