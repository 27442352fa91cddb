//! The two calls on picks (document 02, M-110): the library against the model in every word,
//! and in all that was lent. The crate has nothing like them. What 02 says of every list is
//! looked at beside that: what the planner picks is accepted.

use crate::guarded::{Fill, Guarded, FILLS};
use crate::inputs::index::index_of;
use crate::inputs::pick::OwnRadio;
use crate::inputs::shown;
use crate::model;
use crate::model::pick::Lent;
use crate::model::table::HASH;
use crate::same_answer;
use crate::tables::Rooms;
use bisquetower::raw::{self, Batch};

/// What both calls are lent, with an index of its own.
#[derive(Clone, Debug)]
pub struct Given {
    pub table: Vec<u8>,
    pub index: Vec<u8>,
    pub list: Vec<u8>,
    pub sizes: Vec<u64>,
    pub budget: u64,
}

impl Given {
    /// With the table's own index.
    pub fn of(radio: &OwnRadio) -> Given {
        Given {
            index: index_of(&radio.table),
            table: radio.table.clone(),
            list: radio.list.concat(),
            sizes: radio.sizes.clone(),
            budget: radio.budget,
        }
    }

    pub fn lent(&self) -> Lent<'_> {
        Lent {
            table: &self.table,
            index: &self.index,
            list: &self.list,
            sizes: &self.sizes,
            budget: self.budget,
        }
    }

    fn told(&self, why: String) -> String {
        let Given {
            table,
            index,
            list,
            sizes,
            budget,
        } = self;
        let [table, list] = [table, list].map(|bytes| bytes.len());
        let (index, few) = (shown(index), &sizes[..sizes.len().min(16)]);
        let lent = format!("a table of {table} bytes, index {index}, a list of {list}");
        let sizes = sizes.len();
        format!("{lent}, {sizes} sizes {few:?}, a budget of {budget}: {why}")
    }
}

/// What came of picks. A test asks this, so that none passes by having tried too little.
#[derive(Clone, Copy, Debug, Default, PartialEq, Eq)]
pub struct Tally {
    /// Picks that are accepted, and of these the empty ones.
    pub accepted: u64,
    pub empty: u64,
    /// Those refused for a hash, and those refused as a whole.
    pub at_a_hash: u64,
    pub whole: u64,
    /// Other refusals.
    pub others: u64,
}

impl Tally {
    pub fn add(&mut self, other: &Tally) {
        self.accepted += other.accepted;
        self.empty += other.empty;
        self.at_a_hash += other.at_a_hash;
        self.whole += other.whole;
        self.others += other.others;
    }

    fn count(&mut self, pick: &[u8], answer: [u64; 4]) {
        let hashes = (pick.len() / HASH) as u64;
        match answer {
            [0, ..] => {
                self.accepted += 1;
                self.empty += u64::from(hashes == 0);
            }
            [17, place, ..] if place < hashes => self.at_a_hash += 1,
            [17, ..] => self.whole += 1,
            _ => self.others += 1,
        }
    }
}

/// Compares what the library says of picks with what the model does; returns its answers.
pub fn compare_checks(checks: &[(&Given, &[u8])]) -> Result<(Tally, Vec<[u64; 4]>), String> {
    let mut answers = vec![[raw::UNWRITTEN; 4]; checks.len()];
    let mut batch = Batch::new();
    for (&(given, pick), answer) in checks.iter().zip(&mut answers) {
        let Lent {
            table,
            index,
            list,
            sizes,
            budget,
        } = given.lent();
        batch.check_pick(table, index, list, sizes, budget, pick, answer);
    }
    batch.run();
    let mut tally = Tally::default();
    for (&(given, pick), &answer) in checks.iter().zip(&answers) {
        let told = |why| given.told(format!("the pick {}: {why}", shown(pick)));
        same_answer(answer, given.lent().check(pick)).map_err(told)?;
        tally.count(pick, answer);
    }
    Ok((tally, answers))
}

/// A list that is picked from, with one buffer.
struct Asked<'a> {
    given: &'a Given,
    out: Guarded<u8>,
    expected: [u64; 4],
    answer: [u64; 4],
}

impl<'a> Asked<'a> {
    fn new(
        given: &'a Given,
        wanted: Result<Vec<u8>, model::Refused>,
        room: usize,
        fill: Fill,
    ) -> Self {
        let mut out = Guarded::new(room, fill);
        Asked {
            given,
            expected: model::write(out.expected(), wanted),
            answer: [raw::UNWRITTEN; 4],
            out,
        }
    }

    fn agrees(&self) -> Result<(), String> {
        let room = self.out.room();
        let told = |why| self.given.told(format!("picked into {room} bytes: {why}"));
        same_answer(self.answer, self.expected).map_err(told)?;
        self.out.agrees().map_err(told)
    }
}

/// Compares what the planner picks with what the model does, into each of the buffers over
/// both fills, and asks the check about it; returns the answers by buffer.
pub fn compare_picks(given: &Given, rooms: Rooms) -> Result<Vec<[u64; 4]>, String> {
    let picked = given.lent().pick().map(|hashes| hashes.concat());
    // A refused call gets some buffers too.
    let wanted = picked.as_ref().map_or(2 * HASH, Vec::len);
    let mut asked = Vec::new();
    for room in rooms.sizes(wanted) {
        asked.extend(FILLS.map(|fill| Asked::new(given, picked.clone(), room, fill)));
    }
    let mut batch = Batch::new();
    for one in &mut asked {
        let Lent {
            table,
            index,
            list,
            sizes,
            budget,
        } = given.lent();
        let (out, answer) = (one.out.lent(), &mut one.answer);
        batch.pick(table, index, list, sizes, budget, out, answer);
    }
    batch.run();
    for one in &asked {
        one.agrees()?;
    }
    if let Ok(picked) = &picked {
        let (_, answers) = compare_checks(&[(given, picked)])?;
        if answers[0] != [0; 4] {
            let why = format!("its own pick is answered {:?}", answers[0]);
            return Err(given.told(why));
        }
    }
    let first = asked.iter().step_by(FILLS.len());
    Ok(first.map(|one| one.answer).collect())
}

/// What the library picks; the model isn't asked.
pub fn picked(given: &Given) -> Vec<u8> {
    let mut out = vec![0; given.table.len()];
    let (list, sizes) = (&given.list, &given.sizes);
    let answer = raw::pick(
        &given.table,
        &given.index,
        list,
        sizes,
        given.budget,
        &mut out,
    );
    assert_eq!(answer[0], 0, "{answer:?}");
    out.truncate(answer[1] as usize);
    out
}
