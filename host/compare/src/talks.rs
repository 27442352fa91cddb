//! Two units that talk: what each of them said and heard, step by step, and the same
//! done by units of other kinds.

use crate::inputs::session::record;
use crate::inputs::table::Row;
use crate::inputs::Random;
use crate::model::message::parse;
use crate::model::plan::By;
use crate::model::session::Value;
use crate::model::table::{Hash, DEPENDENCIES};
use crate::units::{load, modelled, published, Heard, Make, Picks, Unit};
use crate_under_test::facade::{Automerge, Change, ChangeHash};
use std::collections::BTreeSet;

/// A step of one of the units, and its session and rows after it.
#[derive(Clone, Debug, PartialEq, Eq)]
pub struct Step {
    pub unit: usize,
    pub what: What,
    pub session: Value,
    pub rows: Vec<Hash>,
}

#[derive(Clone, Debug, PartialEq, Eq)]
pub enum What {
    Spoke(Option<Vec<u8>>),
    Heard(Heard),
}

/// More messages than a talk takes that ends.
pub const TOO_LONG: usize = 80;

/// What may happen to two units at odds.
const EVENTS: usize = 40;

pub struct Pair {
    makes: [Make; 2],
    pub units: [Box<dyn Unit>; 2],
    pub steps: Vec<Step>,
}

/// What a unit starts with.
pub type Start = (Automerge, Value);

impl Pair {
    pub fn new(makes: [Make; 2], starts: [Start; 2]) -> Pair {
        let [(document, session), (other, others)] = starts;
        Pair {
            makes,
            units: [makes[0](document, session), makes[1](other, others)],
            steps: Vec::new(),
        }
    }

    /// Puts another unit of its kind in a unit's place.
    pub fn replace(&mut self, unit: usize, document: Automerge, session: Value) {
        self.units[unit] = self.makes[unit](document, session);
    }

    fn note(&mut self, unit: usize, what: What) {
        let rows = self.rows(unit);
        let session = self.units[unit].session();
        self.steps.push(Step {
            unit,
            what,
            session,
            rows,
        });
    }

    pub fn speak(&mut self, unit: usize) -> Option<Vec<u8>> {
        self.speak_by(unit, &By::Crate)
    }

    pub fn speak_by(&mut self, unit: usize, by: &By) -> Option<Vec<u8>> {
        let said = match by {
            By::Crate => self.units[unit].speak(),
            other => self.units[unit].speak_by(other),
        };
        self.note(unit, What::Spoke(said.clone()));
        said
    }

    pub fn speak_picked(&mut self, unit: usize, by: &By, pick: &mut Picks) -> Option<Vec<u8>> {
        let said = self.units[unit].speak_picked(by, pick);
        self.note(unit, What::Spoke(said.clone()));
        said
    }

    pub fn hear(&mut self, unit: usize, message: &[u8]) -> Heard {
        let heard = self.units[unit].hear(message);
        self.note(unit, What::Heard(heard));
        heard
    }

    /// A message of one unit goes to the other; none if it says nothing.
    pub fn send(&mut self, from: usize) -> Option<Vec<u8>> {
        self.send_by(from, &By::Crate)
    }

    fn send_by(&mut self, from: usize, by: &By) -> Option<Vec<u8>> {
        let message = self.speak_by(from, by)?;
        self.hear(1 - from, &message);
        Some(message)
    }

    /// The units take turns until both are silent, or for too long: how many
    /// messages there were.
    pub fn talk(&mut self, first: usize) -> usize {
        self.talk_by(first, |_| By::Crate)
    }

    /// The same, and each unit is told by which numbers it speaks, each time.
    pub fn talk_by(&mut self, first: usize, mut by: impl FnMut(usize) -> By) -> usize {
        let (mut messages, mut silent, mut turn) = (0, 0, first);
        while silent < 2 && messages < TOO_LONG {
            match self.send_by(turn, &by(turn)) {
                Some(_) => (messages, silent) = (messages + 1, 0),
                None => silent += 1,
            }
            turn = 1 - turn;
        }
        messages
    }

    /// The hashes of a unit's rows, in their order.
    pub fn rows(&mut self, unit: usize) -> Vec<Hash> {
        let rows = self.units[unit].document().rows();
        rows.iter().map(|change| change.hash().0).collect()
    }

    /// The hashes of the rows that a unit holds, in ascending order.
    pub fn held(&mut self, unit: usize) -> BTreeSet<Hash> {
        self.rows(unit).into_iter().collect()
    }

    /// Gives a unit changes.
    pub fn load(&mut self, unit: usize, changes: &[u8]) {
        assert!(load(self.units[unit].document(), changes));
    }
}

/// How many pairs of other kinds do what two units of the crate do.
const PAIRS: usize = 3;

/// Has the same done by two units of the crate, and by pairs of which one or both are
/// of another kind. Every step must be the same. Returns the crate's.
pub fn compare_pairs(make: Make, run: impl Fn([Make; 2]) -> Vec<Step>) -> Vec<Step> {
    compare_kinds(make, published, run)
}

/// The same beside two units of another kind than the crate's. Returns theirs.
fn compare_kinds(make: Make, beside: Make, run: impl Fn([Make; 2]) -> Vec<Step>) -> Vec<Step> {
    let others = run([beside, beside]);
    let pairs: [[Make; 2]; PAIRS] = [[make, make], [make, beside], [beside, make]];
    for (number, makes) in pairs.into_iter().enumerate() {
        let steps = run(makes);
        let differs = |k: &usize| steps.get(*k) != others.get(*k);
        if let Some(k) = (0..steps.len().max(others.len())).find(differs) {
            let (ours, theirs) = (steps.get(k), others.get(k));
            panic!("pair {number}, step {k}: {ours:?} isn't the others' {theirs:?}");
        }
    }
    others
}

/// What sessions two units start with.
#[derive(Clone, Copy, Debug, PartialEq, Eq)]
pub enum Sessions {
    Fresh,
    /// Read from a saved state, whose heads both units hold.
    Saved,
    /// Of any content: such units may talk for ever.
    Any,
}

pub const SESSIONS: [Sessions; 3] = [Sessions::Fresh, Sessions::Saved, Sessions::Any];

impl Random {
    /// Two units over parts of one graph of less than `rows` rows.
    pub fn starts(&mut self, rows: usize, sessions: Sessions) -> [Start; 2] {
        let graph = self.graph(0..rows);
        let common = self.part(&graph.rows);
        let shared = heads_of(&document_of(&graph.rows, &common));
        [0, 1].map(|_| {
            let part = self.part(&graph.rows);
            let (part, session) = match sessions {
                Sessions::Fresh => (part, Value::default()),
                Sessions::Saved => {
                    let session = Value {
                        shared: shared.clone(),
                        their_have: Some(Vec::new()),
                        ..Value::default()
                    };
                    ([common.clone(), part].concat(), session)
                }
                Sessions::Any => (part, self.session(&graph)),
            };
            (document_of(&graph.rows, &part), session)
        })
    }

    /// Some rows of a graph, in any order.
    fn part(&mut self, rows: &[Row]) -> Vec<usize> {
        let some = self.below(5);
        let mut part: Vec<usize> = (0..rows.len()).filter(|_| self.below(4) < some).collect();
        if self.one_in(2) {
            part.reverse();
        }
        part
    }
}

fn heads_of(document: &Automerge) -> Vec<Hash> {
    document.get_heads().iter().map(|hash| hash.0).collect()
}

/// A document of some rows and of all that they are on.
pub(crate) fn document_of(rows: &[Row], part: &[usize]) -> Automerge {
    let mut document = Automerge::new();
    for &row in part {
        let mut open = vec![row];
        while let Some(&row) = open.last() {
            let holds = |&on: &usize| document.has_change(&ChangeHash(rows[on].hash));
            match rows[row].dependencies.iter().copied().find(|on| !holds(on)) {
                Some(on) => open.push(on),
                None => {
                    open.pop();
                    assert!(load(&mut document, &record(rows, row)));
                }
            }
        }
    }
    document
}

/// Whether a message keeps every limit, and what it brings does: beyond them the crate
/// goes on.
pub fn limited(message: &[u8]) -> bool {
    let places = match parse(message) {
        Ok(places) => places,
        Err((number, _)) => return number < 4,
    };
    let chunk = |[place, length]: &[u64; 2]| &message[*place as usize..][..*length as usize];
    let chunks: Vec<&[u8]> = places.chunks.iter().map(chunk).collect();
    let changes = Change::read_all(&chunks.concat()).unwrap_or_default();
    let few = |change: &Change| change.dependencies().len() <= DEPENDENCIES;
    changes.iter().all(few)
}

/// Two units at odds: they speak, hear late or never, hear damaged messages, gain
/// changes, change their minds about read-only, are saved and go on from there.
pub fn at_odds(random: &mut Random, pair: &mut Pair, events: usize) {
    let mut under_way: [Vec<Vec<u8>>; 2] = Default::default();
    for _ in 0..events {
        let unit = random.below(2);
        match random.below(32) {
            0 => {
                let on = random.one_in(2);
                pair.units[unit].set_read_only(on);
            }
            1 => {
                let saved = pair.units[unit].save();
                pair.units[unit].restore(&saved);
            }
            2 => drop(under_way[unit].pop()),
            3 => {
                let mut on = pair.units[unit].document().get_heads();
                on.truncate(DEPENDENCIES);
                let change = Change::new(ChangeHash(random.hash()), on, &[]);
                pair.load(unit, change.raw_bytes());
            }
            4 => {
                let mut message = under_way[unit].pop();
                message
                    .iter_mut()
                    .for_each(|message| random.damage(message));
                under_way[unit].extend(message.filter(|message| limited(message)));
            }
            5..18 => under_way[1 - unit].extend(pair.speak(unit)),
            _ => {
                let late = !under_way[unit].is_empty() && random.one_in(8);
                let next = match late {
                    true => under_way[unit].pop(),
                    false => (!under_way[unit].is_empty()).then(|| under_way[unit].remove(0)),
                };
                if let Some(message) = next {
                    pair.hear(unit, &message);
                }
            }
        }
    }
}

/// Has `count` random pairs talk until both are silent, with units of a kind beside
/// the crate's, and counts the steps that were compared. Those whose sessions aren't
/// odd come to hold the same rows.
pub fn talks(make: Make, random: &mut Random, count: usize, rows: usize) -> usize {
    let mut compared = 0;
    for _ in 0..count {
        let sessions = random.of(&SESSIONS);
        let starts = random.starts(rows, sessions);
        let first = random.below(2);
        let run = |makes| {
            let mut pair = Pair::new(makes, starts.clone());
            let messages = pair.talk(first);
            if sessions != Sessions::Any {
                assert!(messages < TOO_LONG);
                assert_eq!(pair.held(0), pair.held(1));
            }
            pair.steps
        };
        compared += PAIRS * compare_pairs(make, run).len();
    }
    compared
}

/// Has `count` random pairs talk until both are silent, by numbers that are others at each
/// end and each time; the crate has no others, so the units beside them are the model's.
/// Counts the steps that were compared. Those whose sessions aren't odd come to hold the
/// same rows.
pub fn talks_by(make: Make, random: &mut Random, count: usize, rows: usize) -> usize {
    let mut compared = 0;
    for _ in 0..count {
        let sessions = random.of(&SESSIONS);
        let starts = random.starts(rows, sessions);
        let (first, seed) = (random.below(2), random.word());
        let run = |makes| {
            let mut random = Random(seed);
            let mut pair = Pair::new(makes, starts.clone());
            let messages = pair.talk_by(first, |_| random.by_good());
            if sessions != Sessions::Any {
                assert!(messages < TOO_LONG);
                assert_eq!(pair.held(0), pair.held(1));
            }
            pair.steps
        };
        compared += PAIRS * compare_kinds(make, modelled, run).len();
    }
    compared
}

/// Has `count` random pairs at odds, with units of a kind beside the crate's, and
/// counts the steps that were compared.
pub fn scripts(make: Make, random: &mut Random, count: usize, rows: usize) -> usize {
    let mut compared = 0;
    for _ in 0..count {
        let sessions = random.of(&SESSIONS);
        let starts = random.starts(rows, sessions);
        let seed = random.word();
        let run = |makes| {
            let mut pair = Pair::new(makes, starts.clone());
            at_odds(&mut Random(seed), &mut pair, EVENTS);
            pair.steps
        };
        compared += PAIRS * compare_pairs(make, run).len();
    }
    compared
}
