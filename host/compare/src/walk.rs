//! The catch-up walk: two units that talk beside the model of 01's walk, and what is
//! promised of it, looked at round by round. `both` is the same of two ends that each have
//! rows which the other lacks. `outside` is what happens where nothing is promised.

pub mod both;
pub mod outside;

use crate::inputs::table::{table_bytes, Row, SHAPES};
use crate::inputs::Random;
use crate::model::plan::{By, Plan, OF_THE_CRATE};
use crate::model::session::Value;
use crate::model::table::{hashes_of, table, Hash};
use crate::model::walk::{Giving, Stated, Walk};
use crate::sessions::published::plan_of;
use crate::talks::{document_of, Pair};
use crate::units::{proved, published, Heard, Make, Picks};
use crate_under_test::facade::Message;
use std::collections::{BTreeMap, BTreeSet};
use std::fmt;
use std::ops::Range;

/// The station and the validator in a pair.
pub const STATION: usize = 0;
pub const VALIDATOR: usize = 1;

/// What a station holds, and which of these rows a validator holds, in the order in
/// which they came; it gets what they depend on before them.
#[derive(Clone, Debug)]
pub struct Apart {
    pub rows: Vec<Row>,
    pub held: Vec<usize>,
}

impl Apart {
    /// Two fresh units of these kinds.
    pub fn pair(&self, makes: [Make; 2]) -> Pair {
        let all: Vec<usize> = (0..self.rows.len()).collect();
        let fresh = |rows: &[usize]| (document_of(&self.rows, rows), Value::default());
        Pair::new(makes, [fresh(&all), fresh(&self.held)])
    }

    /// The walk before its first round.
    pub fn walk(&self) -> Walk {
        let a = table(&table_bytes(&self.rows)).expect("a good table");
        let document = document_of(&self.rows, &self.held);
        let b: Vec<Hash> = document.rows().iter().map(|row| row.hash().0).collect();
        Walk::new(a, &b)
    }
}

/// How many values a word of a hash may have: few, so that filters are crowded and
/// often say yes to what isn't in them, or all.
const WORDS: [usize; 6] = [1, 1, 2, 3, 4, 1 << 32];

impl Random {
    /// A station with a number of rows in this range, and a validator that lacks few of them and what
    /// depends on those, or none, but never all.
    pub fn apart(&mut self, rows: Range<usize>) -> Apart {
        let count = rows.start + self.below(rows.len());
        let words = self.of(&WORDS);
        let hashes = self.crowded_hashes(count, words);
        let shape = self.of(&SHAPES);
        let rows = self.rows_of(&hashes, shape);
        let mut lacks = vec![false; count];
        let some = if self.one_in(16) {
            0
        } else {
            1 + self.below(1 + count / 6)
        };
        for _ in 0..some {
            lacks[self.below(count)] = true;
        }
        for row in 0..count {
            lacks[row] |= rows[row].dependencies.iter().any(|&on| lacks[on]);
        }
        let mut held: Vec<usize> = (0..count).filter(|&row| !lacks[row]).collect();
        if held.is_empty() {
            held.push(0);
        }
        self.shuffle(&mut held);
        Apart { rows, held }
    }

    pub fn shuffle<T>(&mut self, list: &mut [T]) {
        for k in (1..list.len()).rev() {
            list.swap(k, self.below(k + 1));
        }
    }

    /// Some of these, in any order; one at least, if there is one.
    fn picked(&mut self, list: &[Hash]) -> Vec<Hash> {
        let mut picked = list.to_vec();
        self.shuffle(&mut picked);
        if !list.is_empty() {
            picked.truncate(1 + self.below(list.len()));
        }
        picked
    }
}

/// What is promised: at most a round more than rows are lacking, and in the replies
/// no row that is held, none twice, and all that are lacking.
pub struct Promised {
    lacking: usize,
    named: BTreeSet<Hash>,
}

impl Promised {
    pub fn of(walk: &Walk) -> Promised {
        Promised {
            lacking: walk.lacks(),
            named: BTreeSet::new(),
        }
    }

    /// Looks at a reply before it is taken.
    fn look(&mut self, walk: &Walk, reply: &[Hash]) {
        assert!(walk.rounds() <= self.lacking, "a round too many");
        for hash in reply {
            assert!(!walk.holds(hash), "a row that is held: {hash:?}");
            assert!(
                self.named.insert(*hash),
                "a row for the second time: {hash:?}"
            );
        }
    }

    fn look_at_the_end(&self) {
        assert_eq!(self.named.len(), self.lacking);
    }
}

/// A catch-up that was as promised: how many rows were lacking, and the replies.
pub struct CaughtUp {
    pub lacking: usize,
    pub replies: Vec<Vec<Hash>>,
}

/// Has two fresh units talk until the validator holds what the station does, the
/// validator first. Everything that they say and keep is the walk's. None if a reply
/// goes as the document, which ends what is promised.
pub fn catch_up(make: Make, apart: &Apart) -> Option<CaughtUp> {
    catch_up_by([make; 2], apart, |_| By::Crate)
}

/// The same of units of two kinds, each of which is told by which numbers it speaks, in
/// each round.
pub fn catch_up_by(
    makes: [Make; 2],
    apart: &Apart,
    by: impl FnMut(usize) -> By,
) -> Option<CaughtUp> {
    catch_up_as(makes, apart, by, |pair, by| {
        (pair.speak_by(STATION, by), None)
    })
}

/// The same of a station that picks what goes with each reply (02, M-110): "a reply is then
/// an accepted pick, under the premise that every change fits the budget".
pub fn catch_up_picked(
    makes: [Make; 2],
    apart: &Apart,
    by: impl FnMut(usize) -> By,
    pick: &mut Picks,
) -> Option<CaughtUp> {
    catch_up_as(makes, apart, by, |pair, by| {
        let mut picked = Vec::new();
        let said = pair.speak_picked(STATION, by, &mut |table, list| {
            let picking = pick(table, list);
            picked = hashes_of(&picking.pick);
            picking
        });
        (said, Some(picked))
    })
}

/// What a station replies, and the pick that it made of what there was to send, if it made
/// one.
type Reply = (Option<Vec<u8>>, Option<Vec<Hash>>);

fn catch_up_as(
    makes: [Make; 2],
    apart: &Apart,
    mut by: impl FnMut(usize) -> By,
    mut replies: impl FnMut(&mut Pair, &By) -> Reply,
) -> Option<CaughtUp> {
    let (mut pair, mut walk) = (apart.pair(makes), apart.walk());
    let mut promised = Promised::of(&walk);
    let mut made = Vec::new();
    while made.is_empty() || walk.lacks() > 0 {
        let bys = [by(STATION), by(VALIDATOR)];
        made.push(round(
            &mut pair,
            &mut walk,
            &mut promised,
            &bys,
            &mut replies,
        )?);
    }
    promised.look_at_the_end();
    let lacking = promised.lacking;
    Some(CaughtUp {
        lacking,
        replies: made,
    })
}

/// A catch-up of units of the library, of which one now and then is the crate's, by
/// numbers that are others at each end and in each round; the crate's are 10 and 7.
pub fn catch_up_freely(random: &mut Random, apart: &Apart) -> Option<CaughtUp> {
    let mut makes: [Make; 2] = [proved; 2];
    let crates = random.below(4);
    if let Some(make) = makes.get_mut(crates) {
        *make = published;
    }
    catch_up_by(makes, apart, |unit| match unit == crates {
        true => By::Crate,
        false => random.by_good(),
    })
}

/// One round of both; the reply.
fn round(
    pair: &mut Pair,
    walk: &mut Walk,
    promised: &mut Promised,
    bys: &[By; 2],
    replies: &mut impl FnMut(&mut Pair, &By) -> Reply,
) -> Option<Vec<Hash>> {
    let numbers = bys[VALIDATOR].numbers().expect("good numbers");
    let giving = Giving {
        last_sync: pair.units[VALIDATOR].session().shared,
        bits: numbers.bits,
        probes: numbers.probes,
    };
    let stated = read_back(walk.state(&giving));
    let (_, asked) = send(pair, VALIDATOR, bys);
    assert_eq!(stated_in(&asked), stated);
    assert_eq!((asked.document, asked.hashes), (false, Vec::new()));

    let offer = walk.offer(&stated);
    let sent = pair.units[STATION].session().sent;
    assert_eq!(&sent, walk.sent(), "T, without what the validator has");
    let (reply, pick) = replies(pair, &bys[STATION]);
    let (reply, answered) = said(reply);
    if answered.document {
        return None;
    }
    let replied = pick.unwrap_or_else(|| offer.clone());
    assert_eq!(answered.hashes, replied);
    assert!(replied.iter().all(|hash| offer.contains(hash)));
    promised.look(walk, &replied);
    walk.reply(&replied);
    let sent = pair.units[STATION].session().sent;
    assert_eq!(&sent, walk.sent(), "T, with the reply");

    assert_eq!(pair.hear(VALIDATOR, &reply), Heard::Taken);
    assert_eq!(pair.held(VALIDATOR), walk.held());
    assert_eq!(waiting(pair), walk.waiting());
    Some(replied)
}

/// What a unit said, which it must, and what that says.
fn said(message: Option<Vec<u8>>) -> (Vec<u8>, Plan) {
    let message = message.expect("it has something to say");
    let plan = plan_of(&Message::decode(&message).expect("a good message"));
    (message, plan)
}

/// Has a unit say its next message, and the other one hear it.
fn send(pair: &mut Pair, unit: usize, bys: &[By; 2]) -> (Vec<u8>, Plan) {
    let (message, plan) = said(pair.speak_by(unit, &bys[unit]));
    assert_eq!(pair.hear(1 - unit, &message), Heard::Taken);
    (message, plan)
}

/// As it comes from bytes: a filter of no entries is written as no bytes, which are read as
/// one with the crate's numbers.
fn read_back(mut stated: Stated) -> Stated {
    if let Some(have) = &mut stated.have {
        if have.numbers[0] == 0 {
            have.numbers = [0, OF_THE_CRATE.bits, OF_THE_CRATE.probes];
        }
    }
    stated
}

fn stated_in(plan: &Plan) -> Stated {
    assert!(plan.haves.len() <= 1);
    Stated {
        heads: plan.heads.clone(),
        need: plan.need.clone(),
        have: plan.haves.first().cloned(),
    }
}

fn waiting(pair: &mut Pair) -> BTreeSet<Hash> {
    let waiting = pair.units[VALIDATOR].document().waiting();
    waiting.iter().map(|change| change.hash().0).collect()
}

/// A walk of the model alone, in which the validator gives in each round what it
/// likes: any last-sync hashes that it holds, any bits and probes. In every second
/// walk the reply is a part of the offer, in any order.
pub fn walk_freely(random: &mut Random, apart: &Apart) -> CaughtUp {
    let mut walk = apart.walk();
    let mut promised = Promised::of(&walk);
    let whole = random.one_in(2);
    let mut replies = Vec::new();
    while replies.is_empty() || walk.lacks() > 0 {
        let held: Vec<Hash> = walk.held().into_iter().collect();
        let giving = Giving {
            last_sync: (0..random.below(4)).map(|_| random.of(&held)).collect(),
            bits: 1 + random.below(32) as u64,
            probes: random.below(65) as u64,
        };
        let stated = walk.state(&giving);
        let mut reply = walk.offer(&stated);
        if !whole {
            reply = random.picked(&reply);
        }
        promised.look(&walk, &reply);
        walk.reply(&reply);
        replies.push(reply);
    }
    promised.look_at_the_end();
    let lacking = promised.lacking;
    CaughtUp { lacking, replies }
}

/// How many rounds catch-ups took, by how many rows were lacking.
#[derive(Default)]
pub struct Spread(BTreeMap<usize, BTreeMap<usize, u64>>);

impl Spread {
    pub fn count(&mut self, done: &CaughtUp) {
        let rounds = self.0.entry(done.lacking).or_default();
        *rounds.entry(done.replies.len()).or_default() += 1;
    }

    /// How many there were in which rows were lacking.
    pub fn catch_ups(&self) -> u64 {
        let lacking = self.0.range(1..);
        lacking.flat_map(|(_, rounds)| rounds.values()).sum()
    }

    /// How many of these took all the rounds that they may.
    pub fn at_the_bound(&self) -> u64 {
        let lacking = self.0.range(1..);
        let longest = lacking.filter_map(|(rows, rounds)| rounds.get(&(rows + 1)));
        longest.sum()
    }

    pub fn rounds(&self) -> u64 {
        let all = self.0.values().flatten();
        all.map(|(rounds, count)| *rounds as u64 * count).sum()
    }
}

impl fmt::Display for Spread {
    fn fmt(&self, f: &mut fmt::Formatter) -> fmt::Result {
        for (rows, rounds) in &self.0 {
            write!(f, "{rows} rows lacking:")?;
            for (rounds, count) in rounds {
                write!(f, " {rounds} rounds {count} times,")?;
            }
            writeln!(f, " of {} at most", rows + 1)?;
        }
        Ok(())
    }
}
