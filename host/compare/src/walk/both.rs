//! Both ends have news (02, M-111): two units that each hold rows which the other lacks
//! talk beside the model of the exchange, and what is promised of it is looked at message
//! by message.

use super::{read_back, said, stated_in, WORDS};
use crate::inputs::table::{Row, Shape, SHAPES};
use crate::inputs::Random;
use crate::model::ends::{End, On};
use crate::model::plan::{By, FLAG_SUPPORTS_RESET};
use crate::model::session::Value;
use crate::model::state::IN_FLIGHT;
use crate::model::table::{hashes_of, Hash};
use crate::model::walk::Giving;
use crate::talks::document_of;
use crate::units::{proved, published, Heard, Make, Picks, Unit};
use std::collections::{BTreeMap, BTreeSet, HashMap};
use std::fmt;

/// The end that speaks first, and the other one.
const FIRST: usize = 0;
const SECOND: usize = 1;

/// Rows of a joint set, and which of them each end holds, in the order in which they came;
/// an end gets what they depend on before them. The first end speaks first.
#[derive(Clone, Debug)]
pub struct News {
    pub rows: Vec<Row>,
    pub held: [Vec<usize>; 2],
}

impl News {
    fn units(&self, makes: [Make; 2]) -> [Box<dyn Unit>; 2] {
        [FIRST, SECOND].map(|end| {
            let document = document_of(&self.rows, &self.held[end]);
            makes[end](document, Value::default())
        })
    }

    /// What each row of the joint set depends on.
    fn on(&self) -> HashMap<Hash, Vec<Hash>> {
        let hash = |&row: &usize| self.rows[row].hash;
        let on = |row: &Row| row.dependencies.iter().map(hash).collect();
        self.rows.iter().map(|row| (row.hash, on(row))).collect()
    }
}

/// Most rows that one end lacks of the other's: mostly, now and then, and seldom.
const FEW: usize = 12;
const MORE: usize = 60;
pub const MANY: usize = 300;

/// Shapes of rows that depend on few others, which are cheap however many there are.
const LIGHT: [Shape; 3] = [Shape::Deep, Shape::Diamonds, Shape::Recent];

impl Random {
    /// Two ends that lack few rows of each other, seldom many.
    pub fn news(&mut self) -> News {
        let most = match self.below(500) {
            0 => MANY,
            1..=12 => MORE,
            _ => 1 + self.below(FEW),
        };
        self.news_of(most)
    }

    /// Two ends that each lack up to `most` rows which the other has. Mostly they share so
    /// many rows that no list is longer than a third of a table. Every other pair has chains,
    /// of which a false yes may hide all.
    pub fn news_of(&mut self, most: usize) -> News {
        let lacking = [(); 2].map(|()| match self.one_in(16) {
            true => 0,
            false => self.below(most + 1),
        });
        let enough = 2 * lacking[0].max(lacking[1]);
        let shared = match self.one_in(12) {
            true => 1 + self.below(enough + 1),
            false => 1 + enough + self.below(8),
        };
        let shapes: &[Shape] = match (self.one_in(2), most > MORE) {
            (true, _) => &[Shape::Deep],
            (false, true) => &LIGHT,
            (false, false) => &SHAPES,
        };
        let count = shared + lacking[0] + lacking[1];
        let words = self.of(&WORDS);
        let hashes = self.crowded_hashes(count, words);
        let (common, mut news) = hashes.split_at(shared);
        let mut rows = self.shaped(common, shapes);
        let mut held = [(); 2].map(|()| (0..shared).collect::<Vec<_>>());
        // What the second end lacks is the first one's, and the other way round.
        for end in [FIRST, SECOND] {
            let (own, others) = news.split_at(lacking[1 - end]);
            news = others;
            let all = self.shaped(&[common, own].concat(), shapes);
            // Rows after the common ones stand where this end's begin.
            let behind = rows.len() - shared;
            let moved = |on: usize| if on < shared { on } else { on + behind };
            for row in &all[shared..] {
                held[end].push(rows.len());
                rows.push(Row {
                    hash: row.hash,
                    dependencies: row.dependencies.iter().map(|&on| moved(on)).collect(),
                });
            }
            self.shuffle(&mut held[end]);
        }
        News { rows, held }
    }

    fn shaped(&mut self, hashes: &[Hash], shapes: &[Shape]) -> Vec<Row> {
        let shape = self.of(shapes);
        self.rows_of(hashes, shape)
    }
}

/// A talk that was as promised.
#[derive(Clone, Debug, PartialEq, Eq)]
pub struct Talked {
    /// Rows that each end lacked, the first speaker's first.
    pub lacking: [usize; 2],
    /// Every message until both held the joint set, and then until both were silent.
    pub messages: Vec<Vec<u8>>,
    /// What each message named, until both held the joint set.
    pub lists: Vec<Vec<Hash>>,
}

impl Talked {
    /// "at most max(j, k) + 1 exchanges".
    pub fn bound(&self) -> usize {
        bound(self.lacking)
    }

    /// Exchanges that began before both held the joint set.
    pub fn exchanges(&self) -> usize {
        self.lists.len().div_ceil(2)
    }
}

fn bound([j, k]: [usize; 2]) -> usize {
    j.max(k) + 1
}

/// Messages that may follow once both hold the joint set.
const CLOSING: usize = 4;

/// Has two fresh units talk, each by the numbers that it is told, until both hold the joint
/// set, and on until both are silent. All that they say is the model's, and as promised. None
/// if a document is said, which ends what is promised.
pub fn talk(makes: [Make; 2], news: &News, by: impl FnMut(usize) -> By) -> Option<Talked> {
    talk_as(makes, news, by, |unit, by| {
        let said = match by {
            By::Crate => unit.speak(),
            other => unit.speak_by(other),
        };
        (said, None)
    })
}

/// The same of ends that pick what goes with each message (02, M-110), of changes that each
/// fit the budget.
pub fn talk_picked(
    makes: [Make; 2],
    news: &News,
    by: impl FnMut(usize) -> By,
    pick: &mut Picks,
) -> Option<Talked> {
    talk_as(makes, news, by, |unit, by| {
        let mut picked = Picked::default();
        let said = unit.speak_picked(by, &mut |table, list| {
            let picking = pick(table, list);
            picked = Picked {
                of: list.to_vec(),
                pick: hashes_of(&picking.pick),
            };
            picking
        });
        (said, Some(picked))
    })
}

/// What a unit says, and what it picked, if it did.
type Saying = (Option<Vec<u8>>, Option<Picked>);

/// What there was to send, and the pick of it.
#[derive(Default)]
struct Picked {
    of: Vec<Hash>,
    pick: Vec<Hash>,
}

fn talk_as(
    makes: [Make; 2],
    news: &News,
    mut by: impl FnMut(usize) -> By,
    mut speak: impl FnMut(&mut dyn Unit, &By) -> Saying,
) -> Option<Talked> {
    let mut talk = Talk::new(makes, news);
    while !talk.done() {
        talk.turn(&mut by, &mut speak)?;
    }
    talk.names_all();
    talk.closes(&mut by, &mut speak);
    Some(talk.talked)
}

/// The same by a pair of the library, by pairs of which one end is the crate's, and by a pair
/// of the crate: every message is the same. `make` makes the library's.
pub fn compare_talks(make: Make, news: &News) -> Option<Talked> {
    let crates = talk([published; 2], news, |_| By::Crate);
    for makes in [[make; 2], [make, published], [published, make]] {
        let talked = talk(makes, news, |_| By::Crate);
        assert_eq!(talked, crates, "it isn't what two units of the crate say");
    }
    crates
}

/// A talk of units of the library by numbers that are others at each end and each time.
pub fn talk_freely(random: &mut Random, news: &News) -> Option<Talked> {
    talk([proved; 2], news, |_| random.by_good())
}

struct Talk {
    units: [Box<dyn Unit>; 2],
    ends: [End; 2],
    on: HashMap<Hash, Vec<Hash>>,
    talked: Talked,
}

impl Talk {
    fn new(makes: [Make; 2], news: &News) -> Talk {
        let (mut units, on) = (news.units(makes), news.on());
        let ends = units.each_mut().map(|unit| {
            let rows = unit.document().rows().iter().map(|row| row.hash().0);
            let changes: Vec<On> = rows.map(|hash| (hash, on[&hash].clone())).collect();
            End::new(&changes)
        });
        let lacking = ends.each_ref().map(|end| on.len() - end.rows());
        let talked = Talked {
            lacking,
            messages: Vec::new(),
            lists: Vec::new(),
        };
        Talk {
            units,
            ends,
            on,
            talked,
        }
    }

    /// Whether both hold the joint set.
    fn done(&self) -> bool {
        self.ends.iter().all(|end| end.rows() == self.on.len())
    }

    /// One message until both hold the joint set; none if a document is said.
    fn turn(
        &mut self,
        by: &mut impl FnMut(usize) -> By,
        speak: &mut impl FnMut(&mut dyn Unit, &By) -> Saying,
    ) -> Option<()> {
        let messages = self.talked.lists.len();
        assert!(messages / 2 < self.talked.bound(), "an exchange too many");
        let (from, to) = (messages % 2, 1 - messages % 2);
        let by = by(from);
        let giving = self.giving(from, &by);
        let (message, picked) = speak(&mut *self.units[from], &by);
        let (message, plan) = said(message);
        if plan.document {
            return None;
        }
        let said = stated_in(&plan);
        assert_eq!(said, read_back(self.ends[from].states(&giving)));
        let Picked { of, pick } = picked.unwrap_or_else(|| Picked {
            of: plan.hashes.clone(),
            pick: plan.hashes.clone(),
        });
        assert_eq!(of, self.ends[from].lists());
        assert_eq!(plan.hashes, pick);
        assert!(pick.iter().all(|hash| of.contains(hash)));
        assert_eq!(plan.flags, FLAG_SUPPORTS_RESET);
        let session = self.units[from].session();
        assert!(session.is(IN_FLIGHT), "a reset leaves the session");
        for hash in &plan.hashes {
            assert!(!self.ends[to].holds(hash), "a row that is held: {hash:?}");
        }
        assert!(messages > 0 || plan.hashes.is_empty() && plan.need.is_empty());
        self.ends[from].names(&plan.hashes);
        assert_eq!(&session.sent, self.ends[from].sent(), "T, with the list");

        assert_eq!(self.units[to].hear(&message), Heard::Taken);
        let changes = plan.hashes.iter();
        let changes = changes.map(|hash| (*hash, self.on[hash].clone()));
        self.ends[to].hears(said, changes.collect());
        self.same(to);
        self.talked.messages.push(message);
        self.talked.lists.push(plan.hashes);
        Some(())
    }

    /// What a have of this end is built by; "each last-sync hash is held by both ends when it
    /// is named".
    fn giving(&self, end: usize, by: &By) -> Giving {
        let last_sync = self.units[end].session().shared;
        for hash in &last_sync {
            let both = self.ends.iter().all(|end| end.holds(hash));
            assert!(both, "a last-sync hash that isn't held: {hash:?}");
        }
        let numbers = by.numbers().expect("good numbers");
        Giving {
            last_sync,
            bits: numbers.bits,
            probes: numbers.probes,
        }
    }

    /// That a unit holds, keeps waiting and has sent what the model's end does.
    fn same(&mut self, end: usize) {
        let (unit, model) = (&mut self.units[end], &self.ends[end]);
        assert_eq!(&unit.session().sent, model.sent(), "T, on hearing");
        let document = unit.document();
        let held: BTreeSet<Hash> = document.rows().iter().map(|row| row.hash().0).collect();
        assert_eq!(held, model.held());
        let waiting = document.waiting().iter().map(|change| change.hash().0);
        assert_eq!(waiting.collect::<BTreeSet<Hash>>(), model.waiting());
    }

    /// "j rows have been named in one direction and k in the other, and no row crosses twice
    /// in the same direction".
    fn names_all(&self) {
        for end in [FIRST, SECOND] {
            let named = self.ends[end].named();
            let once: BTreeSet<&Hash> = named.iter().collect();
            assert_eq!(once.len(), named.len(), "a row for the second time");
            assert_eq!(named.len(), self.talked.lacking[1 - end]);
        }
    }

    /// The rest of the talk names nothing, and ends soon.
    fn closes(
        &mut self,
        by: &mut impl FnMut(usize) -> By,
        speak: &mut impl FnMut(&mut dyn Unit, &By) -> Saying,
    ) {
        let (mut turn, mut silent) = (self.talked.lists.len() % 2, 0);
        while silent < 2 {
            let (message, _) = speak(&mut *self.units[turn], &by(turn));
            silent = if message.is_some() { 0 } else { silent + 1 };
            if message.is_some() {
                let (message, plan) = said(message);
                assert_eq!((&plan.hashes, &plan.need), (&vec![], &vec![]));
                assert_eq!(self.units[1 - turn].hear(&message), Heard::Taken);
                self.talked.messages.push(message);
                let after = self.talked.messages.len() - self.talked.lists.len();
                assert!(after <= CLOSING, "the ends don't fall silent");
            }
            turn = 1 - turn;
        }
    }
}

/// Which end lacked more.
#[derive(Clone, Copy, Debug, PartialEq, Eq, PartialOrd, Ord)]
pub enum More {
    First,
    Second,
    Same,
}

/// How many exchanges talks took, by which end lacked more and by the bound.
#[derive(Default)]
pub struct Exchanges {
    talks: BTreeMap<(More, usize), BTreeMap<usize, u64>>,
    /// Talks in which a document was said.
    pub left_out: u64,
}

/// The bounds that are told together, by the largest.
const TOLD: [usize; 7] = [1, 2, 5, 10, 30, 100, MANY + 1];

impl Exchanges {
    pub fn count(&mut self, talked: &Option<Talked>) {
        let Some(talked) = talked else {
            self.left_out += 1;
            return;
        };
        let [j, k] = talked.lacking;
        let more = match j.cmp(&k) {
            std::cmp::Ordering::Greater => More::First,
            std::cmp::Ordering::Less => More::Second,
            std::cmp::Ordering::Equal => More::Same,
        };
        let talks = self.talks.entry((more, talked.bound())).or_default();
        *talks.entry(talked.exchanges()).or_default() += 1;
    }

    /// Talks that went by list, and those of them in which a row was lacking that took just
    /// as many exchanges as they may.
    pub fn talks(&self) -> u64 {
        self.talks.values().flat_map(BTreeMap::values).sum()
    }

    pub fn at_the_bound(&self) -> u64 {
        let talks = self.talks.iter();
        let longest = talks.filter_map(|((_, bound), talks)| talks.get(bound));
        longest.sum()
    }

    /// A row for bounds from `least` to `most`, if there was a talk of them.
    fn row(&self, more: More, least: usize, most: usize) -> Option<String> {
        let talks = self.talks.range((more, least)..=(more, most));
        let (mut count, mut longest, mut just) = (0, 0, 0);
        for ((_, bound), talks) in talks {
            for (&took, &n) in talks {
                count += n;
                longest = longest.max(took);
                just += if took == *bound { n } else { 0 };
            }
        }
        if count == 0 {
            return None;
        }
        let lacked = match more {
            More::First => "the first speaker",
            More::Second => "the second",
            More::Same => "neither",
        };
        let bounds = match least == most {
            true => most.to_string(),
            false => format!("{least} to {most}"),
        };
        Some(format!(
            "| {lacked} | {bounds} | {count} | {just} | {longest} |"
        ))
    }
}

impl fmt::Display for Exchanges {
    fn fmt(&self, f: &mut fmt::Formatter) -> fmt::Result {
        writeln!(
            f,
            "| lacked more | bound | talks | took just the bound | most exchanges |"
        )?;
        writeln!(f, "|---|---|---|---|---|")?;
        for more in [More::First, More::Second, More::Same] {
            let mut least = 1;
            for most in TOLD {
                if let Some(row) = self.row(more, least, most) {
                    writeln!(f, "{row}")?;
                }
                least = most + 1;
            }
        }
        Ok(())
    }
}
