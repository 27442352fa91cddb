//! Every comparison at scale: each kind's inputs in turn, for as long as is asked. What
//! is held against what is said by the modules that compare; here inputs are made, run
//! one at a time and counted, and of those that differ the smallest is kept.
//!
//! The inputs of a kind and a round follow from the seed alone, not from how long
//! anything takes.

pub mod case;
mod counts;
mod filters;
mod kinds;
mod messages;
mod picks;
mod report;
mod salvage;
pub mod script;
mod selections;
mod sessions;
mod settings;
mod smallest;
mod states;
mod tables;
mod wire;

pub use kinds::KINDS;
pub use report::{progress, table, told};

use crate::inputs::Random;
use case::{Case, Kind};
use smallest::smallest;
use std::time::{Duration, Instant};

/// What has become of a kind's inputs.
#[derive(Clone, Debug, Default, PartialEq, Eq)]
pub struct Count {
    pub inputs: u64,
    /// Those to which the library's answer is none of the crate's, as
    /// docs/DIFFERENCES.md says.
    pub apart: u64,
    /// Those that differ otherwise.
    pub differences: u64,
    pub worst: Option<Differing>,
    pub took: Duration,
}

/// The smallest input that differs.
#[derive(Clone, Debug, PartialEq, Eq)]
pub struct Differing {
    pub case: Case,
    pub why: String,
    /// The round in which it, or the one that it was made smaller from, came.
    pub round: u64,
}

/// How many differing inputs of a kind are made smaller; the others are counted.
const MADE_SMALLER: u64 = 8;

impl Count {
    fn add(&mut self, kind: &Kind, case: Case, round: u64) {
        self.inputs += 1;
        let why = match kind.compare(&case) {
            Ok(apart) => {
                self.apart += u64::from(apart);
                return;
            }
            Err(why) => why,
        };
        self.differences += 1;
        if self.differences > MADE_SMALLER {
            return;
        }
        let (case, why) = smallest(kind, case, why);
        let size = |worst: &Differing| worst.case.size();
        if self.worst.as_ref().is_none_or(|w| case.size() < size(w)) {
            self.worst = Some(Differing { case, why, round });
        }
    }
}

/// When a run ends: after a number of rounds, or after a time.
#[derive(Clone, Copy, Debug)]
pub enum Until {
    Rounds(u64),
    Time(Duration),
}

/// Runs rounds of every kind; `each` is told the counts so far, after each kind.
pub fn run(kinds: &[Kind], seed: u64, until: Until, mut each: impl FnMut(&[Count])) -> Vec<Count> {
    let began = Instant::now();
    let over = |round: u64| match until {
        Until::Rounds(rounds) => round == rounds,
        Until::Time(time) => began.elapsed() >= time,
    };
    let mut counts = vec![Count::default(); kinds.len()];
    let mut round = 0;
    while !over(round) {
        for (k, kind) in kinds.iter().enumerate() {
            if matches!(until, Until::Time(_)) && over(round) {
                break;
            }
            let starts = Instant::now();
            let mut random = stream(seed, kind.name, round);
            for _ in 0..kind.a_round {
                let case = (kind.make)(&mut random);
                counts[k].add(kind, case, round);
            }
            counts[k].took += starts.elapsed();
            each(&counts);
        }
        round += 1;
    }
    counts
}

/// The numbers of a kind's round. They go by its name, so that a kind alone has the
/// same inputs as among others.
fn stream(seed: u64, name: &str, round: u64) -> Random {
    let mut random = Random(seed);
    for part in name.bytes().map(u64::from).chain([round]) {
        random = Random(random.word() ^ part);
    }
    random
}
