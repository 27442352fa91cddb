//! `catch-up --both`: the talk of two units that each have news (02, M-111), and what came
//! of each exchange.

mod json;
mod lines;
mod svg;

use super::premises::Difference;
use super::talk::{lacking, say, standing, unit, Spoken, Unit};
use crate::failure::Failure;
use bisquetower::{ChangeHash, Choice, Host, Table};

pub use json::text as json;
pub use lines::text as lines;
pub use svg::draw;

/// The ends, in the order in which they speak.
pub const VALIDATOR: usize = 0;
pub const STATION: usize = 1;

/// An exchange: a message of the validator's and one of the station's.
pub type Exchange = [Turn; 2];

/// What an end did in an exchange.
#[derive(Debug, Default, PartialEq, Eq)]
pub struct Turn {
    /// Rows of both tables that it held before the exchange, and those that waited there.
    pub held: usize,
    pub waited: usize,
    /// Hashes that it asked for by name.
    pub need: usize,
    /// Rows that it lacked and its filter took for held; none if it sent none.
    pub false_yes: Option<usize>,
    /// Hashes that its message names, and whether that was the whole document; those that
    /// were to be sent too and are left for later.
    pub sent: usize,
    pub document: bool,
    pub left: usize,
    /// Rows that waited after the exchange, and those neither held nor waiting.
    pub waiting: usize,
    pub missing: usize,
    /// Bytes of its message; none of an end that was silent.
    pub bytes: usize,
}

impl Turn {
    /// What an end says that lacks these rows.
    fn says(&mut self, said: &Spoken, lacked: &[ChangeHash]) {
        self.need = said.message.need.len();
        self.false_yes = said.message.have.first().map(|have| {
            let yes = have.bloom.contains_hashes(lacked);
            yes.iter().filter(|yes| **yes).count()
        });
        (self.sent, self.document, self.left) = (said.sent, said.document, said.left);
        self.bytes = said.bytes.len();
    }
}

#[derive(Debug, Default)]
pub struct Both {
    /// Rows of each table, and those of the other one that it lacked.
    pub rows: [usize; 2],
    pub lacked: [usize; 2],
    /// What both build their filters with.
    pub choice: Choice,
    /// The most bytes that the changes of a message take, if that is told; and what the
    /// largest change of both tables takes.
    pub budget: Option<u64>,
    pub largest: usize,
    /// The exchanges until both held the joint set.
    pub exchanges: Vec<Exchange>,
    /// Whether a message was the whole document, or a part of one that no message holds.
    pub document: bool,
    /// Whether both fell silent, and after how many exchanges.
    pub silent: bool,
    pub talked: usize,
    /// Rows that each held in the end.
    pub held: [usize; 2],
    /// Messages and their bytes, with those that closed the talk.
    pub messages: usize,
    pub bytes: usize,
}

impl Both {
    /// The rows of both tables together.
    pub fn joint(&self) -> usize {
        self.rows[VALIDATOR] + self.lacked[VALIDATOR]
    }

    /// max(j, k) + 1.
    pub fn bound(&self) -> usize {
        self.lacked[VALIDATOR].max(self.lacked[STATION]) + 1
    }

    pub fn by_list(&self) -> bool {
        !self.document
    }

    /// Whether every change fits the budget.
    pub fn all_fit(&self) -> bool {
        let largest = self.largest as u64;
        self.budget.is_none_or(|budget| largest <= budget)
    }

    pub fn ended_well(&self) -> bool {
        self.silent && self.held == [self.joint(); 2]
    }

    /// Whether it is a talk of which the bound is proved.
    pub fn proved(&self) -> bool {
        self.by_list() && self.all_fit() && self.ended_well()
    }

    /// How many exchanges began before both held the joint set; none if they never did.
    pub fn took(&self) -> Option<usize> {
        self.ended_well().then_some(self.exchanges.len())
    }

    /// Has units with these tables talk, the validator first, until both are silent, or have
    /// talked for longer than any two tables ask that agree.
    pub fn of(
        station: &Table,
        validator: &Table,
        choice: Choice,
        budget: Option<u64>,
    ) -> Result<Both, Failure> {
        agree(station, validator)?;
        takes_changes(choice)?;
        let (mut all, theirs) = (validator.hashes(), station.hashes());
        let unknown = lacking(&all, &theirs);
        let mut both = Both {
            rows: [all.len(), theirs.len()],
            lacked: [unknown.len(), lacking(&theirs, &all).len()],
            choice,
            budget,
            ..Both::default()
        };
        all.extend(unknown);
        let mut units = [unit(validator)?, unit(station)?];
        let changes = units
            .iter()
            .flat_map(|unit| all.iter().map(move |hash| (unit, hash)));
        let sizes = changes.flat_map(|(unit, hash)| unit.memory.change_size(hash));
        both.largest = sizes.max().unwrap_or(0);
        // Twice the bound of either way is never reached.
        let most = 2 * (both.lacked[VALIDATOR] + both.lacked[STATION]) + 8;
        while both.talked < most && !both.silent {
            both.silent = both.exchange(&mut units, &all)?;
            both.talked += usize::from(!both.silent);
        }
        both.held = units.map(|unit| standing(&unit.memory, &all).0);
        Ok(both)
    }

    /// One exchange of units that are to hold all these rows; whether nobody had anything to
    /// say.
    fn exchange(&mut self, units: &mut [Unit; 2], all: &[ChangeHash]) -> Result<bool, Failure> {
        let holds = |unit: &Unit| standing(&unit.memory, all).0 == all.len();
        // What is said once all is held closes the talk and is no exchange of its own.
        let closing = units.iter().all(holds);
        let mut turns = units.each_ref().map(|unit| {
            let (held, waited, _) = standing(&unit.memory, all);
            Turn {
                held,
                waited,
                ..Turn::default()
            }
        });
        let mut silent = true;
        for end in [VALIDATOR, STATION] {
            let (_, _, lacked) = standing(&units[end].memory, all);
            let [validator, station] = units;
            let said = match end {
                VALIDATOR => say(validator, station, self.choice, self.budget)?,
                _ => say(station, validator, self.choice, self.budget)?,
            };
            let Some(said) = said else { continue };
            silent = false;
            turns[end].says(&said, &lacked);
            self.document |= said.of_document;
            self.messages += 1;
            self.bytes += said.bytes.len();
        }
        for (turn, unit) in turns.iter_mut().zip(units) {
            let (_, waiting, missing) = standing(&unit.memory, all);
            (turn.waiting, turn.missing) = (waiting, missing.len());
        }
        if !closing && !silent {
            self.exchanges.push(turns);
        }
        Ok(silent)
    }
}

/// Equal hashes have to have equal dependencies.
fn agree(station: &Table, validator: &Table) -> Result<(), Failure> {
    let differs = Difference::first(station, validator);
    match differs.filter(Difference::contradicts) {
        None => Ok(()),
        Some(row) => Err(Failure::refused(
            format!("the tables contradict each other: {row}"),
            super::FIND_OUT,
        )),
    }
}

/// Where one end takes no changes, both never hold the joint set.
fn takes_changes(choice: Choice) -> Result<(), Failure> {
    match choice.read_only {
        false => Ok(()),
        true => Err(Failure::refused(
            "the station is read-only and takes no changes, so both ends can't catch up",
            "name a version at which it takes changes, or leave --both out.",
        )),
    }
}

/// What is shown of a talk that ended well; of another it is shown and has failed.
pub fn judged(both: &Both, shown: String) -> Result<String, Failure> {
    if both.ended_well() {
        return Ok(shown);
    }
    let next = match both.all_fit() {
        false => super::TOO_SMALL,
        true => super::KEEP,
    };
    Err(Failure::refused(lines::ended(both), next).showing(shown))
}
