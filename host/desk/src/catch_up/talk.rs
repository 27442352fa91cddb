//! The talk of two units, and what came of each round.

use super::premises::Difference;
use crate::failure::Failure;
use bisquetower::refusal::grouped;
use bisquetower::{
    Change, ChangeHash, Choice, Error, Host, Limits, Memory, MemoryError, Message, MessageVersion,
    Refusal, Session, Table,
};
use std::collections::HashSet;

/// A round: the validator speaks, the station replies.
#[derive(Debug, Default, PartialEq, Eq)]
pub struct Round {
    /// Rows of the station's table that the validator held before the round, and those
    /// that waited there.
    pub held: usize,
    pub waited: usize,
    /// Hashes that the validator asked for by name.
    pub need: usize,
    /// Rows that the validator lacked and its filter took for held; none if it sent none.
    pub false_yes: Option<usize>,
    /// Hashes that the reply names, and whether it was the whole document; those that were
    /// to be sent too and are left for later replies.
    pub sent: usize,
    pub document: bool,
    pub left: usize,
    /// Rows that waited after the round, and those neither held nor waiting.
    pub waiting: usize,
    pub missing: usize,
    /// Bytes of both messages.
    pub asked_bytes: usize,
    pub reply_bytes: usize,
}

#[derive(Debug, Default)]
pub struct Talk {
    pub station_rows: usize,
    pub validator_rows: usize,
    /// Rows that the validator lacked, and those that the station did.
    pub missing: usize,
    pub foreign: usize,
    /// What both build their filters with, and whether the station takes no changes.
    pub choice: Choice,
    /// The most bytes that the changes of a message take, if that is told; and what the
    /// largest change of the station's takes.
    pub budget: Option<u64>,
    pub largest: usize,
    /// Where the validator's table isn't a part of the station's.
    pub differs: Option<Difference>,
    /// The rounds until both held the rows of both tables.
    pub rounds: Vec<Round>,
    /// Whether a reply was the whole document, or a part of one that no message holds, in
    /// those rounds or in what closed the talk.
    pub document: bool,
    /// Whether both fell silent, and after how many rounds.
    pub silent: bool,
    pub talked: usize,
    /// Rows that the station and the validator held in the end.
    pub held: [usize; 2],
    /// Whether the validator held every row of the station's table in the end.
    pub holds: bool,
    /// Every message, in order.
    pub messages: Vec<Said>,
    /// The validator's waiting table when it was longest.
    pub waiting: Vec<u8>,
    /// Saved states in the end: the station's, the validator's.
    pub states: [Vec<u8>; 2],
}

#[derive(Debug)]
pub struct Said {
    pub by_station: bool,
    pub bytes: Vec<u8>,
}

/// A unit: its document and what it knows of the other.
pub(super) struct Unit {
    pub memory: Memory,
    pub session: Session,
}

/// What a unit said: the message and its bytes, how many hashes it carries, whether they are
/// the whole document, or it was to be that and went in part, and how many that were to go
/// too are left.
pub(super) struct Spoken {
    pub message: Message,
    pub bytes: Vec<u8>,
    pub sent: usize,
    pub document: bool,
    pub of_document: bool,
    pub left: usize,
}

impl Round {
    /// What the validator says of the rows that it lacks.
    fn asks(&mut self, said: &Spoken, lacked: &[ChangeHash]) {
        self.need = said.message.need.len();
        self.false_yes = said.message.have.first().map(|have| {
            let yes = have.bloom.contains_hashes(lacked);
            yes.iter().filter(|yes| **yes).count()
        });
        self.asked_bytes = said.bytes.len();
    }

    fn is_answered(&mut self, said: &Spoken) {
        (self.sent, self.document, self.left) = (said.sent, said.document, said.left);
        self.reply_bytes = said.bytes.len();
    }
}

impl Talk {
    /// The most rounds for a validator whose table is a part of the station's; none for
    /// another.
    pub fn bound(&self) -> Option<usize> {
        self.differs.is_none().then_some(self.missing + 1)
    }

    /// Whether every reply was a list of changes, as the bound wants it. A validator without
    /// rows is sent the document even by a station without any.
    pub fn by_list(&self) -> bool {
        !self.document
    }

    /// Whether it is a talk of which the bound is proved: of sessions that take changes,
    /// each of which fits the budget.
    pub fn proved(&self) -> bool {
        let takes = !self.choice.read_only && self.all_fit();
        self.bound().is_some() && self.by_list() && self.holds && takes
    }

    /// Whether every change of the station's fits the budget.
    pub fn all_fit(&self) -> bool {
        let largest = self.largest as u64;
        self.budget.is_none_or(|budget| largest <= budget)
    }

    /// The row of which the tables say two things.
    pub fn contradiction(&self) -> Option<&Difference> {
        self.differs.as_ref().filter(|row| row.contradicts())
    }

    /// How many rounds began before the validator held every row of the station's table;
    /// none if it never did.
    pub fn took(&self) -> Option<usize> {
        let lacking = |round: &&Round| round.held < self.station_rows;
        let rounds = self.rounds.iter().filter(lacking).count();
        self.holds.then_some(rounds)
    }

    /// The rows of both tables together.
    pub fn all_rows(&self) -> usize {
        self.station_rows + self.foreign
    }

    /// Whether both fell silent and hold the rows of both tables, of which the tables say
    /// the same.
    pub fn ended_well(&self) -> bool {
        let agree = self.contradiction().is_none();
        agree && self.silent && self.held == [self.all_rows(); 2]
    }

    pub fn bytes(&self) -> usize {
        self.messages.iter().map(|said| said.bytes.len()).sum()
    }

    /// Has units with these tables talk until both are silent, or have talked for longer
    /// than any two tables ask that agree. Their filters are as the station chose, and so
    /// is whether it takes changes; the changes of each message keep to the budget.
    pub fn of(
        station: &Table,
        validator: &Table,
        choice: Choice,
        budget: Option<u64>,
    ) -> Result<Talk, Failure> {
        let (mut all, own) = (station.hashes(), validator.hashes());
        let foreign = lacking(&all, &own);
        let mut talk = Talk {
            station_rows: all.len(),
            validator_rows: own.len(),
            missing: lacking(&own, &all).len(),
            foreign: foreign.len(),
            choice,
            budget,
            differs: Difference::first(station, validator),
            ..Talk::default()
        };
        all.extend(foreign);
        let mut units = [unit(station)?, unit(validator)?];
        units[0].session.set_read_only(choice.read_only);
        let sizes = all.iter().map(|hash| units[0].memory.change_size(hash));
        talk.largest = sizes.flatten().max().unwrap_or(0);
        // Twice the bound of either way is never reached.
        let most = 2 * (talk.missing + talk.foreign) + 8;
        while talk.talked < most && !talk.silent {
            talk.silent = talk.round(&mut units, &all)?;
            talk.talked += usize::from(!talk.silent);
        }
        talk.held = [0, 1].map(|k| standing(&units[k].memory, &all).0);
        let rows = &all[..talk.station_rows];
        talk.holds = standing(&units[1].memory, rows).0 == rows.len();
        talk.states = units.map(|unit| unit.session.encode());
        Ok(talk)
    }

    /// One round, of units that are to hold all these rows, the station's first; whether
    /// nobody had anything to say.
    fn round(&mut self, units: &mut [Unit; 2], all: &[ChangeHash]) -> Result<bool, Failure> {
        let holds = |unit: &Unit| standing(&unit.memory, all).0 == all.len();
        // What is said once all is held closes the talk and is no round of its own.
        let closing = self.contradiction().is_none() && units.iter().all(holds);
        let rows = &all[..self.station_rows];
        let [station, validator] = units;
        let (held, waited, lacked) = standing(&validator.memory, rows);
        let mut round = Round {
            held,
            waited,
            ..Round::default()
        };
        let question = say(validator, station, self.choice, self.budget)?;
        if let Some(said) = &question {
            round.asks(said, &lacked);
            self.said(false, &said.bytes);
        }
        let reply = say(station, validator, self.choice, self.budget)?;
        if let Some(said) = &reply {
            round.is_answered(said);
            self.document |= said.of_document;
            self.said(true, &said.bytes);
        }
        let waits = validator.memory.waiting();
        if waits.len() > self.waiting.len() {
            self.waiting = waits.into_owned();
        }
        let (_, waiting, missing) = standing(&validator.memory, rows);
        (round.waiting, round.missing) = (waiting, missing.len());
        let silent = question.is_none() && reply.is_none();
        if !closing && !silent {
            self.rounds.push(round);
        }
        Ok(silent)
    }

    fn said(&mut self, by_station: bool, bytes: &[u8]) {
        let bytes = bytes.to_vec();
        self.messages.push(Said { by_station, bytes });
    }
}

/// The hashes that aren't among those that are held.
pub(super) fn lacking(held: &[ChangeHash], of: &[ChangeHash]) -> Vec<ChangeHash> {
    let held: HashSet<_> = held.iter().collect();
    let lacked = of.iter().filter(|hash| !held.contains(hash));
    lacked.copied().collect()
}

/// The unit of a table, whose changes have no contents.
pub(super) fn unit(table: &Table) -> Result<Unit, Failure> {
    let mut memory = Memory::new();
    for row in 0..table.rows() {
        let on = table.dependencies(row);
        let change = Change {
            hash: table.hash(row),
            dependencies: on.into_iter().map(|row| table.hash(row)).collect(),
            contents: Vec::new(),
        };
        memory.add(change).map_err(|why| failed(Error::Load(why)))?;
    }
    let session = Session::new();
    Ok(Unit { memory, session })
}

/// What one unit says to the other, if there is something to say.
pub(super) fn say(
    from: &mut Unit,
    to: &mut Unit,
    choice: Choice,
    budget: Option<u64>,
) -> Result<Option<Spoken>, Failure> {
    let Unit { memory, session } = from;
    let before = session.clone();
    let message = match budget {
        Some(budget) => session.generate_within_with(memory, budget, choice),
        None => session.generate_with(memory, choice),
    };
    let Some(message) = message.map_err(failed)? else {
        return Ok(None);
    };
    let refused = |refusal: Refusal| failed(refusal.into());
    let [offer, left] = [&before, session].map(|session| session.offer(&memory.table()));
    let (offer, left) = (offer.map_err(refused)?, left.map_err(refused)?);
    // A document that no message holds goes by list, and then in version 1.
    let document = offer.document && message.version == MessageVersion::V2;
    let now = session.sent_hashes();
    let sent = match document {
        true => offer.hashes.len(),
        false => now.len() - before.sent_hashes().len(),
    };
    let left = lacking(&now, &left.hashes).len();
    let bytes = message.encode().map_err(refused)?;
    to.session.receive(&mut to.memory, &bytes).map_err(failed)?;
    Ok(Some(Spoken {
        message,
        bytes,
        sent,
        document,
        of_document: offer.document,
        left,
    }))
}

fn failed(why: Error<MemoryError>) -> Failure {
    let rows = grouped(Limits::told().rows);
    Failure::refused(
        format!("the units can't go on: {why}"),
        format!("both units together keep to {rows} rows; docs/ABI.md lists the other limits."),
    )
}

/// Of these rows, how many are held, how many wait, and which are neither.
pub(super) fn standing(memory: &Memory, all: &[ChangeHash]) -> (usize, usize, Vec<ChangeHash>) {
    let names = |changes: &[Change]| changes.iter().map(|c| c.hash).collect::<HashSet<_>>();
    let (held, waiting) = (names(memory.changes()), names(memory.waiting_changes()));
    let lacked = all.iter().filter(|hash| !held.contains(hash));
    let (waits, lacked): (Vec<_>, Vec<_>) = lacked.partition(|hash| waiting.contains(hash));
    (all.len() - waits.len() - lacked.len(), waits.len(), lacked)
}
