//! What is said within a budget: that of a radio, and that of a message.

use super::generate::{checked, Plan};
use super::{Session, HAVE_RESPONDED, IN_FLIGHT, SUPPORTS_V2};
use crate::hash::{hashes_in, ChangeHash, HASH};
use crate::index::Index;
use crate::limits::{MESSAGE_SIZE, TO_SEND_SIZE};
use crate::pick::picked;
use crate::refusal::{answer, Refusal};
use crate::{explain, raw, Choice, Error, Host, Message, Table};
use std::borrow::Cow;

/// The refusal of a message that passes its size, as of all that passes a limit.
const LIMIT: u64 = 4;

/// What a session has to send.
#[derive(Clone, Debug, PartialEq, Eq)]
pub struct Offer {
    /// Whether the whole document goes, and not the changes one by one.
    pub document: bool,
    /// The hashes to send less those that were sent, those that the peer asked for first and
    /// as often as it did; of a document those of all rows.
    pub hashes: Vec<ChangeHash>,
}

impl Session {
    /// What there is to send to the peer over a change table as bytes, all of it: what
    /// [`next_message`](Session::next_message) would carry, whether or not it is silent now.
    /// Behind a message within a budget it is what that left for the next ones.
    pub fn offer(&self, table: &[u8]) -> Result<Offer, Refusal> {
        self.offer_beside(table, &mut self.index.clone())
    }

    /// The offer, with an index that becomes the table's.
    fn offer_beside(&self, table: &[u8], index: &mut Index) -> Result<Offer, Refusal> {
        let mut list = vec![0; TO_SEND_SIZE];
        let (session, lists) = (&self.words, &self.lists);
        let words = index.beside(table, |index| {
            raw::offer(
                session,
                &lists.shared,
                &lists.last_sent,
                &lists.their_heads,
                &lists.their_need,
                &lists.haves,
                &lists.bytes,
                &lists.sent,
                table,
                index,
                &mut list,
            )
        });
        let [document, count, _] =
            answer(words).map_err(|refusal| explain::table(table, refusal))?;
        Ok(Offer {
            document: document != 0,
            hashes: hashes_in(&list[..HASH * count as usize]),
        })
    }

    /// [`next_message`](Session::next_message) for a radio that takes a number of bytes: the
    /// changes of the message take no more than the budget, and what doesn't fit waits for
    /// the next ones. Each message may have its own budget. If every change fits by itself,
    /// and the messages go by list, a unit that lacks m changes has them after at most m + 1
    /// rounds, as without a budget. A change that doesn't fit waits, and with it what depends
    /// on it; the message then goes without it.
    ///
    /// What counts is what changes take of the message: their bytes, as
    /// [`Host::change_size`] tells them, and in version 1 of each the number before them.
    /// Heads, needs and the filter come on top, and a document goes whole, whatever the
    /// budget is. A message is never larger than
    /// [`MESSAGE_SIZE`](crate::limits::MESSAGE_SIZE), whatever the budget is.
    ///
    /// ```
    /// use bisquetower::{Change, ChangeHash, Host, Memory, Session};
    ///
    /// // Forty changes of 143 bytes each, and a validator that lacks the last three.
    /// let hash = |n: u8| ChangeHash([n; 32]);
    /// let change = |n: u8| Change {
    ///     hash: hash(n),
    ///     dependencies: n.checked_sub(1).map(hash).into_iter().collect(),
    ///     contents: vec![n; 73],
    /// };
    /// let (mut station, mut validator) = (Memory::new(), Memory::new());
    /// for n in 0..40 {
    ///     station.add(change(n))?;
    ///     if n < 37 {
    ///         validator.add(change(n))?;
    ///     }
    /// }
    ///
    /// let (mut ours, mut theirs) = (Session::new(), Session::new());
    /// let mut waits = vec![];
    /// loop {
    ///     let question = ours.next_message(&validator)?;
    ///     if let Some(bytes) = &question {
    ///         theirs.receive(&mut station, bytes)?;
    ///     }
    ///     let reply = theirs.next_message_within(&station, 300)?;
    ///     if let Some(bytes) = &reply {
    ///         ours.receive(&mut validator, bytes)?;
    ///         waits.push(theirs.offer(&station.table())?.hashes.len());
    ///     }
    ///     if question.is_none() && reply.is_none() {
    ///         break;
    ///     }
    /// }
    /// // Two changes went with the first reply, and one with the second.
    /// assert_eq!(waits, [1, 0]);
    /// assert_eq!(validator.changes(), station.changes());
    /// # Ok::<(), Box<dyn std::error::Error>>(())
    /// ```
    pub fn next_message_within<H: Host>(
        &mut self,
        host: &H,
        budget: u64,
    ) -> Result<Option<Vec<u8>>, Error<H::Error>> {
        self.next_message_within_with(host, budget, Choice::default())
    }

    /// [`next_message_within`](Session::next_message_within) with a filter of other bits per
    /// entry and probes, as a station's [`Settings`](crate::Settings) have them.
    pub fn next_message_within_with<H: Host>(
        &mut self,
        host: &H,
        budget: u64,
        choice: Choice,
    ) -> Result<Option<Vec<u8>>, Error<H::Error>> {
        self.say(host, choice, Some(budget), |message| message.encode())
    }

    /// [`next_message_within`](Session::next_message_within) as a value.
    pub fn generate_within<H: Host>(
        &mut self,
        host: &H,
        budget: u64,
    ) -> Result<Option<Message>, Error<H::Error>> {
        self.generate_within_with(host, budget, Choice::default())
    }

    /// [`generate_within`](Session::generate_within) with a filter of other bits per entry
    /// and probes.
    pub fn generate_within_with<H: Host>(
        &mut self,
        host: &H,
        budget: u64,
        choice: Choice,
    ) -> Result<Option<Message>, Error<H::Error>> {
        self.say(host, choice, Some(budget), checked)
    }

    /// What is made of the next message, or of a part of it that can be sent. The session
    /// changes once that is there: by then the host has lent everything.
    pub(super) fn say<H: Host, T>(
        &mut self,
        host: &H,
        choice: Choice,
        budget: Option<u64>,
        make: impl Fn(Message) -> Result<T, Refusal>,
    ) -> Result<Option<T>, Error<H::Error>> {
        let unit = Unit::of(host, choice);
        let mut next = self.clone();
        let Some(plan) = unit.plan(&mut next, budget)? else {
            *self = next;
            return Ok(None);
        };
        let (document, bare) = (plan.document, plan.message.clone());
        let message = plan.lend(host).map_err(Error::Lend)?;
        let made = match make(message) {
            Err(refusal) if refusal.number == LIMIT => {
                let budget = budget.unwrap_or(u64::MAX);
                let made = next.say_in_part(self, &unit, document, &bare, budget, make)?;
                made.ok_or(refusal)?
            }
            made => made?,
        };
        *self = next;
        Ok(Some(made))
    }

    /// What is made of a part of a message that passes its size, of which `bare` is all but
    /// the changes; none if no part of it is worth a message. This session becomes the one
    /// after it. A document that no message can hold goes by list, as to a peer that isn't
    /// known to take version 2; every peer takes that.
    fn say_in_part<H: Host, T>(
        &mut self,
        before: &Session,
        unit: &Unit<H>,
        document: bool,
        bare: &Message,
        budget: u64,
        make: impl Fn(Message) -> Result<T, Refusal>,
    ) -> Result<Option<T>, Error<H::Error>> {
        let room = MESSAGE_SIZE - bare.check()?;
        let v2 = before.words[SUPPORTS_V2];
        let by_v2 = before.is(SUPPORTS_V2) && !document;
        // What the numbers before the chunks take beyond the one byte that they have where
        // there are no chunks: in version 2 the length of the one chunk, in version 1 what
        // the count of chunks asks for, which is known when they are there.
        let spare = if by_v2 { 4..=4 } else { 0..=2 };
        for spare in spare {
            let budget = budget.min((room - spare) as u64);
            *self = before.clone();
            self.words[SUPPORTS_V2] = by_v2.into();
            let plan = unit.plan(self, Some(budget))?;
            self.words[SUPPORTS_V2] = v2;
            let Some(plan) = plan.filter(|plan| self.has_news(before, plan)) else {
                return Ok(None);
            };
            let message = plan.lend(unit.host).map_err(Error::Lend)?;
            match make(message) {
                Err(refusal) if refusal.number == LIMIT => {}
                made => return Ok(Some(made?)),
            }
        }
        Ok(None)
    }

    /// Whether a message, behind which this is the session, says something that wasn't said:
    /// a change, a need, or heads. Without that two units could go on forever over a change
    /// that no message can hold.
    fn has_news(&self, before: &Session, plan: &Plan) -> bool {
        let told = before.is(HAVE_RESPONDED) && self.lists.last_sent == before.lists.last_sent;
        !plan.hashes.is_empty() || !plan.message.need.is_empty() || !told
    }

    /// The rows of hashes in the table that was lent last.
    fn rows_of<'a>(
        &'a self,
        table: &'a [u8],
        hashes: &'a [ChangeHash],
    ) -> impl Iterator<Item = (usize, &'a ChangeHash)> {
        let find = |hash: &ChangeHash| {
            self.index
                .find(|row| table[Table::ROW * row..][..HASH].cmp(&hash.0))
        };
        hashes
            .iter()
            .filter_map(move |hash| Some((find(hash)?, hash)))
    }
}

/// A unit that is to say something: its document and its tables, and how it builds filters.
struct Unit<'a, H> {
    host: &'a H,
    table: Cow<'a, [u8]>,
    waiting: Cow<'a, [u8]>,
    choice: Choice,
}

impl<'a, H: Host> Unit<'a, H> {
    fn of(host: &'a H, choice: Choice) -> Self {
        Unit {
            host,
            table: host.table(),
            waiting: host.waiting(),
            choice,
        }
    }

    /// What it says next, within a budget if there is one.
    fn plan(
        &self,
        session: &mut Session,
        budget: Option<u64>,
    ) -> Result<Option<Plan>, Error<H::Error>> {
        match budget {
            Some(budget) => self.plan_within(session, budget),
            None => Ok(self.plan_whole(session)?),
        }
    }

    fn plan_whole(&self, session: &mut Session) -> Result<Option<Plan>, Refusal> {
        session.plan_with(&self.table, &self.waiting, self.choice)
    }

    fn plan_within(
        &self,
        session: &mut Session,
        budget: u64,
    ) -> Result<Option<Plan>, Error<H::Error>> {
        // The host is asked for sizes only where something is said.
        if session.is(IN_FLIGHT) {
            let mut same = session.clone();
            if self.plan_whole(&mut same) == Ok(None) {
                *session = same;
                return Ok(None);
            }
        }
        let mut index = std::mem::take(&mut session.index);
        let offer = session.offer_beside(&self.table, &mut index);
        session.index = index;
        let offer = offer?;
        if offer.document || offer.hashes.is_empty() {
            return Ok(self.plan_whole(session)?);
        }
        let sizes = self.sizes(session, &offer.hashes)?;
        let (table, waiting) = (&self.table, &self.waiting);
        let pick = picked(
            table,
            session.index.as_bytes(),
            &offer.hashes,
            &sizes,
            budget,
        )?;
        let pick = hashes_in(&pick);
        Ok(session.plan_picked_with(table, waiting, &sizes, budget, &pick, self.choice)?)
    }

    /// What each change takes of a message, a row for a row; 0 of those that aren't listed.
    /// A change of version 1 is a chunk of its own, with its length before it.
    fn sizes(&self, session: &Session, list: &[ChangeHash]) -> Result<Vec<u64>, Error<H::Error>> {
        let mut sizes = vec![0; self.table.len() / Table::ROW];
        for (row, hash) in session.rows_of(&self.table, list) {
            let bytes = self.host.change_size(hash).map_err(Error::Lend)?;
            let before = match session.is(SUPPORTS_V2) {
                true => 0,
                false => explain::counted(bytes),
            };
            sizes[row] = bytes as u64 + before;
        }
        Ok(sizes)
    }
}
