//! What is said next.

use super::{Lists, Session, WORDS};
use crate::hash::{bytes_of, hashes_in, ChangeHash, HASH};
use crate::have::haves_in;
use crate::limits::{HAVE_SIZE, LIST_SIZE, SENT_SIZE, TO_SEND_SIZE};
use crate::refusal::{answer, Refusal};
use crate::{explain, raw, settings, Choice, Error, Host, Message, MessageFlags, MessageVersion};
use std::borrow::Cow;

/// How the answer says that there is nothing to say.
const NOTHING: u64 = 0;

/// Words of the answer, but for the first.
const NUMBERS: usize = 15;

/// A message whose changes the host is still to lend.
#[derive(Clone, Debug, PartialEq, Eq)]
pub struct Plan {
    /// The message without its changes.
    pub message: Message,
    /// Whether the whole document goes, and not the changes one by one.
    pub document: bool,
    /// The hashes of the changes that go; of a document, those of all rows.
    pub hashes: Vec<ChangeHash>,
}

impl Session {
    /// What to say to the peer next, as the bytes to send; none if there is nothing to say,
    /// or an answer is awaited. [`receive`](Session::receive) takes them at the other end.
    ///
    /// The session takes a message as said when this call returns its bytes, and at no
    /// other time: if the host can't lend a change ([`Error::Lend`]) or the library refuses
    /// ([`Error::Refused`]) the session is as it was, and the next call tries again. Tables
    /// and lists past their limits are refusal 4.
    ///
    /// Changes that don't fit a message of
    /// [`MESSAGE_SIZE`](crate::limits::MESSAGE_SIZE) bytes go in parts: as many of them as
    /// fit now, and the others with the messages that follow, each after those that it
    /// depends on. So does a document that doesn't fit one: its changes go one by one, in
    /// version 1. Only where the message would say nothing but changes of which none fits by
    /// itself it is refusal 4, and stays so as long as they take as many bytes.
    /// [`next_message_within`](Session::next_message_within) has the same for a radio that
    /// takes less.
    ///
    /// Where the library is linked this takes up to 288 KiB of the thread's stack.
    pub fn next_message<H: Host>(&mut self, host: &H) -> Result<Option<Vec<u8>>, Error<H::Error>> {
        self.next_message_with(host, Choice::default())
    }

    /// [`next_message`](Session::next_message) with a filter of other bits per entry and
    /// probes, as a station's [`Settings`](crate::Settings) have them; each message may have
    /// its own. Bits outside 1 to [`BITS`](crate::limits::BITS), and more probes than
    /// [`PROBES`](crate::limits::PROBES), are refusal 10, before all else. Whether the choice
    /// is read-only isn't looked at: [`set_read_only`](Session::set_read_only) is told that.
    ///
    /// ```
    /// use bisquetower::{Choice, Memory, Message, Session};
    ///
    /// let wide = Choice { bits: 16, probes: 11, ..Choice::default() };
    /// let mut session = Session::new();
    /// assert!(session.next_message_with(&Memory::new(), wide)?.is_some());
    ///
    /// let wider = Choice { bits: 33, ..wide };
    /// let refused = session.next_message_with(&Memory::new(), wider).unwrap_err();
    /// assert_eq!(
    ///     refused.to_string(),
    ///     "refusal 10, value 0: the filter that is to be built has 33 bits per entry; \
    ///      1 to 32 are allowed"
    /// );
    /// # Ok::<(), Box<dyn std::error::Error>>(())
    /// ```
    pub fn next_message_with<H: Host>(
        &mut self,
        host: &H,
        choice: Choice,
    ) -> Result<Option<Vec<u8>>, Error<H::Error>> {
        self.say(host, choice, None, |message| message.encode())
    }

    /// What to say to the peer next, as a value: for programs that look at what they send.
    /// The session changes when this call returns a message, as in
    /// [`next_message`](Session::next_message). One that [`Message::encode`] would refuse
    /// is refused here, with the session as it was.
    pub fn generate<H: Host>(&mut self, host: &H) -> Result<Option<Message>, Error<H::Error>> {
        self.generate_with(host, Choice::default())
    }

    /// [`generate`](Session::generate) with a filter of other bits per entry and probes, as
    /// [`next_message_with`](Session::next_message_with) has it.
    pub fn generate_with<H: Host>(
        &mut self,
        host: &H,
        choice: Choice,
    ) -> Result<Option<Message>, Error<H::Error>> {
        self.say(host, choice, None, checked)
    }

    /// [`generate`](Session::generate) by the name that it has in automerge.
    pub fn generate_sync_message<H: Host>(
        &mut self,
        host: &H,
    ) -> Result<Option<Message>, Error<H::Error>> {
        self.generate(host)
    }

    /// What [`next_message`](Session::next_message) is to say, over tables as bytes: for
    /// hosts that make the changes' bytes themselves. The session takes it as said at once,
    /// so such a host keeps a clone of the session until the message is encoded, and goes
    /// back to it where that fails.
    pub fn plan(&mut self, table: &[u8], waiting: &[u8]) -> Result<Option<Plan>, Refusal> {
        self.plan_with(table, waiting, Choice::default())
    }

    /// [`plan`](Session::plan) with a filter of other bits per entry and probes, as
    /// [`next_message_with`](Session::next_message_with) has it.
    pub fn plan_with(
        &mut self,
        table: &[u8],
        waiting: &[u8],
        choice: Choice,
    ) -> Result<Option<Plan>, Refusal> {
        let (bits, probes) = (choice.bits.into(), choice.probes.into());
        let planned = self.planned(table, |session, lists, index, out| {
            raw::plan_with(
                bits,
                probes,
                session,
                &lists.shared,
                &mut lists.last_sent,
                &lists.their_heads,
                &lists.their_need,
                &lists.haves,
                &lists.bytes,
                &mut lists.sent,
                table,
                index,
                waiting,
                &mut out.heads,
                &mut out.need,
                &mut out.have,
                &mut out.list,
            )
        });
        let heard = &self.lists.their_heads;
        planned.map_err(|why| explain::planning(choice, table, waiting, heard, why))
    }

    /// [`plan`](Session::plan) with a pick of what is to be sent: for hosts that know the
    /// sizes of their changes, or pick themselves. What is to be sent is the
    /// [`offer`](Session::offer); `sizes` has one number a row, and of the pick they sum to no
    /// more than the budget. [`Table::pick`](crate::Table::pick) makes such a pick, and
    /// [`Table::check_pick`](crate::Table::check_pick) has the rules of which this call
    /// refuses what breaks one: refusal 17, the session as it was. Only what is picked counts
    /// as sent. Where the offer is the document it goes whole, and the pick isn't looked at.
    ///
    /// ```
    /// use bisquetower::{Change, ChangeHash, Host, Memory, Message, Session, Table};
    ///
    /// let [a, b] = [b'a', b'b'].map(|name| ChangeHash([name; 32]));
    /// let mut station = Memory::new();
    /// station.add(Change { hash: a, dependencies: vec![], contents: b"fares".to_vec() })?;
    /// station.add(Change { hash: b, dependencies: vec![a], contents: b"zones".to_vec() })?;
    /// let mut session = Session::new();
    /// session.receive_sync_message(&mut station, Message { need: vec![b, a], ..Message::default() })?;
    ///
    /// // Both are asked for, and a budget of 50 bytes takes one of them.
    /// let offer = session.offer(&station.table())?;
    /// assert_eq!((offer.document, &offer.hashes[..]), (false, &[b, a][..]));
    /// let table = Table::new(station.table())?;
    /// let pick = table.pick(&offer.hashes, &[43, 75], 50)?;
    /// let refused = session.plan_picked(&station.table(), &[], &[43, 75], 50, &[b]);
    /// assert_eq!(refused.unwrap_err().number, 17);
    /// let plan = session.plan_picked(&station.table(), &[], &[43, 75], 50, &pick)?;
    /// assert_eq!(plan.expect("a message").hashes, [a]);
    /// assert_eq!(session.offer(&station.table())?.hashes, [b]);
    /// # Ok::<(), Box<dyn std::error::Error>>(())
    /// ```
    pub fn plan_picked(
        &mut self,
        table: &[u8],
        waiting: &[u8],
        sizes: &[u64],
        budget: u64,
        pick: &[ChangeHash],
    ) -> Result<Option<Plan>, Refusal> {
        self.plan_picked_with(table, waiting, sizes, budget, pick, Choice::default())
    }

    /// [`plan_picked`](Session::plan_picked) with a filter of other bits per entry and probes.
    /// The library is told them by a settings list, so that those that aren't allowed are
    /// refusal 14 here, behind those of the tables.
    pub fn plan_picked_with(
        &mut self,
        table: &[u8],
        waiting: &[u8],
        sizes: &[u64],
        budget: u64,
        pick: &[ChangeHash],
        choice: Choice,
    ) -> Result<Option<Plan>, Refusal> {
        let (settings, lent) = (settings::lent(choice), bytes_of(pick));
        let planned = self.planned(table, |session, lists, index, out| {
            raw::plan_picked(
                &settings,
                settings::STATION,
                settings::VERSION,
                sizes,
                budget,
                &lent,
                session,
                &lists.shared,
                &mut lists.last_sent,
                &lists.their_heads,
                &lists.their_need,
                &lists.haves,
                &lists.bytes,
                &mut lists.sent,
                table,
                index,
                waiting,
                &mut out.heads,
                &mut out.need,
                &mut out.have,
                &mut out.list,
            )
        });
        planned.map_err(|why| {
            let heard = &self.lists.their_heads;
            let why = explain::planning_picked(choice, table, waiting, heard, pick, why);
            let list = self.offer(table).map_or(Vec::new(), |offer| offer.hashes);
            match why.cause() {
                Some(_) => why,
                None => explain::pick(table, &list, sizes, budget, pick, why),
            }
        })
    }

    /// What a call plans that is lent the session with room for what it writes, a table's
    /// index and buffers.
    fn planned(
        &mut self,
        table: &[u8],
        mut call: impl FnMut(&mut [u64; WORDS], &mut Lists, &[u8], &mut Buffers) -> [u64; NUMBERS + 1],
    ) -> Result<Option<Plan>, Refusal> {
        let mut out = Buffers::new();
        let (session, lists) = (&mut self.words, &mut self.lists);
        lists.last_sent.resize(LIST_SIZE, 0);
        lists.sent.resize(SENT_SIZE, 0);
        let words = self
            .index
            .beside(table, |index| call(session, lists, index, &mut out));
        self.trim();
        Ok(out.plan(answer(words)?))
    }
}

/// What a message that is planned is written into.
struct Buffers {
    heads: Vec<u8>,
    need: Vec<u8>,
    have: Vec<u8>,
    list: Vec<u8>,
}

impl Buffers {
    fn new() -> Buffers {
        Buffers {
            heads: vec![0; LIST_SIZE],
            need: vec![0; LIST_SIZE],
            have: vec![0; HAVE_SIZE],
            list: vec![0; TO_SEND_SIZE],
        }
    }

    /// The plan of an answer, if something is said.
    fn plan(&self, answer: [u64; NUMBERS]) -> Option<Plan> {
        let [what, version, flags, document, head_count, need_count, have_count, ..] = answer;
        if what == NOTHING {
            return None;
        }
        let first = |list: &[u8], count: u64| hashes_in(&list[..HASH * count as usize]);
        let record = match have_count {
            0 => &[],
            _ => &answer[7..14],
        };
        Some(Plan {
            message: Message {
                heads: first(&self.heads, head_count),
                need: first(&self.need, need_count),
                have: haves_in(record, &self.have),
                changes: Vec::new(),
                flags: u8::try_from(flags).ok().map(MessageFlags),
                version: MessageVersion::of(version),
            },
            document: document != 0,
            hashes: first(&self.list, answer[14]),
        })
    }
}

/// A message that can be sent.
pub(super) fn checked(message: Message) -> Result<Message, Refusal> {
    message.check().map(|_| message)
}

impl Plan {
    /// The message with its changes: each a chunk in version 1, all of them one in
    /// version 2; a document is one.
    pub fn lend<H: Host>(self, host: &H) -> Result<Message, H::Error> {
        let mut message = self.message;
        if self.document {
            message.changes = vec![host.save()?];
            return Ok(message);
        }
        let changes = self.hashes.iter().map(|hash| host.change(hash));
        let changes: Vec<Cow<[u8]>> = changes.collect::<Result<_, _>>()?;
        message.changes = match message.version {
            MessageVersion::V2 if !changes.is_empty() => vec![changes.concat()],
            _ => changes.into_iter().map(Cow::into_owned).collect(),
        };
        Ok(message)
    }
}
