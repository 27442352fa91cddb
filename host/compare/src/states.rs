//! Sessions and saved states: the library's answers, buffers and words beside the
//! model's and the crate's.

use crate::guarded::{Fill, Guarded, FILLS};
use crate::inputs;
use crate::model::state::{
    self, Lists, Session, HAVE_RESPONDED, IN_FLIGHT, NEEDS_RESET, PEER_READ_ONLY, READ_ONLY, RESET,
    V2, WORDS,
};
use crate::published;
use crate::same_answer;
use bisquetower::raw::{Batch, UNWRITTEN};
use crate_under_test::facade::{self, Capability, ChangeHash, Have, State};

/// A saved state to be read, and the room for its shared heads.
#[derive(Clone, Copy)]
pub struct Reading<'a> {
    pub s: &'a [u8],
    pub room: usize,
}

/// How often each answer was given.
#[derive(Clone, Copy, Debug, Default, PartialEq, Eq)]
pub struct Tally {
    /// By the answer's first word.
    pub answers: [u64; 8],
    /// A count above the limit of a hash list: 4 here. The crate has no such limit.
    pub past_limit: u64,
}

impl Tally {
    pub fn total(&self) -> u64 {
        self.answers.iter().sum()
    }

    pub fn add(&mut self, other: &Tally) {
        let answers = self.answers.iter_mut().zip(other.answers);
        answers.for_each(|(mine, theirs)| *mine += theirs);
        self.past_limit += other.past_limit;
    }
}

/// What is lent to a reading call.
struct Lent {
    shared: Guarded<u8>,
    session: Guarded<u64>,
    answer: [u64; 4],
}

impl Lent {
    fn new(room: usize, fill: Fill) -> Self {
        Lent {
            shared: Guarded::new(room, fill),
            session: Guarded::new(WORDS, fill),
            answer: [UNWRITTEN; 4],
        }
    }

    fn session(&self) -> [u64; WORDS] {
        self.session.left().try_into().expect("sixteen words")
    }
}

/// Compares the library's answers to these reads, the buffer and the session that
/// it leaves, with the model's and the crate's; the first that disagrees is the
/// error.
pub fn compare_reads(reads: &[Reading]) -> Result<Tally, String> {
    let mut tally = Tally::default();
    for fill in FILLS {
        let fresh = reads.iter().map(|read| Lent::new(read.room, fill));
        let mut lent: Vec<Lent> = fresh.collect();
        let mut batch = Batch::new();
        for (read, l) in reads.iter().zip(&mut lent) {
            let session = l.session.lent().try_into().expect("sixteen words");
            batch.read_state(read.s, l.shared.lent(), session, &mut l.answer);
        }
        batch.run();
        tally = Tally::default();
        for (read, left) in reads.iter().zip(&mut lent) {
            let told = |why: String| {
                let (s, room) = (inputs::shown(read.s), read.room);
                format!("the state {s} into {room} bytes: {why}")
            };
            compare_left(read.s, left).map_err(told)?;
            tally.answers[left.answer[0] as usize] += 1;
            tally.past_limit += u64::from(left.answer[0] == 4);
        }
    }
    Ok(tally)
}

fn compare_left(s: &[u8], left: &mut Lent) -> Result<(), String> {
    let session = left.session.expected().try_into().expect("sixteen words");
    let expected = state::read(s, left.shared.expected(), session);
    same_answer(left.answer, expected)?;
    left.session.agrees()?;
    left.shared.agrees()?;
    let answer = left.answer;
    match (answer[0], published::read_state(s)) {
        (0, Ok(state)) => {
            let heads: Vec<u8> = state.shared_heads.iter().flat_map(|hash| hash.0).collect();
            let same = left.session() == words_of(&state) && left.shared.left().starts_with(&heads);
            same.then_some(())
                .ok_or("the crate's session is another".to_string())
        }
        // The crate has neither a buffer nor a limit.
        (7, Ok(_)) | (4, Ok(_)) | (4, Err([1, _])) => Ok(()),
        (2, Err(theirs)) if theirs == answer[..2] => Ok(()),
        (mine @ (1 | 3), Err([theirs, _])) if mine == theirs => Ok(()),
        (_, theirs) => {
            let theirs = theirs.map(|state| words_of(&state));
            Err(format!("the answer is {answer:?}, the crate's {theirs:?}"))
        }
    }
}

/// The words of the crate's session.
pub fn words_of(state: &State) -> [u64; WORDS] {
    let count = |list: &Option<Vec<ChangeHash>>| list.as_ref().map(|list| list.len() as u64);
    let capabilities = state.their_capabilities.as_deref().unwrap_or_default();
    let mut flags = [false; 7];
    flags[IN_FLIGHT] = state.in_flight;
    flags[HAVE_RESPONDED] = state.have_responded;
    flags[V2] = capabilities.contains(&Capability::MessageV2);
    flags[RESET] = capabilities.contains(&Capability::SyncReset);
    flags[READ_ONLY] = state.read_only;
    flags[PEER_READ_ONLY] = state.peer_read_only;
    flags[NEEDS_RESET] = state.needs_reset;
    let session = Session {
        shared: state.shared_heads.len() as u64,
        last_sent: state.last_sent_heads.len() as u64,
        their_heads: count(&state.their_heads),
        their_need: count(&state.their_need),
        their_have: state.their_have.as_ref().map(|haves| haves.len() as u64),
        sent: state.sent_hashes.len() as u64,
        flags,
    };
    session.words()
}

/// A session of the crate's with these counts and flags.
pub fn published(session: &Session) -> State {
    let hash = |k: u64| ChangeHash(std::array::from_fn(|at| (k >> (8 * (at % 8))) as u8));
    let list = |count: u64| -> Vec<ChangeHash> { (0..count).map(hash).collect() };
    let have = || Have {
        last_sync: Vec::new(),
        bloom: facade::BloomFilter::default(),
    };
    let mut capabilities = vec![Capability::MessageV1];
    if session.flags[V2] {
        capabilities.push(Capability::MessageV2);
    }
    if session.flags[RESET] {
        capabilities.push(Capability::SyncReset);
    }
    State {
        shared_heads: list(session.shared),
        last_sent_heads: list(session.last_sent),
        their_heads: session.their_heads.map(list),
        their_need: session.their_need.map(list),
        their_have: session
            .their_have
            .map(|count| (0..count).map(|_| have()).collect()),
        sent_hashes: list(session.sent).into_iter().collect(),
        in_flight: session.flags[IN_FLIGHT],
        have_responded: session.flags[HAVE_RESPONDED],
        their_capabilities: Some(capabilities),
        read_only: session.flags[READ_ONLY],
        peer_read_only: session.flags[PEER_READ_ONLY],
        needs_reset: session.flags[NEEDS_RESET],
    }
}

/// The library's answers to checks of sessions and their lists.
pub fn check_many(sessions: &[([u64; WORDS], Lists)]) -> Vec<[u64; 4]> {
    let mut answers = vec![[UNWRITTEN; 4]; sessions.len()];
    let mut batch = Batch::new();
    for ((session, l), answer) in sessions.iter().zip(&mut answers) {
        batch.check_session(
            session,
            l.shared,
            l.last_sent,
            l.their_heads,
            l.their_need,
            l.haves,
            l.bytes,
            l.sent,
            answer,
        );
    }
    batch.run();
    answers
}
