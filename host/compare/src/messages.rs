//! Messages read and written: the library against the model in every word, of the
//! three lists and around them too; what a reader says of a message beside the
//! crate's message (`beside`), and what is written of the parts that were read
//! (`parts`) beside what the crate writes of its own; and the heads alone (`heads`)
//! beside the full read.

pub mod beside;
pub mod heads;
pub mod parts;

use crate::guarded::{Fill, Guarded, FILLS};
use crate::inputs;
use crate::model::have::{HAVES, HAVE_WORDS};
use crate::model::message::Message as Places;
use crate::model::message::{ANSWER_WORDS, CHUNK_WORDS, NO_FLAGS};
use crate::model::{self, Refused};
use crate::same_answer;
use beside::{beside_crate, Beside};
use bisquetower::message::View;
use bisquetower::raw::{self, Batch};
use bisquetower::refusal::Refusal;
use parts::{parts, Chunks};

/// How often each answer was given, and how the crate's stood beside it.
#[derive(Clone, Copy, Debug, Default, PartialEq, Eq)]
pub struct Tally {
    /// By the answer's first word.
    pub answers: [u64; 8],
    pub cut_numbers: u64,
    /// Messages that were read and written again.
    pub rewritten: u64,
    /// Of the messages that were read: those with a have, a chunk, flags.
    pub with_haves: u64,
    pub with_chunks: u64,
    pub with_flags: u64,
    /// Messages whose heads were answered though they are bad further on.
    pub bad_later: u64,
    /// Of the messages that were read: those with bytes behind a filter's field, with
    /// bytes after the flags.
    pub ignoring: u64,
    pub behind_flags: u64,
}

impl Tally {
    pub fn total(&self) -> u64 {
        self.answers.iter().sum()
    }

    pub fn add(&mut self, other: &Tally) {
        let answers = self.answers.iter_mut().zip(other.answers);
        answers.for_each(|(mine, theirs)| *mine += theirs);
        self.cut_numbers += other.cut_numbers;
        self.rewritten += other.rewritten;
        self.with_haves += other.with_haves;
        self.with_chunks += other.with_chunks;
        self.with_flags += other.with_flags;
        self.bad_later += other.bad_later;
        self.ignoring += other.ignoring;
        self.behind_flags += other.behind_flags;
    }

    fn count(&mut self, words: &[u64; ANSWER_WORDS], beside: &Beside) {
        self.answers[words[0] as usize] += 1;
        self.cut_numbers += u64::from(*beside == Beside::CutNumber);
        if words[0] == 0 {
            self.with_haves += u64::from(words[7] > 0);
            self.with_chunks += u64::from(words[9] > 0);
            self.with_flags += u64::from(words[10] != NO_FLAGS);
            self.ignoring += u64::from(words[12] > 0);
            self.behind_flags += u64::from(words[13] > 0);
        }
    }
}

/// What the model makes of a message: the places, and the lists that a reader
/// with room enough leaves.
struct Expected {
    read: Result<Places, Refused>,
    haves: Vec<u64>,
    chunks: Vec<u64>,
    ignored: [u64; HAVES],
}

impl Expected {
    fn of(s: &[u8]) -> Expected {
        let read = model::message::parse(s);
        let lists = read.as_ref().ok();
        let mut ignored = [0; HAVES];
        if let Some(message) = lists {
            ignored[..message.ignored.len()].copy_from_slice(&message.ignored);
        }
        Expected {
            ignored,
            haves: lists.map_or(Vec::new(), |message| message.haves.concat()),
            chunks: lists.map_or(Vec::new(), |message| message.chunks.concat()),
            read,
        }
    }

    /// Words enough, and of a message that is refused some, which must not be
    /// touched.
    fn rooms(&self) -> [usize; 2] {
        match self.read {
            Ok(_) => [&self.haves, &self.chunks].map(|list| list.len() + SPARE),
            Err(_) => [2 * HAVE_WORDS, 3 * CHUNK_WORDS],
        }
    }

    /// The words of the answer in room enough.
    fn words(&self) -> [u64; ANSWER_WORDS] {
        let (mut haves, mut chunks) = (self.haves.clone(), self.chunks.clone());
        model::message::answer(&self.read, &mut haves, &mut chunks, &mut [0; HAVES])
    }
}

/// How the model's reading of a message stands beside the crate's.
pub fn beside_model(s: &[u8]) -> Result<Beside, String> {
    let expected = Expected::of(s);
    let Expected { haves, chunks, .. } = &expected;
    let view = View::of(s, expected.words(), haves, chunks, expected.ignored);
    beside_crate(s, &view)
}

/// Compares what the model says of these messages with what the crate says, and
/// what the model writes of those that are read with what the crate writes.
pub fn compare_model<S: AsRef<[u8]>>(messages: &[S]) -> Result<Tally, String> {
    let mut tally = Tally::default();
    for s in messages.iter().map(AsRef::as_ref) {
        let told = |why| format!("{}: {why}", inputs::shown(s));
        let expected = Expected::of(s);
        let words = expected.words();
        let Expected { haves, chunks, .. } = &expected;
        let view = View::of(s, words, haves, chunks, expected.ignored);
        let beside = beside_crate(s, &view).map_err(told)?;
        tally.count(&words, &beside);
        if let (Ok(view), Beside::Read(message)) = (view, beside) {
            let chunks = Chunks::of(&view);
            let written = model::message::bytes(&parts(&view, &chunks));
            if written != Ok(message.encode()) {
                return Err(told("written again, it isn't the crate's".to_string()));
            }
            tally.rewritten += 1;
        }
    }
    Ok(tally)
}

/// A read with its lists.
struct Asked<'a> {
    s: &'a [u8],
    expected: [u64; ANSWER_WORDS],
    answer: [u64; ANSWER_WORDS],
    haves: Guarded<u64>,
    chunks: Guarded<u64>,
    ignored: Guarded<u64>,
}

impl<'a> Asked<'a> {
    fn new(s: &'a [u8], expected: &Expected, rooms: [usize; 2], fill: Fill) -> Self {
        let [mut haves, mut chunks] = rooms.map(|room| Guarded::new(room, fill));
        let mut ignored = Guarded::new(HAVES, fill);
        let (first, second, third) = (haves.expected(), chunks.expected(), ignored.expected());
        let words = model::message::answer(&expected.read, first, second, third);
        Asked {
            s,
            expected: words,
            answer: [raw::UNWRITTEN; ANSWER_WORDS],
            haves,
            chunks,
            ignored,
        }
    }

    fn ask<'m>(&'m mut self, batch: &mut Batch<'m>) {
        let (haves, chunks) = (self.haves.lent(), self.chunks.lent());
        let ignored = self.ignored.lent().try_into().expect("a number a have");
        batch.read_message(self.s, haves, chunks, ignored, &mut self.answer);
    }

    fn agrees(&self) -> Result<(), String> {
        let rooms = [self.haves.room(), self.chunks.room()];
        let told = |why| format!("{} into {rooms:?} words: {why}", inputs::shown(self.s));
        same_answer(self.answer, self.expected).map_err(told)?;
        let lists = [
            ("haves", &self.haves),
            ("chunks", &self.chunks),
            ("numbers of ignored bytes", &self.ignored),
        ];
        for (name, list) in lists {
            let named = |why| told(format!("of the {name}, {why}"));
            list.agrees().map_err(named)?;
        }
        Ok(())
    }

    fn view(&self) -> Result<View<'_>, Refusal> {
        let (haves, chunks) = (self.haves.left(), self.chunks.left());
        let ignored = self.ignored.left().try_into().expect("a number a have");
        View::of(self.s, self.answer, haves, chunks, ignored)
    }
}

/// Words or bytes that a buffer has more than are wanted.
const SPARE: usize = 3;

/// Compares what the library says of these messages, with room to spare, with what
/// the model and the crate say, and what it writes of those that are read with
/// what both write; and what it says of their heads alone. The first that disagrees
/// is the error.
pub fn compare<S: AsRef<[u8]>>(messages: &[S]) -> Result<Tally, String> {
    let mut asked: Vec<Asked> = Vec::with_capacity(messages.len());
    for s in messages.iter().map(AsRef::as_ref) {
        let expected = Expected::of(s);
        let rooms = expected.rooms();
        let fill = FILLS[asked.len() % FILLS.len()];
        asked.push(Asked::new(s, &expected, rooms, fill));
    }
    let mut batch = Batch::new();
    for one in &mut asked {
        one.ask(&mut batch);
    }
    batch.run();

    let mut tally = Tally::default();
    let mut again = Vec::new();
    for one in &asked {
        one.agrees()?;
        let view = one.view();
        let beside = beside_crate(one.s, &view);
        let beside = beside.map_err(|why| format!("{}: {why}", inputs::shown(one.s)))?;
        tally.count(&one.answer, &beside);
        if let (Ok(view), Beside::Read(message)) = (view, beside) {
            let fill = FILLS[again.len() % FILLS.len()];
            again.push(Rewritten::new(view, message.encode(), fill));
        }
    }
    let mut batch = Batch::new();
    for one in &mut again {
        one.ask(&mut batch);
    }
    batch.run();
    for one in &mut again {
        let shown = inputs::shown(one.view.bytes());
        let told = |why| format!("{shown} written again: {why}");
        one.agrees().map_err(told)?;
    }
    tally.rewritten = again.len() as u64;
    let read = asked.iter().map(|one| (one.s, one.view()));
    tally.bad_later = heads::compare(&read.collect::<Vec<_>>())?;
    Ok(tally)
}

/// A message that was read, to be written again: what the crate writes, and what
/// the library does.
struct Rewritten<'a> {
    view: View<'a>,
    chunks: Chunks,
    published: Vec<u8>,
    answer: [u64; 4],
    out: Guarded<u8>,
}

impl<'a> Rewritten<'a> {
    fn new(view: View<'a>, published: Vec<u8>, fill: Fill) -> Self {
        Rewritten {
            view,
            chunks: Chunks::of(&view),
            answer: [raw::UNWRITTEN; 4],
            out: Guarded::new(published.len() + SPARE, fill),
            published,
        }
    }

    fn ask<'m>(&'m mut self, batch: &mut Batch<'m>) {
        let parts = parts(&self.view, &self.chunks);
        parts::ask(&parts, batch, self.out.lent(), &mut self.answer);
    }

    fn agrees(&mut self) -> Result<(), String> {
        let wanted = model::message::bytes(&parts(&self.view, &self.chunks));
        let expected = model::write(self.out.expected(), wanted.clone());
        same_answer(self.answer, expected)?;
        self.out.agrees()?;
        match wanted {
            Ok(bytes) if bytes != self.published => {
                Err("the model's bytes aren't the crate's".to_string())
            }
            _ => Ok(()),
        }
    }
}

/// Compares the library's answers with the model's for lists of these sizes, over
/// both fills; returns the answers.
pub fn compare_lists(s: &[u8], rooms: &[[usize; 2]]) -> Result<Vec<[u64; ANSWER_WORDS]>, String> {
    let expected = Expected::of(s);
    let each = rooms
        .iter()
        .flat_map(|&rooms| FILLS.map(|fill| (rooms, fill)));
    let mut asked: Vec<Asked> = each
        .map(|(rooms, fill)| Asked::new(s, &expected, rooms, fill))
        .collect();
    let mut batch = Batch::new();
    for one in &mut asked {
        one.ask(&mut batch);
    }
    batch.run();
    for one in &asked {
        one.agrees()?;
    }
    Ok(asked
        .iter()
        .step_by(FILLS.len())
        .map(|one| one.answer)
        .collect())
}
