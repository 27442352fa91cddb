//! Sessions: a first message planned, messages received, and whole catch-ups through
//! bytes. The library tests its table and index in each call, and the crate loads what a
//! message brings, which here is the host's to do; both are measured apart, as the rest.
//! The host's index is ready: what it takes to build and extend one stands with the tables.

use crate::measure::{line_of, Line, MOST_ROWS, SIZES};
use crate::pool::Pool;
use bisquetower::limits::{HAVES_SIZE, HAVES_WORDS, HAVE_SIZE, LIST_SIZE, TO_SEND_SIZE};
use bisquetower::raw;
use compare::inputs::index::index_of;
use compare::inputs::table::{table_bytes, Likeness, Shape};
use compare::inputs::Random;
use compare::model::have::HAVE_WORDS;
use compare::model::plan::ANSWER_WORDS;
use compare::model::session::Value;
use compare::model::state::WORDS;
use compare::model::table::{HASH, ROW};
use compare::sessions::lent::Lent;
use compare::sessions::published::state;
use compare::tables::document;
use compare::talks::Pair;
use compare::units::{load, published, table_of, waiting_of};
use compare::walk::{STATION, VALIDATOR};
use crate_under_test::facade::{Automerge, Message, State, SyncDoc};
use std::hint::black_box;
use std::rc::Rc;

/// One head or two: two rows on one and one on the two, again and again.
const NARROW: Shape = Shape::Diamonds;

/// A head in five rows: rows on up to three of the eight before them.
const WIDE: Shape = Shape::Recent;

/// One head or forty: forty rows on one, and one that merges them.
const MERGED: Shape = Shape::Merges;

/// The winter tariff's rows.
const WINTER: (&str, usize) = ("6,000 rows", 6_000);

/// All sizes, and those from 1,024 rows on.
const ALL: &[(&str, usize)] = &SIZES;
const MANY: &[(&str, usize)] = SIZES.split_at(2).1;

type CatchUp = (
    &'static str,
    &'static str,
    Shape,
    usize,
    &'static [(&'static str, usize)],
);

/// Rows that a validator lacks, of what shape and of how many; more than a third go as the
/// document.
const CATCH_UPS: [CatchUp; 7] = [
    ("catch up 10", "catch up 10: rest", NARROW, 10, ALL),
    ("catch up 100", "catch up 100: rest", NARROW, 100, MANY),
    ("catch up 300", "catch up 300: rest", NARROW, 300, MANY),
    ("catch wide 10", "catch wide 10: rest", WIDE, 10, ALL),
    ("catch merged 10", "catch merged 10: rest", MERGED, 10, ALL),
    (
        "winter, 300 short",
        "winter, 300 short: rest",
        MERGED,
        300,
        &[WINTER],
    ),
    (
        "winter, 3,000 short",
        "winter, 3,000 short: rest",
        MERGED,
        3_000,
        &[WINTER],
    ),
];

type Measure = fn(&Pool<Talk>, &str, &str);

const RECEIVE_HAVE: Measure = |pool, name, size| receive(pool, name, size, 0);
const REST_OF_HAVE: Measure = |pool, name, size| rest_of_receive(pool, name, size, 0);
const RECEIVE_ROWS: Measure = |pool, name, size| receive(pool, name, size, 1);
const REST_OF_ROWS: Measure = |pool, name, size| rest_of_receive(pool, name, size, 1);

/// Which talks the calls of a line meet.
#[derive(Clone, Copy)]
enum Talks {
    /// The same one each time.
    One,
    /// One after the other.
    Many,
}

/// The lines of the steps of a shape's talks.
type Steps = (Shape, Talks, [(&'static str, Measure); 6]);

const STEPS: [Steps; 3] = [
    (
        NARROW,
        Talks::One,
        [
            ("plan", plan),
            ("plan: rest", rest_of_plan),
            ("receive have", RECEIVE_HAVE),
            ("receive have: rest", REST_OF_HAVE),
            ("receive rows", RECEIVE_ROWS),
            ("receive rows: rest", REST_OF_ROWS),
        ],
    ),
    (
        WIDE,
        Talks::Many,
        [
            ("plan wide", plan),
            ("plan wide: rest", rest_of_plan),
            ("have wide", RECEIVE_HAVE),
            ("have wide: rest", REST_OF_HAVE),
            ("rows wide", RECEIVE_ROWS),
            ("rows wide: rest", REST_OF_ROWS),
        ],
    ),
    (
        MERGED,
        Talks::One,
        [
            ("plan merged", plan),
            ("plan merged: rest", rest_of_plan),
            ("have merged", RECEIVE_HAVE),
            ("have merged: rest", REST_OF_HAVE),
            ("rows merged", RECEIVE_ROWS),
            ("rows merged: rest", REST_OF_ROWS),
        ],
    ),
];

pub fn measure_all() {
    for (shape, talks, lines) in STEPS {
        let talk = |rows: usize, random: &mut Random| Talk::begun(rows, shape, rows / 10, random);
        let pools = pools(&SIZES, talks, talk);
        for (name, measure) in lines {
            for (size, pool) in &pools {
                measure(pool, name, size);
            }
        }
    }
    for (name, rest, shape, lacking, sizes) in CATCH_UPS {
        let talk = |rows: usize, random: &mut Random| Talk::whole(rows, shape, lacking, random);
        let pools = pools(sizes, Talks::Many, talk);
        for (size, pool) in &pools {
            whole(pool, name, size);
        }
        for (size, pool) in &pools {
            rest_of_whole(pool, rest, size);
        }
    }
}

/// The talks of each size, which the library holds as the crate does.
fn pools<'a>(
    sizes: &[(&'a str, usize)],
    talks: Talks,
    talk: impl Fn(usize, &mut Random) -> Talk,
) -> Vec<(&'a str, Pool<Talk>)> {
    let mut desks = [Desk::fresh(), Desk::fresh()];
    let mut pool = |rows| {
        let one = |mut random| {
            let talk = talk(rows, &mut random);
            talk.compare(&mut desks);
            talk
        };
        match talks {
            Talks::One => Pool::alone(one),
            Talks::Many => Pool::of(rows, MOST_ROWS, one),
        }
    };
    let sizes = sizes.iter();
    sizes.map(|&(size, rows)| (size, pool(rows))).collect()
}

/// A table and its index, as a host keeps them.
pub struct Indexed {
    pub table: Vec<u8>,
    pub index: Vec<u8>,
}

impl Indexed {
    pub fn of(document: &Automerge) -> Indexed {
        let table = table_of(document);
        let index = index_of(&table);
        Indexed { table, index }
    }
}

/// A session and the buffers that a host keeps for it and for what it says, each as
/// long as it may have to be.
pub struct Desk {
    pub words: [u64; WORDS],
    hashes: [Vec<u8>; 5],
    haves: Vec<u64>,
    bytes: Vec<u8>,
    pub said: [Vec<u8>; 4],
    message: Vec<u8>,
}

/// A call that plans: what tells the numbers of its filter, then what all of them are lent.
macro_rules! planned {
    ($desk:ident, $lent:ident, $waiting:expr, $call:ident $(, $numbers:expr)*) => {{
        let [shared, last_sent, their_heads, their_need, sent] = &mut $desk.hashes;
        let [heads, need, have, list] = &mut $desk.said;
        raw::$call(
            $($numbers,)*
            &mut $desk.words,
            shared,
            last_sent,
            their_heads,
            their_need,
            &$desk.haves,
            &$desk.bytes,
            sent,
            &$lent.table,
            &$lent.index,
            $waiting,
            heads,
            need,
            have,
            list,
        )
    }};
}

impl Desk {
    pub fn fresh() -> Desk {
        Desk {
            words: [0; WORDS],
            hashes: [(); 5].map(|()| vec![0; LIST_SIZE]),
            haves: vec![0; HAVES_WORDS],
            bytes: vec![0; HAVES_SIZE],
            said: [LIST_SIZE, LIST_SIZE, HAVE_SIZE, TO_SEND_SIZE].map(|size| vec![0; size]),
            message: vec![0; 1 << 20],
        }
    }

    pub fn plan(&mut self, lent: &Indexed, waiting: &[u8]) -> [u64; ANSWER_WORDS] {
        planned!(self, lent, waiting, plan)
    }

    /// By bits and probes that are passed, with nothing waiting.
    pub fn plan_with(&mut self, bits: u64, probes: u64, lent: &Indexed) -> [u64; ANSWER_WORDS] {
        planned!(self, lent, &[], plan_with, bits, probes)
    }

    /// By a settings list, with nothing waiting.
    pub fn plan_settled(
        &mut self,
        settings: &[u8],
        station: u64,
        version: u64,
        lent: &Indexed,
    ) -> [u64; ANSWER_WORDS] {
        planned!(self, lent, &[], plan_settled, settings, station, version)
    }

    /// With a pick, by the crate's numbers and with nothing waiting.
    pub fn plan_picked(
        &mut self,
        sizes: &[u64],
        budget: u64,
        pick: &[u8],
        lent: &Indexed,
    ) -> [u64; ANSWER_WORDS] {
        planned!(self, lent, &[], plan_picked, &[], 0, 0, sizes, budget, pick)
    }

    /// Writes what was planned, with these chunks; the message's length.
    fn write(&mut self, plan: &[u64; ANSWER_WORDS], chunks: &[u8], lengths: &[u64]) -> usize {
        let [heads, need, have, _] = &self.said;
        let words = HAVE_WORDS * plan[7] as usize;
        let answer = raw::write_message(
            plan[2],
            &heads[..HASH * plan[5] as usize],
            &need[..HASH * plan[6] as usize],
            have,
            &plan[8..8 + words],
            chunks,
            lengths,
            plan[3],
            &mut self.message,
        );
        assert_eq!(answer[0], 0);
        answer[1] as usize
    }

    /// Takes a session over, all but its haves, of which it has none.
    pub fn lay(&mut self, lent: &Lent) {
        let lists = [
            &lent.shared,
            &lent.last_sent,
            &lent.their_heads,
            &lent.their_need,
            &lent.sent,
        ];
        self.words = lent.words;
        for (buffer, list) in self.hashes.iter_mut().zip(lists) {
            buffer[..list.len()].copy_from_slice(list);
        }
    }

    pub fn receive(&mut self, lent: &Indexed, before: usize, message: &[u8]) {
        assert_eq!(self.hear(lent, before, message), [0; 4]);
    }

    fn hear(&mut self, lent: &Indexed, before: usize, message: &[u8]) -> [u64; 4] {
        let [shared, last_sent, their_heads, their_need, sent] = &mut self.hashes;
        raw::receive(
            &mut self.words,
            shared,
            last_sent,
            their_heads,
            their_need,
            &mut self.haves,
            &mut self.bytes,
            sent,
            &lent.table,
            &lent.index,
            before,
            message,
            1,
        )
    }

    /// How many shared heads there are, and heads of the peer.
    fn heads(&self) -> u64 {
        self.words[0] + self.words[3]
    }

    /// Tests a table and its index and does nothing else, since a message of no bytes is
    /// refused; how many rows it has.
    fn test(&mut self, lent: &Indexed) -> u64 {
        assert_eq!(self.hear(lent, 0, &[]), [1, 0, 0, 0]);
        (lent.table.len() / ROW) as u64
    }
}

/// A message: over what it is planned, what it brings and beside what it is heard.
struct Step {
    from: usize,
    table: Rc<Indexed>,
    waiting: Vec<u8>,
    chunks: Vec<u8>,
    lengths: Vec<u64>,
    before: usize,
    after: Rc<Indexed>,
    message: Vec<u8>,
    /// The hearer's session before it.
    hearer: Value,
}

/// A station, a validator that lacks the last of its rows, and the first two messages, of
/// the validator and of the station.
struct Talk {
    documents: [Automerge; 2],
    steps: [Step; 2],
    /// Whether the validator holds all rows after these.
    ended: bool,
}

impl Talk {
    fn begun(rows: usize, shape: Shape, lacking: usize, random: &mut Random) -> Talk {
        let hashes = random.hashes(rows, Likeness::Spread);
        let table = table_bytes(&random.rows_of(&hashes, shape));
        let held = &table[..ROW * (rows - lacking)];
        let documents = [document(&table, &[]), document(held, &[])];
        let mut tables = [STATION, VALIDATOR].map(|unit| Rc::new(Indexed::of(&documents[unit])));
        let starts = documents.clone().map(|one| (one, Value::default()));
        let mut pair = Pair::new([published; 2], starts);
        let steps = [VALIDATOR, STATION].map(|from| step(&mut pair, &mut tables, from));
        Talk {
            documents,
            steps,
            ended: pair.held(STATION) == pair.held(VALIDATOR),
        }
    }

    /// A talk that two messages end. Nearly all do where the validator lacks little; others
    /// would only be longer.
    fn whole(rows: usize, shape: Shape, lacking: usize, random: &mut Random) -> Talk {
        loop {
            let talk = Talk::begun(rows, shape, lacking, random);
            if talk.ended {
                return talk;
            }
        }
    }

    /// The library says the same.
    fn compare(&self, desks: &mut [Desk; 2]) {
        for desk in &mut *desks {
            desk.words = [0; WORDS];
        }
        for step in &self.steps {
            let length = take(desks, step);
            assert_eq!(desks[step.from].message[..length], step.message);
        }
    }

    /// The station's table as it is first.
    fn station(&self) -> (&Automerge, &Indexed) {
        (&self.documents[STATION], &self.steps[1].table)
    }

    /// The crate's unit that hears a step's message, before it.
    fn hearing(&self, step: usize) -> (Automerge, State) {
        let step = &self.steps[step];
        (self.documents[1 - step.from].clone(), state(&step.hearer))
    }

    fn units(&self) -> [(Automerge, State); 2] {
        self.documents.clone().map(|one| (one, State::new()))
    }
}

/// The station's first message, if it spoke first. A run's number is how many heads
/// and haves are said.
fn plan(pool: &Pool<Talk>, name: &str, size: &str) {
    let mut desk = Desk::fresh();
    for talk in pool.iter() {
        let (document, table) = talk.station();
        desk.words = [0; WORDS];
        let plan = desk.plan(table, &[]);
        let length = desk.write(&plan, &[], &[]);
        let first = document.generate_sync_message(&mut State::new());
        let first = first.expect("a first message").encode();
        assert_eq!(desk.message[..length], first);
    }
    let mut next = pool.turn();
    let library = || {
        let (_, table) = next().station();
        desk.words = [0; WORDS];
        let answer = desk.plan(black_box(table), &[]);
        black_box(&desk.said);
        answer[5] + answer[7]
    };
    let mut next = pool.turn();
    let given = || (next().station().0, State::new());
    let published = |(document, state): &mut (&Automerge, State)| {
        let message = document.generate_sync_message(state);
        let message = black_box(message).expect("a first message");
        (message.heads.len() + message.have.len()) as u64
    };
    let note = "library: into lent buffers; crate: Vecs, over the stand-in document";
    measure(pool, name, size, note, library, given, published);
}

fn rest_of_plan(pool: &Pool<Talk>, name: &str, size: &str) {
    let mut desk = Desk::fresh();
    let mut next = pool.turn();
    let library = || desk.test(black_box(next().station().1));
    let mut next = pool.turn();
    let given = || next().documents[STATION].rows().len() as u64;
    let note = "library: table and index tested; crate: nothing";
    measure(pool, name, size, note, library, given, |rows| {
        black_box(*rows)
    });
}

/// A run's number is how many heads are shared, and heard.
fn receive(pool: &Pool<Talk>, name: &str, size: &str, step: usize) {
    let pool = pool.map(|talk| (talk, Lent::laid(&talk.steps[step].hearer)));
    let mut desk = Desk::fresh();
    let mut next = pool.turn();
    let library = || {
        let (talk, lent) = next();
        let step = &talk.steps[step];
        desk.lay(lent);
        desk.receive(black_box(&step.after), step.before, &step.message);
        black_box(&desk.hashes);
        desk.heads()
    };
    let mut next = pool.turn();
    let given = || {
        let (talk, _) = next();
        (talk.hearing(step), &talk.steps[step].message)
    };
    type Given<'a> = ((Automerge, State), &'a Vec<u8>);
    let published = |((document, state), message): &mut Given| {
        let message = Message::decode(black_box(message)).expect("a good message");
        let heard = document.receive_sync_message(state, message);
        heard.expect("it loads");
        let theirs = state.their_heads.as_ref().map_or(0, Vec::len);
        (state.shared_heads.len() + theirs) as u64
    };
    let note = "library: reads the bytes, tests table and index; crate: reads and loads";
    measure(&pool, name, size, note, library, given, published);
}

fn rest_of_receive(pool: &Pool<Talk>, name: &str, size: &str, step: usize) {
    let mut desk = Desk::fresh();
    let mut next = pool.turn();
    let library = || desk.test(black_box(&next().steps[step].after));
    let mut next = pool.turn();
    let given = || {
        let talk = next();
        (talk.hearing(step), &talk.steps[step].chunks)
    };
    type Given<'a> = ((Automerge, State), &'a Vec<u8>);
    let published = |((document, state), chunks): &mut Given| {
        assert!(load(document, black_box(chunks)));
        black_box(&state);
        document.rows().len() as u64
    };
    let note = "library: table and index tested; crate: the changes loaded by the stand-in";
    measure(pool, name, size, note, library, given, published);
}

/// A run's number is how many bytes were said.
fn whole(pool: &Pool<Talk>, name: &str, size: &str) {
    let mut desks = [Desk::fresh(), Desk::fresh()];
    let mut next = pool.turn();
    let library = || {
        for desk in &mut desks {
            desk.words = [0; WORDS];
        }
        let lengths = next().steps.iter().map(|step| take(&mut desks, step));
        lengths.sum::<usize>() as u64
    };
    let mut next = pool.turn();
    let given = || {
        let talk = next();
        (talk, talk.units())
    };
    let published = |(talk, units): &mut (&Talk, [(Automerge, State); 2])| {
        let mut said = 0;
        for step in &talk.steps {
            let (document, state) = &mut units[step.from];
            let message = document.generate_sync_message(state);
            let message = black_box(message.expect("something to say").encode());
            said += message.len() as u64;
            let message = Message::decode(&message).expect("a good message");
            let (document, state) = &mut units[1 - step.from];
            let heard = document.receive_sync_message(state, message);
            heard.expect("it loads");
        }
        said
    };
    let note =
        "library: change bytes and index ready, the host's loading left out; crate: loads too";
    measure(pool, name, size, note, library, given, published);
}

fn rest_of_whole(pool: &Pool<Talk>, name: &str, size: &str) {
    let mut desk = Desk::fresh();
    let mut next = pool.turn();
    let library = || {
        let mut rows = 0;
        for step in &next().steps {
            desk.test(black_box(&step.table));
            rows = desk.test(black_box(&step.after));
        }
        rows
    };
    let mut next = pool.turn();
    let given = || {
        let talk = next();
        (talk, talk.units())
    };
    let published = |(talk, units): &mut (&Talk, [(Automerge, State); 2])| {
        for step in &talk.steps {
            let (document, _) = &mut units[1 - step.from];
            assert!(load(document, black_box(&step.chunks)));
        }
        units[VALIDATOR].0.rows().len() as u64
    };
    let note = "library: tables and indexes tested; crate: the changes loaded by the stand-in";
    measure(pool, name, size, note, library, given, published);
}

/// The next message of two units of the crate, whose tables stand as they were until a
/// message changes them.
fn step(pair: &mut Pair, tables: &mut [Rc<Indexed>; 2], from: usize) -> Step {
    let hearer = pair.units[1 - from].session();
    let before = pair.rows(1 - from).len();
    let message = pair.speak(from).expect("something to say");
    let chunks = Message::decode(&message).expect("a good message").changes;
    let lengths = chunks.iter().map(|chunk| chunk.len() as u64).collect();
    let waiting = waiting_of(pair.units[from].document());
    pair.hear(1 - from, &message);
    if pair.rows(1 - from).len() > before {
        tables[1 - from] = Rc::new(Indexed::of(pair.units[1 - from].document()));
    }
    Step {
        from,
        table: tables[from].clone(),
        waiting,
        chunks: chunks.iter().flatten().copied().collect(),
        lengths,
        before,
        after: tables[1 - from].clone(),
        message,
        hearer,
    }
}

/// Has the library say a step's message, and the other desk hear it; the message's length.
fn take(desks: &mut [Desk; 2], step: &Step) -> usize {
    let [station, validator] = desks;
    let (from, to) = match step.from {
        STATION => (station, validator),
        _ => (validator, station),
    };
    let plan = from.plan(black_box(&step.table), &step.waiting);
    assert_eq!(plan[0], 0);
    let length = from.write(&plan, &step.chunks, &step.lengths);
    to.receive(black_box(&step.after), step.before, &from.message[..length]);
    length
}

fn measure<T, U>(
    pool: &Pool<U>,
    name: &str,
    size: &str,
    note: &str,
    library: impl FnMut() -> u64,
    given: impl FnMut() -> T,
    published: impl FnMut(&mut T) -> u64,
) {
    let what = Line {
        name,
        size,
        calls: 1,
        note: &pool.note(note),
    };
    line_of(what, library, pool.at_a_time(), given, published);
}
