//! Calls whose work could grow with the square of their input: long lists, an index that
//! doesn't fit, many changes that wait. Each is measured with hashes that are spread, and
//! with hashes that fall along the table and differ in their last bytes alone, since no
//! order of hashes may be dear.

use crate::measure::{line, line_of, Line, MOST_ROWS, SIZES};
use crate::pool::Pool;
use crate::session::{Desk, Indexed};
use bisquetower::limits::DEPENDENCIES;
use bisquetower::raw;
use compare::inputs::table::{table_bytes, waiting_bytes, Likeness, Shape, WaitingRow};
use compare::inputs::Random;
use compare::model::session::Value;
use compare::model::state::V2;
use compare::model::table::{Hash, HASH, WAITING_ROWS};
use compare::sessions::lent::Lent;
use compare::sessions::published::state;
use compare::tables::document;
use crate_under_test::facade::{Automerge, Message, State, SyncDoc};
use std::hint::black_box;

type Hashes = fn(usize, &mut Random) -> Vec<Hash>;

type Measure = fn(&Pool<Case>, &str, &str);

/// How the hashes of a table stand.
const ORDERS: [(&str, Hashes); 2] = [("", spread), (", falling", falling)];

fn spread(count: usize, random: &mut Random) -> Vec<Hash> {
    random.hashes(count, Likeness::Spread)
}

/// Each is below the one before it, by its last two bytes.
fn falling(count: usize, random: &mut Random) -> Vec<Hash> {
    let base = random.hash();
    let one = |k: usize| {
        let mut hash = base;
        let low = u16::MAX - u16::try_from(k).expect("two bytes of hashes");
        hash[HASH - 2..].copy_from_slice(&low.to_be_bytes());
        hash
    };
    (0..count).map(one).collect()
}

const LINES: [(&str, Measure); 5] = [
    ("plan document", plan_document),
    ("plan unknown heads", plan_unknown_heads),
    ("receive one unknown", receive_one_unknown),
    ("receive many shared", receive_many_shared),
    ("index unfit", index_unfit),
];

pub fn measure_all() {
    let pools = ORDERS.map(|(order, hashes)| {
        let pool = |rows| Pool::of(rows, MOST_ROWS, |random| Case::new(rows, hashes, random));
        (order, SIZES.map(|(size, rows)| (size, pool(rows))))
    });
    for (name, measure) in LINES {
        for (order, pools) in &pools {
            for (size, pool) in pools {
                measure(pool, &format!("{name}{order}"), size);
            }
        }
    }
    drop(pools);
    for (order, hashes) in ORDERS {
        for (size, rows) in SIZES {
            let waits = rows.min(WAITING_ROWS);
            let one = |random| Case::waiting(rows, waits, hashes, random);
            let pool = Pool::of(waits, WAITING_ROWS, one);
            plan_waiting(&pool, &format!("plan waiting{order}"), size);
        }
    }
}

/// A table with what waits beside it, and as many hashes that are unknown.
struct Case {
    lent: Indexed,
    waiting: Vec<u8>,
    document: Automerge,
    held: Vec<Hash>,
    unknown: Vec<Hash>,
}

impl Case {
    /// As many unknown hashes as rows, and nothing that waits.
    fn new(rows: usize, hashes: Hashes, mut random: Random) -> Case {
        let mut held = hashes(2 * rows, &mut random);
        let unknown = held.split_off(rows);
        Case::of(held, &[], unknown, random)
    }

    /// As many waiting rows as there may be, each with as many hashes as it may ask for:
    /// the next waiting row and unknown hashes, drawn of as many as there are waiting rows.
    /// The unknown hash apart is that of the first waiting row.
    fn waiting(rows: usize, waits: usize, hashes: Hashes, mut random: Random) -> Case {
        let mut held = hashes(rows + 2 * waits, &mut random);
        let unknown = held.split_off(rows + waits);
        let own = held.split_off(rows);
        let mut row = |k: usize| {
            let asked = (1..DEPENDENCIES).map(|_| unknown[random.below(waits)]);
            WaitingRow {
                hash: own[k],
                dependencies: std::iter::once(own[(k + 1) % waits]).chain(asked).collect(),
            }
        };
        let waiting: Vec<WaitingRow> = (0..waits).map(&mut row).collect();
        Case::of(held, &waiting, vec![own[0]], random)
    }

    fn of(held: Vec<Hash>, waiting: &[WaitingRow], unknown: Vec<Hash>, mut random: Random) -> Case {
        let table = table_bytes(&random.rows_of(&held, Shape::Recent));
        let waiting = waiting_bytes(waiting);
        let document = document(&table, &waiting);
        Case {
            lent: Indexed::of(&document),
            waiting,
            document,
            held,
            unknown,
        }
    }

    /// The session of a unit that has heard these heads, and nothing else.
    fn heard(&self) -> Value {
        Value {
            their_heads: Some(self.unknown.clone()),
            ..Value::default()
        }
    }
}

/// To a peer that has no heads: the document, and every row joins the sent hashes.
fn plan_document(pool: &Pool<Case>, name: &str, size: &str) {
    let session = |_: &Case| {
        let mut session = Value {
            their_heads: Some(Vec::new()),
            their_need: Some(Vec::new()),
            their_have: Some(Vec::new()),
            ..Value::default()
        };
        session.flags[V2] = true;
        session
    };
    let note = "to a peer without heads: the document";
    plan(pool, name, size, note, session);
}

/// For a peer of whose heads none is held.
fn plan_unknown_heads(pool: &Pool<Case>, name: &str, size: &str) {
    let note = "as many unknown heads were heard as there are rows, in the table's order";
    plan(pool, name, size, note, Case::heard);
}

/// For a peer whose head waits.
fn plan_waiting(pool: &Pool<Case>, name: &str, size: &str) {
    let note = "as many full waiting rows as rows, at most 1,024, that ask for one another";
    plan(pool, name, size, note, Case::heard);
}

/// A run's number is how many hashes the message asks for and carries.
fn plan(pool: &Pool<Case>, name: &str, size: &str, note: &str, session: impl Fn(&Case) -> Value) {
    let pool = pool.map(|case| {
        let session = session(case);
        (case, Lent::laid(&session), session)
    });
    let mut desk = Desk::fresh();
    let mut next = pool.turn();
    let library = || {
        let (case, session, _) = next();
        desk.lay(session);
        let answer = desk.plan(black_box(&case.lent), black_box(&case.waiting));
        assert_eq!(answer[0], 0);
        black_box(&desk.said);
        answer[6]
    };
    let mut next = pool.turn();
    let given = || {
        let (case, _, session) = next();
        (&case.document, state(session))
    };
    let published = |(document, state): &mut (&Automerge, State)| {
        let message = document.generate_sync_message(state);
        black_box(message).expect("something to say").need.len() as u64
    };
    let what = Line {
        name,
        size,
        calls: 1,
        note: &pool.note(note),
    };
    line_of(what, library, pool.at_a_time(), given, published);
}

/// A message with as many heads as there are rows, of which the last is unknown.
fn receive_one_unknown(pool: &Pool<Case>, name: &str, size: &str) {
    let heard = |case: &Case| {
        let heads = [&case.held[1..], &case.unknown[..1]].concat();
        (Value::default(), of_heads(&heads))
    };
    let note = "a message with as many heads as rows, all but one held, in the table's order";
    receive(pool, name, size, note, heard);
}

/// A message with one head, in a session that shares as many heads as there are rows. None
/// of them is held.
fn receive_many_shared(pool: &Pool<Case>, name: &str, size: &str) {
    let heard = |case: &Case| {
        let session = Value {
            shared: case.unknown.clone(),
            ..Value::default()
        };
        (session, of_heads(&case.unknown[..1]))
    };
    let note =
        "as many shared heads as rows, in the order of a table; one head is heard; none is held";
    receive(pool, name, size, note, heard);
}

/// A run's number is how many heads the session shares then.
fn receive(
    pool: &Pool<Case>,
    name: &str,
    size: &str,
    note: &str,
    heard: impl Fn(&Case) -> (Value, Vec<u8>),
) {
    let pool = pool.map(|case| {
        let (session, message) = heard(case);
        (case, Lent::laid(&session), session, message)
    });
    let mut desk = Desk::fresh();
    let mut next = pool.turn();
    let library = || {
        let (case, session, _, message) = next();
        desk.lay(session);
        desk.receive(black_box(&case.lent), case.held.len(), message);
        desk.words[0]
    };
    let mut next = pool.turn();
    let given = || {
        let (case, _, session, message) = next();
        (case.document.clone(), state(session), message)
    };
    let published = |(document, state, message): &mut (Automerge, State, &Vec<u8>)| {
        let message = Message::decode(black_box(message)).expect("a good message");
        let heard = document.receive_sync_message(state, message);
        heard.expect("nothing to load");
        state.shared_heads.len() as u64
    };
    let what = Line {
        name,
        size,
        calls: 1,
        note: &pool.note(note),
    };
    line_of(what, library, pool.at_a_time(), given, published);
}

/// A message of heads alone.
fn of_heads(heads: &[Hash]) -> Vec<u8> {
    let mut message = vec![0; HASH * heads.len() + 16];
    let flags = u64::MAX;
    let heads = heads.concat();
    let written = raw::write_message(1, &heads, &[], &[], &[], &[], &[], flags, &mut message);
    assert_eq!(written[0], 0);
    message.truncate(written[1] as usize);
    message
}

/// An index of which two entries are exchanged. A run's number is the refusal's.
fn index_unfit(pool: &Pool<Case>, name: &str, size: &str) {
    let pool = pool.map(|case| {
        let mut index = case.lent.index.clone();
        let last = index.len() - 2;
        index.swap(0, last);
        index.swap(1, last + 1);
        (case, index)
    });
    let mut next = pool.turn();
    let library = || {
        let (case, index) = next();
        raw::check_tables(black_box(&case.lent.table), black_box(index), &[])[0]
    };
    let mut next = pool.turn();
    let stand_in = || {
        let rows = black_box(next().0.document.rows()).to_vec();
        let document = Automerge::from_rows(rows, Vec::new());
        black_box(document).expect("a good table");
        12
    };
    let note = "crate: making the stand-in document, of copied changes, for it has no index";
    let what = Line {
        name,
        size,
        calls: 1,
        note: &pool.note(note),
    };
    line(what, library, stand_in);
}
