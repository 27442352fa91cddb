//! Refusals of plans with picks, each alone and two at a time: the earlier one is given. And
//! what comes before a pick is looked at: a reset, silence, a document.

use crate::hash;
use bisquetower::limits::{HASHES, LIST_SIZE, ROWS, SENT_HASHES, SENT_SIZE, WAITING_SIZE};
use compare::inputs::table::{table_bytes, waiting_bytes, Row, WaitingRow};
use compare::inputs::Random;
use compare::model::have::OwnHave;
use compare::model::plan::{By, Picking};
use compare::model::session::Value;
use compare::model::state::{HAVE_RESPONDED, IN_FLIGHT, PEER_READ_ONLY, READ_ONLY, V2};
use compare::model::table::Hash;
use compare::sessions::lent::Lent;
use compare::sessions::library::{plan_answer, Planning};

/// Rows 0; 1 on 0; 2 on 1; 3; and so on, which nothing depends on.
fn table(count: usize) -> Vec<u8> {
    let row = |row: usize| Row {
        hash: hash(row),
        dependencies: match row {
            1 | 2 => vec![row - 1],
            _ => vec![],
        },
    };
    table_bytes(&(0..count).map(row).collect::<Vec<_>>())
}

/// A peer that asks for these rows.
fn asks(need: &[usize]) -> Value {
    Value {
        their_heads: Some(vec![hash(3)]),
        their_need: Some(need.iter().copied().map(hash).collect()),
        their_have: Some(Vec::new()),
        ..Value::default()
    }
}

/// A plan over twelve rows, of which three are asked for and two are picked.
fn good() -> Planning {
    let session = Lent::laid(&asks(&[2, 0, 1]));
    let planning = Planning::new(session, table(12), Vec::new()).picking(picking(&[0, 1], 2));
    Planning {
        by: By::Settings {
            list: Vec::new(),
            station: 3,
            version: 4,
        },
        ..planning
    }
}

fn picking(rows: &[usize], budget: u64) -> Picking {
    Picking {
        sizes: vec![1; 12],
        budget,
        pick: rows.iter().flat_map(|&row| hash(row)).collect(),
    }
}

fn pick(planning: &mut Planning) -> &mut Picking {
    planning.picking.as_mut().expect("a pick")
}

/// What goes wrong, and the refusal that it is.
type Fault = (&'static str, fn(&mut Planning), (u64, u64));

/// Needs that are more than a list may have: a waiting row after the other asks for others.
fn many_needs(planning: &mut Planning) {
    let mut random = Random(3);
    let mut strange = || random.hash();
    let waiting: Vec<WaitingRow> = (0..80)
        .map(|_| WaitingRow {
            hash: strange(),
            dependencies: (0..111).map(|_| strange()).collect(),
        })
        .collect();
    planning.session.words[3] = waiting.len() as u64;
    planning.session.their_heads = waiting.iter().flat_map(|row| row.hash).collect();
    planning.waiting = waiting_bytes(&waiting);
}

/// As many sent hashes as there may be, none of them a row.
fn many_sent(planning: &mut Planning) {
    let mut random = Random(4);
    let mut sent: Vec<Hash> = (0..SENT_HASHES).map(|_| random.hash()).collect();
    sent.sort();
    planning.session.words[8] = SENT_HASHES as u64;
    planning.session.sent = sent.concat();
}

/// In the order of the refusals. 4 of the sent hashes is counted over the pick.
const FAULTS: [Fault; 13] = [
    (
        "a count past its limit",
        |p| p.session.words[0] = HASHES as u64 + 1,
        (10, 0),
    ),
    (
        "too long a table",
        |p| p.table.resize(256 * ROWS + 1, 0),
        (4, 0),
    ),
    ("a bad row", |p| p.table[256 + 32] = 112, (6, 1)),
    ("another index", |p| p.index[0] ^= 1, (12, 0)),
    (
        "too long a waiting table",
        |p| p.waiting = vec![0; WAITING_SIZE + 1],
        (4, 0),
    ),
    ("a bad waiting row", |p| p.waiting = vec![0], (9, 0)),
    (
        "a bad settings list",
        |p| {
            p.by = By::Settings {
                list: vec![0; 5],
                station: 1,
                version: 1,
            }
        },
        (14, 0),
    ),
    (
        "too long a pick",
        |p| pick(p).pick = hash(0).repeat(HASHES + 1),
        (4, 0),
    ),
    ("half a hash", |p| pick(p).pick.truncate(40), (1, 32)),
    ("many needs", many_needs, (4, 0)),
    ("many sent hashes", many_sent, (4, 0)),
    (
        "a pick out of order",
        |p| pick(p).pick = picking(&[1, 0], 2).pick,
        (17, 1),
    ),
    ("no room for heads", |p| p.rooms[0] = 0, (7, 320)),
];

/// With room for whatever the faults put into the session.
fn roomy(mut planning: Planning) -> Planning {
    planning.rooms = [
        LIST_SIZE,
        LIST_SIZE,
        2 * LIST_SIZE,
        2 * LIST_SIZE,
        LIST_SIZE,
        SENT_SIZE,
    ];
    planning
}

#[test]
fn each_alone_and_two_at_a_time() {
    assert_eq!(plan_answer(&roomy(good()))[..2], [0, 2]);
    for (k, (name, spoil, (number, value))) in FAULTS.iter().enumerate() {
        let mut alone = roomy(good());
        spoil(&mut alone);
        assert_eq!(plan_answer(&alone)[..2], [*number, *value], "{name}");
        for (other, later, _) in &FAULTS[k + 1..] {
            let mut both = roomy(good());
            later(&mut both);
            spoil(&mut both);
            // Of two that exchange the same part the earlier has it.
            assert_eq!(
                plan_answer(&both)[..2],
                [*number, *value],
                "{name}, {other}"
            );
        }
    }
}

/// 4 for the sent hashes is counted over the pick and what was sent, each hash once, whether
/// the pick is accepted or not.
#[test]
fn sent_hashes_are_counted_with_the_pick() {
    let mut planning = roomy(good());
    many_sent(&mut planning);
    let session = &mut planning.session;
    // Room for one: the first of those sent is taken away.
    session.words[8] -= 1;
    session.sent.drain(..32);
    let mut answer = |rows: &[usize], budget: u64| {
        planning.picking = Some(picking(rows, budget));
        let answer = plan_answer(&planning);
        [answer[0], answer[1]]
    };
    assert_eq!(answer(&[0], 1), [0, 2]);
    assert_eq!(answer(&[0, 1], 2), [4, 0]);
    // One hash twice is counted once, and then not accepted.
    assert_eq!(answer(&[0, 0], 2), [17, 1]);
    assert_eq!(answer(&[1], 2), [17, 0]);
    assert_eq!(answer(&[1, 0], 2), [4, 0]);
    assert_eq!(answer(&[7, 8], 2), [4, 0]);
    assert_eq!(answer(&[], 2), [17, 0]);
    assert_eq!(answer(&[], 0), [0, 2]);
}

/// Each rule of a pick in a plan, with its place; nothing else is refused.
#[test]
fn what_a_pick_breaks() {
    for (rows, budget, expected) in [
        (&[0, 1, 2][..], 3, [0, 2]),
        (&[0, 1], 2, [0, 2]),
        (&[0], 1, [0, 2]),
        (&[], 0, [0, 2]),
        (&[], 1, [17, 0]),
        (&[0, 1], 1, [17, 2]),
        (&[0, 2], 3, [17, 1]),
        (&[1], 3, [17, 0]),
        (&[0, 3], 3, [17, 1]),
        (&[0, 99], 3, [17, 1]),
        (&[0, 0], 3, [17, 1]),
        (&[0, 2, 1], 3, [17, 2]),
    ] {
        let mut planning = roomy(good());
        planning.picking = Some(picking(rows, budget));
        assert_eq!(plan_answer(&planning)[..2], expected, "{rows:?}, {budget}");
        for sizes in [11, 13, 0] {
            let own = pick(&mut planning);
            own.sizes = vec![1; sizes];
            let place = match expected {
                [17, place] if (place as usize) < rows.len() => place,
                _ => rows.len() as u64,
            };
            assert_eq!(
                plan_answer(&planning)[..2],
                [17, place],
                "{rows:?}, {budget}"
            );
        }
    }
}

/// A pick that breaks every rule at once.
fn broken() -> Picking {
    Picking {
        sizes: vec![1; 3],
        budget: 0,
        pick: [hash(99), hash(1), hash(1)].concat(),
    }
}

/// A reset, silence while a message is under way, and a document look at no pick; but 4 and
/// 1 for the pick itself come first.
#[test]
fn what_looks_at_no_pick() {
    let mut reset = asks(&[1]);
    reset.their_have = Some(vec![OwnHave::over(vec![[9; 32]], 10, 7, &[])]);
    let mut in_flight = asks(&[0]);
    in_flight.flags[IN_FLIGHT] = true;
    in_flight.flags[HAVE_RESPONDED] = true;
    in_flight.last_sent = Vec::new();
    let mut document = asks(&[0]);
    document.flags[V2] = true;
    document.their_heads = Some(Vec::new());
    let mut by_length = asks(&[0, 1, 2, 3, 4]);
    by_length.flags[V2] = true;
    let empty = table(0);
    let twelve = table(12);
    for (session, table, said) in [
        (reset, &twelve, 1),
        (in_flight, &empty, 0),
        (document, &twelve, 2),
        (by_length, &twelve, 2),
    ] {
        let plain = Planning::new(Lent::laid(&session), table.clone(), Vec::new());
        let expected = plan_answer(&plain);
        assert_eq!(expected[..2], [0, said]);
        let mut planning = plain.clone().picking(broken());
        assert_eq!(plan_answer(&planning), expected);
        compare::sessions::library::same_as_whole(&planning).unwrap_or_else(|why| panic!("{why}"));
        pick(&mut planning).pick.push(0);
        assert_eq!(plan_answer(&planning)[..2], [1, 96]);
        pick(&mut planning).pick = vec![0; LIST_SIZE + 1];
        assert_eq!(plan_answer(&planning)[..2], [4, 0]);
    }
}

/// Where nothing is to be sent by list a pick is judged against no list: to a read-only peer,
/// and before a need was heard.
#[test]
fn a_pick_of_nothing() {
    let mut read_only = asks(&[0, 1]);
    read_only.flags[PEER_READ_ONLY] = true;
    let unheard = Value {
        their_need: None,
        ..asks(&[])
    };
    for session in [read_only, unheard, asks(&[])] {
        let plain = Planning::new(Lent::laid(&session), table(12), Vec::new());
        let answer = |rows: &[usize], budget: u64| {
            let answer = plan_answer(&plain.clone().picking(picking(rows, budget)));
            [answer[0], answer[1]]
        };
        assert_eq!(answer(&[], 0), [0, 2]);
        assert_eq!(answer(&[], u64::MAX), [0, 2]);
        assert_eq!(answer(&[0], u64::MAX), [17, 0]);
    }
}

/// Silence is decided by what goes: an accepted pick of nothing is silence where the heads
/// are known and said, and one that isn't accepted is refused there.
#[test]
fn an_empty_pick_and_silence() {
    let mut session = asks(&[0, 1]);
    let mut heads: Vec<Hash> = (0..12)
        .filter(|row| ![0, 1].contains(row))
        .map(hash)
        .collect();
    heads.sort();
    session.their_heads = Some(heads.clone());
    session.last_sent = heads;
    session.flags[HAVE_RESPONDED] = true;
    let mut read_only = session.clone();
    read_only.their_heads = Some(Vec::new());
    read_only.flags[READ_ONLY] = true;
    for session in [session, read_only] {
        let plain = Planning::new(Lent::laid(&session), table(12), Vec::new());
        assert_eq!(plan_answer(&plain)[..2], [0, 2]);
        let answer = |picking: Picking| {
            let answer = plan_answer(&plain.clone().picking(picking));
            [answer[0], answer[1]]
        };
        assert_eq!(answer(picking(&[], 0)), [0, 0]);
        assert_eq!(answer(picking(&[], 1)), [17, 0]);
        assert_eq!(answer(picking(&[0], 1)), [0, 2]);
        let mut uneven = picking(&[], 0);
        uneven.sizes.pop();
        assert_eq!(answer(uneven), [17, 0]);
    }
}
