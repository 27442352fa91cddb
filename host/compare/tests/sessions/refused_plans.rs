//! Refusals of planning, each alone and two at a time: the earlier one is given.

use crate::{hash, hashes, planning, table};
use bisquetower::limits::{LIST_SIZE, SENT_HASHES, SENT_SIZE};
use compare::inputs::settings::{settings_bytes, LARGEST, LEAST};
use compare::inputs::table::{waiting_bytes, WaitingRow};
use compare::inputs::Random;
use compare::model::plan::{By, Numbers};
use compare::model::session::Value;
use compare::model::settings::{Setting, RECORD};
use compare::model::state::{HAVE_RESPONDED, IN_FLIGHT, READ_ONLY};
use compare::model::table::{DEPENDENCIES, HASHES, ROW, ROWS, WAITING_ROW, WAITING_ROWS};
use compare::sessions::lent::Lent;
use compare::sessions::library::{plan_answer, Planning};

/// What goes wrong, and the refusal that it is.
type Fault = (&'static str, fn(&mut Planning), (u64, u64));

/// One dependency too many.
const MANY: u8 = DEPENDENCIES as u8 + 1;

/// In the order of the refusals.
const FAULTS: [Fault; 12] = [
    (
        "a count past its limit",
        |p| p.session.words[0] = HASHES as u64 + 1,
        (10, 0),
    ),
    (
        "a long table",
        |p| p.table.resize(ROW * ROWS + 1, 0),
        (4, 0),
    ),
    ("a bad row", |p| p.table[ROW + 32] = MANY, (6, 1)),
    (
        "the index of another table",
        |p| p.index.swap(0, 2),
        (12, 0),
    ),
    (
        "an index without its last byte",
        |p| p.index.truncate(5),
        (12, 0),
    ),
    (
        "an index of an entry too many",
        |p| p.index.resize(2 * (ROWS + 1), 0),
        (12, 0),
    ),
    (
        "a long waiting table",
        |p| p.waiting.resize(WAITING_ROW * WAITING_ROWS + 1, 0),
        (4, 0),
    ),
    ("a bad waiting row", |p| p.waiting[32] = MANY, (9, 0)),
    ("a long need", long_need, (4, 0)),
    ("too much sent", too_much_sent, (4, 0)),
    ("no room for the heads", |p| p.rooms[0] = 63, (7, 64)),
    ("no room for the hashes", |p| p.rooms[3] = 31, (7, 32)),
];

/// As many numbers as `count`, from this one on.
fn some(from: u16, count: usize) -> std::ops::Range<u16> {
    from..from + count as u16
}

/// One unknown head less than a list has, and one that waits on two others.
fn long_need(p: &mut Planning) {
    let heads = [500].into_iter().chain(some(2_000, HASHES - 1));
    set_heads(p, heads.collect());
}

fn set_heads(p: &mut Planning, numbers: Vec<u16>) {
    p.session.words[3] = numbers.len() as u64;
    p.session.their_heads = hashes(numbers).concat();
    p.rooms[1] = LIST_SIZE;
}

/// As many as may be, none of them a row.
fn too_much_sent(p: &mut Planning) {
    p.session.words[8] = SENT_HASHES as u64;
    p.session.sent = hashes(some(4_000, SENT_HASHES)).concat();
    p.rooms[5] = SENT_SIZE + 32;
}

/// A unit of three rows that has one of them to send.
fn sound() -> Planning {
    let session = Value {
        their_heads: Some(hashes([500])),
        their_need: Some(hashes([1])),
        their_have: Some(Vec::new()),
        ..Value::default()
    };
    let rows = table(&[(1, &[]), (2, &[0]), (3, &[0])]);
    let waiting = [WaitingRow {
        hash: hash(500),
        dependencies: hashes([501, 502]),
    }];
    Planning::new(Lent::laid(&session), rows, waiting_bytes(&waiting))
}

fn refused(planning: &Planning, why: &str, (number, value): (u64, u64)) {
    let mut words = [0; 16];
    words[..2].copy_from_slice(&[number, value]);
    assert_eq!(plan_answer(planning), words, "{why}");
}

#[test]
fn refusals_in_their_order() {
    in_their_order(&By::Crate);
}

/// By good numbers that are passed, and by a good list, they are the same.
#[test]
fn refusals_in_their_order_by_other_numbers() {
    in_their_order(&By::Passed(LEAST));
    in_their_order(&By::Passed(LARGEST));
    in_their_order(&settled(None));
}

/// Numbers that are passed come first of all, whatever else is wrong.
#[test]
fn bad_numbers_come_first() {
    for (bits, probes) in [
        (0, 7),
        (33, 7),
        (10, 65),
        (1 << 32, 7),
        (10, 1 << 32),
        (u64::MAX, u64::MAX),
    ] {
        let bad = Planning {
            by: By::Passed(Numbers { bits, probes }),
            ..sound()
        };
        refused(&bad, "numbers alone", (10, 0));
        for (name, fault, _) in &FAULTS {
            let mut two = bad.clone();
            fault(&mut two);
            refused(&two, name, (10, 0));
        }
    }
}

/// A bad settings list comes behind what is wrong with session, table, index and waiting
/// table, and before what planning itself refuses.
#[test]
fn a_bad_list_behind_the_tables() {
    let planned = FAULTS.iter().position(|(name, ..)| *name == "a long need");
    let planned = planned.expect("it stands there");
    for record in 0..4 {
        let bad = Planning {
            by: settled(Some(record)),
            ..sound()
        };
        refused(&bad, "a bad list", (14, record as u64));
        for (k, (name, fault, refusal)) in FAULTS.iter().enumerate() {
            let mut two = bad.clone();
            fault(&mut two);
            let first = match k < planned {
                true => *refusal,
                false => (14, record as u64),
            };
            refused(&two, &format!("{name}, a bad list"), first);
        }
    }
}

/// A bad list is a refusal where a good one leads to silence and to a reset too.
#[test]
fn a_bad_list_before_a_reset_and_silence() {
    let mut one = sound();
    one.session.last_sent = hashes([2, 3]).concat();
    one.session.words[1] = 2;
    for flag in [IN_FLIGHT, HAVE_RESPONDED] {
        one.session.words[9 + flag] = 1;
    }
    let mut reset = one.clone();
    reset.session.words[7] = 1;
    reset.session.haves = vec![0, 1, 0, 10, 7, 0, 0];
    reset.session.bytes = hash(999).to_vec();
    for (what, mut unit) in [(0, one), (1, reset)] {
        unit.by = settled(None);
        assert_eq!(plan_answer(&unit)[..2], [0, what]);
        unit.by = settled(Some(1));
        refused(&unit, "a bad list", (14, 1));
    }
}

/// A list of three records, of which one is bad, or that has a few bytes more.
fn settled(bad: Option<usize>) -> By {
    let mut random = Random(6);
    let settings = [1, 2, 5].map(|version| Setting {
        version,
        station: 40,
        choice: random.choice(),
    });
    let mut list = settings_bytes(&settings);
    match bad {
        Some(3) => list.push(0),
        Some(record) => list[RECORD * record + 16] = 2,
        None => {}
    }
    By::Settings {
        list,
        station: 40,
        version: 4,
    }
}

fn in_their_order(by: &By) {
    let sound = || Planning {
        by: by.clone(),
        ..sound()
    };
    assert_eq!(plan_answer(&sound())[..2], [0, 2]);
    for (k, (name, fault, refusal)) in FAULTS.iter().enumerate() {
        let mut one = sound();
        fault(&mut one);
        refused(&one, name, *refusal);
        for (other, later, _) in &FAULTS[k + 1..] {
            let mut two = one.clone();
            later(&mut two);
            refused(&two, &format!("{name}, {other}"), *refusal);
        }
    }
}

/// A need that is too long counts before a reset and before silence; read-only units
/// need nothing.
#[test]
fn a_long_need_before_a_reset_and_silence() {
    let mut one = sound();
    long_need(&mut one);
    let heads = crate::hashes([2, 3]);
    one.session.last_sent = heads.concat();
    one.session.words[1] = 2;
    for flag in [IN_FLIGHT, HAVE_RESPONDED] {
        one.session.words[9 + flag] = 1;
    }
    refused(&one, "silence", (4, 0));
    let mut fewer = one.clone();
    fewer.session.words[3] = HASHES as u64 - 1;
    assert_eq!(plan_answer(&fewer)[..2], [0, 0]);
    // The first have names an unknown hash.
    for p in [&mut one, &mut fewer] {
        p.session.words[7] = 1;
        p.session.haves = vec![0, 1, 0, 10, 7, 0, 0];
        p.session.bytes = hash(999).to_vec();
    }
    refused(&one, "reset", (4, 0));
    assert_eq!(plan_answer(&fewer)[..2], [0, 1]);
    one.session.words[9 + READ_ONLY] = 1;
    assert_eq!(plan_answer(&one)[..2], [0, 1]);
}

/// Just as many as may be asked for and sent are good.
#[test]
fn limits_that_are_kept() {
    let mut one = sound();
    let heads = [500].into_iter().chain(some(2_000, HASHES - 2));
    set_heads(&mut one, heads.collect());
    let answer = plan_answer(&one);
    assert_eq!((answer[0], answer[6], answer[7]), (0, HASHES as u64, 0));
    let mut one = sound();
    too_much_sent(&mut one);
    one.session.words[8] -= 1;
    assert_eq!(plan_answer(&one)[0], 0);
    // One of them is the row itself.
    let mut one = sound();
    one.session.words[8] = SENT_HASHES as u64;
    one.session.sent = hashes((1..2).chain(some(4_000, SENT_HASHES - 1))).concat();
    one.rooms[5] = SENT_SIZE;
    assert_eq!(plan_answer(&one)[0], 0);
}

/// Too much sent is no refusal where nothing is said, or only a reset is.
#[test]
fn too_much_sent_and_silence() {
    let mut one = sound();
    too_much_sent(&mut one);
    let mut silent = one.clone();
    silent.session.last_sent = hashes([2, 3]).concat();
    silent.session.words[1] = 2;
    for flag in [IN_FLIGHT, HAVE_RESPONDED] {
        silent.session.words[9 + flag] = 1;
    }
    silent.rooms[4] = 64;
    assert_eq!(plan_answer(&silent), [0; 16]);
    one.session.words[7] = 1;
    one.session.haves = vec![0, 1, 0, 10, 7, 0, 0];
    one.session.bytes = hash(999).to_vec();
    assert_eq!(plan_answer(&one)[..2], [0, 1]);
}

/// A table of no rows, and the longest good one.
#[test]
fn tables_at_their_limits() {
    assert_eq!(plan_answer(&planning(&Value::default(), &[]))[5], 0);
    let rows: Vec<(u16, &[usize])> = some(0, ROWS).map(|n| (n, &[][..])).collect();
    let answer = plan_answer(&planning(&Value::default(), &table(&rows)));
    let (rows, field) = (ROWS as u64, (10 * ROWS).div_ceil(8) as u64);
    assert_eq!(
        (answer[0], answer[5], answer[10], answer[14]),
        (0, rows, rows, field)
    );
}
