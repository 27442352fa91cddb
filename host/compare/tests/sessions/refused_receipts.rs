//! Refusals of receiving, each alone and two at a time: the earlier one is given.

use crate::{hashes, receiving, table};
use bisquetower::limits::{MESSAGE_SIZE, SENT_HASHES};
use compare::guarded::FILLS;
use compare::inputs::message::Draft;
use compare::model::number_bytes;
use compare::model::session::Value;
use compare::model::state::READ_ONLY;
use compare::model::table::{DEPENDENCIES, HASHES, ROW, ROWS};
use compare::sessions::library::{compare_receipts, receive_answer, Receiving};

/// What goes wrong, and the refusal that it is.
type Fault = (&'static str, fn(&mut Receiving), (u64, u64));

/// In the order of the refusals. That loading failed and that the joined heads are too
/// many can't both be.
const FAULTS: [Fault; 11] = [
    (
        "a count past its limit",
        |r| r.session.words[8] = SENT_HASHES as u64 + 1,
        (10, 0),
    ),
    (
        "a long table",
        |r| r.table.resize(ROW * ROWS + 1, 0),
        (4, 0),
    ),
    (
        "a bad row",
        |r| r.table[ROW + 32] = DEPENDENCIES as u8 + 1,
        (6, 1),
    ),
    (
        "the index of another table",
        |r| r.index.swap(0, 2),
        (12, 0),
    ),
    (
        "an index without its last byte",
        |r| r.index.truncate(5),
        (12, 0),
    ),
    (
        "an index of an entry too many",
        |r| r.index.resize(2 * (ROWS + 1), 0),
        (12, 0),
    ),
    ("too many rows before", |r| r.before = 4, (11, 0)),
    ("another first byte", |r| r.message[0] = 0x41, (2, 0x41)),
    ("a failed load", |r| r.loaded = 0, (8, 0)),
    ("no room for the shared heads", |r| r.rooms[0] = 31, (7, 32)),
    ("no room for their need", |r| r.rooms[3] = 31, (7, 32)),
];

/// A unit of three rows that hears of a change and is asked for another.
fn sound() -> Receiving {
    let rows = table(&[(1, &[]), (2, &[0]), (3, &[0])]);
    let heard = Draft {
        heads: hashes([2]),
        need: hashes([1]),
        chunks: vec![Vec::new()],
        ..Draft::new()
    };
    receiving(&Value::default(), &rows, &heard)
}

fn refused(receiving: &Receiving, why: &str, (number, value): (u64, u64)) {
    assert_eq!(receive_answer(receiving), [number, value, 0, 0], "{why}");
}

#[test]
fn refusals_in_their_order() {
    assert_eq!(receive_answer(&sound()), [0; 4]);
    for (k, (name, fault, refusal)) in FAULTS.iter().enumerate() {
        let mut one = sound();
        fault(&mut one);
        refused(&one, name, *refusal);
        for (other, later, _) in &FAULTS[k + 1..] {
            let mut two = one.clone();
            later(&mut two);
            refused(&two, &format!("{name}, {other}"), *refusal);
        }
    }
}

/// As many shared heads as there may be, joined with one more that is known; with what is
/// among them they stay as many. It comes before the room, and only where some head is unknown.
#[test]
fn too_many_joined_heads() {
    let rows = table(&[(1, &[])]);
    let session = |from: u16| Value {
        shared: hashes(from..from + HASHES as u16),
        ..Value::default()
    };
    let heard = |heads: [u16; 2]| Draft {
        heads: hashes(heads),
        ..Draft::new()
    };
    let joined = receiving(&session(100), &rows, &heard([1, 77]));
    refused(&joined, "joined", (4, 0));
    let mut short = joined.clone();
    short.rooms[3..6].fill(0);
    refused(&short, "joined and no room", (4, 0));
    let among = receiving(&session(1), &rows, &heard([1, 77]));
    assert_eq!(receive_answer(&among), [0; 4]);
    let known = receiving(&session(100), &rows, &heard([1, 1]));
    assert_eq!(receive_answer(&known), [0; 4]);
    // With chunks the strange heads drop out, unless the session takes none.
    let mut brings = heard([1, 77]);
    brings.chunks = vec![Vec::new()];
    let mut loads = receiving(&session(100), &rows, &brings);
    assert_eq!(receive_answer(&loads), [0; 4]);
    loads.session.words[9 + READ_ONLY] = 1;
    refused(&loads, "read-only", (4, 0));
}

/// The limit counts joined heads once each: as many as a list may have, heard again; the
/// same with repeats among the old ones; and one more.
#[test]
fn repeats_are_not_counted() {
    let most = HASHES as u16;
    let rows: Vec<(u16, &[usize])> = (1..=most).map(|n| (n, &[][..])).collect();
    let rows = table(&rows);
    // A list is full: all heads but the last are held, or all of them.
    let unknown: Vec<u16> = (2..=most).chain([most + 1]).collect();
    let held: Vec<u16> = (1..=most).rev().collect();
    let hear = |old: Vec<u16>, heads: &[u16]| {
        let session = Value {
            shared: hashes(old),
            ..Value::default()
        };
        let heard = Draft {
            heads: hashes(heads.iter().copied()),
            ..Draft::new()
        };
        let one = receiving(&session, &rows, &heard);
        let left = compare_receipts(&[one], &FILLS).unwrap_or_else(|why| panic!("{why}"));
        let shared = left[0].session.value().expect("a good session").shared;
        (left[0].answer, shared)
    };
    let all = hashes(1..=most);
    assert_eq!(hear((1..=most).collect(), &unknown), ([0; 4], all.clone()));
    assert_eq!(hear(vec![1; HASHES], &unknown), ([0; 4], all));
    let as_heard = hashes(held.iter().copied());
    assert_eq!(hear((1..=most).collect(), &held), ([0; 4], as_heard));
    let one_more = [vec![1; HASHES - 1], vec![most + 2]].concat();
    let left = hashes(one_more.iter().copied());
    assert_eq!(hear(one_more, &unknown), ([4, 0, 0, 0], left));
}

/// What is wrong in a message, at its place, whatever loading came to.
#[test]
fn messages_that_are_not_read() {
    let mut one = sound();
    one.loaded = 0;
    let whole = one.message.clone();
    for (cut, place) in [(0, 0), (1, 1), (20, 2), (34, 34), (40, 35)] {
        one.message = whole[..cut].to_vec();
        refused(&one, "cut", (1, place));
    }
    one.message = [&whole[..1], &[0x80, 0x00]].concat();
    refused(&one, "overlong", (3, 1));
    one.message = [&whole[..1], &number_bytes(HASHES as u64 + 1)].concat();
    refused(&one, "a head too many", (4, 1));
    one.message = vec![0x42, 0, 0, 1, 0, 3, 1, 0, 7];
    refused(&one, "no bits", (5, 6));
    one.message = vec![0x41; MESSAGE_SIZE + 1];
    refused(&one, "too long", (4, 0));
}
