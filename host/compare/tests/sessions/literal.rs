//! Document 01's vectors, and the smallest inputs at which its words could be read two
//! ways, with the answers written out.

use crate::{hash, hashes, planning, receiving, table};
use compare::guarded::FILLS;
use compare::inputs::message::Draft;
use compare::inputs::session::record;
use compare::inputs::table::Row;
use compare::model::session::Value;
use compare::model::state::{
    HAVE_RESPONDED, IN_FLIGHT, NEEDS_RESET, PEER_READ_ONLY, READ_ONLY, RESET, V2,
};
use compare::sessions::library::{compare_plans, compare_receipts, plan_answer, receive_answer};
use compare::sessions::library::{PlanLeft, Planning, Receiving};
use compare::units::{proved, Unit};
use crate_under_test::facade::Automerge;

/// A session with these flags.
fn with(flags: &[usize]) -> Value {
    let mut session = Value::default();
    for &flag in flags {
        session.flags[flag] = true;
    }
    session
}

fn left(planning: &Planning) -> PlanLeft {
    let left = compare_plans(std::slice::from_ref(planning), &FILLS);
    left.unwrap_or_else(|why| panic!("{why}")).remove(0)
}

/// The answer's first word and the session after a message.
fn taken(receiving: &Receiving) -> (u64, Value) {
    let left = compare_receipts(std::slice::from_ref(receiving), &FILLS);
    let left = left.unwrap_or_else(|why| panic!("{why}")).remove(0);
    (
        left.answer[0],
        left.session.value().expect("a good session"),
    )
}

#[test]
fn p4_p5_the_first_message_of_an_empty_unit() {
    let words = |flags: u8| {
        [
            0,
            2,
            1,
            u64::from(flags),
            0,
            0,
            0,
            1,
            0,
            0,
            0,
            10,
            7,
            0,
            0,
            0,
        ]
    };
    let message = |flags: u8| vec![0x42, 0, 0, 1, 0, 0, 0, 2, 2, 0x80 + flags];
    for (session, flags) in [(with(&[]), 4), (with(&[READ_ONLY]), 6)] {
        assert_eq!(plan_answer(&planning(&session, &[])), words(flags));
        let mut unit: Box<dyn Unit> = proved(Automerge::new(), session);
        assert_eq!(unit.speak(), Some(message(flags)));
    }
}

/// The words and lists of a plan in which everything is there.
#[test]
fn every_word_of_an_answer() {
    // a; b on a; c on a; what is needed is held, and something is missing.
    let rows = table(&[(9, &[]), (7, &[0]), (8, &[0])]);
    let session = Value {
        shared: hashes([9]),
        their_heads: Some(hashes([20])),
        their_need: Some(hashes([8])),
        their_have: Some(Vec::new()),
        sent: hashes([1]).into_iter().collect(),
        ..with(&[NEEDS_RESET, RESET])
    };
    let planned = left(&planning(&session, &rows));
    let expected = [0, 2, 1, 5, 0, 2, 1, 1, 0, 1, 2, 10, 7, 32, 3, 1];
    assert_eq!(planned.answer, expected);
    let plan = planned.plan.expect("a message");
    assert_eq!(plan.heads, hashes([7, 8]));
    assert_eq!(plan.need, hashes([20]));
    assert_eq!(plan.haves[0].last_sync, hashes([9]));
    assert_eq!(plan.hashes, hashes([8]));
    let words = [1, 2, 1, 1, 1, 1, 1, 0, 2, 1, 1, 0, 1, 0, 0, 0];
    assert_eq!(planned.session.words, words);
    let after = planned.session.value().expect("a good session");
    assert_eq!(after.last_sent, hashes([7, 8]));
    assert_eq!(after.sent, hashes([1, 8]).into_iter().collect());
}

/// The document of no rows has nothing to tell; it still goes where nothing was
/// answered yet.
#[test]
fn the_document_of_no_rows() {
    let heard = |flags: &[usize]| Value {
        their_heads: Some(Vec::new()),
        their_need: Some(Vec::new()),
        their_have: Some(Vec::new()),
        ..with(flags)
    };
    let answer = |flags: &[usize]| plan_answer(&planning(&heard(flags), &[]));
    assert_eq!(answer(&[V2, HAVE_RESPONDED]), [0; 16]);
    let document = answer(&[V2]);
    assert_eq!((document[1], document[4], document[15]), (2, 1, 0));
}

/// A body wants a have and a need, and a peer that takes changes; their heads have to
/// be there to be none.
#[test]
fn when_there_is_a_body() {
    let rows = table(&[(1, &[])]);
    let whole = Value {
        their_heads: Some(Vec::new()),
        their_need: Some(Vec::new()),
        their_have: Some(Vec::new()),
        ..with(&[V2])
    };
    let body = |session: &Value| {
        let answer = plan_answer(&planning(session, &rows));
        (answer[2], answer[4], answer[15])
    };
    assert_eq!(body(&whole), (2, 1, 1));
    let mut none = whole.clone();
    none.their_need = None;
    assert_eq!(body(&none), (2, 0, 0));
    none.their_need = Some(Vec::new());
    none.their_have = None;
    assert_eq!(body(&none), (2, 0, 0));
    none = whole.clone();
    none.flags[PEER_READ_ONLY] = true;
    assert_eq!(body(&none), (2, 0, 0));
    none = whole.clone();
    none.their_heads = None;
    assert_eq!(body(&none), (2, 0, 0));
    none = whole;
    none.flags[V2] = false;
    assert_eq!(body(&none), (1, 0, 0));
}

/// More than a third of the rows: the list less what was sent, repeats counted.
#[test]
fn a_list_or_the_document() {
    let rows = table(&[(1, &[]), (2, &[]), (3, &[]), (4, &[]), (5, &[]), (6, &[])]);
    let body = |need: &[u16], sent: &[u16], flags: &[usize]| {
        let session = Value {
            their_heads: Some(hashes([1])),
            their_need: Some(hashes(need.iter().copied())),
            their_have: Some(Vec::new()),
            sent: hashes(sent.iter().copied()).into_iter().collect(),
            ..with(flags)
        };
        let answer = plan_answer(&planning(&session, &rows));
        (answer[4], answer[15])
    };
    assert_eq!(body(&[3, 3], &[], &[V2]), (0, 2));
    assert_eq!(body(&[3, 3, 3], &[], &[V2]), (1, 6));
    assert_eq!(body(&[3, 3, 3], &[], &[]), (0, 3));
    assert_eq!(body(&[3, 4, 5], &[4], &[V2]), (0, 2));
    assert_eq!(body(&[3, 4, 5, 6], &[4], &[V2]), (1, 6));
}

/// One that isn't understood is told as if all was lost; what was sent last are our
/// heads all the same.
#[test]
fn wanting_a_reset() {
    let rows = table(&[(1, &[])]);
    let planned = left(&planning(&with(&[NEEDS_RESET]), &rows));
    assert_eq!((planned.answer[3], planned.answer[5]), (4, 0));
    assert_eq!(
        planned.session.value().expect("good").last_sent,
        hashes([1])
    );
    let planned = left(&planning(&with(&[NEEDS_RESET, RESET]), &rows));
    assert_eq!((planned.answer[3], planned.answer[5]), (5, 1));
}

/// Changed heads are said even while a message is on its way; the same heads aren't.
#[test]
fn silence() {
    let rows = table(&[(1, &[])]);
    let mut session = with(&[IN_FLIGHT, HAVE_RESPONDED, NEEDS_RESET]);
    assert_eq!(plan_answer(&planning(&session, &rows))[1], 2);
    session.last_sent = hashes([1]);
    assert_eq!(plan_answer(&planning(&session, &rows)), [0; 16]);
    session.flags[IN_FLIGHT] = false;
    assert_eq!(plan_answer(&planning(&session, &rows))[1], 2);
    session.their_heads = Some(hashes([1]));
    assert_eq!(plan_answer(&planning(&session, &rows)), [0; 16]);
    session.their_heads = None;
    session.flags[READ_ONLY] = true;
    assert_eq!(plan_answer(&planning(&session, &rows)), [0; 16]);
}

fn message(heads: &[u16]) -> Draft {
    Draft {
        heads: hashes(heads.iter().copied()),
        ..Draft::new()
    }
}

/// The heads that both have: joined each once, as they stand where all are known.
#[test]
fn shared_heads() {
    let rows = table(&[(1, &[]), (2, &[])]);
    let shared = |numbers: &[u16], heads: &[u16]| {
        let session = Value {
            shared: hashes(numbers.iter().copied()),
            ..Value::default()
        };
        taken(&receiving(&session, &rows, &message(heads))).1.shared
    };
    assert_eq!(shared(&[1], &[1, 77]), hashes([1]));
    assert_eq!(shared(&[9, 2, 9], &[1, 77]), hashes([1, 2, 9]));
    assert_eq!(shared(&[], &[2, 1, 2]), hashes([2, 1, 2]));
    assert!(shared(&[1], &[]).is_empty());
}

/// Heads advance before they are joined, and drop out if they are heads no more.
#[test]
fn advanced_heads() {
    let on: [&[usize]; 2] = [&[], &[0]];
    let rows: Vec<Row> = [1, 2]
        .into_iter()
        .zip(on)
        .map(|(n, on)| Row {
            hash: hash(n),
            dependencies: on.to_vec(),
        })
        .collect();
    let session = Value {
        shared: hashes([1]),
        ..Value::default()
    };
    let shared = |chunk: Vec<u8>, heads: &[u16], before: usize| {
        let mut message = message(heads);
        message.chunks = vec![chunk];
        let table = table(&[(1, on[0]), (2, on[1])]);
        let mut receiving = receiving(&session, &table, &message);
        receiving.before = before;
        taken(&receiving).1.shared
    };
    assert_eq!(shared(record(&rows, 1), &[2, 77], 1), hashes([2]));
    assert_eq!(shared(record(&rows, 1), &[77], 1), hashes([2]));
    assert!(shared(Vec::new(), &[77], 2).is_empty());
}

/// What the peer has by now counts as sent no more: its heads and all below them.
#[test]
fn sent_hashes_that_arrived() {
    let session = Value {
        sent: hashes([1, 2, 3, 9]).into_iter().collect(),
        ..Value::default()
    };
    let rows = table(&[(1, &[]), (2, &[0]), (3, &[])]);
    let (_, after) = taken(&receiving(&session, &rows, &message(&[2, 77])));
    assert_eq!(after.sent, hashes([3, 9]).into_iter().collect());
}

/// Rows before that are fewer than the rows where nothing loads: the same rules.
#[test]
fn rows_before_without_chunks() {
    let rows = table(&[(1, &[]), (2, &[0])]);
    let mut receiving = receiving(&Value::default(), &rows, &message(&[1]));
    assert!(taken(&receiving).1.last_sent.is_empty());
    (receiving.before, receiving.rooms[1]) = (1, 32);
    assert_eq!(taken(&receiving).1.last_sent, hashes([1]));
}

/// A section grants V2 and replaces what else was known; none leaves all as it was.
#[test]
fn flags() {
    let mut session = Value::default();
    let mut hear = |section: Option<Vec<u8>>| {
        let message = Draft {
            flags: section,
            ..Draft::new()
        };
        session = taken(&receiving(&session, &[], &message)).1;
        [V2, RESET, PEER_READ_ONLY].map(|flag| session.is(flag))
    };
    assert_eq!(hear(None), [false; 3]);
    assert_eq!(hear(Some(vec![0x02, 0x86])), [true; 3]);
    assert_eq!(hear(None), [true; 3]);
    assert_eq!(hear(Some(Vec::new())), [true, false, false]);
}

/// What is kept when changes can't be loaded, and that nothing else is; a read-only
/// session loads nothing and can't fail.
#[test]
fn a_failed_load() {
    let rows = table(&[(1, &[])]);
    let session = Value {
        shared: hashes([5]),
        sent: hashes([1]).into_iter().collect(),
        ..with(&[IN_FLIGHT, RESET])
    };
    let heard = Draft {
        heads: hashes([1]),
        chunks: vec![Vec::new()],
        flags: Some(vec![0x83]),
        ..Draft::new()
    };
    let mut receiving = receiving(&session, &rows, &heard);
    receiving.loaded = 0;
    assert_eq!(receive_answer(&receiving), [8, 0, 0, 0]);
    let kept = Value {
        shared: hashes([5]),
        ..with(&[V2, PEER_READ_ONLY])
    };
    assert_eq!(taken(&receiving), (8, kept));

    receiving.session.words[9 + READ_ONLY] = 1;
    let (answer, after) = taken(&receiving);
    assert_eq!((answer, after.their_heads), (0, Some(hashes([1]))));
}

/// A peer without heads has lost everything.
#[test]
fn a_peer_without_heads() {
    let session = Value {
        shared: hashes([1]),
        last_sent: hashes([1]),
        sent: hashes([1, 9]).into_iter().collect(),
        ..Value::default()
    };
    let rows = table(&[(1, &[])]);
    let (_, after) = taken(&receiving(&session, &rows, &message(&[])));
    let heard = Value {
        their_heads: Some(Vec::new()),
        their_need: Some(Vec::new()),
        their_have: Some(Vec::new()),
        ..Value::default()
    };
    assert_eq!(after, heard);
}
