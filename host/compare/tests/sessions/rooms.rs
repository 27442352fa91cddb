//! Buffers one item short, just long enough and longer: 7 names the length that the
//! first too short one wants, and what fits is put.

use crate::{hashes, planning, receiving, table};
use compare::inputs::message::{filter_string, Draft};
use compare::inputs::Random;
use compare::model::session::Value;
use compare::sessions::library::{plan_answer, receive_answer};

/// Each buffer short by one item or more, alone and with each later one; all just long
/// enough; and longer.
fn short_and_long<const N: usize>(
    wants: [usize; N],
    holds: [usize; N],
    mut answer: impl FnMut([usize; N]) -> [u64; 2],
) {
    assert_eq!(answer(wants), [0, 0]);
    assert_eq!(answer(wants.map(|want| want + 1)), [0, 0]);
    assert_eq!(answer(wants.map(|want| want + 33)), [0, 0]);
    for k in 0..N {
        for short in [1, 2, 32, 33, wants[k]] {
            // Less than the session has in it would be another refusal.
            if short > wants[k] || wants[k] - short < holds[k] {
                continue;
            }
            let mut rooms = wants;
            rooms[k] -= short;
            assert_eq!(answer(rooms), [7, wants[k] as u64], "{k}");
            for later in k + 1..N {
                let mut rooms = rooms;
                rooms[later] = holds[later];
                assert_eq!(answer(rooms), [7, wants[k] as u64], "{k}, {later}");
            }
        }
    }
}

/// A plan in which every list has something.
#[test]
fn rooms_for_a_message() {
    let rows = table(&[(1, &[]), (2, &[0]), (3, &[0]), (4, &[]), (5, &[0])]);
    let session = Value {
        shared: hashes([4, 9]),
        their_heads: Some(hashes([20, 21])),
        their_need: Some(hashes([2, 3, 2])),
        their_have: Some(Vec::new()),
        sent: hashes([50]).into_iter().collect(),
        ..Value::default()
    };
    let mut planning = planning(&session, &rows);
    let wants = planning.wants();
    // Four heads, two needs, two last-sync hashes and a field of four rows, three
    // hashes to send; four heads sent last, two new hashes and the old one.
    assert_eq!(wants, [128, 64, 69, 96, 128, 96]);
    short_and_long(wants, [0, 0, 0, 0, 0, 32], |rooms| {
        planning.rooms = rooms;
        let answer = plan_answer(&planning);
        [answer[0], if answer[0] == 0 { 0 } else { answer[1] }]
    });
}

/// A reset wants room for its heads alone; silence for nothing.
#[test]
fn rooms_for_a_reset_and_for_nothing() {
    let rows = table(&[(1, &[]), (2, &[])]);
    let session = Value {
        shared: hashes([1]),
        their_heads: Some(hashes([20])),
        their_have: Some(Vec::new()),
        ..Value::default()
    };
    let mut one = planning(&session, &rows);
    one.session.words[7] = 1;
    one.session.haves = vec![0, 1, 0, 10, 7, 0, 0];
    one.session.bytes = hashes([99]).concat();
    one.rooms = [64, 0, 0, 0, 0, 0];
    assert_eq!(plan_answer(&one)[..2], [0, 1]);
    one.rooms[0] = 63;
    assert_eq!(plan_answer(&one)[..2], [7, 64]);

    let mut silent = planning(&Value::default(), &[]);
    silent.session.words[9..11].fill(1);
    silent.rooms = [0; 6];
    assert_eq!(plan_answer(&silent), [0; 16]);
}

/// A message of which every list of the session becomes longer.
#[test]
fn rooms_for_a_session() {
    let rows = table(&[(1, &[]), (2, &[]), (3, &[])]);
    let session = Value {
        shared: hashes([1]),
        sent: hashes([50, 51]).into_iter().collect(),
        ..Value::default()
    };
    let heard = Draft {
        heads: hashes([1, 2, 3]),
        need: hashes([7, 8]),
        haves: vec![
            (hashes([1]), filter_string(3, 10, 7)),
            (Vec::new(), Vec::new()),
            (hashes([2, 2]), filter_string(1, 9, 1)),
        ],
        ..Draft::new()
    };
    let mut receiving = receiving(&session, &rows, &heard);
    let wants = receiving.wants();
    assert_eq!(wants, [96, 96, 96, 64, 21, 32 + 4 + 64 + 2, 64]);
    short_and_long(wants, receiving.content(), |rooms| {
        receiving.rooms = rooms;
        let answer = receive_answer(&receiving);
        [answer[0], answer[1]]
    });
}

/// Nothing is wanted of a list that becomes shorter or is left: the session's buffers
/// may be as long as what they have.
#[test]
fn rooms_that_are_not_wanted() {
    let mut random = Random(7);
    let strange = |count: usize, random: &mut Random| (0..count).map(|_| random.hash()).collect();
    let session = Value {
        shared: strange(3, &mut random),
        last_sent: strange(2, &mut random),
        their_heads: Some(strange(4, &mut random)),
        ..Value::default()
    };
    let rows = table(&[(1, &[])]);
    let heard = Draft {
        heads: hashes([1]),
        chunks: vec![Vec::new()],
        ..Draft::new()
    };
    let mut receiving = receiving(&session, &rows, &heard);
    receiving.rooms = receiving.content();
    assert_eq!(receive_answer(&receiving), [0; 4]);
}
