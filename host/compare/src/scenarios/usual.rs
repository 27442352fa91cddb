//! The usual course of things.

use super::{brought, chain, chain_for_both, change, hash, hashes, have_of, heads, said, speech};
use super::{same_rows, talk, talked};
use crate::talks::{Pair, TOO_LONG};

/// Each says once that it has nothing.
pub fn nothing_on_either_side(pair: &mut Pair) {
    assert_eq!(talk(pair, 0), 2);
    assert!(pair.rows(0).is_empty());
    assert_eq!((pair.speak(0), pair.speak(1)), (None, None));
}

/// Each says once what it has; nothing is asked for or brought.
pub fn equal_heads_need_no_reply(pair: &mut Pair) {
    chain_for_both(pair, &[1, 2, 3, 4, 5]);
    for unit in [0, 1] {
        let message = pair.send(unit).expect("it never spoke");
        assert_eq!(said(&message).heads, hashes(&[5]));
        assert!(said(&message).need.is_empty() && brought(&message).is_empty());
    }
    assert_eq!((pair.speak(0), pair.speak(1)), (None, None));
}

/// The one without rows gets the whole document at once, whoever speaks first.
pub fn one_side_starts_from_nothing(pair: &mut Pair) {
    chain(pair, 0, &[1, 2, 3, 4, 5, 6, 7, 8, 9, 10]);
    pair.send(1);
    let document = speech(pair, 0);
    assert_eq!(brought(&document), pair.rows(0));
    pair.hear(1, &document);
    same_rows(pair);
    talk(pair, 1);
    assert_eq!(pair.rows(1).len(), 10);
    assert_eq!(pair.units[1].session().shared, hashes(&[10]));
}

pub fn both_have_their_own(pair: &mut Pair) {
    chain(pair, 0, &[1, 2, 3, 4, 5]);
    chain(pair, 1, &[11, 12, 13]);
    talk(pair, 1);
    assert_eq!(pair.rows(0).len(), 8);
    let mut both = hashes(&[5, 13]);
    both.sort();
    assert_eq!(heads(pair, 0), both);
    assert_eq!(pair.units[0].session().shared, both);
}

/// Both speak before either hears, again and again.
pub fn messages_that_cross(pair: &mut Pair) {
    chain_for_both(pair, &[1, 2, 3]);
    chain(pair, 0, &[3, 4, 5, 6]);
    chain(pair, 1, &[3, 13, 14]);
    for round in 0.. {
        assert!(round < TOO_LONG);
        let messages = [pair.speak(0), pair.speak(1)];
        if messages == [None, None] {
            break;
        }
        for (unit, message) in messages.into_iter().enumerate() {
            if let Some(message) = message {
                pair.hear(1 - unit, &message);
            }
        }
    }
    same_rows(pair);
    assert_eq!(pair.rows(0).len(), 8);
}

/// What went out isn't sent again before something else is heard.
pub fn sent_changes_are_assumed_to_arrive(pair: &mut Pair) {
    talked(pair, &[1, 2, 3, 4, 5, 6]);
    pair.load(0, &change(7, &[6]));
    let first = speech(pair, 0);
    pair.load(0, &change(8, &[7]));
    let second = speech(pair, 0);
    assert_eq!(brought(&first), hashes(&[7]));
    assert_eq!(brought(&second), hashes(&[8]));
    assert!(pair.units[0].session().sent.contains(&hash(7)));
    pair.hear(1, &first);
    pair.hear(1, &second);
    same_rows(pair);
    talk(pair, 1);
}

/// Only what came later goes into the filter, and goes over.
pub fn a_change_after_the_last_sync(pair: &mut Pair) {
    talked(pair, &[1, 2, 3, 4, 5, 6]);
    pair.load(1, &change(7, &[6]));
    let message = pair.send(1).expect("its heads are others");
    let have = have_of(&message);
    assert_eq!((have.last_sync, have.numbers[0]), (hashes(&[6]), 1));
    assert_eq!(brought(&message), hashes(&[7]));
    same_rows(pair);
    talk(pair, 0);
    assert_eq!(pair.units[1].session().shared, hashes(&[7]));
}

/// Branches on either side, each change on all heads that its unit has; every other
/// round the branches are merged. Then each has more of its own.
pub fn wide_branching_and_merging(pair: &mut Pair) {
    chain_for_both(pair, &[1]);
    let (mut tips, mut number) = ([1, 1], 1);
    for round in 0..20 {
        let before = tips;
        for unit in [0, 1] {
            number += 1;
            let on = match round % 2 {
                0 => vec![before[unit]],
                _ => before.to_vec(),
            };
            for to in [0, 1] {
                pair.load(to, &change(number, &on));
            }
            tips[unit] = number;
        }
    }
    chain_from(pair, 0, tips[0], &[101, 102, 103]);
    chain_from(pair, 1, tips[1], &[111, 112]);
    talk(pair, 0);
    assert_eq!(pair.rows(0).len(), 41 + 5);
    let mut both = hashes(&[103, 112]);
    both.sort();
    assert_eq!(heads(pair, 1), both);
}

/// Gives a unit changes on a row that it has.
fn chain_from(pair: &mut Pair, unit: usize, on: u32, numbers: &[u32]) {
    pair.load(unit, &change(numbers[0], &[on]));
    chain(pair, unit, numbers);
}

/// One of two units goes on from what it saved.
pub fn a_state_saved_on_one_side(pair: &mut Pair) {
    talked(pair, &[1, 2, 3, 4, 5, 6]);
    let saved = pair.units[1].save();
    pair.units[1].restore(&saved);
    go_on_apart(pair);
}

pub fn states_saved_on_both_sides(pair: &mut Pair) {
    talked(pair, &[1, 2, 3, 4, 5, 6]);
    for unit in [0, 1] {
        let saved = pair.units[unit].save();
        pair.units[unit].restore(&saved);
    }
    go_on_apart(pair);
}

/// Each gets changes of its own; what is known to be shared isn't told again.
fn go_on_apart(pair: &mut Pair) {
    chain_from(pair, 0, 6, &[7, 8]);
    chain_from(pair, 1, 6, &[17]);
    let message = pair.send(1).expect("its session is fresh");
    let have = have_of(&message);
    assert_eq!((have.last_sync, have.numbers[0]), (hashes(&[6]), 1));
    let reply = pair.send(0).expect("its heads are others");
    assert_eq!(brought(&reply), hashes(&[7, 8]));
    talk(pair, 1);
    assert_eq!(pair.rows(1).len(), 9);
}
