//! Filters that say yes to what isn't in them.

use super::{brought, chain, change, hash, hashes, said, speech, talk, talked};
use crate::inputs::message::Draft;
use crate::model::filter::contains;
use crate::model::have::OwnHave;
use crate::talks::Pair;

/// Rows that both hold, after which each has its own.
const COMMON: [u32; 10] = [1, 2, 3, 4, 5, 6, 7, 8, 9, 10];
/// What the second unit has beyond them, and has in its filter.
const OTHERS: [u32; 3] = [21, 22, 23];

/// The first numbers from here on to whose hashes the second unit's filter says yes or
/// no, in this order.
fn numbers(yes: &[bool]) -> Vec<u32> {
    let have = OwnHave::over(Vec::new(), 10, 7, &hashes(&OTHERS));
    let mut from = 1_000;
    let mut next = |yes: bool| {
        let says = |&n: &u32| contains(&have.filter(), &hash(n)) == yes;
        let found = (from..).find(says).expect("there are enough");
        from = found + 1;
        found
    };
    yes.iter().map(|&yes| next(yes)).collect()
}

/// The first unit has a chain of changes to which the other's filter says yes or no:
/// of these `at_once` come with its first reply, and the rest once asked for.
fn hidden(pair: &mut Pair, yes: &[bool], at_once: &[usize]) {
    talked(pair, &COMMON);
    let own = numbers(yes);
    pair.load(0, &change(own[0], &[10]));
    chain(pair, 0, &own);
    pair.load(1, &change(OTHERS[0], &[10]));
    chain(pair, 1, &OTHERS);
    let message = pair.send(1).expect("its heads are others");
    assert_eq!(said(&message).haves[0].numbers, [3, 10, 7]);
    let reply = speech(pair, 0);
    let expected: Vec<u32> = at_once.iter().map(|&k| own[k]).collect();
    assert_eq!(brought(&reply), hashes(&expected));
    pair.hear(1, &reply);
    talk(pair, 1);
    assert_eq!(pair.rows(1).len(), COMMON.len() + OTHERS.len() + own.len());
}

pub fn a_false_yes_hides_a_head(pair: &mut Pair) {
    hidden(pair, &[true], &[]);
}

pub fn false_yeses_hide_a_chain(pair: &mut Pair) {
    hidden(pair, &[true, true, true], &[]);
}

pub fn a_false_yes_hides_a_change_under_a_head(pair: &mut Pair) {
    hidden(pair, &[true, false], &[1]);
}

/// What is on a change that is missed goes with it; the two under it don't.
pub fn two_false_yeses_in_a_row(pair: &mut Pair) {
    hidden(pair, &[true, true, false, true], &[2, 3]);
}

/// A change goes that all filters miss, and what is on it.
pub fn several_filters_at_once(pair: &mut Pair) {
    let rows = [1, 2, 3, 4, 5, 6, 7, 8, 9, 10, 11, 12];
    for n in rows {
        pair.load(0, &change(n, &[]));
    }
    let over = |numbers: &[u32]| {
        let have = OwnHave::over(Vec::new(), 40, 7, &hashes(numbers));
        (Vec::new(), have.filter_string())
    };
    let message = Draft {
        heads: hashes(&[77]),
        haves: vec![over(&[1, 2, 3, 4]), over(&[4, 5, 6]), over(&[8, 9, 10, 11])],
        ..Draft::new()
    };
    pair.hear(0, &message.bytes());
    let reply = speech(pair, 0);
    assert_eq!(brought(&reply), hashes(&[7, 12]));
}
