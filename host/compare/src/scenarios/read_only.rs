//! Units that take no changes, and what they say when they take them again.

use super::{brought, chain, change, hashes, said, speech, talk};
use crate::model::plan::{FLAG_READ_ONLY, FLAG_RESET, FLAG_SUPPORTS_RESET};
use crate::model::state::{NEEDS_RESET, RESET};
use crate::talks::{Pair, TOO_LONG};
use crate_under_test::facade::Message;

/// The second unit takes nothing, and the first doesn't send it anything once it
/// knows; the other way changes go.
pub fn a_read_only_unit(pair: &mut Pair) {
    pair.units[1].set_read_only(true);
    chain(pair, 0, &[1, 2, 3]);
    chain(pair, 1, &[11, 12]);
    let message = pair.send(1).expect("it never spoke");
    assert_eq!(
        said(&message).flags,
        Some(FLAG_SUPPORTS_RESET + FLAG_READ_ONLY)
    );
    let reply = pair.send(0).expect("it never spoke");
    assert!(brought(&reply).is_empty());
    assert!(pair.talk(1) < TOO_LONG);
    assert_eq!((pair.rows(0).len(), pair.rows(1).len()), (5, 2));
}

pub fn both_read_only(pair: &mut Pair) {
    for unit in [0, 1] {
        pair.units[unit].set_read_only(true);
    }
    chain(pair, 0, &[1, 2, 3]);
    chain(pair, 1, &[11, 12]);
    assert!(pair.talk(0) < TOO_LONG);
    assert_eq!((pair.rows(0).len(), pair.rows(1).len()), (3, 2));
}

/// Switched on after a sync and off again: then everything that came meanwhile comes
/// over, though it had been sent.
pub fn read_only_switched_on_and_off(pair: &mut Pair) {
    chain(pair, 0, &[1, 2, 3, 4, 5, 6]);
    talk(pair, 0);
    pair.units[1].set_read_only(true);
    pair.load(0, &change(7, &[6]));
    pair.load(1, &change(17, &[6]));
    assert!(pair.talk(0) < TOO_LONG);
    assert_eq!((pair.rows(0).len(), pair.rows(1).len()), (8, 7));
    pair.units[1].set_read_only(false);
    talk(pair, 1);
    assert_eq!(pair.rows(1).len(), 8);
}

/// The second unit was read-only while a change was sent to it, and isn't any more.
fn switched_off(pair: &mut Pair) {
    chain(pair, 0, &[1, 2, 3, 4, 5, 6]);
    talk(pair, 0);
    pair.units[1].set_read_only(true);
    pair.load(0, &change(7, &[6]));
    let unheeded = speech(pair, 0);
    assert_eq!(brought(&unheeded), hashes(&[7]));
    pair.hear(1, &unheeded);
    pair.units[1].set_read_only(false);
    assert!(pair.units[1].session().is(NEEDS_RESET));
}

/// The flag says that what was sent is to be forgotten.
pub fn a_reset_for_a_unit_that_knows_resets(pair: &mut Pair) {
    switched_off(pair);
    assert!(pair.units[1].session().is(RESET));
    let message = speech(pair, 1);
    let flags = said(&message).flags;
    assert_eq!(flags, Some(FLAG_SUPPORTS_RESET + FLAG_RESET));
    assert_eq!(said(&message).heads, hashes(&[6]));
    pair.hear(0, &message);
    assert!(pair.units[0].session().sent.is_empty());
    talk(pair, 0);
    assert_eq!(pair.rows(1).len(), 7);
}

/// One that knows of no such flag is told that there are no heads, as if all was lost.
pub fn a_reset_for_a_unit_that_does_not(pair: &mut Pair) {
    switched_off(pair);
    // Its last message had no flags but the one for version 2.
    pair.load(0, &change(8, &[7]));
    let message = speech(pair, 0);
    let mut old = Message::decode(&message).expect("a good message");
    old.flags = None;
    pair.units[1].set_read_only(true);
    pair.hear(1, &[old.encode(), vec![0x01, 0x02]].concat());
    pair.units[1].set_read_only(false);
    assert!(!pair.units[1].session().is(RESET));
    let message = speech(pair, 1);
    assert_eq!(said(&message).flags, Some(FLAG_SUPPORTS_RESET));
    assert!(said(&message).heads.is_empty());
    assert_eq!(pair.units[1].session().last_sent, hashes(&[6]));
    pair.hear(0, &message);
    assert!(pair.units[0].session().sent.is_empty());
    talk(pair, 0);
    assert_eq!(pair.rows(1).len(), 8);
}
