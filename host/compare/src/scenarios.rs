//! What two units go through when they sync, over small tables: each scenario says
//! what has to come of it. `run` has units of the crate do it, and pairs with units of
//! another kind, which have to do the same step for step.

mod loss;
mod read_only;
mod requests;
mod usual;
mod yes;

pub use loss::*;
pub use read_only::*;
pub use requests::*;
pub use usual::*;
pub use yes::*;

use crate::model::have::OwnHave;
use crate::model::receive::Said;
use crate::model::session::Value;
use crate::model::table::{Hash, HASH};
use crate::talks::{compare_pairs, Pair, TOO_LONG};
use crate::units::Make;
use crate_under_test::facade::{Automerge, Change, ChangeHash, Message};

/// A test for every scenario, of units of this kind beside the crate's.
#[macro_export]
macro_rules! scenarios {
    ($make:expr) => {
        $crate::scenarios! { $make;
            nothing_on_either_side
            equal_heads_need_no_reply
            one_side_starts_from_nothing
            both_have_their_own
            messages_that_cross
            sent_changes_are_assumed_to_arrive
            a_change_after_the_last_sync
            wide_branching_and_merging
            a_state_saved_on_one_side
            states_saved_on_both_sides
            all_data_lost_with_the_session_kept
            all_data_lost_with_the_session
            some_data_lost_with_the_session_kept
            some_data_lost_with_the_session
            a_reset_after_lost_data
            a_false_yes_hides_a_head
            false_yeses_hide_a_chain
            a_false_yes_hides_a_change_under_a_head
            two_false_yeses_in_a_row
            several_filters_at_once
            any_single_change_asked_for
            an_unknown_change_asked_for_is_ignored
            a_lost_part_is_asked_for_again
            a_reset_for_a_unit_that_knows_resets
            a_reset_for_a_unit_that_does_not
            a_read_only_unit
            both_read_only
            read_only_switched_on_and_off
        }
    };
    ($make:expr; $($name:ident)*) => {
        $(
            #[test]
            fn $name() {
                $crate::scenarios::run($make, $crate::scenarios::$name);
            }
        )*
    };
}

/// Has a scenario done by two fresh units without rows.
pub fn run(make: Make, scenario: fn(&mut Pair)) {
    compare_pairs(make, |makes| {
        let fresh = || (Automerge::new(), Value::default());
        let mut pair = Pair::new(makes, [fresh(), fresh()]);
        scenario(&mut pair);
        pair.steps
    });
}

/// A hash whose words spread over a filter.
fn hash(n: u32) -> Hash {
    let mut hash = [0; HASH];
    let mut word = n;
    for part in hash.chunks_mut(4) {
        word = (word ^ 0x9e37_79b9)
            .wrapping_mul(0x85eb_ca6b)
            .rotate_left(13);
        part.copy_from_slice(&word.to_be_bytes());
    }
    hash
}

fn hashes(numbers: &[u32]) -> Vec<Hash> {
    numbers.iter().copied().map(hash).collect()
}

/// The record of a change on others.
fn change(n: u32, on: &[u32]) -> Vec<u8> {
    let on = on.iter().map(|&n| ChangeHash(hash(n))).collect();
    let change = Change::new(ChangeHash(hash(n)), on, &n.to_le_bytes());
    change.raw_bytes().to_vec()
}

/// Gives both units these changes, each on the one before it.
fn chain_for_both(pair: &mut Pair, numbers: &[u32]) {
    for unit in [0, 1] {
        chain(pair, unit, numbers);
    }
}

/// Gives a unit these changes but the first, each on the one before it; the first too
/// if the unit hasn't it, on nothing.
fn chain(pair: &mut Pair, unit: usize, numbers: &[u32]) {
    pair.load(unit, &change(numbers[0], &[]));
    for two in numbers.windows(2) {
        pair.load(unit, &change(two[1], &two[..1]));
    }
}

/// Has the units talk until both are silent, and holds that they then have the same rows;
/// how many messages it took.
fn talk(pair: &mut Pair, first: usize) -> usize {
    let messages = pair.talk(first);
    assert!(messages < TOO_LONG);
    same_rows(pair);
    messages
}

fn same_rows(pair: &mut Pair) {
    assert_eq!(pair.held(0), pair.held(1));
}

/// Two units that have talked, with these changes in a chain.
fn talked(pair: &mut Pair, numbers: &[u32]) {
    chain(pair, 0, numbers);
    talk(pair, 0);
}

fn heads(pair: &mut Pair, unit: usize) -> Vec<Hash> {
    let heads = pair.units[unit].document().get_heads();
    heads.iter().map(|hash| hash.0).collect()
}

/// What a message says.
fn said(message: &[u8]) -> Said {
    Said::of(message).expect("a good message")
}

/// The changes that a message brings.
fn brought(message: &[u8]) -> Vec<Hash> {
    let message = Message::decode(message).expect("a good message");
    let records: Vec<u8> = message.changes.iter().flatten().copied().collect();
    let changes = Change::read_all(&records).expect("good records");
    changes.iter().map(|change| change.hash().0).collect()
}

/// A unit's message, which it must have.
fn speech(pair: &mut Pair, unit: usize) -> Vec<u8> {
    pair.speak(unit).expect("it has something to say")
}

/// The have of a message, of which there is one.
fn have_of(message: &[u8]) -> OwnHave {
    let [have] = said(message).haves.try_into().expect("one have");
    have
}
