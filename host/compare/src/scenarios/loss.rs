//! A unit that lost rows.

use super::{chain, hashes, heads, said, talk, talked};
use crate::model::plan::FLAG_SUPPORTS_RESET;
use crate::model::session::Value;
use crate::talks::Pair;
use crate_under_test::facade::Automerge;

const ROWS: [u32; 8] = [1, 2, 3, 4, 5, 6, 7, 8];

/// The second unit loses its rows but the first few.
fn lose(pair: &mut Pair, kept: usize, session: Value) {
    talked(pair, &ROWS);
    pair.replace(1, Automerge::new(), session);
    if kept > 0 {
        chain(pair, 1, &ROWS[..kept]);
    }
}

fn found_again(pair: &mut Pair, first: usize) {
    talk(pair, first);
    assert_eq!(pair.rows(1).len(), ROWS.len());
    assert_eq!(heads(pair, 1), hashes(&[8]));
}

/// A peer without heads gets everything, whatever was shared or sent before.
pub fn all_data_lost_with_the_session_kept(pair: &mut Pair) {
    talked(pair, &ROWS);
    let session = pair.units[1].session();
    pair.replace(1, Automerge::new(), session);
    found_again(pair, 1);
}

pub fn all_data_lost_with_the_session(pair: &mut Pair) {
    lose(pair, 0, Value::default());
    found_again(pair, 1);
}

/// The lost rows are asked for one by one, from the heads that were heard downwards.
pub fn some_data_lost_with_the_session_kept(pair: &mut Pair) {
    talked(pair, &ROWS);
    let session = pair.units[1].session();
    pair.replace(1, Automerge::new(), session);
    chain(pair, 1, &ROWS[..3]);
    found_again(pair, 1);
}

pub fn some_data_lost_with_the_session(pair: &mut Pair) {
    lose(pair, 3, Value::default());
    found_again(pair, 1);
}

/// A last sync that the listener doesn't know: it says so with a reset message, which
/// claims nothing, and its session stays.
pub fn a_reset_after_lost_data(pair: &mut Pair) {
    lose(pair, 0, Value::default());
    chain(pair, 0, &[8, 9]);
    pair.send(0);
    let before = pair.units[1].session();
    let reset = pair.speak(1).expect("a reset");
    assert_eq!(pair.units[1].session(), before);
    let said = said(&reset);
    assert!(said.heads.is_empty() && said.need.is_empty());
    assert_eq!(said.haves.len(), 1);
    assert_eq!(
        (said.haves[0].last_sync.len(), said.haves[0].numbers),
        (0, [0, 10, 7])
    );
    assert_eq!(said.flags, Some(FLAG_SUPPORTS_RESET));
    pair.hear(0, &reset);
    talk(pair, 0);
    assert_eq!(pair.rows(1).len(), ROWS.len() + 1);
}
