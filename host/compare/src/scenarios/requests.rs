//! Changes that are asked for.

use super::{brought, chain, hash, hashes, said, speech, talk};
use crate::inputs::message::Draft;
use crate::model::table::Hash;
use crate::talks::Pair;
use crate_under_test::facade::{Change, ChunkList, Message};

const ROWS: [u32; 9] = [1, 2, 3, 4, 5, 6, 7, 8, 9];

/// A message that asks for these and has no have.
fn asks_for(need: Vec<Hash>) -> Vec<u8> {
    let message = Draft {
        heads: hashes(&[1]),
        need,
        ..Draft::new()
    };
    message.bytes()
}

/// Just the one comes, wherever it stands.
pub fn any_single_change_asked_for(pair: &mut Pair) {
    chain(pair, 0, &ROWS);
    for n in ROWS {
        pair.hear(0, &asks_for(hashes(&[n])));
        let reply = speech(pair, 0);
        assert_eq!(brought(&reply), hashes(&[n]));
    }
}

pub fn an_unknown_change_asked_for_is_ignored(pair: &mut Pair) {
    chain(pair, 0, &ROWS);
    pair.hear(0, &asks_for(vec![hash(77), hash(4), hash(78)]));
    let reply = speech(pair, 0);
    assert_eq!(brought(&reply), hashes(&[4]));
    pair.hear(0, &asks_for(hashes(&[77])));
    let reply = speech(pair, 0);
    assert!(brought(&reply).is_empty());
}

/// What didn't arrive is asked for by name. As long as it counts as sent it doesn't
/// come again; once a host has put that right, it does.
pub fn a_lost_part_is_asked_for_again(pair: &mut Pair) {
    chain(pair, 0, &ROWS);
    chain(pair, 1, &ROWS[..7]);
    pair.send(1);
    let whole = speech(pair, 0);
    assert_eq!(brought(&whole), hashes(&[8, 9]));
    pair.hear(1, &without(&whole, &hash(8)));
    assert_eq!(pair.rows(1).len(), 7);
    let request = pair.send(1).expect("something is missing");
    assert_eq!(said(&request).need, hashes(&[8]));
    assert!(said(&request).haves.is_empty());
    let reply = pair.send(0).expect("the other's heads are others");
    assert!(brought(&reply).is_empty());

    let mut session = pair.units[0].session();
    assert!(session.sent.remove(&hash(8)));
    let document = pair.units[0].document().clone();
    pair.replace(0, document, session);
    talk(pair, 1);
    assert_eq!(pair.rows(1).len(), 9);
}

/// The message without one of its changes.
fn without(message: &[u8], lost: &Hash) -> Vec<u8> {
    let mut message = Message::decode(message).expect("a good message");
    let keep = |chunk: &[u8]| {
        let changes = Change::read_all(chunk).expect("good records");
        let kept = changes.iter().filter(|change| change.hash().0 != *lost);
        kept.flat_map(|change| change.raw_bytes().to_vec())
            .collect()
    };
    let chunks: Vec<Vec<u8>> = message.changes.iter().map(keep).collect();
    message.changes = ChunkList::from(chunks);
    message.encode()
}
