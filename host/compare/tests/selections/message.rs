//! From a message straight to what is sent.

use crate::ROOM;
use bisquetower::message::{View, CHUNK_WORDS, HAVES, HAVE_WORDS};
use bisquetower::raw;
use compare::inputs::index::index_of;
use compare::inputs::message::Draft;
use compare::inputs::Random;
use compare::model::have::OwnHave;
use compare::model::table::HASH;
use compare::published;
use compare::tables::document;
use crate_under_test::facade::hashes_to_send;

/// From a message straight to what is sent: the records that its reader leaves, its
/// own bytes as what they count in, its need where it stands; against the crate's
/// reading and choice.
#[test]
fn from_a_message() {
    let mut random = Random(25);
    let (mut sent, mut needs) = (0, 0);
    for _ in 0..300 {
        let case = random.case(0..60, 0..6);
        let have = |have: &OwnHave| (have.last_sync.clone(), have.filter_string());
        let draft = Draft {
            need: case.need.clone(),
            haves: case.haves.iter().map(have).collect(),
            chunks: vec![random.bytes(3)],
            flags: Some(vec![0x02, 0x84]),
            ..Draft::new()
        };
        let s = draft.bytes();

        let (mut haves, mut chunks) = ([0; HAVE_WORDS * HAVES], [0; CHUNK_WORDS]);
        let view = View::read(&s, &mut haves, &mut chunks).expect("a good message");
        let mut out = vec![0; ROOM];
        let (haves, need) = (view.have_words(), view.need());
        let index = index_of(&case.table);
        let answer = raw::hashes_to_send(&case.table, &index, &s, haves, need, &mut out);
        assert_eq!(answer[0], 0);

        let message = published::read_message(&s).expect("a good message");
        let document = document(&case.table, &case.waiting);
        let crates = hashes_to_send(&document, &message.have, &message.need);
        let crates: Vec<u8> = crates.iter().flat_map(|hash| hash.0).collect();
        assert_eq!(out[..answer[1] as usize], crates);
        sent += crates.len() / HASH;
        needs += need.len() / HASH;
    }
    assert!(sent > 1_000 && needs > 500, "{sent}, {needs}");
}
