//! The heads of a message from its first part alone. Every message that is read in the
//! other tests is peeked at too; here are those that this call answers otherwise than a
//! full read, or answers at a limit.

use crate::{agree, ask};
use bisquetower::limits::{HASHES, LIST_SIZE};
use bisquetower::raw;
use compare::inputs::message::{good_messages, message_of_size, Draft};
use compare::inputs::table::Likeness;
use compare::inputs::{Random, Seed};
use compare::messages::heads::compare_rooms;
use compare::model::message::MESSAGE;
use compare::model::number_bytes;

/// What the library alone says, with room enough.
fn peek(s: &[u8]) -> [u64; 4] {
    raw::peek_heads(s, &mut vec![0; LIST_SIZE])
}

/// Settled by document 02 alone; neither model nor crate is asked.
#[test]
fn settled_answers() {
    assert_eq!(peek(&[]), [1, 0, 0, 0]);
    assert_eq!(peek(&[0x41]), [2, 0x41, 0, 0]);
    assert_eq!(peek(&[0x42]), [1, 1, 0, 0]);
    assert_eq!(
        peek(&[vec![0x42], number_bytes(HASHES as u64 + 1)].concat()),
        [4, 1, 0, 0]
    );
    assert_eq!(peek(&[0x43, 0x80, 0x00]), [3, 1, 0, 0]);
    assert_eq!(peek(&[&[0x42, 2][..], &[9; 40]].concat()), [1, 34, 0, 0]);
    // What follows the heads isn't looked at: these are answered, and refused when read.
    assert_eq!(peek(&[0x42, 0]), [0, 1, 0, 0]);
    assert_eq!(peek(&[0x43, 0, 0x80]), [0, 2, 0, 0]);
    assert_eq!(peek(&[&[0x43, 1][..], &[9; 33]].concat()), [0, 2, 1, 0]);
    assert_eq!(ask(&[0x43, 0, 0x80]).0[..2], [1, 2]);

    let mut out = [0x5a; 33];
    let s = [&[0x42, 1][..], &[9; 32]].concat();
    assert_eq!(raw::peek_heads(&s, &mut out[..31]), [7, 32, 0, 0]);
    assert_eq!(out, [0x5a; 33]);
    assert_eq!(raw::peek_heads(&s, &mut out), [0, 1, 1, 0]);
    assert_eq!((&out[..32], out[32]), (&[9; 32][..], 0x5a));
}

/// The total size is told before the first byte, however short the heads.
#[test]
fn total_size() {
    let full = message_of_size(MESSAGE);
    assert_eq!(peek(&full)[0], 0);
    assert_eq!(peek(&message_of_size(MESSAGE + 1)), [4, 0, 0, 0]);
    assert_eq!(peek(&vec![0x41; MESSAGE + 1]), [4, 0, 0, 0]);
    assert_eq!(peek(&vec![0x41; MESSAGE]), [2, 0x41, 0, 0]);
}

/// Buffers of every size around what some heads want, and as many heads as there may be,
/// against the model.
#[test]
fn every_size() {
    let mut random = Random(21);
    for heads in [0, 1, 2, HASHES] {
        let draft = Draft {
            heads: random.hashes(heads, Likeness::Spread),
            ..Draft::new()
        };
        let s = draft.bytes();
        let wanted = 32 * heads;
        let rooms: Vec<usize> = (wanted.saturating_sub(70)..wanted + 3).collect();
        let answers = compare_rooms(&s, &rooms).unwrap_or_else(|why| panic!("{why}"));
        for (room, answer) in rooms.into_iter().zip(answers) {
            let expected = match room < wanted {
                true => [7, wanted as u64, 0, 0],
                false => [0, 1, heads as u64, 0],
            };
            assert_eq!(answer, expected, "{heads} heads, {room} bytes");
        }
    }
}

/// Whatever stands behind the heads, and however much of it up to the total size, the
/// answer stays.
#[test]
fn nothing_behind_the_heads() {
    let seed = Seed::fixed();
    let mut random = seed.random(3);
    for good in good_messages() {
        let [0, _, heads, _] = peek(&good) else {
            panic!("its heads");
        };
        let next = ask(&good).0[2] as usize + 32 * heads as usize;
        for length in [0, 1, 7, 100, MESSAGE - next] {
            let other = [&good[..next], &random.bytes(length)].concat();
            assert_eq!(peek(&other), peek(&good));
        }
        let over = [&good[..next], &random.bytes(MESSAGE - next + 1)].concat();
        assert_eq!(peek(&over), [4, 0, 0, 0]);
    }
}

/// Good messages cut at every place: from the heads' end on they are answered, though
/// the full read refuses most of them.
#[test]
fn cut_messages() {
    for good in good_messages() {
        let cuts: Vec<&[u8]> = (0..good.len()).map(|cut| &good[..cut]).collect();
        let tally = agree(&cuts);
        let [_, _, heads, _] = peek(&good);
        let next = ask(&good).0[2] as usize + 32 * heads as usize;
        let answered = cuts.iter().filter(|cut| peek(cut)[0] == 0).count();
        assert_eq!(answered, good.len() - next);
        assert!(tally.bad_later as usize <= answered);
    }
}
