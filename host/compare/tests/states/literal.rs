//! The words of sessions, places and refusals, as literals.

use crate::{read, state, TYPE};
use bisquetower::raw::{self, UNWRITTEN};
use compare::model::state::WORDS;

/// The words of every kind of session, as literals.
#[test]
fn literal_words() {
    let mut session = [UNWRITTEN; WORDS];
    raw::fresh(&mut session);
    assert_eq!(session, [0; WORDS]);
    raw::fresh_read_only(&mut session);
    assert_eq!(session, [0, 0, 0, 0, 0, 0, 0, 0, 0, 0, 0, 0, 0, 1, 0, 0]);
    let (answer, session) = read(&state(2, &[]), &mut [0; 64]);
    assert_eq!(answer, [0, 2, 0, 0]);
    assert_eq!(session, [2, 0, 0, 0, 0, 0, 1, 0, 0, 0, 0, 0, 0, 0, 0, 0]);
    // Nothing was said but the capabilities, and a reset is wanted.
    let mut session = [2, 3, 1, 4, 1, 5, 1, 6, 7, 1, 1, 1, 1, 1, 1, 0];
    raw::set_read_only(&mut session, 0);
    assert_eq!(session, [0, 0, 0, 0, 0, 0, 0, 0, 0, 0, 0, 1, 1, 0, 0, 1]);
    let mut session = [2, 3, 1, 4, 1, 5, 1, 6, 7, 1, 1, 1, 1, 0, 1, 0];
    raw::set_read_only(&mut session, 1);
    assert_eq!(session, [2, 3, 1, 4, 1, 5, 1, 6, 7, 0, 0, 1, 1, 1, 1, 0]);
}

/// Places and refusals, as literals: the first byte's place is 0.
#[test]
fn literal_refusals() {
    let cases: [(&[u8], [u64; 4]); 10] = [
        (&[], [1, 0, 0, 0]),
        (&[0x42, 0x00], [2, 0x42, 0, 0]),
        (&[0x41], [2, 0x41, 0, 0]),
        (&[TYPE], [1, 1, 0, 0]),
        (&[TYPE, 0x80], [1, 1, 0, 0]),
        (&[TYPE, 0x80, 0x00], [3, 1, 0, 0]),
        (&[TYPE, 0x81, 0x40], [4, 1, 0, 0]),
        (&[TYPE, 0x80, 0x40], [1, 3, 0, 0]),
        (&[TYPE, 0x01, 0x05], [1, 2, 0, 0]),
        (&[TYPE, 0x00, 0x05], [0, 0, 0, 0]),
    ];
    for (s, expected) in cases {
        assert_eq!(read(s, &mut [0; 64]).0, expected, "{s:x?}");
    }
    assert_eq!(read(&state(2, &[]), &mut [0; 63]).0, [7, 64, 0, 0]);
}
