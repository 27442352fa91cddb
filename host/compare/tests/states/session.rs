//! Fresh sessions, and read-only mode.

use bisquetower::raw::{self, Batch, UNWRITTEN};
use compare::inputs::Seed;
use compare::model::state::{Session, NEEDS_RESET, READ_ONLY, WORDS};
use compare::states::{published, words_of};
use crate_under_test::facade::State;

/// Fresh sessions against the crate's.
#[test]
fn fresh_sessions() {
    let mut session = [UNWRITTEN; WORDS];
    raw::fresh(&mut session);
    assert_eq!(session, words_of(&State::new()));
    raw::fresh_read_only(&mut session);
    assert_eq!(session, words_of(&State::new_read_only()));
}

/// Every session of all flags and of what is absent, with these counts.
fn every_session(count: impl Fn(u64) -> u64) -> Vec<Session> {
    let each = (0..1u64 << 10).map(|bits| {
        let bit = |k: u64| bits >> k & 1 == 1;
        Session {
            shared: count(0),
            last_sent: count(1),
            their_heads: bit(7).then(|| count(2)),
            their_need: bit(8).then(|| count(3)),
            their_have: bit(9).then(|| count(4)),
            sent: count(5),
            flags: std::array::from_fn(|k| bit(k as u64)),
        }
    });
    each.collect()
}

/// Setting read-only, both ways, on sessions with all flags and of what is absent:
/// against the crate's own and the model.
#[test]
fn read_only_is_set() {
    let mut changed = 0;
    let counts: [fn(u64) -> u64; 3] = [|_| 0, |k| k + 1, |k| 11 - k];
    for session in counts.into_iter().flat_map(every_session) {
        for on in [false, true] {
            let mut crates = published(&session);
            assert_eq!(words_of(&crates), session.words());
            crates.set_read_only(on);
            let expected = session.set_read_only(on).words();
            assert_eq!(words_of(&crates), expected);
            let mut words = session.words();
            raw::set_read_only(&mut words, on.into());
            assert_eq!(words, expected, "{session:?} set to {on}");
            changed += u64::from(session.set_read_only(on) != session);
        }
    }
    // One of the two is a change, whatever the session.
    assert_eq!(changed, 3 * 1_024);
}

/// A flag's word other than 0 is yes, a switch other than 0 is on, and what an
/// absent list counts is ignored; counts are any numbers.
#[test]
fn words_of_other_values() {
    let yes = [1, 2, 256, 1 << 32, 1 << 63, u64::MAX];
    let seed = Seed::fixed();
    let mut random = seed.random(0);
    let mut inputs = Vec::new();
    for _ in 0..20_000 {
        let mut words: [u64; WORDS] = std::array::from_fn(|_| random.number());
        for k in [2, 4, 6].into_iter().chain(9..WORDS) {
            words[k] = if random.one_in(2) {
                0
            } else {
                yes[random.below(6)]
            };
        }
        let on = if random.one_in(2) {
            0
        } else {
            yes[random.below(6)]
        };
        inputs.push((words, on));
    }
    let mut sessions: Vec<[u64; WORDS]> = inputs.iter().map(|(words, _)| *words).collect();
    let mut batch = Batch::new();
    for (session, (_, on)) in sessions.iter_mut().zip(&inputs) {
        batch.set_read_only(session, *on);
    }
    batch.run();
    let mut off = 0;
    for (left, (words, on)) in sessions.iter().zip(&inputs) {
        let expected = Session::of(words).set_read_only(*on != 0);
        assert_eq!(*left, expected.words(), "{words:?} set to {on}");
        off += u64::from(words[9 + READ_ONLY] != 0 && left[9 + NEEDS_RESET] == 1 && *on == 0);
    }
    assert!(off > 1_000);
}
