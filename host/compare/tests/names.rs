//! What docs/MIGRATING.md calls the same: lines that compile over automerge's sync module
//! and over the crate `bisquetower`, and what they come to in both.

use crate_under_test::facade as automerge;

/// What the lines come to.
#[derive(Debug, PartialEq)]
struct Came {
    states: [Vec<u8>; 3],
    filters: [Vec<u8>; 3],
    contained: [bool; 3],
    message: Vec<u8>,
    chunks: Vec<usize>,
    flags: [bool; 3],
}

/// The lines, for a crate's names. Behind the names stands what `bisquetower` alone has:
/// how a field of a state is asked for, and the end of what can fail there.
macro_rules! came {
    ($krate:ident, $State:ident, $Filter:ident, [$($asked:tt)*], [$($end:tt)*]) => {{
        use $krate::{ChangeHash, Have, Message, MessageFlags, MessageVersion, $Filter, $State};

        let [a, b] = [ChangeHash([7; 32]), ChangeHash([8; 32])];
        assert!(a < b && a == ChangeHash::try_from(a.as_bytes()).unwrap());
        assert!(ChangeHash::try_from(&b.0[..31]).is_err());

        let mut state = $State::new();
        let fresh: Vec<u8> = state.encode();
        assert!(state == $State::default() && !state.is_peer_read_only());
        state.set_read_only(true);
        assert_eq!(state, $State::new_read_only());
        let saved = [&[0x43, 1][..], b.as_bytes()].concat();
        let read = $State::decode(&saved).unwrap();
        assert!($State::decode(&saved[1..]).is_err());
        let states = [fresh, state.encode(), read.encode()];
        let shared: Vec<ChangeHash> = read.clone().shared_heads $($asked)*;
        let sent: Vec<ChangeHash> = read.clone().last_sent_heads $($asked)*;
        assert_eq!((shared, sent), (vec![b], vec![]));
        let heads: Option<Vec<ChangeHash>> = read.clone().their_heads $($asked)*;
        let need: Option<Vec<ChangeHash>> = read.clone().their_need $($asked)*;
        let haves: Option<Vec<Have>> = read.clone().their_have $($asked)*;
        assert_eq!((heads, need, haves), (None, None, Some(vec![])));
        let [said, answered, reset]: [bool; 3] = [
            read.in_flight $($asked)*,
            read.have_responded $($asked)*,
            read.needs_reset $($asked)*,
        ];
        assert!(!said && !answered && !reset);

        let hashes = vec![a];
        let filter = $Filter::from_hashes(hashes.iter()) $($end)*;
        let of_values = $Filter::from_hashes(hashes.into_iter()) $($end)*;
        assert_eq!(filter, of_values);
        let bytes: Vec<u8> = filter.to_bytes();
        let again = $Filter::try_from(&bytes[..]).unwrap();
        assert!($Filter::try_from(&bytes[..1]).is_err());
        let none = $Filter::default();
        let contained = [
            filter.contains_hash(&a),
            again.contains_hash(&b),
            none.contains_hash(&a),
        ];
        let filters = [bytes, again.to_bytes(), none.to_bytes()];

        let mut flags = MessageFlags::new();
        flags.set(MessageFlags::READ_ONLY);
        let message = Message {
            heads: vec![a],
            need: vec![b],
            have: vec![
                Have::default(),
                Have {
                    last_sync: vec![a],
                    bloom: filter,
                },
            ],
            changes: vec![vec![1, 2, 3], vec![]].into(),
            flags: Some(flags),
            version: MessageVersion::V2,
        };
        let bytes: Vec<u8> = message.clone().encode() $($end)*;
        assert_eq!(Message::decode(&bytes).unwrap(), message);
        assert!(Message::decode(&bytes[1..]).is_err());
        // Of a `ChunkList` or a `Vec`.
        assert!(message.changes.len() == 2 && !message.changes.is_empty());
        let flags = message.flags.unwrap();
        let every = [
            MessageFlags::SYNC_RESET,
            MessageFlags::READ_ONLY,
            MessageFlags::SUPPORTS_SYNC_RESET,
        ];
        Came {
            states,
            filters,
            contained,
            message: bytes,
            chunks: message.changes.iter().map(|chunk| chunk.len()).collect(),
            flags: every.map(|flag| flags.contains(flag)),
        }
    }};
}

#[test]
fn the_same_lines_over_both_crates() {
    let ours = came!(bisquetower, Session, Filter, [()], [.unwrap()]);
    let theirs = came!(automerge, State, BloomFilter, [], []);
    assert_eq!(ours, theirs);
    assert_eq!(ours.contained, [true, false, false]);
}

/// The names of a table's row of which the other side says that something is the same.
fn names_of(row: &str) -> impl Iterator<Item = &str> {
    let sides = row.strip_prefix("| ").and_then(|row| row.split_once(" | "));
    let told = sides.filter(|(_, here)| here.contains("the same"));
    let quoted = told.map_or("", |(theirs, _)| theirs).split('`');
    let words = quoted.skip(1).step_by(2);
    words.flat_map(|word| word.split(|c: char| !c.is_alphanumeric() && c != '_'))
}

/// Each of them stands in the lines above.
#[test]
fn what_the_page_calls_the_same_stands_here() {
    let (page, here) = (
        include_str!("../../../docs/MIGRATING.md"),
        include_str!("names.rs"),
    );
    let names = page.lines().flat_map(names_of);
    let names: Vec<&str> = names.filter(|name| !name.is_empty()).collect();
    assert!(names.len() > 30, "{names:?}");
    for name in names {
        assert!(here.contains(name), "{name}");
    }
}
