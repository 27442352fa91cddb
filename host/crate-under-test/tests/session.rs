//! Session steps as the crate takes them, at the corners where words could be
//! read two ways.

mod common;

use common::{change, document, hash, hashes, message};
use crate_under_test::facade::*;

/// A chunk that holds these changes.
fn chunk(changes: &[Change]) -> ChunkList {
    let records: Vec<u8> = changes
        .iter()
        .flat_map(Change::raw_bytes)
        .copied()
        .collect();
    records.into()
}

fn receive(unit: &mut Automerge, state: &mut State, message: Message) {
    unit.receive_sync_message(state, message).unwrap();
}

#[test]
fn p4_p5_the_first_message_of_an_empty_unit() {
    let first = |mut state: State| {
        let message = Automerge::new().generate_sync_message(&mut state).unwrap();
        message.encode()
    };
    let bytes = [0x42, 0, 0, 1, 0, 0, 0, 2, 2, 0x84];
    assert_eq!(first(State::new()), bytes);
    let read_only = [0x42, 0, 0, 1, 0, 0, 0, 2, 2, 0x86];
    assert_eq!(first(State::new_read_only()), read_only);
}

#[test]
fn two_empty_units_fall_silent_after_two_messages() {
    let mut units = [Automerge::new(), Automerge::new()];
    let mut states = [State::new(), State::new()];
    assert_eq!(talk(&mut units, &mut states, 1000), 2);
}

/// Lets two units alternate, the first speaking first, until both are silent;
/// answers the number of messages.
fn talk(units: &mut [Automerge; 2], states: &mut [State; 2], limit: usize) -> usize {
    let (mut spoken, mut silent, mut turn) = (0, 0, 0);
    while silent < 2 && spoken < limit {
        match units[turn].generate_sync_message(&mut states[turn]) {
            Some(message) => {
                let message = Message::decode(&message.encode()).unwrap();
                receive(&mut units[1 - turn], &mut states[1 - turn], message);
                spoken += 1;
                silent = 0;
            }
            None => silent += 1,
        }
        turn = 1 - turn;
    }
    spoken
}

#[test]
fn shared_heads_are_joined_each_once() {
    let mut unit = document(&[(1, &[])]);
    let mut state = State {
        shared_heads: hashes(&[1]),
        ..State::new()
    };
    receive(&mut unit, &mut state, message(&[1, 77]));
    assert_eq!(state.shared_heads, hashes(&[1]));
}

#[test]
fn an_unknown_last_sync_gives_the_reset_message_and_no_change() {
    let unit = document(&[(1, &[])]);
    let mut state = State {
        their_have: Some(vec![Have {
            last_sync: hashes(&[77]),
            bloom: BloomFilter::default(),
        }]),
        their_need: Some(Vec::new()),
        their_capabilities: Some(vec![Capability::MessageV2]),
        read_only: true,
        ..State::new()
    };
    let before = state.clone();
    let reset = Message {
        have: vec![Have::default()],
        flags: Some(flags_of(4)),
        ..message(&[1])
    };
    assert_eq!(unit.generate_sync_message(&mut state), Some(reset));
    assert_eq!(state, before);
}

#[test]
fn no_body_without_their_need() {
    let unit = document(&[(1, &[])]);
    let mut state = State {
        their_heads: Some(Vec::new()),
        their_have: Some(Vec::new()),
        their_capabilities: Some(vec![Capability::MessageV2]),
        ..State::new()
    };
    let spoken = unit.generate_sync_message(&mut state).unwrap();
    assert_eq!(spoken.version, MessageVersion::V2);
    assert!(spoken.changes.is_empty());
}

#[test]
fn a_section_replaces_what_the_peer_can() {
    let mut unit = Automerge::new();
    let mut state = State::new();
    let mut hear = |flags: Option<u8>| {
        let heard = Message {
            flags: flags.map(flags_of),
            ..message(&[])
        };
        receive(&mut unit, &mut state, heard);
        let resets = vec![Capability::MessageV2, Capability::SyncReset];
        (
            state.their_capabilities == Some(resets),
            state.is_peer_read_only(),
        )
    };
    assert_eq!(hear(Some(6)), (true, true));
    assert_eq!(hear(None), (true, true));
    assert_eq!(hear(Some(0)), (false, false));
}

#[test]
fn a_read_only_session_loads_nothing_and_does_not_fail() {
    let mut unit = document(&[(1, &[])]);
    let mut state = State {
        last_sent_heads: hashes(&[9]),
        ..State::new_read_only()
    };
    let heard = Message {
        changes: vec![0xff].into(),
        ..message(&[1])
    };
    receive(&mut unit, &mut state, heard);
    assert_eq!(state.last_sent_heads, hashes(&[9]));
}

#[test]
fn a_failed_load_keeps_in_flight_and_flags() {
    let mut unit = document(&[(1, &[])]);
    let mut state = State {
        in_flight: true,
        sent_hashes: [hash(1)].into(),
        ..State::new()
    };
    let heard = Message {
        changes: vec![0xff].into(),
        flags: Some(flags_of(1)),
        ..message(&[1])
    };
    assert!(unit.receive_sync_message(&mut state, heard).is_err());
    let kept = State {
        their_capabilities: Some(vec![Capability::MessageV2]),
        ..State::new()
    };
    assert_eq!(state, kept);
}

#[test]
fn a_chunk_of_no_bytes_drops_shared_heads_that_are_no_heads() {
    let mut unit = document(&[(1, &[]), (2, &[1])]);
    let mut state = State {
        shared_heads: hashes(&[1]),
        ..State::new()
    };
    let heard = Message {
        changes: vec![Vec::new()].into(),
        ..message(&[77])
    };
    receive(&mut unit, &mut state, heard);
    assert_eq!(state.shared_heads, hashes(&[]));
}

#[test]
fn shared_heads_are_joined_after_they_advance() {
    let mut unit = document(&[(1, &[])]);
    let mut state = State {
        shared_heads: hashes(&[1]),
        ..State::new()
    };
    let heard = Message {
        changes: chunk(&[change(2, &[1])]),
        ..message(&[2, 77])
    };
    receive(&mut unit, &mut state, heard);
    assert_eq!(state.shared_heads, hashes(&[2]));
}

#[test]
fn known_heads_are_shared_as_they_stand() {
    let mut unit = document(&[(1, &[]), (2, &[])]);
    let mut state = State::new();
    receive(&mut unit, &mut state, message(&[2, 1, 2]));
    assert_eq!(state.shared_heads, hashes(&[2, 1, 2]));
}
