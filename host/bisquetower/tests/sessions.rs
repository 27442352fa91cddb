//! Sessions over hosts: what two units hold when they have talked.

mod units;

use bisquetower::limits::{DEPENDENCIES, WAITING_ROWS};
use bisquetower::{
    Change, ChangeHash, Error, Host, Memory, MemoryError, Message, MessageVersion, Session,
};
use units::{chain, change, hash, say, talk, unit, Unit};

#[test]
fn both_hold_what_one_of_them_held() {
    let (mut station, mut validator) = (unit(chain(60)), unit(chain(45)));
    talk(&mut validator, &mut station);
    assert_eq!(validator.host.changes(), station.host.changes());
    assert_eq!(validator.session.shared_heads(), [hash(59)]);
    assert_eq!(station.session.their_heads(), Some(vec![hash(59)]));
    assert_eq!(talk(&mut validator, &mut station), 0);

    // What comes later goes by itself, in version 2, as one chunk.
    for n in [60, 61] {
        station.host.add(change(n)).unwrap();
    }
    let message = say(&mut station, &mut validator).expect("news");
    assert_eq!(
        (message.version, message.changes.len()),
        (MessageVersion::V2, 1)
    );
    assert_eq!(validator.host.changes().len(), 62);
}

/// A peer that never sent flags gets each change as a chunk of its own.
#[test]
fn version_1_has_a_chunk_a_change() {
    let mut station = unit(chain(12));
    let question = Message {
        need: vec![hash(3), hash(4)],
        ..Message::default()
    };
    let bytes = question.encode().unwrap();
    station.session.receive(&mut station.host, &bytes).unwrap();
    let reply = station.session.generate(&station.host).unwrap().unwrap();
    assert_eq!(
        (reply.version, reply.changes.len()),
        (MessageVersion::V1, 2)
    );
    let sent = station.session.sent_hashes();
    assert_eq!(sent.len(), 2);
    assert!(sent.windows(2).all(|two| two[0] < two[1]));
}

#[test]
fn a_read_only_unit_takes_nothing_until_it_is_switched() {
    let (mut station, mut validator) = (unit(chain(30)), unit(chain(25)));
    validator.session.set_read_only(true);
    say(&mut validator, &mut station);
    assert!(station.session.is_peer_read_only());
    let reply = say(&mut station, &mut validator).unwrap();
    assert!(reply.changes.is_empty());
    assert_eq!(validator.host.changes().len(), 25);

    validator.session.set_read_only(false);
    assert!(validator.session.needs_reset() && validator.session.their_heads().is_none());
    talk(&mut validator, &mut station);
    assert_eq!(validator.host.changes(), station.host.changes());
}

/// Changes that were under way when the unit was switched are left alone.
#[test]
fn changes_that_come_to_a_read_only_unit() {
    let (mut station, mut validator) = (unit(chain(30)), unit(chain(25)));
    say(&mut validator, &mut station);
    validator.session.set_read_only(true);
    let reply = say(&mut station, &mut validator).unwrap();
    assert_eq!(reply.changes.len(), 1);
    assert_eq!(validator.host.changes().len(), 25);
    assert_eq!(validator.session.their_heads(), Some(vec![hash(29)]));
}

#[test]
fn a_saved_session_goes_on() {
    let (mut station, mut validator) = (unit(chain(40)), unit(chain(35)));
    talk(&mut validator, &mut station);
    let saved = validator.session.encode();
    validator.session = Session::decode(&saved).unwrap();
    station.session = Session::decode(&station.session.encode()).unwrap();
    assert_eq!(validator.session.their_have(), Some(vec![]));
    station.host.add(change(40)).unwrap();
    let first = say(&mut validator, &mut station).unwrap();
    assert_eq!(first.have[0].last_sync, [hash(39)]);
    assert_eq!(first.have[0].bloom.num_entries(), 0);
    talk(&mut station, &mut validator);
    assert_eq!(validator.host.changes().len(), 41);
}

/// A session goes on over a document that isn't the one it spoke of last: as many changes,
/// one more, or fewer, and never what it would have said of the old one.
#[test]
fn a_session_over_another_document() {
    let other = |changes: u32| {
        let mut memory = Memory::new();
        for n in 0..changes {
            let mut next = change(n);
            next.hash = hash(10_000 - n);
            next.dependencies.clear();
            memory.add(next).unwrap();
        }
        memory
    };
    let mut session = Session::new();
    for host in [
        chain(30),
        other(30),
        chain(31),
        chain(32),
        other(20),
        chain(0),
        other(1),
    ] {
        let mut anew = Session::from_parts(&session.parts()).unwrap();
        let said = session.generate(&host).unwrap();
        assert_eq!(said, anew.generate(&host).unwrap());
        assert_eq!(session, anew);
        let mut heads: Vec<ChangeHash> = host.changes().iter().map(|one| one.hash).collect();
        heads.retain(|one| {
            !host
                .changes()
                .iter()
                .any(|on| on.dependencies.contains(one))
        });
        heads.sort();
        assert_eq!(said.map(|said| said.heads), Some(heads));
    }
}

#[test]
fn memory_refuses_what_it_cant_keep() {
    let mut memory = chain(2);
    let known = memory.change(&hash(1)).unwrap().into_owned();
    assert_eq!(
        memory.load(&[known.clone(), vec![9]].concat()),
        Err(MemoryError::BadChange(known.len()))
    );
    assert_eq!(memory.change(&hash(2)), Err(MemoryError::Unknown(hash(2))));
    let many = Change {
        dependencies: (100..).take(DEPENDENCIES + 1).map(hash).collect(),
        ..change(50)
    };
    assert_eq!(
        memory.add(many),
        Err(MemoryError::ManyDependencies(hash(50)))
    );
    let mut other = Memory::new();
    other.load(&memory.save().unwrap()).unwrap();
    assert_eq!(other.changes(), memory.changes());
}

/// A dependency that is named twice and a change that waits already are one.
#[test]
fn memory_makes_good_tables() {
    let mut memory = chain(2);
    let twice = Change {
        dependencies: vec![hash(1), hash(0), hash(1)],
        ..change(2)
    };
    memory.add(twice).unwrap();
    for _ in 0..2 {
        memory.add(change(9)).unwrap();
    }
    assert_eq!(memory.changes().len(), 3);
    assert_eq!(memory.waiting_changes(), [change(9)]);
    let said = Session::new().generate(&memory).unwrap();
    assert_eq!(said.unwrap().heads, [hash(2)]);
}

/// The winter tariff (M-106): forty zones change, and one change merges them, again and
/// again.
fn winter(changes: u32) -> Memory {
    let mut memory = Memory::new();
    for n in 0..changes {
        let on = match n % 41 {
            0 => n.saturating_sub(40)..n,
            k => n - k..n - k + 1,
        };
        let merge = Change {
            dependencies: on.map(hash).collect(),
            ..change(n)
        };
        memory.add(merge).unwrap();
    }
    memory
}

#[test]
fn the_winter_tariff() {
    for lacking in [300, 3_000, 6_000] {
        let (mut station, mut validator) = (unit(winter(6_000)), unit(winter(6_000 - lacking)));
        talk(&mut validator, &mut station);
        let held = |unit: &Unit| {
            let changes = unit.host.changes().iter();
            let mut hashes: Vec<ChangeHash> = changes.map(|change| change.hash).collect();
            hashes.sort();
            hashes
        };
        assert_eq!(held(&validator), held(&station));
        assert_eq!(validator.host.waiting_changes(), []);
    }
}

/// As many changes wait as may, and a unit that would hold one more stops with refusal 4,
/// whichever end it is, until what they wait for comes.
#[test]
fn more_changes_wait_than_may() {
    let most = u32::try_from(WAITING_ROWS).unwrap();
    let early = |n: u32| Change {
        dependencies: vec![hash(0)],
        ..change(n)
    };
    let mut validator = unit(Memory::new());
    for n in 1..=most {
        validator.host.add(early(n)).unwrap();
    }
    let first = validator.session.generate(&validator.host).unwrap();
    assert!(first.is_some());
    validator.host.add(early(most + 1)).unwrap();
    let refused = |unit: &mut Unit| {
        let before = unit.session.clone();
        let error = unit.session.next_message(&unit.host).unwrap_err();
        let Error::Refused(refusal) = error else {
            panic!("{error}");
        };
        assert_eq!((refusal.number, refusal.value), (4, 0));
        assert_eq!(unit.session, before);
    };
    refused(&mut validator);
    let mut station = unit(validator.host.clone());
    refused(&mut station);
    validator.host.add(change(0)).unwrap();
    assert_eq!(validator.host.changes().len(), WAITING_ROWS + 2);
    let second = validator.session.generate(&validator.host).unwrap();
    assert!(second.is_some());
}
