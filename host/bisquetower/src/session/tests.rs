//! What a session keeps in memory, after messages of any size and whatever came of them.

use super::Session;
use crate::limits::{
    FIELD_SIZE, HASHES, HASH_SIZE, HAVES, HAVES_SIZE, HAVES_WORDS, HAVE_SIZE, LIST_SIZE,
    MESSAGE_SIZE,
};
use crate::{Change, ChangeHash, Error, Filter, Have, Host, Memory, MemoryError, Message};

/// Bytes of a change that a message can carry beside many haves.
const LONG: usize = MESSAGE_SIZE / 3;

fn hashes(count: usize) -> Vec<ChangeHash> {
    let hash = |n: usize| n.to_le_bytes().repeat(4);
    let each = (0..count).map(|n| ChangeHash::try_from(&hash(n)[..]));
    each.collect::<Result<_, _>>().unwrap()
}

/// The most that a have says.
fn largest() -> Have {
    let last_sync = hashes(HASHES);
    let bits = (8 * FIELD_SIZE / HASHES) as u32;
    let bloom = Filter::with(bits, 7, &last_sync).unwrap();
    assert_eq!(bloom.bits().len(), FIELD_SIZE);
    Have { last_sync, bloom }
}

/// As many of them as a message may have, or as half of the largest message has room for.
fn most() -> Vec<Have> {
    let room = MESSAGE_SIZE / 2 / HAVE_SIZE;
    vec![largest(); HAVES.min(room)]
}

/// A message that carries these changes beside these haves.
fn message(have: &[Have], changes: Vec<u8>) -> Vec<u8> {
    let message = Message {
        have: have.to_vec(),
        changes: vec![changes],
        ..Message::default()
    };
    message.encode().unwrap()
}

/// The bytes of a change that loads.
fn change(length: usize) -> Vec<u8> {
    let hash = ChangeHash([7; 32]);
    let mut memory = Memory::new();
    let contents = vec![0; length];
    let dependencies = vec![];
    let change = Change {
        hash,
        dependencies,
        contents,
    };
    memory.add(change).unwrap();
    let record = memory.change(&hash).unwrap();
    record.into_owned()
}

/// Nothing is longer, or takes more memory, than what is known may be.
fn assert_small(session: &Session) {
    let lists = &session.lists;
    let hashes = [
        &lists.shared,
        &lists.last_sent,
        &lists.their_heads,
        &lists.their_need,
        &lists.sent,
    ];
    for list in hashes {
        assert!(list.capacity() <= LIST_SIZE, "{}", list.capacity());
    }
    let known: usize = session.their_have().iter().flatten().map(size).sum();
    let bytes = &lists.bytes;
    assert_eq!(bytes.len(), known);
    assert!(bytes.capacity() <= HAVES_SIZE, "{}", bytes.capacity());
    assert!(lists.haves.capacity() <= HAVES_WORDS);
}

/// Bytes that a session keeps of a have.
fn size(have: &Have) -> usize {
    HASH_SIZE * have.last_sync.len() + have.bloom.bits().len()
}

#[test]
fn large_messages_leave_no_more_than_they_say() {
    let (large, none) = (most(), vec![]);
    let long = MESSAGE_SIZE - 1_000;
    let cases = [(&large, LONG), (&large, 0), (&none, long)];
    for (have, length) in cases {
        let mut session = Session::new();
        let loaded = session.receive(&mut Memory::new(), &message(have, change(length)));
        assert_eq!(loaded, Ok(()));
        assert_eq!(session.their_have().as_ref(), Some(have));
        assert_small(&session);
    }
}

/// Neither a failed load nor a refusal leaves anything of the message in the lists.
#[test]
fn messages_that_arent_taken_leave_nothing() {
    let mut known = Session::new();
    let small = message(&[largest()], vec![]);
    known.receive(&mut Memory::new(), &small).unwrap();
    for before in [Session::new(), known] {
        let large = most();
        let no_change = message(&large, vec![9; LONG]);
        let whole = message(&large, change(LONG));
        let cut = &whole[..whole.len() - LONG / 2];
        let too_long = vec![0x42; 2 * MESSAGE_SIZE];

        let mut session = before.clone();
        let failed = session.receive(&mut Memory::new(), &no_change);
        assert_eq!(failed, Err(Error::Load(MemoryError::BadChange(0))));
        assert_eq!(session, before);
        assert_small(&session);
        for (bad, number) in [(cut, 1), (&too_long[..], 4)] {
            let refused = session.receive(&mut Memory::new(), bad);
            assert!(matches!(refused, Err(Error::Refused(why)) if why.number == number));
            assert_eq!(session, before);
            assert_small(&session);
        }
    }
}

/// What stands after a saved state isn't kept either.
#[test]
fn a_long_saved_state_leaves_its_heads() {
    let mut state = Session::new().encode();
    state.resize(1 << 20, 0);
    let session = Session::decode(&state).unwrap();
    assert_eq!(session.encode(), Session::new().encode());
    assert_small(&session);
}
