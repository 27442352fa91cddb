//! Units over chains of changes, and how two of them talk.

use bisquetower::{Change, ChangeHash, Choice, Memory, Message, Session};

pub fn hash(n: u32) -> ChangeHash {
    let mut hash = [0; 32];
    let mut word = n;
    for part in hash.chunks_mut(4) {
        word = (word ^ 0x9e37_79b9)
            .wrapping_mul(0x85eb_ca6b)
            .rotate_left(13);
        part.copy_from_slice(&word.to_le_bytes());
    }
    ChangeHash(hash)
}

/// The change n on the one before it.
pub fn change(n: u32) -> Change {
    Change {
        hash: hash(n),
        dependencies: n.checked_sub(1).map(hash).into_iter().collect(),
        contents: n.to_le_bytes().to_vec(),
    }
}

pub fn chain(changes: u32) -> Memory {
    let mut memory = Memory::new();
    for n in 0..changes {
        memory.add(change(n)).unwrap();
    }
    memory
}

pub struct Unit {
    pub host: Memory,
    pub session: Session,
}

pub fn unit(host: Memory) -> Unit {
    Unit {
        host,
        session: Session::new(),
    }
}

/// What one says to the other, if there is something to say. As bytes it is the same, and
/// leaves the same session.
pub fn say(from: &mut Unit, to: &mut Unit) -> Option<Message> {
    say_with(from, to, Choice::default())
}

/// What one says to the other with a filter as chosen.
pub fn say_with(from: &mut Unit, to: &mut Unit, choice: Choice) -> Option<Message> {
    let mut same = from.session.clone();
    let bytes = same.next_message_with(&from.host, choice).unwrap();
    let message = from.session.generate_with(&from.host, choice).unwrap();
    let encoded = message.as_ref().map(|one| one.encode().unwrap());
    assert_eq!(encoded, bytes);
    assert_eq!(same, from.session);
    to.session.receive(&mut to.host, &bytes?).unwrap();
    message
}

/// Has two units talk until both are silent; how many messages that took.
pub fn talk(one: &mut Unit, two: &mut Unit) -> usize {
    let mut said = 0;
    for _ in 0..100 {
        let before = said;
        said += usize::from(say(one, two).is_some());
        said += usize::from(say(two, one).is_some());
        if said == before {
            assert_eq!(one.host.changes().len(), two.host.changes().len());
            return said;
        }
    }
    panic!("they don't fall silent");
}
