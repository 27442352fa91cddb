//! Messages, saved states and filters of the crate `bisquetower` beside automerge's own:
//! what is read of random and damaged bytes, field by field, and what is written again.

use bisquetower::limits::HASHES;
use bisquetower::{Filter, Message, MessageVersion, Refusal, SavedState};
use compare::inputs::{Random, Seed};
use crate_under_test::facade;

/// Whether both read the bytes. A limit or a filter without bits (4 and 5) is refused
/// by the library alone, and what broke is named.
fn both<T, U, E>(ours: Result<T, Refusal>, theirs: Result<U, E>) -> Option<(T, U)> {
    if let Err(refusal) = &ours {
        let particular = matches!(refusal.number, 4 | 5);
        assert_eq!(refusal.cause().is_some(), particular, "{refusal}");
    }
    match (ours, theirs) {
        (Ok(ours), Ok(theirs)) => Some((ours, theirs)),
        (Err(refusal), Ok(_)) => {
            assert!(matches!(refusal.number, 4 | 5), "{refusal}");
            None
        }
        (Ok(_), Err(_)) => panic!("the crate doesn't read it"),
        (Err(_), Err(_)) => None,
    }
}

fn same_hashes(ours: &[bisquetower::ChangeHash], theirs: &[facade::ChangeHash]) {
    let theirs = theirs.iter().map(|hash| hash.0);
    assert!(ours.iter().map(|hash| hash.0).eq(theirs));
}

fn same_message(ours: &Message, theirs: facade::Message) {
    same_hashes(&ours.heads, &theirs.heads);
    same_hashes(&ours.need, &theirs.need);
    assert_eq!(ours.have.len(), theirs.have.len());
    for (ours, theirs) in ours.have.iter().zip(&theirs.have) {
        same_hashes(&ours.last_sync, &theirs.last_sync);
        assert_eq!(ours.bloom.to_bytes(), theirs.bloom.to_bytes());
    }
    assert!(ours
        .changes
        .iter()
        .map(Vec::as_slice)
        .eq(theirs.changes.iter()));
    assert_eq!(ours.flags.is_some(), theirs.flags.is_some());
    if let (Some(ours), Some(theirs)) = (ours.flags, theirs.flags) {
        for bit in 0..7 {
            assert_eq!(ours.contains(1 << bit), theirs.contains(1 << bit));
        }
    }
    let second = matches!(theirs.version, facade::MessageVersion::V2);
    assert_eq!(ours.version == MessageVersion::V2, second);
    assert_eq!(ours.encode().expect("it was read"), theirs.encode());
}

#[test]
fn messages() {
    let seed = Seed::fixed();
    let mut random = seed.random(0);
    let mut read = 0;
    for _ in 0..3_000 {
        let bytes = random.message();
        let (ours, theirs) = (Message::decode(&bytes), facade::Message::decode(&bytes));
        if let Some((ours, theirs)) = both(ours, theirs) {
            same_message(&ours, theirs);
            read += 1;
        }
    }
    assert!(read > 500, "{read}");
}

#[test]
fn filters() {
    let seed = Seed::fixed();
    let mut random = seed.random(1);
    let (mut read, mut yes) = (0, 0);
    for _ in 0..1_000 {
        let bytes = random.filter();
        let theirs = facade::BloomFilter::try_from(&bytes[..]);
        let Some((ours, theirs)) = both(Filter::parse(&bytes), theirs) else {
            continue;
        };
        read += 1;
        assert_eq!(ours.to_bytes(), theirs.to_bytes());
        let asked: Vec<_> = (0..20)
            .map(|_| bisquetower::ChangeHash(random.hash()))
            .collect();
        let answers = ours.contains_hashes(&asked);
        for (hash, contained) in asked.iter().zip(answers) {
            let hash = facade::ChangeHash(hash.0);
            assert_eq!(contained, theirs.contains_hash(&hash));
            yes += usize::from(contained);
        }
    }
    assert!(read > 200 && yes > 200, "{read}, {yes}");
}

/// The filter of hashes is the crate's, bit for bit.
#[test]
fn built_filters() {
    let seed = Seed::fixed();
    let mut random = seed.random(2);
    for count in [0, 1, 2, 7, 100, 819, HASHES] {
        let hashes: Vec<[u8; 32]> = (0..count).map(|_| random.hash()).collect();
        let ours: Vec<_> = hashes
            .iter()
            .copied()
            .map(bisquetower::ChangeHash)
            .collect();
        let theirs: Vec<_> = hashes.iter().copied().map(facade::ChangeHash).collect();
        let theirs = facade::BloomFilter::from_hashes(theirs.iter());
        assert_eq!(
            Filter::from_hashes(&ours).unwrap().to_bytes(),
            theirs.to_bytes()
        );
    }
}

fn state(random: &mut Random) -> Vec<u8> {
    let count = random.below(4);
    let mut bytes = vec![0x43, count as u8];
    bytes.extend(random.bytes(32 * count));
    for _ in 0..random.below(3) {
        random.damage(&mut bytes);
    }
    bytes
}

#[test]
fn saved_states() {
    let seed = Seed::fixed();
    let mut random = seed.random(3);
    let mut read = 0;
    for _ in 0..1_000 {
        let bytes = state(&mut random);
        let (ours, theirs) = (SavedState::decode(&bytes), facade::State::decode(&bytes));
        if let Some((ours, theirs)) = both(ours, theirs) {
            same_hashes(&ours.shared_heads, &theirs.shared_heads);
            assert_eq!(ours.encode().expect("it was read"), theirs.encode());
            read += 1;
        }
    }
    assert!(read > 300, "{read}");
}
