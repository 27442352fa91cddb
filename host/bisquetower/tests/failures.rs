//! Steps that fail: what the caller is told, and what the session is then.

mod units;

use bisquetower::limits::{HASHES, MESSAGE_SIZE as MESSAGE, ROWS};
use bisquetower::{
    Change, ChangeHash, Error, Host, Memory, MemoryError, Message, MessageFlags, Refusal, Session,
};
use std::borrow::Cow;
use std::fmt;
use units::{chain, change, hash, say, talk, unit};

/// A host that can't lend or load.
struct Failing(Memory);

#[derive(Debug, PartialEq, Eq)]
struct Failed;

impl Host for Failing {
    type Error = Failed;

    fn table(&self) -> Cow<'_, [u8]> {
        self.0.table()
    }

    fn waiting(&self) -> Cow<'_, [u8]> {
        self.0.waiting()
    }

    fn change(&self, _: &ChangeHash) -> Result<Cow<'_, [u8]>, Failed> {
        Err(Failed)
    }

    fn save(&self) -> Result<Vec<u8>, Failed> {
        Err(Failed)
    }

    fn load(&mut self, _: &[u8]) -> Result<(), Failed> {
        Err(Failed)
    }
}

#[test]
fn a_host_that_cant_lend_leaves_the_session() {
    let (mut station, mut validator) = (unit(chain(30)), unit(chain(25)));
    say(&mut validator, &mut station);
    let before = station.session.clone();
    let failing = Failing(chain(30));
    let failed = station.session.next_message(&failing);
    assert_eq!(failed, Err(Error::Lend(Failed)));
    assert_eq!(station.session, before);
    let failed = station.session.generate(&failing);
    assert_eq!(failed, Err(Error::Lend(Failed)));
    assert_eq!(station.session, before);
    assert!(say(&mut station, &mut validator).is_some());
}

/// A failed load takes the flags and clears what is in flight, and nothing else.
#[test]
fn a_host_that_cant_load() {
    let (mut station, mut validator) = (unit(chain(30)), unit(chain(25)));
    say(&mut validator, &mut station);
    let reply = station.session.generate(&station.host).unwrap().unwrap();
    let before = validator.session.clone();
    assert!(before.in_flight() && !before.supports_v2_messages());
    let bytes = reply.encode().unwrap();
    let failed = validator.session.receive(&mut Failing(chain(25)), &bytes);
    assert_eq!(failed, Err(Error::Load(Failed)));
    let after = &validator.session;
    assert!(!after.in_flight() && after.supports_v2_messages());
    assert_eq!(after.their_heads(), before.their_heads());
    assert_eq!(after.shared_heads(), before.shared_heads());
}

#[test]
fn a_bad_message_is_refused_and_nothing_is_loaded() {
    let (mut station, mut validator) = (unit(chain(30)), unit(chain(25)));
    say(&mut validator, &mut station);
    let reply = station.session.generate(&station.host).unwrap().unwrap();
    let bytes = reply.encode().unwrap();
    let before = validator.session.clone();
    for length in [0, 1, 33, bytes.len() - 5, bytes.len() - 1] {
        let refused = validator
            .session
            .receive(&mut validator.host, &bytes[..length]);
        assert!(matches!(
            refused,
            Err(Error::Refused(Refusal { number: 1, .. }))
        ));
        assert_eq!(validator.session, before);
        assert_eq!(validator.host.changes().len(), 25);
    }
    validator
        .session
        .receive(&mut validator.host, &bytes)
        .unwrap();
    assert_eq!(validator.host.changes().len(), 30);
}

/// The refusal of what passes a limit as a whole.
const PAST_A_LIMIT: Refusal = Refusal::new(4, 0);

#[test]
fn a_document_past_its_limit_is_refused() {
    let mut session = Session::new();
    let before = session.clone();
    let many = session.generate(&chain(ROWS as u32 + 1));
    assert_eq!(many, Err(Error::Refused(PAST_A_LIMIT)));
    assert_eq!(session, before);
}

/// A chain of 30 changes, those from number `light` on with contents of `bytes` bytes each.
fn heavy(light: u32, bytes: usize) -> Memory {
    let mut memory = chain(light);
    for n in light..30 {
        let contents = vec![7; bytes];
        let heavy = Change {
            contents,
            ..change(n)
        };
        memory.add(heavy).unwrap();
    }
    memory
}

/// Changes that no message holds together go in several, each of them as large as may be,
/// be they the whole document or a list; afterwards version 2 is known as before.
#[test]
fn changes_past_a_message_go_in_parts() {
    for (held, at_once, replies) in [(0, 28, 3), (27, 1, 3)] {
        let (mut station, mut validator) = (unit(heavy(27, MESSAGE / 2)), unit(chain(held)));
        let mut carried = vec![];
        for round in 0.. {
            let question = say(&mut validator, &mut station);
            let before = station.session.clone();
            let reply = station.session.clone().next_message(&station.host).unwrap();
            assert!(reply.as_ref().is_none_or(|bytes| bytes.len() <= MESSAGE));
            let Some(reply) = say(&mut station, &mut validator) else {
                match question {
                    Some(_) => continue,
                    None => break,
                }
            };
            let session = &station.session;
            assert_eq!(
                session.supports_v2_messages(),
                before.supports_v2_messages()
            );
            // A document begins with 0, a change with 1.
            assert!(reply.changes.iter().all(|chunk| chunk[0] == 1));
            if !reply.changes.is_empty() {
                carried.push(session.sent_hashes().len());
            }
            assert!(round < 20);
        }
        assert_eq!((carried[0], carried.len()), (at_once, replies));
        assert_eq!(validator.host.changes(), station.host.changes());
    }
}

/// A document that no message holds, whose first part gets lost: it is sent again to a peer
/// that says that it holds nothing.
#[test]
fn a_document_in_parts_that_got_lost() {
    let (mut station, mut validator) = (unit(heavy(27, MESSAGE / 2)), unit(Memory::new()));
    let question = validator.session.next_message(&validator.host);
    let question = question.unwrap().expect("the first message");
    let reply = |station: &mut units::Unit| {
        station
            .session
            .receive(&mut station.host, &question)
            .unwrap();
        let message = station.session.generate(&station.host).unwrap();
        message.expect("a part").changes.len()
    };
    let parts = [(); 5].map(|()| reply(&mut station));
    assert_eq!(parts, [28; 5]);
}

/// A change that no message holds keeps nothing else back: what can go goes, then heads and
/// needs are said, and where that leaves nothing to say it is refused, and goes as soon as
/// it can.
#[test]
fn a_change_past_a_message() {
    for held in [0, 20, 29] {
        let (mut station, mut validator) = (unit(heavy(29, MESSAGE)), unit(chain(held)));
        let mut rounds = 0;
        let refused = loop {
            say(&mut validator, &mut station);
            let before = station.session.clone();
            let bytes = station.session.clone().next_message(&station.host);
            let message = station.session.generate(&station.host);
            assert_eq!(message.is_ok(), bytes.is_ok());
            match message {
                Ok(None) => panic!("a change is left to be sent"),
                Ok(Some(message)) => {
                    let bytes = message.encode().unwrap();
                    let session = &mut validator.session;
                    session.receive(&mut validator.host, &bytes).unwrap();
                }
                Err(refused) => {
                    assert_eq!(station.session, before);
                    break refused;
                }
            }
            rounds += 1;
            assert!(rounds < 20);
        };
        assert_eq!(refused, Error::Refused(PAST_A_LIMIT));
        assert!(
            refused.to_string().contains("the message takes 4,194,"),
            "{refused}"
        );
        // All but the last change came.
        assert_eq!(validator.host.changes(), &station.host.changes()[..29]);
        station.host = heavy(29, MESSAGE / 2);
        talk(&mut station, &mut validator);
        assert_eq!(validator.host.changes(), station.host.changes());
    }
}

/// A unit with a change that no message holds still asks for what the other one has, and
/// gets it, before it is refused.
#[test]
fn a_change_past_a_message_keeps_no_question_back() {
    let own = |first: u8, size: usize| Change {
        hash: ChangeHash([first; 32]),
        dependencies: vec![hash(9)],
        contents: vec![7; size],
    };
    let (mut station, mut validator) = (unit(chain(10)), unit(chain(10)));
    station.host.add(own(1, MESSAGE)).unwrap();
    validator.host.add(own(2, 10)).unwrap();
    let mut asked = 0;
    let refused = loop {
        say(&mut validator, &mut station);
        let message = match station.session.generate(&station.host) {
            Ok(message) => message.expect("a change is left to be sent"),
            Err(refused) => break refused,
        };
        assert!(message.changes.is_empty());
        asked += usize::from(message.need == [ChangeHash([2; 32])]);
        let bytes = message.encode().unwrap();
        let session = &mut validator.session;
        session.receive(&mut validator.host, &bytes).unwrap();
    };
    assert_eq!(refused, Error::Refused(PAST_A_LIMIT));
    assert!(station.host.changes().contains(&own(2, 10)));
    assert!(asked < 3);
}

/// A message of just the most bytes goes, and a change of a byte more doesn't.
#[test]
fn a_message_of_the_most_bytes_goes() {
    let reply = |contents: usize| {
        let (mut station, mut validator) = (unit(heavy(29, contents)), unit(chain(29)));
        say(&mut validator, &mut station);
        let value = station.session.clone().generate(&station.host);
        let bytes = station.session.next_message(&station.host).unwrap();
        let bytes = bytes.expect("a reply");
        assert_eq!(value.unwrap().unwrap().encode().as_ref(), Ok(&bytes));
        bytes.len()
    };
    let about = MESSAGE - 1_000;
    let others = reply(about) - about;
    assert_eq!(reply(MESSAGE - others), MESSAGE);
    // Its heads alone.
    assert!(reply(MESSAGE - others + 1) < others);
}

/// Where changes go in parts, the parts too may have just the most bytes: the change that
/// fits alone goes, with one behind it that doesn't fit beside it, and at a byte more none.
#[test]
fn a_part_of_the_most_bytes_goes() {
    for v2 in [false, true] {
        let part = |contents: usize| {
            let mut station = unit(chain(300));
            for n in [300, 301] {
                let contents = vec![7; if n == 300 { contents } else { 100 }];
                station
                    .host
                    .add(Change {
                        contents,
                        ..change(n)
                    })
                    .unwrap();
            }
            let question = Message {
                heads: vec![hash(299)],
                need: vec![hash(301), hash(300)],
                flags: v2.then(MessageFlags::new),
                ..Message::default()
            };
            let host = &mut station.host;
            station
                .session
                .receive_sync_message(host, question)
                .unwrap();
            let bytes = station.session.next_message(&station.host).unwrap();
            (
                station.session.sent_hashes().len(),
                bytes.expect("a reply").len(),
            )
        };
        let about = MESSAGE - 5_000;
        let (both, size) = part(about);
        assert_eq!(both, 2);
        // The second change takes 170 bytes, and in version 1 two for its length.
        let others = size - about - 170 - if v2 { 0 } else { 2 };
        assert_eq!(part(MESSAGE - others), (1, MESSAGE));
        assert_eq!(part(MESSAGE - others + 1).0, 0);
    }
}

/// The same of a part whose chunks take more than a byte to count, in version 1.
#[test]
fn a_part_of_many_changes_and_the_most_bytes_goes() {
    let part = |contents: usize| {
        let mut station = unit(chain(300));
        for n in 300..=500 {
            let length = match n {
                300 => contents,
                500 => MESSAGE,
                _ => 100,
            };
            let contents = vec![7; length];
            let change = Change {
                contents,
                ..change(n)
            };
            station.host.add(change).unwrap();
        }
        let question = Message {
            heads: vec![hash(299)],
            need: (300..=500).map(hash).collect(),
            ..Message::default()
        };
        let host = &mut station.host;
        station
            .session
            .receive_sync_message(host, question)
            .unwrap();
        let bytes = station.session.next_message(&station.host).unwrap();
        let sent = station.session.sent_hashes().len();
        (sent, bytes.expect("a part").len())
    };
    let about = MESSAGE - 50_000;
    let (all, size) = part(about);
    assert_eq!(all, 200);
    let most = about + MESSAGE - size;
    assert_eq!(part(most), (200, MESSAGE));
    // The last of them doesn't fit any more: 170 bytes, and two for its length.
    assert_eq!(part(most + 1), (199, MESSAGE + 1 - 172));
}

/// A value that no bytes say is refused before anything is loaded.
#[test]
fn a_message_that_cant_be_encoded_isnt_received() {
    let mut validator = unit(chain(3));
    let before = validator.session.clone();
    let change = chain(4).change(&hash(3)).unwrap().into_owned();
    let message = Message {
        heads: (0..=HASHES as u32).map(hash).collect(),
        changes: vec![change],
        ..Message::default()
    };
    let refused = validator
        .session
        .receive_sync_message(&mut validator.host, message);
    assert_eq!(refused, Err(Error::Refused(PAST_A_LIMIT)));
    assert_eq!(validator.session, before);
    assert_eq!(validator.host.changes().len(), 3);
}

/// A host's error with something behind it.
#[derive(Debug)]
struct NoDisk(std::io::Error);

impl fmt::Display for NoDisk {
    fn fmt(&self, f: &mut fmt::Formatter<'_>) -> fmt::Result {
        write!(f, "the disk is gone")
    }
}

impl std::error::Error for NoDisk {
    fn source(&self) -> Option<&(dyn std::error::Error + 'static)> {
        Some(&self.0)
    }
}

/// What a reporter prints of an error: its text, and that of all that is behind it.
fn report(error: &dyn std::error::Error) -> String {
    let chain = std::iter::successors(Some(error), |error| error.source());
    let texts: Vec<String> = chain.map(|error| error.to_string()).collect();
    texts.join("; because ")
}

#[test]
fn errors_say_everything_once() {
    let refused: Error<MemoryError> = PAST_A_LIMIT.into();
    assert_eq!(report(&refused), PAST_A_LIMIT.to_string());
    let load = Error::Load(MemoryError::BadChange(3));
    assert_eq!(
        report(&load),
        "the host couldn't load what came: what stands at place 3 is no change"
    );
    let lend = Error::Lend(NoDisk(std::io::Error::other("it was taken out")));
    assert_eq!(
        report(&lend),
        "the host couldn't lend what is to be sent: the disk is gone; because it was taken out"
    );
}
