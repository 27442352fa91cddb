//! docs/MIGRATING.md: what it shows, run.

use bisquetower::{ChangeHash, Error, Host, Memory, Message, Session, Table, Waiting};
use std::borrow::Cow;

/// One turn of a unit: what came in goes to the session, what it says goes out.
fn turn<H: Host>(
    host: &mut H,
    session: &mut Session,
    received: Option<&[u8]>,
) -> Result<Option<Vec<u8>>, Error<H::Error>> {
    if let Some(bytes) = received {
        session.receive(host, bytes)?;
    }
    session.next_message(host)
}

fn turn_of_values<H: Host>(
    host: &mut H,
    session: &mut Session,
    received: Option<&[u8]>,
) -> Result<Option<Vec<u8>>, Error<H::Error>> {
    if let Some(bytes) = received {
        let message = Message::decode(bytes)?;
        session.receive_sync_message(host, message)?;
    }
    let message = session.generate_sync_message(host)?;
    Ok(message.map(|message| message.encode()).transpose()?)
}

/// A document as a program may have it: its own changes, and its own errors.
#[derive(Default)]
struct Document {
    changes: Vec<Change>,
}

struct Change {
    hash: ChangeHash,
    deps: Vec<ChangeHash>,
    raw_bytes: Vec<u8>,
}

#[derive(Debug, PartialEq, Eq)]
struct DocumentError;

impl Document {
    fn change_by_hash(&self, hash: &ChangeHash) -> Option<&Change> {
        self.changes.iter().find(|change| change.hash == *hash)
    }

    fn holds(&self, hash: &ChangeHash) -> bool {
        self.change_by_hash(hash).is_some()
    }

    fn save(&self) -> Vec<u8> {
        let bytes = self.changes.iter().flat_map(|change| &change.raw_bytes);
        bytes.copied().collect()
    }

    fn apply(&mut self, change: Change) {
        self.changes.push(change);
    }
}

/// The changes in some bytes: two each, its own number and that of the change below it,
/// 0 for none.
fn split(bytes: &[u8]) -> Result<Vec<Change>, DocumentError> {
    let change = |two: &[u8]| match *two {
        [own, below] => Ok(Change {
            hash: ChangeHash([own; 32]),
            deps: match below {
                0 => vec![],
                _ => vec![ChangeHash([below; 32])],
            },
            raw_bytes: vec![own, below],
        }),
        _ => Err(DocumentError),
    };
    bytes.chunks(2).map(change).collect()
}

/// A document, and the changes that came before what they depend on.
struct Unit {
    document: Document,
    waiting: Vec<Change>,
}

impl Host for Unit {
    type Error = DocumentError;

    fn table(&self) -> Cow<'_, [u8]> {
        let rows = self.document.changes.iter();
        Table::lay(rows.map(|change| (change.hash, &change.deps))).into()
    }

    fn waiting(&self) -> Cow<'_, [u8]> {
        let rows = self.waiting.iter();
        Waiting::lay(rows.map(|change| (change.hash, &change.deps))).into()
    }

    fn change(&self, hash: &ChangeHash) -> Result<Cow<'_, [u8]>, DocumentError> {
        let change = self.document.change_by_hash(hash).ok_or(DocumentError)?;
        Ok(Cow::Borrowed(&change.raw_bytes))
    }

    fn save(&self) -> Result<Vec<u8>, DocumentError> {
        Ok(self.document.save())
    }

    fn load(&mut self, bytes: &[u8]) -> Result<(), DocumentError> {
        // All of it is read before any of it is taken.
        for change in split(bytes)? {
            if self.waiting.iter().all(|one| one.hash != change.hash) {
                self.waiting.push(change);
            }
        }
        loop {
            let held = |change: &Change| change.deps.iter().all(|d| self.document.holds(d));
            let Some(k) = self.waiting.iter().position(held) else {
                return Ok(());
            };
            let change = self.waiting.remove(k);
            if !self.document.holds(&change.hash) {
                self.document.apply(change);
            }
        }
    }
}

type Turn<H> =
    fn(&mut H, &mut Session, Option<&[u8]>) -> Result<Option<Vec<u8>>, Error<<H as Host>::Error>>;

/// Turns of two units until both are silent.
fn talk<H: Host<Error: std::fmt::Debug>>(turn: Turn<H>, units: &mut [(H, Session); 2]) {
    let (mut said, mut silent) = (None, 0);
    for k in 0..40 {
        let (host, session) = &mut units[k % 2];
        said = turn(host, session, said.as_deref()).unwrap();
        silent = if said.is_none() { silent + 1 } else { 0 };
        if silent == 2 {
            return;
        }
    }
    panic!("they don't fall silent");
}

/// The bytes of a chain of changes.
fn chain(length: u8) -> Vec<u8> {
    (1..=length).flat_map(|own| [own, own - 1]).collect()
}

/// A unit that holds a chain, and has said nothing.
fn unit(length: u8) -> (Unit, Session) {
    let mut unit = Unit {
        document: Document::default(),
        waiting: vec![],
    };
    unit.load(&chain(length)).unwrap();
    (unit, Session::new())
}

/// Either kind of turn, on two days: the unit that is asked second has the news.
#[test]
fn units_over_a_document_of_ones_own() {
    let after = [turn, turn_of_values].map(|turn| {
        let mut units = [unit(20), unit(30)];
        for length in [30, 40] {
            units[1].0.load(&chain(length)).unwrap();
            talk(turn, &mut units);
            for (unit, _) in &units {
                assert_eq!(unit.document.save(), chain(length));
            }
        }
        units.map(|(_, session)| session)
    });
    assert_eq!(after[0], after[1]);
}

/// A change that comes too early waits, and what is missing is asked for.
#[test]
fn changes_that_come_too_early() {
    let mut units = [unit(20), unit(30)];
    for _ in 0..2 {
        units[0].0.load(&[30, 29]).unwrap();
    }
    assert_eq!(units[0].0.waiting.len(), 1);
    talk(turn, &mut units);
    assert!(units[0].0.waiting.is_empty());
    assert!(units[0].0.document.holds(&ChangeHash([30; 32])));
    assert_eq!(units[0].0.load(&[7]), Err(DocumentError));
}

#[test]
fn the_loop_over_memory() {
    let unit = |length: u8| {
        let mut memory = Memory::new();
        for own in 1..=length {
            let below = (own > 1).then(|| ChangeHash([own - 1; 32]));
            let change = bisquetower::Change {
                hash: ChangeHash([own; 32]),
                dependencies: below.into_iter().collect(),
                contents: vec![own],
            };
            memory.add(change).unwrap();
        }
        (memory, Session::new())
    };
    let mut units = [unit(9), unit(7)];
    talk(turn, &mut units);
    assert_eq!(units[0].0.changes(), units[1].0.changes());
}

/// Each piece of Rust on the page stands in this file.
#[test]
fn the_page_shows_what_runs_here() {
    let page = include_str!("../../../docs/MIGRATING.md");
    let pieces: Vec<&str> = page.split("```rust\n").skip(1).collect();
    assert_eq!(pieces.len(), 3);
    for piece in pieces {
        let (piece, _) = piece.split_once("```").expect("an end");
        assert!(include_str!("migrating.rs").contains(piece), "{piece}");
    }
}
