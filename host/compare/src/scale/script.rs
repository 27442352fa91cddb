//! A session script: bytes that decide what two units hold, with what sessions they
//! start, and what happens to them. Any bytes are a script, and a shorter one is less.

use crate::inputs::filter::hash_of;
use crate::inputs::message::Draft;
use crate::model::have::OwnHave;
use crate::model::session::Value;
use crate::model::table::{Hash, DEPENDENCIES};
use crate::talks::{compare_pairs, limited, Pair, Start, Step};
use crate::units::{load, proved, Make};
use crate_under_test::facade::{Automerge, Change, ChangeHash};

/// Has a script done by units of the library and of the crate, in every pairing: the
/// crate's steps. One that differs panics.
pub fn compare(script: &[u8]) -> Vec<Step> {
    compare_pairs(proved, |makes| play(script, makes))
}

/// The bytes that are left; 0 once there are none.
struct Bytes<'a>(&'a [u8]);

impl<'a> Bytes<'a> {
    fn byte(&mut self) -> u8 {
        let (first, rest) = self.0.split_first().unwrap_or((&0, &[]));
        self.0 = rest;
        *first
    }

    fn below(&mut self, limit: usize) -> usize {
        usize::from(self.byte()) % limit
    }

    fn some(&mut self) -> &'a [u8] {
        let most = self.below(48);
        let (some, rest) = self.0.split_at(self.0.len().min(most));
        self.0 = rest;
        some
    }

    /// The changes of a graph, each on some of the four before it. Their hashes share
    /// most of what a filter looks at, so that false yeses are frequent.
    fn changes(&mut self) -> Vec<Change> {
        let mut changes: Vec<Change> = Vec::new();
        for row in 0..self.below(12) {
            let crowd = u32::from(self.byte() % 16);
            let mut hash = hash_of([crowd, crowd / 2, crowd / 4]);
            hash[31] = row as u8;
            let on = self.byte();
            let before = changes.iter().rev().take(4).enumerate();
            let on = before.filter(|(k, _)| on >> k & 1 == 1);
            let on: Vec<ChangeHash> = on.map(|(_, change)| change.hash()).collect();
            changes.push(Change::new(ChangeHash(hash), on, &[]));
        }
        changes
    }

    /// Hashes of some of the changes, or one that nobody holds.
    fn list(&mut self, changes: &[Change]) -> Vec<Hash> {
        let mut list = Vec::new();
        for _ in 0..self.below(4) {
            let which = self.below(changes.len() + 1);
            let held = changes.get(which).map(|change| change.hash().0);
            list.push(held.unwrap_or([0xee; 32]));
        }
        list
    }

    fn have(&mut self, changes: &[Change]) -> OwnHave {
        let last_sync = self.list(changes);
        let hashes = self.list(changes);
        let (bits, probes) = (1 + self.below(12) as u64, self.below(9) as u64);
        OwnHave::over(last_sync, bits, probes, &hashes)
    }

    fn session(&mut self, changes: &[Change]) -> Value {
        let kind = self.byte();
        match kind % 4 {
            0 | 1 => return Value::default(),
            2 => {
                return Value {
                    shared: self.list(changes),
                    their_have: Some(Vec::new()),
                    ..Value::default()
                }
            }
            _ => {}
        }
        let flags = self.byte();
        Value {
            shared: self.list(changes),
            last_sent: self.list(changes),
            their_heads: (kind & 4 != 0).then(|| self.list(changes)),
            their_need: (kind & 8 != 0).then(|| self.list(changes)),
            their_have: (kind & 16 != 0)
                .then(|| (0..self.below(3)).map(|_| self.have(changes)).collect()),
            sent: self.list(changes).into_iter().collect(),
            flags: std::array::from_fn(|k| flags >> k & 1 == 1),
        }
    }

    /// A message with a chunk that may be anything.
    fn message(&mut self, changes: &[Change]) -> Draft {
        Draft {
            heads: self.list(changes),
            need: self.list(changes),
            chunks: vec![self.some().to_vec()],
            flags: Some(vec![0x02, self.byte()]),
            ..Draft::new()
        }
    }

    /// A unit with some of the changes; those whose dependencies it hasn't wait.
    fn start(&mut self, changes: &[Change]) -> Start {
        let mut document = Automerge::new();
        let held = u16::from_le_bytes([self.byte(), self.byte()]);
        for (row, change) in changes.iter().enumerate() {
            if held >> row & 1 == 1 {
                assert!(load(&mut document, change.raw_bytes()));
            }
        }
        (document, self.session(changes))
    }
}

/// What may happen in a script.
const EVENTS: usize = 48;

fn play(script: &[u8], makes: [Make; 2]) -> Vec<Step> {
    let mut bytes = Bytes(script);
    let changes = bytes.changes();
    let starts = [0, 1].map(|_| bytes.start(&changes));
    let mut pair = Pair::new(makes, starts);
    let mut under_way: [Vec<Vec<u8>>; 2] = Default::default();
    for event in 0..EVENTS {
        if bytes.0.is_empty() {
            break;
        }
        let byte = bytes.byte();
        let unit = usize::from(byte >> 7);
        match byte & 15 {
            0..5 => under_way[1 - unit].extend(pair.speak(unit)),
            5..9 if !under_way[unit].is_empty() => {
                let message = under_way[unit].remove(0);
                pair.hear(unit, &message);
            }
            9 => {
                if let Some(message) = under_way[unit].pop() {
                    pair.hear(unit, &message);
                }
            }
            10 => drop(under_way[unit].pop()),
            11 => pair.units[unit].set_read_only(byte & 16 != 0),
            12 => {
                let saved = pair.units[unit].save();
                pair.units[unit].restore(&saved);
            }
            13 => {
                let mut on = pair.units[unit].document().get_heads();
                on.truncate(DEPENDENCIES);
                let hash = [0x80 + event as u8; 32];
                let change = Change::new(ChangeHash(hash), on, &[]);
                pair.load(unit, change.raw_bytes());
            }
            14 => {
                if let Some(mut message) = under_way[unit].pop() {
                    let place = bytes.below(message.len());
                    // Changes stand near a message's end.
                    let place = match byte & 16 {
                        0 => place,
                        _ => message.len() - 1 - place,
                    };
                    message[place] ^= bytes.byte();
                    under_way[unit].extend(Some(message).filter(|message| limited(message)));
                }
            }
            15 => {
                let message = match byte & 16 {
                    0 => bytes.message(&changes).bytes(),
                    _ => bytes.some().to_vec(),
                };
                if limited(&message) {
                    pair.hear(unit, &message);
                }
            }
            _ => {}
        }
    }
    pair.steps
}
