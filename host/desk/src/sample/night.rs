//! A night's captures: five stations that chose other bits and probes, each with its own
//! table as it grows over the night and those of validators that are short of it.
//!
//! A validator says a filter over its rows beyond some that both know. One station's captures
//! are whole messages, some of two haves. Now and then a capture is bad.

use super::tables::{hash, refused};
use crate::count::MANIFEST;
use crate::failure::Failure;
use bisquetower::{ChangeHash, Filter, Have, Message, Refusal, Table};
use compare::inputs::Random;

/// How many captures there are, and their seed, if that isn't told.
pub const CAPTURES: u64 = 1_000;
pub const SEED: u64 = 108;

/// A station, the bits and probes of filters there, and whether messages are captured.
const STATIONS: [(u32, u32, u32, bool); 5] = [
    (7, 16, 11, false),
    (8, 12, 8, false),
    (12, 10, 7, true),
    (21, 6, 4, false),
    (30, 4, 2, false),
];

/// A station's tables, each of so many rows more, and the validators that sync with it.
const HOURS: usize = 4;
const AN_HOUR: usize = 60;
const EVENING: usize = 400;
const VALIDATORS: usize = 6;

/// Rows that a validator holds of the station's, at least, and so many more than another.
const HELD: usize = 200;
const MORE: usize = 20;

/// Rows that only a validator has.
const OWN: usize = 10;

/// One in so many messages has two haves.
const TWO_HAVES: usize = 4;

/// The first bad capture's line, and how many lines there are from one to the next.
const FIRST_BAD: usize = 100;
const BETWEEN: usize = 211;

/// Names and bytes of a night's files.
pub type Files = Vec<(String, Vec<u8>)>;

pub fn files(captures: u64, seed: u64) -> Result<Files, Failure> {
    let made = Making::of(captures, seed).and_then(Making::all);
    made.map_err(refused)
}

/// A station with its tables.
struct Station {
    number: u32,
    bits: u32,
    probes: u32,
    messages: bool,
    validators: Vec<Table>,
}

struct Making {
    captures: u64,
    random: Random,
    stations: Vec<Station>,
    files: Files,
    manifest: String,
    lines: usize,
}

impl Making {
    /// The tables, and no capture yet.
    fn of(captures: u64, seed: u64) -> Result<Making, Refusal> {
        let mut making = Making {
            captures,
            random: Random(seed),
            stations: Vec::new(),
            files: Files::new(),
            manifest: "# station, filter or message, sender's table, listener's table\n"
                .to_string(),
            lines: 0,
        };
        for (number, bits, probes, messages) in STATIONS {
            let all = making.hashes(EVENING + AN_HOUR * (HOURS - 1));
            for hour in 0..HOURS {
                let table = chain(&all[..EVENING + AN_HOUR * hour])?;
                making.put(listener(number, hour), table.as_bytes());
            }
            let mut validators = Vec::new();
            for validator in 0..VALIDATORS {
                let held = &all[..HELD + MORE * validator];
                let table = chain(&[held, &making.hashes(OWN)].concat())?;
                making.put(sender(number, validator), table.as_bytes());
                validators.push(table);
            }
            making.stations.push(Station {
                number,
                bits,
                probes,
                messages,
                validators,
            });
        }
        making.bad_tables();
        Ok(making)
    }

    fn put(&mut self, name: String, bytes: &[u8]) {
        self.files.push((name, bytes.to_vec()));
    }

    fn hashes(&mut self, count: usize) -> Vec<ChangeHash> {
        (0..count).map(|_| hash(self.random.word())).collect()
    }

    /// One whose last row is the first again, and one that is cut.
    fn bad_tables(&mut self) {
        let mut bad = self.stations[0].validators[0].as_bytes().to_vec();
        let cut = bad[..bad.len() - Table::ROW / 2].to_vec();
        let last = bad.len() - Table::ROW;
        bad.copy_within(..Table::ROW, last);
        self.put(BAD_ROW.to_string(), &bad);
        self.put(CUT.to_string(), &cut);
    }

    fn all(mut self) -> Result<Files, Refusal> {
        let mut made = 0;
        while made < self.captures {
            made += self.capture(made)?;
        }
        let manifest = std::mem::take(&mut self.manifest);
        self.put(MANIFEST.to_string(), manifest.as_bytes());
        Ok(self.files)
    }

    /// Makes a line of the manifest; how many captures it has.
    fn capture(&mut self, made: u64) -> Result<u64, Refusal> {
        let which = self.lines % self.stations.len();
        let bad = self.lines % BETWEEN == FIRST_BAD;
        let validator = self.random.below(VALIDATORS);
        let hour = (made * HOURS as u64 / self.captures) as usize;
        let two = self.random.one_in(TWO_HAVES) && self.captures - made > 1;
        let Station {
            number, messages, ..
        } = self.stations[which];
        let haves = if messages && two && !bad { 2 } else { 1 };
        let (end, mut bytes) = match messages {
            true => ("message", self.message(which, validator, haves)?),
            false => ("filter", self.have(which, validator)?.bloom.to_bytes()),
        };
        let mut tables = [sender(number, validator), listener(number, hour)];
        if bad {
            spoil(self.lines / BETWEEN, &mut bytes, &mut tables);
        }
        self.lines += 1;
        let file = format!("{:04}-{number}.{end}", self.lines);
        let [sender, listener] = tables;
        self.manifest += &format!("{number} {file} {sender} {listener}\n");
        self.put(file, &bytes);
        Ok(haves)
    }

    /// What a validator has beyond a row that both know.
    fn have(&mut self, which: usize, validator: usize) -> Result<Have, Refusal> {
        let from = 1 + self.random.below(HELD / 2);
        let Station {
            bits,
            probes,
            validators,
            ..
        } = &self.stations[which];
        let table = &validators[validator];
        let beyond = (from..table.rows()).map(|row| table.hash(row));
        Ok(Have {
            last_sync: vec![table.hash(from - 1)],
            bloom: Filter::with(*bits, *probes, beyond)?,
        })
    }

    fn message(&mut self, which: usize, validator: usize, haves: u64) -> Result<Vec<u8>, Refusal> {
        let have: Result<_, Refusal> = (0..haves).map(|_| self.have(which, validator)).collect();
        let message = Message {
            heads: self.stations[which].validators[validator].heads(),
            have: have?,
            ..Message::default()
        };
        message.encode()
    }
}

const BAD_ROW: &str = "bad-row.table";
const CUT: &str = "cut.table";

fn sender(station: u32, validator: usize) -> String {
    format!("{station}-validator-{}.table", validator + 1)
}

fn listener(station: u32, hour: usize) -> String {
    format!("{station}-hour-{}.table", hour + 1)
}

/// A table of these changes, each on the one before it.
fn chain(hashes: &[ChangeHash]) -> Result<Table, Refusal> {
    let rows = (0..hashes.len()).map(|row| {
        let below = &hashes[row.saturating_sub(1)..row];
        (hashes[row], below.to_vec())
    });
    Table::from_changes(rows)
}

/// A filter that is cut or has no bits, a bad row at the sender, a cut row at the listener.
fn spoil(which: usize, bytes: &mut Vec<u8>, [sender, listener]: &mut [String; 2]) {
    match which % 4 {
        0 => bytes.truncate(bytes.len() / 2),
        1 => *bytes = vec![0x01, 0x00, 0x07],
        2 => *sender = BAD_ROW.to_string(),
        _ => *listener = CUT.to_string(),
    }
}
