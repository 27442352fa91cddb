//! Document 02's M-107, filter settings per station, in plain Rust: written from its
//! sentences, with a list of all records and no eye to speed.

use super::filter::{DEFAULT_BITS, DEFAULT_PROBES};
use super::{words, Refused, MOST_OF_A_FILTER};

/// "house records of 32 bytes".
pub const RECORD: usize = 32;

/// The most that a u32 is, so the last version and the last station: the same number as
/// that of a filter.
pub const MOST: u64 = MOST_OF_A_FILTER;

/// A record: "version (u32 ..), station (u32), bits per entry (u32), probes (u32),
/// read-only (one byte ..) and 15 zeros".
#[derive(Clone, Copy, Debug, PartialEq, Eq)]
pub struct Setting {
    pub version: u64,
    pub station: u64,
    pub choice: Choice,
}

/// What a station chooses.
#[derive(Clone, Copy, Debug, PartialEq, Eq)]
pub struct Choice {
    pub bits: u64,
    pub probes: u64,
    pub read_only: u64,
}

/// "the crate's 10, 7 and off".
pub const OF_THE_CRATE: Choice = Choice {
    bits: DEFAULT_BITS,
    probes: DEFAULT_PROBES,
    read_only: 0,
};

impl Choice {
    /// "Bits must be 1 to 32, probes 1 to 64", read-only "0 or 1".
    fn allowed(&self) -> bool {
        (1..=32).contains(&self.bits)
            && (1..=64).contains(&self.probes)
            && [0, 1].contains(&self.read_only)
    }
}

impl Setting {
    /// "numbers little-endian".
    pub fn bytes(&self) -> Vec<u8> {
        let Choice {
            bits,
            probes,
            read_only,
        } = self.choice;
        let numbers = [self.version, self.station, bits, probes];
        let mut bytes: Vec<u8> = numbers
            .into_iter()
            .flat_map(|number| u32::try_from(number).expect("a u32").to_le_bytes())
            .collect();
        bytes.push(read_only as u8);
        bytes.resize(RECORD, 0);
        bytes
    }
}

/// The setting of a record; none if it isn't whole, its zeros aren't, or its choice isn't
/// allowed.
fn setting(record: &[u8]) -> Option<Setting> {
    let record: [u8; RECORD] = record.try_into().ok()?;
    let number = |k: usize| {
        let four = record[4 * k..].iter().take(4);
        four.rev().fold(0, |sum, &byte| 256 * sum + u64::from(byte))
    };
    let choice = Choice {
        bits: number(2),
        probes: number(3),
        read_only: record[16].into(),
    };
    let good = choice.allowed() && record[17..] == [0; 15];
    good.then(|| Setting {
        version: number(0),
        station: number(1),
        choice,
    })
}

/// The settings of a list: 14, "bad settings list, with its first bad record", a partial
/// one too. The version is "at least 1, strictly ascending", over the whole list.
pub fn settings(lent: &[u8]) -> Result<Vec<Setting>, Refused> {
    let mut settings: Vec<Setting> = Vec::new();
    for (number, record) in lent.chunks(RECORD).enumerate() {
        let ascends = |next: &Setting| match settings.last() {
            None => next.version >= 1,
            Some(last) => next.version > last.version,
        };
        let next = setting(record).filter(ascends);
        settings.push(next.ok_or((14, number as u64))?);
    }
    Ok(settings)
}

/// How many records a good list has, as words.
pub fn check(lent: &[u8]) -> [u64; 4] {
    words(settings(lent).map(|settings| [settings.len() as u64, 0, 0]))
}

/// "asking for a station at a version gives its last record not above that version, or
/// the crate's".
pub fn setting_at(lent: &[u8], station: u64, version: u64) -> Result<Choice, Refused> {
    let settings = settings(lent)?;
    let own = settings.iter().filter(|one| one.station == station);
    let last = own
        .filter(|one| one.version <= version)
        .max_by_key(|one| one.version);
    Ok(last.map_or(OF_THE_CRATE, |one| one.choice))
}

/// That, as words.
pub fn asked(lent: &[u8], station: u64, version: u64) -> [u64; 4] {
    let choice = setting_at(lent, station, version);
    words(choice.map(|one| [one.bits, one.probes, one.read_only]))
}

/// "Writing a setting appends one, with the last version plus 1": the record that goes
/// behind the list. "15, bad new setting, or no version left, .. after 14".
pub fn appended(lent: &[u8], station: u64, choice: Choice) -> Result<Vec<u8>, Refused> {
    let settings = settings(lent)?;
    let version = settings.last().map_or(0, |last| last.version) + 1;
    if !choice.allowed() || station > MOST || version > MOST {
        return Err((15, 0));
    }
    let new = Setting {
        version,
        station,
        choice,
    };
    Ok(new.bytes())
}
