//! Filter settings of stations, with their history.

use crate::filter::{BITS_PER_ENTRY, PROBES};
use crate::limits::SETTING_SIZE;
use crate::refusal::{answer, Refusal};
use crate::{explain, raw, room};

/// Bytes of a record, and where its read-only byte stands.
pub(crate) const RECORD: usize = SETTING_SIZE;
pub(crate) const READ_ONLY: usize = 16;

/// What a station chooses. More bits per entry make longer messages and fewer false yeses: a
/// change that a filter takes for held, and that isn't, may come a round later for it.
///
/// ```
/// use bisquetower::Choice;
///
/// // A station that isn't told otherwise builds filters as automerge does.
/// let Choice { bits, probes, read_only } = Choice::default();
/// assert_eq!((bits, probes, read_only), (10, 7, false));
/// ```
#[derive(Clone, Copy, Debug, PartialEq, Eq, Hash)]
pub struct Choice {
    /// Bits per entry of its filters: 1 to [`BITS`](crate::limits::BITS).
    pub bits: u32,
    /// Probes of its filters: 1 to [`PROBES`](crate::limits::PROBES).
    pub probes: u32,
    /// Whether the station takes no changes. It acts on nothing by itself: a program hands
    /// it to [`Session::set_read_only`](crate::Session::set_read_only).
    pub read_only: bool,
}

impl Default for Choice {
    /// 10 bits, 7 probes, and not read-only.
    fn default() -> Self {
        Choice {
            bits: BITS_PER_ENTRY,
            probes: PROBES,
            read_only: false,
        }
    }
}

/// What a station chose, from a version on: a record of [`Settings`].
#[derive(Clone, Copy, Debug, PartialEq, Eq, Hash)]
pub struct Setting {
    /// Its version, which no other record of the list has.
    pub version: u32,
    /// Whose it is.
    pub station: u32,
    /// What was chosen.
    pub choice: Choice,
}

/// The settings of all stations, with their history: a list that only grows, checked by the
/// library.
///
/// A record is [`RECORD`](Settings::RECORD) bytes: version, station, bits per entry and
/// probes (four bytes each, little-endian), read-only (one byte, 0 or 1) and 15 zeros.
/// Versions are 1 at least and ascend over the whole list, whatever the station; so what a
/// station is answered for a version stays, however many records follow.
///
/// ```
/// use bisquetower::{Change, ChangeHash, Choice, Memory, Session, Settings};
///
/// // Station 7 stands underground and wants fewer false yeses; tram 9 wants shorter
/// // messages, and takes no changes.
/// let mut settings = Settings::new();
/// let underground = Choice { bits: 16, probes: 11, ..Choice::default() };
/// let tram = Choice { bits: 6, probes: 4, read_only: true };
/// assert_eq!(settings.append(7, underground)?, 1);
/// assert_eq!(settings.append(9, tram)?, 2);
/// assert_eq!(settings.at(9, 1), Choice::default());
/// assert_eq!(settings.at(9, 2), tram);
///
/// // What it says next, as it chose.
/// let mut document = Memory::new();
/// let fares = Change {
///     hash: ChangeHash([1; 32]),
///     dependencies: vec![],
///     contents: b"fares".to_vec(),
/// };
/// document.add(fares)?;
/// let choice = settings.latest(9);
/// let mut session = Session::new();
/// session.set_read_only(choice.read_only);
/// let said = session.generate_with(&document, choice)?.expect("the first message");
/// let filter = &said.have[0].bloom;
/// assert_eq!((filter.num_bits_per_entry(), filter.num_probes()), (6, 4));
///
/// // A list that is read is good, or its first bad record is told.
/// let mut bytes = settings.as_bytes().to_vec();
/// assert_eq!(Settings::parse(&bytes[..])?, settings);
/// bytes[Settings::RECORD + 8] = 33;
/// let bad = Settings::parse(bytes).unwrap_err();
/// assert_eq!((bad.number, bad.value), (14, 1));
/// assert_eq!(
///     bad.sentence(),
///     "record 1 of the settings list has 33 bits per entry; 1 to 32 are allowed"
/// );
/// # Ok::<(), Box<dyn std::error::Error>>(())
/// ```
#[derive(Clone, Debug, Default, PartialEq, Eq)]
pub struct Settings(Vec<u8>);

impl Settings {
    /// Bytes of a record.
    pub const RECORD: usize = RECORD;

    /// A list without records.
    pub fn new() -> Settings {
        Settings::default()
    }

    /// The list of records, if it is good: refusal 14 with the first bad one. Bytes at the
    /// end that are no whole record are a bad one.
    pub fn parse(bytes: impl Into<Vec<u8>>) -> Result<Settings, Refusal> {
        let bytes = bytes.into();
        let checked = answer(raw::check_settings(&bytes));
        checked.map_err(|refusal| explain::list(&bytes, refusal))?;
        Ok(Settings(bytes))
    }

    /// Appends what a station chooses, and tells its version, which is the last one plus 1:
    /// refusal 15 for bits or probes that aren't allowed, or where no version is left. Then
    /// the list is as it was.
    pub fn append(&mut self, station: u32, choice: Choice) -> Result<u32, Refusal> {
        let Choice {
            bits,
            probes,
            read_only,
        } = choice;
        let (station, bits, probes) = (station.into(), bits.into(), probes.into());
        let record = room::written(RECORD, |out| {
            raw::append_setting(&self.0, station, bits, probes, read_only.into(), out)
        });
        let record = record.map_err(|why| explain::setting(self.version(), choice, why))?;
        self.0.extend(record);
        Ok(self.version())
    }

    /// What a station has at a version: its last record not above that version, or
    /// [`Choice::default`] where it has none.
    pub fn at(&self, station: u32, version: u32) -> Choice {
        let asked = raw::setting_at(&self.0, station.into(), version.into());
        let [bits, probes, read_only] = answer(asked).expect("a good list");
        Choice {
            bits: bits as u32,
            probes: probes as u32,
            read_only: read_only != 0,
        }
    }

    /// What a station has at the newest version.
    pub fn latest(&self, station: u32) -> Choice {
        self.at(station, self.version())
    }

    /// Its records, in their order, which is that of their versions.
    pub fn records(&self) -> impl DoubleEndedIterator<Item = Setting> + ExactSizeIterator + '_ {
        self.0.chunks_exact(RECORD).map(setting)
    }

    /// The newest version; 0 of a list without records.
    pub fn version(&self) -> u32 {
        let newest = self.records().next_back();
        newest.map_or(0, |newest| newest.version)
    }

    /// Its records as bytes.
    pub fn as_bytes(&self) -> &[u8] {
        &self.0
    }
}

/// The setting of a good record.
fn setting(record: &[u8]) -> Setting {
    Setting {
        version: u32_at(record, 0),
        station: u32_at(record, 4),
        choice: Choice {
            bits: u32_at(record, 8),
            probes: u32_at(record, 12),
            read_only: record[READ_ONLY] != 0,
        },
    }
}

/// The station and the version of a choice that is lent alone.
pub(crate) const STATION: u64 = 0;
pub(crate) const VERSION: u64 = 1;

/// A list of one record, by which a call is told a choice; what isn't allowed stands in it
/// too. No setting has 0 probes, with which a filter looks at one bit, as it does with 1.
pub(crate) fn lent(choice: Choice) -> [u8; RECORD] {
    let numbers = [
        VERSION as u32,
        STATION as u32,
        choice.bits,
        choice.probes.max(1),
    ];
    let mut record = [0; RECORD];
    for (four, number) in record.chunks_exact_mut(4).zip(numbers) {
        four.copy_from_slice(&number.to_le_bytes());
    }
    record
}

/// The number of four bytes at a place.
pub(crate) fn u32_at(bytes: &[u8], place: usize) -> u32 {
    let four = bytes[place..place + 4].try_into().expect("four bytes");
    u32::from_le_bytes(four)
}
