//! What a file may hold, and how that is told when it isn't named.

use super::shown;
use crate::rows::{self, Rows};
use bisquetower::limits::{CHUNKS, HAVES_WORDS};
use bisquetower::message::CHUNK_WORDS;
use bisquetower::raw;
use bisquetower::refusal::answer;
use bisquetower::{message, Filter, Message, Refusal, SavedState, Settings, Table, Waiting};
use std::ffi::OsStr;
use std::fmt;
use std::ops::Range;
use std::path::Path;

#[derive(Clone, Copy, Debug, PartialEq, Eq)]
pub enum Kind {
    Message,
    State,
    Filter,
    Table,
    Settings,
    Waiting,
}

/// Those that are told by the bytes, in the order in which they are tried.
const TOLD: [Kind; 5] = [
    Kind::Message,
    Kind::State,
    Kind::Table,
    Kind::Settings,
    Kind::Filter,
];

/// The kinds, as they are named to whoever is to choose one.
pub const NAMES: &str = "message, state, filter, table, settings or waiting";

impl Kind {
    pub fn named(name: &OsStr) -> Option<Kind> {
        let mut kinds = TOLD.into_iter().chain([Kind::Waiting]);
        kinds.find(|kind| name == kind.name())
    }

    /// As the end of a file's name says.
    pub fn of_file(file: &OsStr) -> Option<Kind> {
        Kind::named(Path::new(file).extension()?)
    }

    /// The first kind that takes all the bytes, else one that takes some of them. What
    /// nothing takes is read as what its first byte or its length looks like.
    pub fn guess(bytes: &[u8]) -> Kind {
        if bytes.is_empty() {
            return Kind::Message;
        }
        let takes = |whole: bool| {
            let mut kinds = TOLD.into_iter();
            kinds.find(|kind| match kind.read(bytes) {
                Ok(next) => next == bytes.len() || !whole,
                Err(_) => false,
            })
        };
        let looks = match bytes[0] {
            0x42 | 0x43 => Kind::Message,
            _ if bytes.len() >= Rows::Before.size() => Kind::Table,
            _ => Kind::Message,
        };
        takes(true).or(takes(false)).unwrap_or(looks)
    }

    /// What else the bytes may be.
    pub fn hint(self, bytes: &[u8]) -> String {
        let whole = |kind: &Kind| *kind != self && kind.read(bytes) == Ok(bytes.len());
        let others = TOLD.iter().filter(|kind| whole(kind));
        let others: Vec<String> = others.map(|kind| format!("--as {}", kind.name())).collect();
        match others.is_empty() {
            true => String::new(),
            false => format!("  (it can be read otherwise too: {})\n", others.join(", ")),
        }
    }

    /// How many bytes stand after all that is read; none of bytes that are refused.
    pub fn ignored(self, bytes: &[u8]) -> usize {
        let next = self.read(bytes).unwrap_or(bytes.len());
        bytes.len() - next
    }

    /// The place after all that is read.
    fn read(self, bytes: &[u8]) -> Result<usize, Refusal> {
        match self {
            Kind::Message => {
                let mut haves = vec![0; HAVES_WORDS];
                let mut chunks = vec![0; CHUNKS * CHUNK_WORDS];
                let read = message::View::read(bytes, &mut haves, &mut chunks)?;
                Ok(read.next())
            }
            Kind::State => {
                SavedState::decode(bytes)?;
                let [_, _, next] = answer(raw::read_hashes(bytes, 1, bytes.len()))?;
                Ok(next as usize)
            }
            Kind::Filter => Filter::parse_first(bytes).map(|(_, next)| next),
            Kind::Table => Rows::of(bytes).table(bytes).map(|_| bytes.len()),
            Kind::Settings => Settings::parse(bytes).map(|_| bytes.len()),
            Kind::Waiting => rows::waiting(bytes).map(|_| bytes.len()),
        }
    }

    pub fn show(self, bytes: &[u8], full: bool) -> Result<String, Refusal> {
        let next = self.read(bytes)?;
        let mut text = match self {
            Kind::Message => {
                let ignored = ignored_in(bytes)?;
                shown::message(&Message::decode(bytes)?, &ignored, next, full)
            }
            Kind::State => shown::state(&SavedState::decode(bytes)?, next, full),
            Kind::Filter => shown::filter(&Filter::parse(bytes)?, next),
            Kind::Table => {
                let rows = Rows::of(bytes);
                shown::table(&rows.table(bytes)?, rows, full)
            }
            Kind::Settings => shown::settings(&Settings::parse(bytes)?),
            Kind::Waiting => {
                let (waiting, rows) = rows::waiting(bytes)?;
                shown::waiting(&waiting, rows, full)
            }
        };
        if next < bytes.len() {
            text += &shown::rest(bytes.len() - next, next);
        }
        Ok(text)
    }

    /// The bytes that a refusal points at, if it points at some.
    pub fn place(self, refusal: Refusal) -> Option<Range<usize>> {
        if let Some(cause) = refusal.cause() {
            return cause.place();
        }
        let value = refusal.value as usize;
        let place = match (refusal.number, self) {
            (2, _) => 0,
            (6, _) => Table::ROW * value,
            (9, _) => Waiting::ROW * value,
            (14, _) => Settings::RECORD * value,
            // As a whole, not at its first byte.
            (4, Kind::Message | Kind::Table | Kind::Waiting) if value == 0 => return None,
            (1 | 3 | 4 | 5, _) => value,
            _ => return None,
        };
        Some(place..place + 1)
    }

    /// What to do about a refusal.
    pub fn advice(self, refusal: Refusal) -> &'static str {
        match (refusal.number, self) {
            (1, _) => "the bytes end too early: have them sent or copied again, whole.",
            (2, Kind::State) => "a saved state begins with 43: name another kind with --as.",
            (2, _) => "a message begins with 42 or 43: name another kind with --as state, filter or table.",
            (4, Kind::Table | Kind::Waiting) => "leave rows out: units that sync keep to that many.",
            (4, _) => "look at the sender: it may not write more than that, and sending again won't help.",
            (5, _) => "look at the sender: it built a filter with 0 bits for its entries, and sending it again won't help.",
            (6, _) => "look at that row: it must be whole, its hash stand once, what it depends on ascend and come before it.",
            (13, _) => "a unit of before can't hold that change: leave it out with all that depend on it, or keep the rows as they are.",
            (9, _) => "look at that row: it must be whole, its hash stand once, what is unused be zero.",
            (14, _) => "look at that record: it must be whole, its version above the one before, its bits and probes allowed, its read-only byte 0 or 1, and zeros behind that.",
            _ => "the bytes break a rule of the format: have them sent or copied again.",
        }
    }

    fn name(self) -> &'static str {
        match self {
            Kind::Message => "message",
            Kind::State => "state",
            Kind::Filter => "filter",
            Kind::Table => "table",
            Kind::Settings => "settings",
            Kind::Waiting => "waiting",
        }
    }
}

impl fmt::Display for Kind {
    fn fmt(&self, f: &mut fmt::Formatter<'_>) -> fmt::Result {
        f.write_str(match self {
            Kind::State => "saved state",
            Kind::Table => "change table",
            Kind::Settings => "settings list",
            Kind::Waiting => "waiting table",
            other => other.name(),
        })
    }
}

/// How many bytes are ignored behind the field of each have's filter.
fn ignored_in(bytes: &[u8]) -> Result<Vec<u64>, Refusal> {
    let mut haves = vec![0; HAVES_WORDS];
    let mut chunks = vec![0; CHUNKS * CHUNK_WORDS];
    let read = message::View::read(bytes, &mut haves, &mut chunks)?;
    let ignored = read.haves().map(|have| have.ignored).collect();
    Ok(ignored)
}
