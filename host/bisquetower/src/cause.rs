//! What broke a rule, in particular.

use crate::refusal::grouped;
use std::fmt;
use std::ops::Range;

/// What broke a rule, where what was lent shows it: which list is too long and by how
/// much, which field of a row is wrong. [`Refusal::cause`](crate::Refusal::cause) has it, and
/// of a row that was dropped [`Dropped::cause`](crate::Dropped::cause).
///
/// ```
/// use bisquetower::limits::{DEPENDENCIES, HASH_SIZE};
/// use bisquetower::{ChangeHash, Table};
///
/// let [a, b] = [b'a', b'b'].map(|name| ChangeHash([name; 32]));
/// let mut rows = Table::lay([(a, vec![]), (b, vec![a])]);
/// let (count, many) = (Table::ROW + HASH_SIZE, DEPENDENCIES + 1);
/// rows[count] = many as u8;
/// let cause = Table::new(rows).unwrap_err().cause().unwrap();
/// assert_eq!(
///     cause.to_string(),
///     format!("row 1 of the change table counts {many} dependencies; at most {DEPENDENCIES}")
/// );
/// assert_eq!(cause.place(), Some(count..count + 2));
/// ```
#[derive(Clone, Copy, Debug, PartialEq, Eq)]
pub struct Cause {
    rule: Rule,
    /// The first byte, and the place after the last.
    place: Option<(usize, usize)>,
}

impl Cause {
    pub(crate) fn new(rule: Rule, place: Option<Range<usize>>) -> Cause {
        let place = place.map(|place| (place.start, place.end));
        Cause { rule, place }
    }

    /// The bytes that break the rule; none where no bytes were read, or they break it as a
    /// whole.
    pub fn place(&self) -> Option<Range<usize>> {
        self.place.map(|(start, end)| start..end)
    }

    /// Which part of a capture breaks the rule; none where no capture was counted.
    pub fn captured(&self) -> Option<Captured> {
        match self.rule {
            Rule::Rows { table, .. } | Rule::Row { table, .. } => table.captured(),
            Rule::Captured(_) => Some(Captured::Filter),
            _ => None,
        }
    }

    /// The same of a capture's filter, which stands alone: its numbers have no place.
    pub(crate) fn of_captured_filter(self) -> Cause {
        let rule = match self.rule {
            Rule::Filter { rule, .. } => Rule::Captured(InFilter::Numbers(rule)),
            other => other,
        };
        Cause { rule, ..self }
    }
}

/// A part of a capture ([`Counts::of_capture`](crate::Counts::of_capture)).
#[derive(Clone, Copy, Debug, PartialEq, Eq)]
pub enum Captured {
    /// The table of the unit that sent the filter.
    Sender,
    /// The table of the unit that heard it.
    Listener,
    /// The filter itself.
    Filter,
}

/// A rule, and what breaks it.
#[derive(Clone, Copy, Debug, PartialEq, Eq)]
pub(crate) enum Rule {
    /// A list has at most `most` items, and this one has `count`.
    Items { list: List, count: u64, most: u64 },
    /// A message has at most `most` bytes; how many it would take, where it was written.
    MessageBytes { bytes: Option<u64>, most: u64 },
    /// A table has at most `most` rows.
    Rows { table: Rows, most: u64 },
    /// A filter keeps to what filters are; where it stands, if it was read.
    Filter { place: Option<usize>, rule: Numbers },
    /// A filter's field has the size that its entries and bits ask for.
    FieldSize { bytes: u64, asked: u64 },
    /// A row keeps to what rows are.
    Row { table: Rows, row: usize, rule: Row },
    /// The same of a row that was dropped.
    Dropped { row: usize, rule: Row },
    /// A row of before has room for `most` dependencies, and this one has `count`.
    TooWide { row: usize, count: u64, most: u64 },
    /// The sent hashes of a session ascend: the one at an index doesn't.
    SentOrder(usize),
    /// A list that a step makes, by the name of its items, has at most `most`.
    Made { items: &'static str, most: u64 },
    /// A setting keeps to what settings are.
    Setting { of: Chosen, rule: Setting },
    /// A capture's filter is one.
    Captured(InFilter),
    /// A total of counts, by what is counted, stays within 64 bits.
    Total(&'static str),
    /// A pick keeps to what picks are.
    Pick(Pick),
}

/// Whose items are counted.
#[derive(Clone, Copy, Debug, PartialEq, Eq)]
pub(crate) enum List {
    Heads,
    Need,
    Haves,
    /// Of the have at this index.
    LastSync(usize),
    Chunks,
    SharedHeads,
    /// Of the filter that is to be built.
    Entries,
    /// Of a session, by the name of its items.
    OfSession(&'static str),
    /// Passed to a call, by the name of its items.
    Passed(&'static str),
}

/// What is wrong with a filter's numbers.
#[derive(Clone, Copy, Debug, PartialEq, Eq)]
pub(crate) enum Numbers {
    /// It has entries and no bits for them.
    NoBits,
    /// It has more probes than there may be.
    Probes { probes: u64, most: u64 },
    /// Its field has more bytes than there may be.
    Field { bytes: u64, most: u64 },
}

/// Which table.
#[derive(Clone, Copy, Debug, PartialEq, Eq)]
pub(crate) enum Rows {
    Change,
    Waiting,
    /// The change table of the one who sent a captured filter, and of the one who heard it.
    Sender,
    Listener,
}

impl Rows {
    fn captured(self) -> Option<Captured> {
        match self {
            Rows::Change | Rows::Waiting => None,
            Rows::Sender => Some(Captured::Sender),
            Rows::Listener => Some(Captured::Listener),
        }
    }
}

/// What is wrong with a filter that stands alone.
#[derive(Clone, Copy, Debug, PartialEq, Eq)]
pub(crate) enum InFilter {
    /// It ends inside the item at this place.
    Cut(usize),
    /// The number at this place has a bad form.
    Number(usize),
    Numbers(Numbers),
}

/// What is wrong with a row.
#[derive(Clone, Copy, Debug, PartialEq, Eq)]
pub(crate) enum Row {
    /// It ends before its last byte.
    Cut { bytes: usize, whole: usize },
    /// It counts more dependencies than a change may have.
    Count { count: u64, most: u64 },
    /// It depends on a row that doesn't stand before it.
    NotBefore(u64),
    /// A row number isn't above the one that it follows.
    NotAscending { number: u64, after: u64 },
    /// A row number that isn't in use isn't zero.
    UnusedNumber(u64),
    /// The bytes behind the count aren't all zero.
    BehindCount,
    /// A dependency's hash that isn't in use isn't zero; its index.
    UnusedHash(usize),
    /// An earlier row has its hash.
    Twice(usize),
    /// A row of the change table has its hash.
    Held(usize),
    /// It depends on a row that was dropped.
    Lost(usize),
}

/// What is wrong with a pick: with the hash at an index, or with all of it.
#[derive(Clone, Copy, Debug, PartialEq, Eq)]
pub(crate) enum Pick {
    /// No row has this hash.
    Unknown(usize),
    /// Its row isn't listed.
    Unlisted { place: usize, row: usize },
    /// Its row isn't behind the one before it.
    Order {
        place: usize,
        row: usize,
        after: usize,
    },
    /// It depends on a row that is listed and isn't picked.
    Without { place: usize, on: usize },
    /// There isn't one size a row.
    Sizes { sizes: usize, rows: usize },
    /// The sizes are more than the budget.
    Sum { sum: u128, budget: u64 },
    /// Nothing is picked, and this row could go by itself.
    Empty(usize),
}

/// Where a setting stands, or what it was for.
#[derive(Clone, Copy, Debug, PartialEq, Eq)]
pub(crate) enum Chosen {
    /// In the record of a settings list.
    Record(usize),
    /// It was to be appended.
    New,
    /// A filter was to be built with it.
    Filter,
}

/// What is wrong with a setting.
#[derive(Clone, Copy, Debug, PartialEq, Eq)]
pub(crate) enum Setting {
    /// Its record ends before its last byte.
    Cut { bytes: usize, whole: usize },
    /// The first version is 0.
    NoVersion,
    /// Its version isn't above the one that it follows.
    NotAbove { version: u64, after: u64 },
    /// The last version that there is was given.
    Used(u64),
    /// Its bits per entry aren't among those that are allowed.
    Bits { bits: u64, most: u64 },
    /// Its probes aren't.
    Probes { probes: u64, least: u64, most: u64 },
    /// Its read-only byte is neither 0 nor 1.
    ReadOnly(u8),
    /// A byte behind that one isn't 0.
    BehindReadOnly,
}

impl fmt::Display for Cause {
    fn fmt(&self, f: &mut fmt::Formatter<'_>) -> fmt::Result {
        match self.rule {
            Rule::Items { list, count, most } => {
                let (count, most) = (grouped(count), grouped(most));
                let by = match self.place {
                    Some((place, _)) => format!(", by the count at place {}", shown(place)),
                    None => String::new(),
                };
                write!(f, "{}{by}; at most {most}", list.with(&count))
            }
            Rule::MessageBytes { bytes: None, most } => {
                write!(f, "the message has more than {} bytes", grouped(most))
            }
            Rule::MessageBytes {
                bytes: Some(bytes),
                most,
            } => {
                let (bytes, most) = (grouped(bytes), grouped(most));
                write!(f, "the message takes {bytes} bytes; at most {most}")
            }
            Rule::Rows { table, most } => {
                write!(f, "the {table} has more than {} rows", grouped(most))
            }
            Rule::Filter { place, rule } => {
                let at = place.map_or(String::new(), |place| format!(" at place {}", shown(place)));
                write!(f, "the filter{at} {rule}")
            }
            Rule::FieldSize { bytes, asked } => {
                let (bytes, asked) = (grouped(bytes), grouped(asked));
                let has = format!("the filter has a field of length {bytes}");
                write!(f, "{has}; its entries and bits ask for {asked}")
            }
            Rule::Row { table, row, rule } => write!(f, "row {} of the {table} {rule}", shown(row)),
            Rule::Dropped { row, rule } => write!(f, "row {} {rule}", shown(row)),
            Rule::TooWide { row, count, most } => {
                let (row, count, most) = (shown(row), grouped(count), grouped(most));
                write!(
                    f,
                    "row {row} has {count} dependencies; a row of before has room for {most}"
                )
            }
            Rule::SentOrder(k) => {
                let above = "isn't above the one before it; sent hashes ascend";
                write!(f, "the sent hash at index {} {above}", shown(k))
            }
            Rule::Made { items, most } => {
                write!(f, "the {items} would be more than {}", grouped(most))
            }
            Rule::Setting { of, rule } => write!(f, "{of} {rule}"),
            Rule::Captured(rule) => write!(f, "the filter {rule}"),
            Rule::Total(counted) => write!(f, "the total of {counted} would pass 64 bits"),
            Rule::Pick(rule) => rule.fmt(f),
        }
    }
}

fn shown(n: usize) -> String {
    grouped(n as u64)
}

impl List {
    /// In words, who has this count of what.
    fn with(self, count: &str) -> String {
        match self {
            List::Heads => format!("the message has {count} heads"),
            List::Need => format!("the message needs {count} hashes"),
            List::Haves => format!("the message has {count} haves"),
            List::LastSync(k) => format!("the have at index {k} has {count} last-sync hashes"),
            List::Chunks => format!("the message has {count} chunks"),
            List::SharedHeads => format!("the saved state has {count} shared heads"),
            List::Entries => format!("the filter has {count} entries"),
            List::OfSession(items) => format!("the session has {count} {items}"),
            List::Passed(items) => format!("{count} {items} are passed"),
        }
    }
}

impl fmt::Display for Numbers {
    fn fmt(&self, f: &mut fmt::Formatter<'_>) -> fmt::Result {
        match *self {
            Numbers::NoBits => write!(f, "has entries and 0 bits per entry"),
            Numbers::Probes { probes, most } => {
                let (probes, most) = (grouped(probes), grouped(most));
                write!(f, "has {probes} probes; at most {most}")
            }
            Numbers::Field { bytes, most } => {
                let (bytes, most) = (grouped(bytes), grouped(most));
                write!(f, "has a field of {bytes} bytes; at most {most}")
            }
        }
    }
}

impl fmt::Display for Rows {
    fn fmt(&self, f: &mut fmt::Formatter<'_>) -> fmt::Result {
        f.write_str(match self {
            Rows::Change => "change table",
            Rows::Waiting => "waiting table",
            Rows::Sender => "sender's table",
            Rows::Listener => "listener's table",
        })
    }
}

impl fmt::Display for InFilter {
    fn fmt(&self, f: &mut fmt::Formatter<'_>) -> fmt::Result {
        match *self {
            InFilter::Cut(place) => {
                let place = shown(place);
                write!(f, "ends inside the item that starts at its place {place}")
            }
            InFilter::Number(place) => {
                let place = shown(place);
                let form = "isn't in its shortest form or is too large";
                write!(f, "has a number at its place {place} that {form}")
            }
            InFilter::Numbers(rule) => rule.fmt(f),
        }
    }
}

impl fmt::Display for Row {
    fn fmt(&self, f: &mut fmt::Formatter<'_>) -> fmt::Result {
        match *self {
            Row::Cut { bytes, whole } => {
                let (bytes, whole) = (shown(bytes), shown(whole));
                write!(f, "is cut: it has {bytes} of {whole} bytes")
            }
            Row::Count { count, most } => {
                let (count, most) = (grouped(count), grouped(most));
                write!(f, "counts {count} dependencies; at most {most}")
            }
            Row::NotBefore(number) => {
                let number = grouped(number);
                write!(f, "depends on row {number}, which doesn't stand before it")
            }
            Row::NotAscending { number, after } => {
                let (number, after) = (grouped(number), grouped(after));
                write!(
                    f,
                    "names row {number} after row {after}; row numbers ascend"
                )
            }
            Row::UnusedNumber(number) => {
                let number = grouped(number);
                write!(
                    f,
                    "has {number} as a row number that isn't in use; those are 0"
                )
            }
            Row::BehindCount => write!(f, "has a byte behind its count that isn't 0"),
            Row::UnusedHash(k) => {
                write!(
                    f,
                    "has a hash at index {k} that isn't in use; those are zero"
                )
            }
            Row::Twice(row) => write!(f, "has the hash of row {}", shown(row)),
            Row::Held(row) => write!(f, "has the hash of row {} of the change table", shown(row)),
            Row::Lost(row) => write!(f, "depends on row {}, which is dropped", shown(row)),
        }
    }
}

impl fmt::Display for Pick {
    fn fmt(&self, f: &mut fmt::Formatter<'_>) -> fmt::Result {
        let at = |place: usize| format!("the picked hash at index {}", shown(place));
        match *self {
            Pick::Unknown(place) => write!(f, "{} is no row of the table", at(place)),
            Pick::Unlisted { place, row } => {
                write!(
                    f,
                    "{} is row {}, which isn't in the list",
                    at(place),
                    shown(row)
                )
            }
            Pick::Order { place, row, after } => {
                let (at, row, after) = (at(place), shown(row), shown(after));
                write!(
                    f,
                    "{at} is row {row}, behind row {after}; picked rows ascend"
                )
            }
            Pick::Without { place, on } => {
                let on = shown(on);
                let at = at(place);
                write!(
                    f,
                    "{at} depends on row {on}, which is in the list and isn't picked"
                )
            }
            Pick::Sizes { sizes, rows } => {
                let (sizes, rows) = (shown(sizes), shown(rows));
                write!(
                    f,
                    "{sizes} sizes are passed for {rows} rows; there is one a row"
                )
            }
            Pick::Sum { sum, budget } => {
                // A sum past 64 bits is past every budget.
                let sum = u64::try_from(sum).map_or("more than 64 bits".to_string(), grouped);
                let budget = grouped(budget);
                write!(
                    f,
                    "the sizes of the picked rows sum to {sum}; the budget is {budget}"
                )
            }
            Pick::Empty(row) => {
                let row = shown(row);
                write!(
                    f,
                    "nothing is picked, and row {row} of the list fits by itself"
                )
            }
        }
    }
}

impl fmt::Display for Chosen {
    fn fmt(&self, f: &mut fmt::Formatter<'_>) -> fmt::Result {
        match *self {
            Chosen::Record(record) => write!(f, "record {} of the settings list", shown(record)),
            Chosen::New => f.write_str("the new setting"),
            Chosen::Filter => f.write_str("the filter that is to be built"),
        }
    }
}

impl fmt::Display for Setting {
    fn fmt(&self, f: &mut fmt::Formatter<'_>) -> fmt::Result {
        match *self {
            Setting::Cut { bytes, whole } => {
                let (bytes, whole) = (shown(bytes), shown(whole));
                write!(f, "is cut: it has {bytes} of {whole} bytes")
            }
            Setting::NoVersion => write!(f, "has version 0; versions begin with 1"),
            Setting::NotAbove { version, after } => {
                let (version, after) = (grouped(version), grouped(after));
                write!(
                    f,
                    "has version {version} after version {after}; versions ascend"
                )
            }
            Setting::Used(last) => {
                let last = grouped(last);
                write!(f, "has no version left: the last, {last}, is given")
            }
            Setting::Bits { bits, most } => {
                let (bits, most) = (grouped(bits), grouped(most));
                write!(f, "has {bits} bits per entry; 1 to {most} are allowed")
            }
            Setting::Probes {
                probes,
                least,
                most,
            } => {
                let [probes, least, most] = [probes, least, most].map(grouped);
                write!(f, "has {probes} probes; {least} to {most} are allowed")
            }
            Setting::ReadOnly(byte) => {
                write!(f, "has {byte} as its read-only byte; that is 0 or 1")
            }
            Setting::BehindReadOnly => {
                write!(f, "has a byte behind its read-only byte that isn't 0")
            }
        }
    }
}
