//! The calls on tables: the library against the model in every word and byte,
//! and, where the tables are good, against the stand-in document of the crate
//! under test, which keeps rows and waiting changes in its own way. The crate's
//! own graph can't be had.

use crate::guarded::{Fill, Guarded, FILLS};
use crate::inputs::index::{index_bytes, Beside};
use crate::inputs::shown;
use crate::model::table::{self, Hash, HASH, ROW, WAITING_ROW};
use crate::model::{self, Refused};
use crate::same_answer;
use bisquetower::raw::{self, Batch};
use crate_under_test::facade::{Automerge, Change, ChangeHash};

/// A call on lent tables and lists.
#[derive(Clone, Copy)]
pub enum Call<'a> {
    CheckTable {
        table: &'a [u8],
    },
    CheckTables {
        table: &'a [u8],
        index: Beside<'a>,
        waiting: &'a [u8],
    },
    Heads {
        table: &'a [u8],
        index: Beside<'a>,
        before: usize,
    },
    Beyond {
        table: &'a [u8],
        index: Beside<'a>,
        hashes: &'a [u8],
    },
    Missing {
        table: &'a [u8],
        index: Beside<'a>,
        waiting: &'a [u8],
        hashes: &'a [u8],
    },
    BuildIndex {
        table: &'a [u8],
    },
    /// Its own is the index of the rows but the last.
    ExtendIndex {
        table: &'a [u8],
        index: Beside<'a>,
    },
    /// Rows of before.
    WidenRows {
        table: &'a [u8],
    },
    NarrowRows {
        table: &'a [u8],
    },
}

impl<'a> Call<'a> {
    /// The four calls that look up by an index what the table has.
    pub fn looking_up(
        table: &'a [u8],
        index: Beside<'a>,
        before: usize,
        waiting: &'a [u8],
        hashes: &'a [u8],
    ) -> [Call<'a>; 4] {
        [
            Call::CheckTables {
                table,
                index,
                waiting,
            },
            Call::Heads {
                table,
                index,
                before,
            },
            Call::Beyond {
                table,
                index,
                hashes,
            },
            Call::Missing {
                table,
                index,
                waiting,
                hashes,
            },
        ]
    }
}

/// What a call that isn't refused finds.
#[derive(Clone, Debug, PartialEq, Eq)]
enum Found {
    Rows(usize),
    Hashes(Vec<Hash>),
    /// An index, or rows.
    Bytes(Vec<u8>),
}

impl Found {
    /// What is written of it; none if it is a number.
    fn written(&self) -> Option<Vec<u8>> {
        match self {
            Found::Rows(_) => None,
            Found::Hashes(hashes) => Some(hashes.concat()),
            Found::Bytes(bytes) => Some(bytes.clone()),
        }
    }
}

/// The calls by name.
pub const NAMES: [&str; 9] = [
    "check_table",
    "check_tables",
    "heads",
    "beyond",
    "missing",
    "build_index",
    "extend_index",
    "widen_rows",
    "narrow_rows",
];

/// The first words that an answer may have: 0, or a refusal's number.
pub const ANSWERS: usize = 18;

impl<'a> Call<'a> {
    /// The call's place in `NAMES`.
    pub fn kind(&self) -> usize {
        match self {
            Call::CheckTable { .. } => 0,
            Call::CheckTables { .. } => 1,
            Call::Heads { .. } => 2,
            Call::Beyond { .. } => 3,
            Call::Missing { .. } => 4,
            Call::BuildIndex { .. } => 5,
            Call::ExtendIndex { .. } => 6,
            Call::WidenRows { .. } => 7,
            Call::NarrowRows { .. } => 8,
        }
    }

    /// Whether it writes hashes, an index or rows.
    fn writes(&self) -> bool {
        self.kind() >= 2
    }

    /// This call with another index, if it has one.
    pub fn beside(mut self, other: &'a [u8]) -> Call<'a> {
        match &mut self {
            Call::CheckTable { .. }
            | Call::BuildIndex { .. }
            | Call::WidenRows { .. }
            | Call::NarrowRows { .. } => {}
            Call::CheckTables { index, .. }
            | Call::Heads { index, .. }
            | Call::Beyond { index, .. }
            | Call::Missing { index, .. }
            | Call::ExtendIndex { index, .. } => *index = Beside::Other(other),
        }
        self
    }

    /// The index that is lent.
    fn index(&self) -> Vec<u8> {
        match *self {
            Call::CheckTable { .. }
            | Call::BuildIndex { .. }
            | Call::WidenRows { .. }
            | Call::NarrowRows { .. } => Vec::new(),
            Call::CheckTables { table, index, .. }
            | Call::Heads { table, index, .. }
            | Call::Beyond { table, index, .. }
            | Call::Missing { table, index, .. } => index.of(table),
            Call::ExtendIndex { table, index } => index.of(but_the_last(table)),
        }
    }

    fn library<'m>(
        &self,
        index: &[u8],
        batch: &mut Batch<'m>,
        out: &'m mut [u8],
        answer: &'m mut [u64; 4],
    ) {
        match *self {
            Call::CheckTable { table } => batch.check_table(table, answer),
            Call::CheckTables { table, waiting, .. } => {
                batch.check_tables(table, index, waiting, answer)
            }
            Call::Heads { table, before, .. } => batch.heads(table, index, before, out, answer),
            Call::Beyond { table, hashes, .. } => batch.beyond(table, index, hashes, out, answer),
            Call::Missing {
                table,
                waiting,
                hashes,
                ..
            } => batch.missing(table, index, waiting, hashes, out, answer),
            Call::BuildIndex { table } => batch.build_index(table, out, answer),
            Call::ExtendIndex { table, .. } => batch.extend_index(table, index, out, answer),
            Call::WidenRows { table } => batch.widen_rows(table, out, answer),
            Call::NarrowRows { table } => batch.narrow_rows(table, out, answer),
        }
    }

    fn model(&self, index: &[u8]) -> Result<Found, Refused> {
        match *self {
            Call::CheckTable { table } => table::check_table(table).map(Found::Rows),
            Call::CheckTables { table, waiting, .. } => {
                table::check_tables(table, index, waiting).map(Found::Rows)
            }
            Call::Heads { table, before, .. } => {
                table::heads(table, index, before).map(Found::Hashes)
            }
            Call::Beyond { table, hashes, .. } => {
                table::beyond(table, index, hashes).map(Found::Hashes)
            }
            Call::Missing {
                table,
                waiting,
                hashes,
                ..
            } => table::missing(table, index, waiting, hashes).map(Found::Hashes),
            Call::BuildIndex { table } => table::build_index(table).map(Found::Bytes),
            Call::ExtendIndex { table, .. } => table::extend_index(table, index).map(Found::Bytes),
            Call::WidenRows { table } => {
                table::converted(table::OLD, table::NOW, table).map(Found::Bytes)
            }
            Call::NarrowRows { table } => {
                table::converted(table::NOW, table::OLD, table).map(Found::Bytes)
            }
        }
    }

    /// What the stand-in document finds, which has no index; nothing of rows that are only
    /// written otherwise. The tables and lists must be good.
    fn stand_in(&self) -> Option<Found> {
        let found = |hashes: Vec<ChangeHash>| Found::Hashes(hashes.iter().map(|h| h.0).collect());
        Some(match *self {
            Call::WidenRows { .. } | Call::NarrowRows { .. } => return None,
            Call::CheckTable { table } => Found::Rows(document(table, &[]).rows().len()),
            Call::CheckTables { table, waiting, .. } => {
                Found::Rows(document(table, waiting).waiting().len())
            }
            Call::Heads { table, before, .. } => {
                found(document(&table[..ROW * before], &[]).get_heads())
            }
            Call::Beyond { table, hashes, .. } => {
                found(document(table, &[]).rows_beyond(&change_hashes(hashes)))
            }
            Call::Missing {
                table,
                waiting,
                hashes,
                ..
            } => {
                let asked = change_hashes(hashes).into_iter();
                found(document(table, waiting).missing_deps_from(asked))
            }
            Call::BuildIndex { table } | Call::ExtendIndex { table, .. } => {
                let document = document(table, &[]);
                let mut rows: Vec<usize> = (0..document.rows().len()).collect();
                rows.sort_by_key(|&row| document.rows()[row].hash());
                Found::Bytes(index_bytes(&rows))
            }
        })
    }

    fn shown(&self) -> String {
        let name = NAMES[self.kind()];
        let (table, rest) = match *self {
            Call::CheckTable { table }
            | Call::BuildIndex { table }
            | Call::WidenRows { table }
            | Call::NarrowRows { table }
            | Call::ExtendIndex { table, .. } => (table, String::new()),
            Call::CheckTables { table, waiting, .. } => {
                (table, format!(", {} waiting bytes", waiting.len()))
            }
            Call::Heads { table, before, .. } => (table, format!(", before {before}")),
            Call::Beyond { table, hashes, .. } => (table, format!(", a list of {}", hashes.len())),
            Call::Missing {
                table,
                waiting,
                hashes,
                ..
            } => {
                let (waiting, hashes) = (waiting.len(), hashes.len());
                (
                    table,
                    format!(", {waiting} waiting bytes, a list of {hashes}"),
                )
            }
        };
        let index = shown(&self.index());
        format!(
            "{name} of a table of {} bytes{rest}, index {index}",
            table.len()
        )
    }
}

/// The rows of a table but the last.
pub fn but_the_last(table: &[u8]) -> &[u8] {
    &table[..table.len().saturating_sub(ROW)]
}

fn change_hashes(bytes: &[u8]) -> Vec<ChangeHash> {
    let hashes = bytes.chunks_exact(HASH);
    hashes
        .map(|hash| ChangeHash(hash.try_into().expect("a hash's bytes")))
        .collect()
}

/// The document that good tables tell of.
pub fn document(table: &[u8], waiting: &[u8]) -> Automerge {
    let hash_of = |row: usize| change_hashes(&table[ROW * row..][..HASH])[0];
    let number = |record: &[u8], place: usize| {
        usize::from(u16::from_le_bytes([record[place], record[place + 1]]))
    };
    let rows = table.chunks_exact(ROW).enumerate().map(|(row, record)| {
        let places = (0..number(record, HASH)).map(|k| HASH + 2 + 2 * k);
        let dependencies = places.map(|place| hash_of(number(record, place)));
        Change::new(hash_of(row), dependencies.collect(), &[])
    });
    let waiting = waiting.chunks_exact(WAITING_ROW).map(|record| {
        let hashes = change_hashes(record);
        let used = usize::from(record[HASH]);
        Change::new(hashes[0], hashes[2..2 + used].to_vec(), &[])
    });
    Automerge::from_rows(rows.collect(), waiting.collect()).expect("the tables are good")
}

/// Which buffers a call gets: their sizes, in bytes.
#[derive(Clone, Copy)]
pub enum Rooms {
    /// Every one from none to three bytes too many.
    Every,
    /// Some, around what is wanted and around a hash.
    Around,
    One(usize),
    /// What is wanted, and as much again as a hash.
    Enough,
}

impl Rooms {
    pub(crate) fn sizes(self, wanted: usize) -> Vec<usize> {
        match self {
            Rooms::Every => (0..=wanted + 3).collect(),
            Rooms::Around => {
                let below = [33, 32, 31, 1].map(|less| wanted.saturating_sub(less));
                let above = [1, 3, 31, 32].map(|more| wanted + more);
                let mut all = [&[0, 1, 31, 32, wanted][..], &below, &above].concat();
                all.sort();
                all.dedup();
                all
            }
            Rooms::One(room) => vec![room],
            Rooms::Enough => vec![wanted + HASH],
        }
    }
}

/// How often each call gave each answer. A test asks this, so that none passes
/// by having tried too little.
#[derive(Clone, Copy, Debug, Default)]
pub struct Tally {
    /// By call, then by the answer's first word.
    answers: [[u64; ANSWERS]; NAMES.len()],
}

impl Tally {
    pub fn of(&self, kind: usize, first_word: usize) -> u64 {
        self.answers[kind][first_word]
    }

    pub fn add(&mut self, other: &Tally) {
        let mine = self.answers.iter_mut().flatten();
        for (mine, theirs) in mine.zip(other.answers.iter().flatten()) {
            *mine += theirs;
        }
    }
}

/// A call with one buffer.
struct Asked<'a> {
    call: Call<'a>,
    index: Vec<u8>,
    expected: [u64; 4],
    answer: [u64; 4],
    out: Guarded<u8>,
}

impl<'a> Asked<'a> {
    fn new(call: Call<'a>, found: &Result<Found, Refused>, room: usize, fill: Fill) -> Self {
        let mut out = Guarded::new(room, fill);
        let expected = match found {
            Ok(Found::Rows(rows)) => [0, *rows as u64, 0, 0],
            Ok(found) => model::write(out.expected(), Ok(found.written().unwrap_or_default())),
            Err(refused) => model::write(out.expected(), Err(*refused)),
        };
        Asked {
            call,
            index: call.index(),
            expected,
            answer: [raw::UNWRITTEN; 4],
            out,
        }
    }

    fn ask<'m>(&'m mut self, batch: &mut Batch<'m>) {
        let (out, answer) = (self.out.lent(), &mut self.answer);
        self.call.library(&self.index, batch, out, answer);
    }

    fn agrees(&self) -> Result<(), String> {
        let told = |why| {
            format!(
                "{} into {} bytes: {why}",
                self.call.shown(),
                self.out.room()
            )
        };
        same_answer(self.answer, self.expected).map_err(told)?;
        self.out.agrees().map_err(told)
    }
}

/// Makes each call with each of its buffers, and compares answer and memory with
/// the model's; what the model finds is the stand-in's too. The first that
/// disagrees is the error.
pub fn compare(calls: &[(Call, Rooms)]) -> Result<Tally, String> {
    let mut asked = Vec::new();
    for &(call, rooms) in calls {
        let found = call.model(&call.index());
        if let Ok(found) = &found {
            if call.stand_in().is_some_and(|other| *found != other) {
                let shown = call.shown();
                return Err(format!("{shown}: the model's answer isn't the stand-in's"));
            }
        }
        if !call.writes() {
            asked.push(Asked::new(call, &found, 0, Fill::One));
            continue;
        }
        // A refused call gets some buffers too, long enough for its hashes.
        let written = found.as_ref().ok().and_then(Found::written);
        let wanted = written.map_or(2 * HASH, |bytes| bytes.len());
        for room in rooms.sizes(wanted) {
            asked.extend(FILLS.map(|fill| Asked::new(call, &found, room, fill)));
        }
    }
    let mut batch = Batch::new();
    for one in &mut asked {
        one.ask(&mut batch);
    }
    batch.run();
    let mut tally = Tally::default();
    for one in &asked {
        one.agrees()?;
        tally.answers[one.call.kind()][one.answer[0] as usize] += 1;
    }
    Ok(tally)
}

/// The library's answer to one call, and the bytes that it wrote.
pub fn ask(call: Call, room: usize) -> ([u64; 4], Vec<u8>) {
    let mut out = vec![0; room];
    let mut answer = [raw::UNWRITTEN; 4];
    let mut batch = Batch::new();
    call.library(&call.index(), &mut batch, &mut out, &mut answer);
    batch.run();
    let written = if answer[0] == 0 && call.writes() {
        answer[1] as usize
    } else {
        0
    };
    out.truncate(written);
    (answer, out)
}
