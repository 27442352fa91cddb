//! The call that salvages a hurt table (document 02, M-109): the library against the model in
//! every word, and in all that was lent. The crate has nothing like it, so what 02 says of
//! every table is looked at beside it by other calls: what is kept is a good table of which
//! nothing more is dropped, and all of a table is kept exactly if it is good.

use crate::guarded::{Fill, Guarded, FILLS};
use crate::inputs::shown;
use crate::inputs::table::Row;
use crate::model::salvage::{salvage, salvaged};
use crate::model::table::{HASH, ROW};
use crate::same_answer;
use crate::talks::document_of;
use crate::units::table_of;
use crate::walk::Apart;
use bisquetower::raw::{self, Batch};

/// The rules that a dropped row may have broken, from 1.
pub const RULES: usize = 5;

/// Bytes for the rows, and words for the report.
pub type Room = (usize, usize);

/// Which buffers a table is salvaged into.
#[derive(Clone, Copy, Debug)]
pub enum Rooms {
    /// Every one of either from none to a few items too many, the other long enough; and some
    /// that are both too short.
    Every,
    /// What is wanted, and more.
    Enough,
    One(Room),
}

impl Rooms {
    fn sizes(self, (bytes, words): Room) -> Vec<Room> {
        match self {
            Rooms::Every => {
                let rows = (0..=bytes + 3).map(|room| (room, words + 2));
                let reports = (0..=words + 3).map(|room| (bytes + 2, room));
                let short = [1, 2, ROW].map(|less| {
                    let short = |room: usize| room.saturating_sub(less);
                    (short(bytes), short(words))
                });
                rows.chain(reports).chain(short).collect()
            }
            Rooms::Enough => vec![(bytes + 9, words + 3)],
            Rooms::One(room) => vec![room],
        }
    }
}

/// What came of salvaged tables. A test asks this, so that none passes by having tried too
/// little.
#[derive(Clone, Copy, Debug, Default, PartialEq, Eq)]
pub struct Tally {
    pub answered: u64,
    /// Refusals 4 and 7.
    pub too_long: u64,
    pub too_short: u64,
    /// Tables of which all was kept, and of which some was.
    pub whole: u64,
    pub hurt: u64,
    /// Rows that were kept, and those dropped by the rule that they broke, from 1.
    pub kept: u64,
    pub dropped: [u64; RULES + 1],
}

impl Tally {
    pub fn add(&mut self, other: &Tally) {
        self.answered += other.answered;
        self.too_long += other.too_long;
        self.too_short += other.too_short;
        self.whole += other.whole;
        self.hurt += other.hurt;
        self.kept += other.kept;
        let both = self.dropped.iter_mut().zip(other.dropped);
        both.for_each(|(mine, theirs)| *mine += theirs);
    }

    fn count(&mut self, first_word: u64) {
        match first_word {
            0 => self.answered += 1,
            4 => self.too_long += 1,
            _ => self.too_short += 1,
        }
    }
}

/// A table with one pair of buffers, and items around them that no call may change.
struct Asked<'a> {
    table: &'a [u8],
    rows: Guarded<u8>,
    report: Guarded<u64>,
    expected: [u64; 4],
    answer: [u64; 4],
}

impl<'a> Asked<'a> {
    fn new(table: &'a [u8], (bytes, words): Room, fill: Fill) -> Self {
        let mut rows = Guarded::new(bytes, fill);
        let mut report = Guarded::new(words, fill);
        let expected = salvage(table, rows.expected(), report.expected());
        Asked {
            table,
            rows,
            report,
            expected,
            answer: [raw::UNWRITTEN; 4],
        }
    }

    fn agrees(&self) -> Result<(), String> {
        same_answer(self.answer, self.expected)?;
        let of = |which: &'static str| move |why| format!("in the {which} {why}");
        self.rows.agrees().map_err(of("rows"))?;
        self.report.agrees().map_err(of("report"))
    }

    fn told(&self, why: String) -> String {
        let (bytes, words) = (self.rows.room(), self.report.room());
        let table = shown(self.table);
        format!("{table} into {bytes} bytes and {words} words: {why}")
    }
}

/// Salvages each table into each of its buffers, and compares answer and memory with the
/// model's; then looks at what is true of every table. The first that disagrees is the error.
pub fn compare(tables: &[(&[u8], Rooms)]) -> Result<Tally, String> {
    let mut asked = Vec::new();
    for &(table, rooms) in tables {
        let wanted = salvaged(table).unwrap_or_default();
        let wanted = (wanted.rows.len(), 2 * wanted.report.len());
        for room in rooms.sizes(wanted) {
            asked.extend(FILLS.map(|fill| Asked::new(table, room, fill)));
        }
    }
    let mut batch = Batch::new();
    for one in &mut asked {
        let (rows, report) = (one.rows.lent(), one.report.lent());
        batch.salvage(one.table, rows, report, &mut one.answer);
    }
    batch.run();
    let mut tally = Tally::default();
    for one in &asked {
        one.agrees().map_err(|why| one.told(why))?;
        tally.count(one.answer[0]);
    }
    let tables: Vec<&[u8]> = tables.iter().map(|&(table, _)| table).collect();
    tally.add(&compare_every(&tables)?);
    Ok(tally)
}

/// A table with room enough, what it gave, and what other calls say of it and of what was
/// kept.
struct Looked<'a> {
    table: &'a [u8],
    kept: Vec<u8>,
    report: Vec<u64>,
    answer: [u64; 4],
    /// The checks of the table and of what was kept, and that salvaged again.
    checks: [[u64; 4]; 2],
    again: ([u64; 4], Vec<u8>),
}

impl<'a> Looked<'a> {
    fn new(table: &'a [u8]) -> Self {
        Looked {
            table,
            kept: vec![0; table.len()],
            report: vec![0; 2 * (table.len() / ROW)],
            answer: [raw::UNWRITTEN; 4],
            checks: [[raw::UNWRITTEN; 4]; 2],
            again: ([raw::UNWRITTEN; 4], Vec::new()),
        }
    }

    fn lend<'m>(&'m mut self, batch: &mut Batch<'m>) {
        let (kept, report) = (&mut self.kept, &mut self.report);
        batch.salvage(self.table, kept, report, &mut self.answer);
    }

    /// Leaves of both buffers what was written.
    fn cut(&mut self) {
        let [bytes, entries] = match self.answer {
            [0, bytes, entries, _] => [bytes, entries].map(|n| n as usize),
            _ => [0; 2],
        };
        self.kept.truncate(bytes);
        self.report.truncate(2 * entries);
    }

    fn lend_again<'m>(&'m mut self, batch: &mut Batch<'m>) {
        let [good, kept_good] = &mut self.checks;
        batch.check_table(self.table, good);
        batch.check_table(&self.kept, kept_good);
        let (answer, rows) = &mut self.again;
        rows.resize(self.kept.len(), 0);
        batch.salvage(&self.kept, rows, &mut [], answer);
    }

    fn is_whole(&self) -> bool {
        self.report.is_empty() && self.answer[3] == 0
    }

    fn agrees(&self) -> Result<(), &'static str> {
        let [good, kept_good] = self.checks.map(|check| check[0] == 0);
        let size = self.kept.len() as u64;
        let rows = self.kept.len() / ROW + self.report.len() / 2;
        let numbers: Vec<u64> = self.report.chunks(2).map(|entry| entry[0]).collect();
        let facts = [
            (kept_good, "what is kept isn't a good table"),
            (
                self.again == ([0, size, 0, 0], self.kept.clone()),
                "something is dropped of what was kept",
            ),
            (
                good == self.is_whole(),
                "a bad table is kept as a whole, or a good one isn't",
            ),
            (
                !good || self.kept == self.table,
                "a good table isn't kept byte for byte",
            ),
            (
                rows == self.table.len() / ROW,
                "a row is neither kept nor dropped, or both",
            ),
            (
                numbers.windows(2).all(|two| two[0] < two[1]),
                "the report doesn't ascend",
            ),
        ];
        facts
            .into_iter()
            .try_for_each(|(holds, why)| if holds { Ok(()) } else { Err(why) })
    }

    fn count(&self) -> Tally {
        let mut dropped = [0; RULES + 1];
        for entry in self.report.chunks(2) {
            dropped[entry[1] as usize] += 1;
        }
        Tally {
            whole: u64::from(self.is_whole()),
            hurt: u64::from(!self.is_whole()),
            kept: (self.kept.len() / ROW) as u64,
            dropped,
            ..Tally::default()
        }
    }
}

/// What is true of every table that isn't too long, by the library's other calls.
fn compare_every(tables: &[&[u8]]) -> Result<Tally, String> {
    let mut looked: Vec<Looked> = tables.iter().map(|table| Looked::new(table)).collect();
    let mut batch = Batch::new();
    looked.iter_mut().for_each(|one| one.lend(&mut batch));
    batch.run();
    looked.iter_mut().for_each(Looked::cut);
    looked.retain(|one| one.answer[0] == 0);
    let mut batch = Batch::new();
    looked.iter_mut().for_each(|one| one.lend_again(&mut batch));
    batch.run();
    let mut tally = Tally::default();
    for one in &looked {
        let told = |why| format!("{}: {why}", shown(one.table));
        one.agrees().map_err(told)?;
        tally.add(&one.count());
    }
    Ok(tally)
}

/// The library's answer to a table, the rows that it wrote and its report's words.
pub fn ask(table: &[u8]) -> ([u64; 4], Vec<u8>, Vec<u64>) {
    let mut one = Looked::new(table);
    let mut batch = Batch::new();
    one.lend(&mut batch);
    batch.run();
    one.cut();
    (one.answer, one.kept, one.report)
}

/// The table of a validator that holds a part of a station's rows.
pub fn table_at(apart: &Apart) -> Vec<u8> {
    table_of(&document_of(&apart.rows, &apart.held))
}

/// A station and a validator that goes on with these kept rows; none if they aren't all the
/// station's, on the same rows there, or none are left: of that nothing is promised.
pub fn apart_of(station: &[Row], kept: &[u8]) -> Option<Apart> {
    let hashes = kept.chunks(ROW).map(|row| &row[..HASH]);
    let row_of = |hash: &[u8]| station.iter().position(|row| row.hash == hash);
    let held: Option<Vec<usize>> = hashes.map(row_of).collect();
    let apart = Apart {
        rows: station.to_vec(),
        held: held.filter(|held| !held.is_empty())?,
    };
    (table_at(&apart) == kept).then_some(apart)
}
