//! Settings lists checked and asked, and a plan by a long one. The crate has no settings:
//! beside the library stands what plain Rust does over the same bytes, and beside the plan
//! the crate's own after that.

use crate::measure::{line, line_of, Line, AT_A_TIME};
use crate::session::{Desk, Indexed};
use bisquetower::raw;
use compare::inputs::settings::settings_bytes;
use compare::inputs::table::{table_bytes, Likeness, Shape};
use compare::inputs::Random;
use compare::model::plan::OF_THE_CRATE;
use compare::model::settings::{Choice, Setting, RECORD};
use compare::model::state::WORDS;
use compare::tables::document;
use crate_under_test::facade::{Automerge, State, SyncDoc};
use std::hint::black_box;

/// Records of a list, and stations that take turns in it.
const RECORDS: u64 = 100_000;
const STATIONS: u64 = 1_000;

const RECORDS_SIZE: &str = "100,000 recs";

/// Rows of the table that a plan is over.
const ROWS: usize = 1_024;
const ROWS_SIZE: &str = "1,024 rows";

/// The station that is asked for: its one record stands at the middle of the list.
const ASKED: u64 = STATIONS;

pub fn measure_all() {
    let list = list();
    check(&list);
    ask(&list);
    let unit = Unit::new();
    unit.plan_settled(&list);
    unit.plan_and_ask(&list);
}

/// Every record has the crate's numbers, so that a plan is the crate's too.
fn list() -> Vec<u8> {
    let records = (1..=RECORDS).map(|version| Setting {
        version,
        station: match version == RECORDS / 2 {
            true => ASKED,
            false => version % STATIONS,
        },
        choice: Choice {
            bits: OF_THE_CRATE.bits,
            probes: OF_THE_CRATE.probes,
            read_only: 0,
        },
    });
    settings_bytes(&records.collect::<Vec<_>>())
}

fn number(record: &[u8], k: usize) -> u32 {
    let four = record[4 * k..4 * k + 4].try_into();
    u32::from_le_bytes(four.expect("four bytes"))
}

/// How many records a list has, in plain Rust; none if one is bad.
fn plain_check(list: &[u8]) -> Option<u64> {
    let mut version = 0;
    let records = list.chunks_exact(RECORD);
    let good = records.remainder().is_empty();
    let mut count = 0;
    for record in records {
        let (bits, probes) = (number(record, 2), number(record, 3));
        let allowed = (1..=32).contains(&bits) && (1..=64).contains(&probes) && record[16] <= 1;
        let zeros = record[17..] == [0; RECORD - 17];
        if number(record, 0) <= version || !allowed || !zeros {
            return None;
        }
        version = number(record, 0);
        count += 1;
    }
    good.then_some(count)
}

/// Bits and probes of a station's last record, in plain Rust.
fn plain_ask(list: &[u8], station: u32) -> Option<[u64; 2]> {
    plain_check(list)?;
    let mut records = list.chunks_exact(RECORD).rev();
    let last = records.find(|record| number(record, 1) == station)?;
    Some([number(last, 2).into(), number(last, 3).into()])
}

fn check(list: &[u8]) {
    let what = Line {
        name: "check settings",
        size: RECORDS_SIZE,
        calls: 1,
        note: "crate: plain Rust over the same bytes, for it has no settings",
    };
    let library = || raw::check_settings(black_box(list))[1];
    let plain = || plain_check(black_box(list)).expect("a good list");
    line(what, library, plain);
}

fn ask(list: &[u8]) {
    let what = Line {
        name: "setting at",
        size: RECORDS_SIZE,
        calls: 1,
        note: "both check the list; crate: plain Rust from the end, for it has no settings",
    };
    let library = || {
        let answer = raw::setting_at(black_box(list), ASKED, RECORDS);
        answer[1] + answer[2]
    };
    let plain = || {
        let asked = plain_ask(black_box(list), ASKED as u32);
        asked.expect("a record of the station").iter().sum()
    };
    line(what, library, plain);
}

/// A unit that says its first message.
struct Unit {
    document: Automerge,
    lent: Indexed,
}

impl Unit {
    fn new() -> Unit {
        let mut random = Random(3);
        let hashes = random.hashes(ROWS, Likeness::Spread);
        let table = table_bytes(&random.rows_of(&hashes, Shape::Diamonds));
        let document = document(&table, &[]);
        let lent = Indexed::of(&document);
        Unit { document, lent }
    }

    /// The list's setting looked up in plain Rust, and the crate's first message.
    fn published(&self, list: &[u8], state: &mut State) -> u64 {
        let asked = plain_ask(black_box(list), ASKED as u32);
        black_box(asked).expect("a record of the station");
        let message = self.document.generate_sync_message(state);
        let message = black_box(message).expect("a first message");
        (message.heads.len() + message.have.len()) as u64
    }

    fn measure(&self, name: &str, list: &[u8], note: &str, library: impl FnMut() -> u64) {
        let what = Line {
            name,
            size: ROWS_SIZE,
            calls: 1,
            note,
        };
        let published = |state: &mut State| self.published(list, state);
        line_of(what, library, AT_A_TIME, State::new, published);
    }

    /// A run's number is how many heads and haves are said.
    fn plan_settled(&self, list: &[u8]) {
        let mut desk = Desk::fresh();
        let library = || {
            desk.words = [0; WORDS];
            let lent = black_box(&self.lent);
            let answer = desk.plan_settled(black_box(list), ASKED, RECORDS, lent);
            black_box(&desk.said);
            answer[5] + answer[7]
        };
        let note = "100,000 records; crate: plain Rust asks, then its own plan";
        self.measure("plan settled", list, note, library);
    }

    /// The same by two calls.
    fn plan_and_ask(&self, list: &[u8]) {
        let mut desk = Desk::fresh();
        let library = || {
            desk.words = [0; WORDS];
            let choice = raw::setting_at(black_box(list), ASKED, RECORDS);
            let [_, bits, probes, _] = choice;
            let answer = desk.plan_with(bits, probes, black_box(&self.lent));
            black_box(&desk.said);
            answer[5] + answer[7]
        };
        let note = "library: setting at, then plan with what it answers; crate: as above";
        self.measure("setting at, plan", list, note, library);
    }
}
