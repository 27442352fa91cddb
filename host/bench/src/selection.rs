//! Hashes to send, for one have and for sixteen. The crate's own function can only be
//! reached through a first message, and the library tests its table and index in each
//! call; both are measured apart, as the rest.

use crate::measure::{line, Line, MOST_ROWS, SIZES};
use crate::pool::Pool;
use bisquetower::limits::TO_SEND_SIZE;
use bisquetower::raw;
use compare::inputs::index::index_of;
use compare::inputs::selection::lend;
use compare::inputs::table::{table_bytes, Likeness, Shape};
use compare::inputs::Random;
use compare::model::have::{OwnHave, HAVE_WORDS};
use compare::model::table::{Hash, HASH};
use compare::published;
use compare::tables::document;
use crate_under_test::facade::{hashes_to_send, Automerge, ChangeHash, Have};
use std::hint::black_box;

const NAMES: [(usize, &str, &str); 2] = [
    (1, "send, 1 have", "send, 1 have: rest"),
    (16, "send, 16 haves", "send, 16 haves: rest"),
];

pub fn measure_all() {
    for (haves, name, rest) in NAMES {
        let pool = |rows| Pool::of(rows, MOST_ROWS, |random| Choice::new(rows, haves, random));
        let pools = SIZES.map(|(size, rows)| (size, pool(rows)));
        for (size, pool) in &pools {
            whole_of(pool, name, size);
        }
        for (size, pool) in &pools {
            rest_of(pool, rest, size);
        }
    }
}

/// Rows on up to three of the eight before them; peers that have the first three
/// quarters together, each a part of them in a filter, and the first row as their
/// last sync. The need is one row of those.
struct Choice {
    table: Vec<u8>,
    index: Vec<u8>,
    s: Vec<u8>,
    haves: Vec<u64>,
    need: Hash,
    document: Automerge,
    published: Vec<Have>,
    chosen: Vec<ChangeHash>,
}

impl Choice {
    fn new(rows: usize, count: usize, mut random: Random) -> Choice {
        let hashes = random.hashes(rows, Likeness::Spread);
        let table = table_bytes(&random.rows_of(&hashes, Shape::Recent));
        let held = &hashes[..rows * 3 / 4];
        let part = |k: usize| held.iter().skip(k).step_by(count).copied();
        let haves: Vec<OwnHave> = (0..count)
            .map(|k| OwnHave::over(vec![hashes[0]], 10, 7, &part(k).collect::<Vec<Hash>>()))
            .collect();
        let (s, haves) = lend(&haves, &mut random);
        let document = document(&table, &[]);
        let published = published::haves(&s, &haves);
        let mut records: Vec<&[u64]> = haves.chunks(HAVE_WORDS).collect();
        random.shuffle(&mut records);
        let need = hashes[rows / 2];
        let chosen = hashes_to_send(&document, &published, &[ChangeHash(need)]);
        let choice = Choice {
            index: index_of(&table),
            table,
            s,
            haves: records.concat(),
            need,
            document,
            published,
            chosen,
        };
        choice.compare();
        choice
    }

    /// Both sides choose the same, and neither everything nor nothing.
    fn compare(&self) {
        let mut out = vec![0; TO_SEND_SIZE];
        let chosen: Vec<u8> = self.chosen.iter().flat_map(|hash| hash.0).collect();
        let written = self.library(&mut out) as usize;
        assert_eq!(out[..written], chosen);
        let rows = self.document.rows().len();
        assert!((rows / 8..rows).contains(&self.chosen.len()));
    }

    fn library(&self, out: &mut [u8]) -> u64 {
        let (table, index) = (black_box(&self.table), black_box(&self.index));
        let (s, haves) = (black_box(&self.s), black_box(&self.haves));
        let [first, written, ..] = raw::hashes_to_send(table, index, s, haves, &self.need, out);
        assert_eq!(first, 0);
        written
    }
}

/// A run's number is how many bytes the hashes have.
fn whole_of(pool: &Pool<Choice>, name: &str, size: &str) {
    let mut out = vec![0; TO_SEND_SIZE];
    let mut next = pool.turn();
    let library = || {
        let written = next().library(&mut out);
        black_box(&out);
        written
    };
    let mut next = pool.turn();
    let published = || {
        let choice = next();
        let need = [ChangeHash(choice.need)];
        let chosen = hashes_to_send(&choice.document, black_box(&choice.published), &need);
        (HASH * black_box(chosen).len()) as u64
    };
    let note = "library: tests table, index and haves too; crate: a whole first message";
    measure(pool, name, size, note, library, published);
}

/// What is no choosing: the library's call without haves and needs, which tests
/// the table and the index, and the crate's message for a peer who has said nothing
/// but that it needs all that was chosen.
fn rest_of(pool: &Pool<Choice>, name: &str, size: &str) {
    let mut out = [];
    let mut next = pool.turn();
    let library = || {
        let choice = next();
        let (table, index) = (black_box(&choice.table), black_box(&choice.index));
        raw::hashes_to_send(table, index, &[], &[], &[], &mut out)[0]
    };
    let mut next = pool.turn();
    let published = || {
        let choice = next();
        let sent = hashes_to_send(&choice.document, &[], black_box(&choice.chosen));
        u64::from(black_box(sent).is_empty())
    };
    let note = "library: no haves, no needs; crate: the message with the same hashes, all needed";
    measure(pool, name, size, note, library, published);
}

fn measure<T>(
    pool: &Pool<T>,
    name: &str,
    size: &str,
    note: &str,
    library: impl FnMut() -> u64,
    published: impl FnMut() -> u64,
) {
    let what = Line {
        name,
        size,
        calls: 1,
        note: &pool.note(note),
    };
    line(what, library, published);
}
