//! Tables tested, indexes, heads, rows beyond a list and what is missing, at sizes of
//! which each is four times the one before. Beside the library stands the
//! stand-in document, for information: the crate's graph can't be had.

use crate::measure::{line, Line, MOST_ROWS, SIZES};
use crate::pool::Pool;
use bisquetower::raw;
use compare::inputs::index::{index_bytes, index_of};
use compare::inputs::table::{table_bytes, waiting_bytes, Likeness, Shape, WaitingRow};
use compare::inputs::Random;
use compare::model::table::{Hash, HASH, WAITING_ROWS};
use compare::tables::{but_the_last, document};
use crate_under_test::facade::{Automerge, ChangeHash};
use std::hint::black_box;

const STAND_IN: &str =
    "library: tests the tables and the index too; crate: the stand-in document, made before; the crate's graph can't be had";

type Measure = fn(&Pool<Tables>, &str);

const LINES: [Measure; 6] = [
    check,
    check_beside,
    build_index,
    extend_index,
    heads,
    beyond,
];

pub fn measure_all() {
    let pools =
        SIZES.map(|(size, rows)| (size, Pool::of(rows, MOST_ROWS, |r| Tables::new(rows, r))));
    for measure in LINES {
        for (size, pool) in &pools {
            measure(pool, size);
        }
    }
    drop(pools);
    for (size, rows) in SIZES {
        let waits = rows.min(WAITING_ROWS);
        let one = |random| Waits::new(rows, waits, random);
        missing(&Pool::of(waits, WAITING_ROWS, one), size);
    }
}

/// Rows on up to three of the eight before them.
struct Tables {
    hashes: Vec<Hash>,
    table: Vec<u8>,
    index: Vec<u8>,
    document: Automerge,
}

impl Tables {
    fn new(rows: usize, mut random: Random) -> Tables {
        let hashes = random.hashes(rows, Likeness::Spread);
        let table = table_bytes(&random.rows_of(&hashes, Shape::Recent));
        Tables {
            document: document(&table, &[]),
            hashes,
            index: index_of(&table),
            table,
        }
    }

    /// The first rows' numbers, by hash.
    fn sorted(&self, rows: usize) -> Vec<usize> {
        let hashes = black_box(&self.hashes);
        let mut sorted: Vec<usize> = (0..rows).collect();
        sorted.sort_unstable_by_key(|&row| hashes[row]);
        sorted
    }
}

/// Without an index.
fn check(pool: &Pool<Tables>, size: &str) {
    let mut next = pool.turn();
    let library = || raw::check_table(black_box(&next().table))[1];
    checked(pool, "check table", size, library);
}

/// With the index, and a waiting table of no rows.
fn check_beside(pool: &Pool<Tables>, size: &str) {
    let mut next = pool.turn();
    let library = || {
        let tables = next();
        let (table, index) = (black_box(&tables.table), black_box(&tables.index));
        tables.hashes.len() as u64 + raw::check_tables(table, index, &[])[0]
    };
    checked(pool, "check beside index", size, library);
}

fn checked(pool: &Pool<Tables>, name: &str, size: &str, library: impl FnMut() -> u64) {
    let mut next = pool.turn();
    let stand_in = || {
        let rows = black_box(next().document.rows()).to_vec();
        let document = Automerge::from_rows(rows, Vec::new());
        black_box(document).expect("a good table").rows().len() as u64
    };
    let note =
        "crate: making the stand-in document, of copied changes; the crate's graph can't be had";
    measure(pool, name, size, note, library, stand_in);
}

/// A run's number is how many bytes the index has, here and below.
fn build_index(pool: &Pool<Tables>, size: &str) {
    let mut out = vec![0; 2 * MOST_ROWS];
    let mut next = pool.turn();
    let library = || {
        let written = raw::build_index(black_box(&next().table), &mut out)[1];
        black_box(&out);
        written
    };
    let mut next = pool.turn();
    let sort = || {
        let tables = next();
        let sorted = tables.sorted(tables.hashes.len());
        black_box(index_bytes(&sorted)).len() as u64
    };
    let note =
        "library: tests the table too; crate: rows sorted by Rust's library, for it has no index";
    measure(pool, "build index", size, note, library, sort);
}

/// By the last row.
fn extend_index(pool: &Pool<Tables>, size: &str) {
    let pool = pool.map(|tables| {
        let shorter = index_of(but_the_last(&tables.table));
        (tables, shorter, tables.sorted(tables.hashes.len() - 1))
    });
    let mut out = vec![0; 2 * MOST_ROWS];
    let mut next = pool.turn();
    let library = || {
        let (tables, shorter, _) = next();
        let (table, index) = (black_box(&tables.table), black_box(shorter));
        let written = raw::extend_index(table, index, &mut out)[1];
        black_box(&out);
        written
    };
    let mut next = pool.turn();
    let insert = || {
        let (tables, _, before) = next();
        let (hashes, mut sorted) = (black_box(&tables.hashes), black_box(before).clone());
        let last = hashes.len() - 1;
        let place = sorted.partition_point(|&row| hashes[row] < hashes[last]);
        sorted.insert(place, last);
        (2 * black_box(sorted).len()) as u64
    };
    let note = "library: tests table and index too; crate: a row put into a sorted list, for it has no index";
    measure(&pool, "extend index", size, note, library, insert);
}

fn heads(pool: &Pool<Tables>, size: &str) {
    let library = |tables: &Tables, out: &mut [u8]| {
        let (table, index) = (black_box(&tables.table), black_box(&tables.index));
        raw::heads(table, index, tables.hashes.len(), out)
    };
    let stand_in = |tables: &Tables| black_box(&tables.document).get_heads();
    hashes(pool, "heads", size, library, stand_in);
}

/// Beyond the middle row.
fn beyond(pool: &Pool<Tables>, size: &str) {
    let middle = |tables: &Tables| tables.hashes[tables.hashes.len() / 2];
    let library = |tables: &Tables, out: &mut [u8]| {
        let (table, index) = (black_box(&tables.table), black_box(&tables.index));
        raw::beyond(table, index, &middle(tables), out)
    };
    let stand_in = |tables: &Tables| {
        let list = [ChangeHash(middle(tables))];
        black_box(&tables.document).rows_beyond(&list)
    };
    hashes(pool, "beyond", size, library, stand_in);
}

/// Such rows, and waiting ones: each asks the next one, the last one the first, and an
/// unknown hash of its own.
struct Waits {
    table: Vec<u8>,
    index: Vec<u8>,
    waiting: Vec<u8>,
    first_waiting: Hash,
    document: Automerge,
}

impl Waits {
    fn new(rows: usize, waits: usize, mut random: Random) -> Waits {
        let hashes = random.hashes(rows + 2 * waits, Likeness::Spread);
        let (held, others) = hashes.split_at(rows);
        let (own, unknown) = others.split_at(waits);
        let table = table_bytes(&random.rows_of(held, Shape::Recent));
        let waiting: Vec<WaitingRow> = (0..waits)
            .map(|k| WaitingRow {
                hash: own[k],
                dependencies: vec![own[(k + 1) % waits], unknown[k]],
            })
            .collect();
        let waiting = waiting_bytes(&waiting);
        Waits {
            document: document(&table, &waiting),
            index: index_of(&table),
            table,
            waiting,
            first_waiting: own[0],
        }
    }
}

/// Through all waiting rows, as many hashes as there are of them.
fn missing(pool: &Pool<Waits>, size: &str) {
    let library = |waits: &Waits, out: &mut [u8]| {
        let (table, index) = (black_box(&waits.table), black_box(&waits.index));
        let waiting = black_box(&waits.waiting);
        raw::missing(table, index, waiting, &waits.first_waiting, out)
    };
    let stand_in = |waits: &Waits| {
        let asked = [ChangeHash(waits.first_waiting)];
        black_box(&waits.document).missing_deps_from(asked.into_iter())
    };
    hashes(pool, "missing", size, library, stand_in);
}

/// Measures a call that writes hashes, once both sides have found the same.
fn hashes<T>(
    pool: &Pool<T>,
    name: &str,
    size: &str,
    library: impl Fn(&T, &mut [u8]) -> [u64; 4],
    stand_in: impl Fn(&T) -> Vec<ChangeHash>,
) {
    let mut out = vec![0; HASH * MOST_ROWS];
    for input in pool.iter() {
        let written = library(input, &mut out)[1] as usize;
        let found: Vec<Hash> = stand_in(input).iter().map(|hash| hash.0).collect();
        assert!(
            !found.is_empty() && out[..written] == found.concat(),
            "{name}"
        );
    }
    let mut next = pool.turn();
    let library = || {
        let written = library(next(), &mut out)[1];
        black_box(&out);
        written
    };
    let mut next = pool.turn();
    let stand_in = || (HASH * black_box(stand_in(next())).len()) as u64;
    measure(pool, name, size, STAND_IN, library, stand_in);
}

fn measure<T>(
    pool: &Pool<T>,
    name: &str,
    size: &str,
    note: &str,
    library: impl FnMut() -> u64,
    stand_in: impl FnMut() -> u64,
) {
    let what = Line {
        name,
        size,
        calls: 1,
        note: &pool.note(note),
    };
    line(what, library, stand_in);
}
