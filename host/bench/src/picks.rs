//! Picks of everything that a table has, checked and made, and a plan with such a pick. The
//! crate has nothing like it: beside the library stands plain Rust over the same bytes and
//! into the same buffers, with sets of the listed and of the picked hashes; and beside the
//! plan the crate's own, in which all of the list goes.

use crate::measure::{line, line_of, Line, AT_A_TIME, MOST_ROWS, SIZES};
use crate::pool::Pool;
use crate::session::{Desk, Indexed};
use bisquetower::limits::LIST_SIZE;
use bisquetower::raw;
use compare::inputs::index::index_of;
use compare::inputs::table::{table_bytes, Likeness, Shape};
use compare::inputs::Random;
use compare::model::session::Value;
use compare::model::table::{Hash, HASH, ROW};
use compare::sessions::lent::Lent;
use compare::sessions::published::state;
use compare::tables::document;
use crate_under_test::facade::{State, SyncDoc};
use std::collections::HashSet;
use std::hint::black_box;

const PLAIN: &str =
    "library: tests the table and the index too; crate: plain Rust, HashSets of listed and picked hashes";

pub fn measure_all() {
    let pools =
        SIZES.map(|(size, rows)| (size, Pool::of(rows, MOST_ROWS, |r| Listed::new(rows, r))));
    for measure in [pick, check_pick] {
        for (size, pool) in &pools {
            measure(pool, size);
        }
    }
    drop(pools);
    for (size, rows) in SIZES {
        plan_picked(&Listed::new(rows, Random(110)), size);
    }
}

/// Rows on up to three of the eight before them, all of them listed. Half of their sizes
/// together are the budget.
struct Listed {
    hashes: Vec<Hash>,
    lent: Indexed,
    list: Vec<u8>,
    sizes: Vec<u64>,
    budget: u64,
    /// What the planner picks.
    pick: Vec<u8>,
}

impl Listed {
    fn new(rows: usize, mut random: Random) -> Listed {
        let hashes = random.hashes(rows, Likeness::Spread);
        let table = table_bytes(&random.rows_of(&hashes, Shape::Recent));
        let sizes: Vec<u64> = (0..rows).map(|_| 100 + random.below(900) as u64).collect();
        let index = index_of(&table);
        let mut listed = Listed {
            list: hashes.concat(),
            hashes,
            lent: Indexed { table, index },
            budget: sizes.iter().sum::<u64>() / 2,
            sizes,
            pick: vec![0; HASH * rows],
        };
        let mut pick = std::mem::take(&mut listed.pick);
        let written = listed.pick_into(&mut pick);
        pick.truncate(written);
        listed.pick = pick;
        listed
    }

    fn pick_into(&self, out: &mut [u8]) -> usize {
        let Indexed { table, index } = black_box(&self.lent);
        let (list, sizes) = (black_box(&self.list), black_box(&self.sizes));
        let answer = raw::pick(table, index, list, sizes, self.budget, out);
        assert_eq!(answer[0], 0);
        answer[1] as usize
    }

    fn is_accepted(&self) -> bool {
        let Indexed { table, index } = black_box(&self.lent);
        let (list, sizes) = (black_box(&self.list), black_box(&self.sizes));
        raw::check_pick(
            table,
            index,
            list,
            sizes,
            self.budget,
            black_box(&self.pick),
        ) == [0; 4]
    }

    /// Each row, its size, and the hashes of what it depends on.
    fn rows(&self) -> impl Iterator<Item = (&[u8], u64, impl Iterator<Item = &[u8]>)> {
        let table = &black_box(&self.lent).table;
        let rows = table.chunks_exact(ROW).zip(black_box(&self.sizes));
        rows.map(move |(row, &size)| {
            let number = |two: &[u8]| usize::from(u16::from_le_bytes([two[0], two[1]]));
            let count = number(&row[HASH..][..2]);
            let on = row[HASH + 2..][..2 * count].chunks_exact(2);
            let on = on.map(move |two| &table[ROW * number(two)..][..HASH]);
            (&row[..HASH], size, on)
        })
    }

    fn listed(&self) -> HashSet<&[u8]> {
        black_box(&self.list).chunks_exact(HASH).collect()
    }

    fn plain_pick_into(&self, out: &mut [u8]) -> usize {
        let listed = self.listed();
        let mut picked: HashSet<&[u8]> = HashSet::with_capacity(listed.len());
        let (mut left, mut written) = (self.budget, 0);
        for (hash, size, mut on) in self.rows() {
            let together = |on: &[u8]| !listed.contains(on) || picked.contains(on);
            if size <= left && listed.contains(hash) && on.all(together) {
                out[written..][..HASH].copy_from_slice(hash);
                written += HASH;
                left -= size;
                picked.insert(hash);
            }
        }
        written
    }

    /// Whether a pick of some rows is accepted: the rows are walked once, and each picked
    /// hash has to be the next one that is met.
    fn plain_is_accepted(&self) -> bool {
        let listed = self.listed();
        let mut pick = black_box(&self.pick).chunks_exact(HASH).peekable();
        let mut picked: HashSet<&[u8]> = HashSet::with_capacity(pick.len());
        let mut sum: u64 = 0;
        for (hash, size, mut on) in self.rows() {
            if pick.next_if_eq(&hash).is_none() {
                continue;
            }
            let together = |on: &[u8]| !listed.contains(on) || picked.contains(on);
            if !listed.contains(hash) || !on.all(together) {
                return false;
            }
            sum = match sum.checked_add(size) {
                Some(sum) if sum <= self.budget => sum,
                _ => return false,
            };
            picked.insert(hash);
        }
        pick.next().is_none()
    }
}

fn pick(pool: &Pool<Listed>, size: &str) {
    let what = Line {
        name: "pick",
        size,
        calls: 1,
        note: &pool.note(PLAIN),
    };
    let (mut ours, mut theirs) = (pool.turn(), pool.turn());
    let (mut out, mut own) = (vec![0; LIST_SIZE], vec![0; LIST_SIZE]);
    let told = |out: &[u8], written: usize| written as u64 + u64::from(out[written - 1]);
    let library = || {
        let written = ours().pick_into(&mut out);
        told(&out, written)
    };
    let plain = || {
        let written = theirs().plain_pick_into(&mut own);
        told(&own, written)
    };
    line(what, library, plain);
}

fn check_pick(pool: &Pool<Listed>, size: &str) {
    let what = Line {
        name: "check pick",
        size,
        calls: 1,
        note: &pool.note(PLAIN),
    };
    let (mut ours, mut theirs) = (pool.turn(), pool.turn());
    let library = || u64::from(ours().is_accepted());
    let plain = || u64::from(theirs().plain_is_accepted());
    line(what, library, plain);
}

/// To a peer that asks for every row by name: the library sends half of them, the crate all.
/// A run's number is how many heads and haves are said.
fn plan_picked(listed: &Listed, size: &str) {
    let session = Value {
        their_heads: Some(Vec::new()),
        their_need: Some(listed.hashes.clone()),
        their_have: Some(Vec::new()),
        ..Value::default()
    };
    let (document, lent) = (document(&listed.lent.table, &[]), Lent::laid(&session));
    let mut desk = Desk::fresh();
    let library = || {
        desk.lay(&lent);
        let (sizes, pick) = (black_box(&listed.sizes), black_box(&listed.pick));
        let answer = desk.plan_picked(sizes, listed.budget, pick, black_box(&listed.lent));
        assert_eq!(answer[15] as usize, pick.len() / HASH);
        black_box(&desk.said);
        answer[5] + answer[7]
    };
    let what = Line {
        name: "plan picked",
        size,
        calls: 1,
        note: "one input for all calls; library: half of what is asked for; crate: all of it, its changes copied",
    };
    let published = |state: &mut State| {
        let message = document.generate_sync_message(state);
        let message = black_box(message).expect("a message");
        (message.heads.len() + message.have.len()) as u64
    };
    line_of(what, library, AT_A_TIME, || state(&session), published);
}
