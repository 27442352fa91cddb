//! Refusals in their order, sizes at their limits, buffers of every size.

use crate::{answer, diamond};
use bisquetower::limits::{HASHES, HAVES, LIST_SIZE, PROBES, ROWS, TABLE_SIZE};
use compare::inputs::index::{index_of, Beside};
use compare::inputs::selection::lend;
use compare::inputs::table::{set_number, table_bytes, Likeness, Shape};
use compare::inputs::Random;
use compare::model::table::{HASH, ROW};
use compare::selections::{compare, Selection};
use compare::tables::Rooms;

/// A selection with what it owns.
#[derive(Clone)]
struct Lent {
    table: Vec<u8>,
    /// The table's own, if none is here.
    index: Option<Vec<u8>>,
    s: Vec<u8>,
    haves: Vec<u64>,
    need: Vec<u8>,
}

impl Lent {
    fn selection(&self) -> Selection<'_> {
        Selection {
            table: &self.table,
            index: self.index.as_deref().map_or(Beside::Own, Beside::Other),
            s: &self.s,
            haves: &self.haves,
            need: &self.need,
        }
    }
}

/// Four rows, a have over a hundred bytes that contains none of them, two needs.
fn good() -> Lent {
    let (table, [a, b, ..]) = diamond();
    Lent {
        table,
        index: None,
        s: vec![0; 100],
        haves: vec![3, 2, 20, 10, 7, 70, 25],
        need: [a, b].concat(),
    }
}

/// What is wrong: how it is made so, and the refusal.
type Fault = (&'static str, fn(&mut Lent) -> [u64; 2]);

/// In the order of their refusals. One that is made after another stands, where
/// they are made of the same part.
const FAULTS: [Fault; 14] = [
    ("haves that aren't whole", |l| {
        l.haves.push(0);
        [10, 0]
    }),
    ("a filter without bits", |l| {
        l.haves[3] = 0;
        [10, 0]
    }),
    ("a field outside", |l| {
        l.haves[5] = l.s.len() as u64 - 24;
        [10, 0]
    }),
    ("last-sync hashes outside", |l| {
        l.haves[0] = l.s.len() as u64 - 63;
        l.haves[1] = 2;
        [10, 0]
    }),
    ("a long table", |l| {
        l.table = vec![0; TABLE_SIZE + 1];
        [4, 0]
    }),
    ("a bad row", |l| {
        l.table.truncate(ROW * 4);
        set_number(&mut l.table[ROW * 2..], 1, 2);
        [6, 2]
    }),
    ("a partial row", |l| {
        l.table.truncate(ROW * 4 - 1);
        [6, 3]
    }),
    ("the index of another table", |l| {
        let mut index = index_of(&good().table);
        index.swap(0, 2);
        l.index = Some(index);
        [12, 0]
    }),
    ("an index without its last byte", |l| {
        let mut index = index_of(&good().table);
        index.pop();
        l.index = Some(index);
        [12, 0]
    }),
    ("an index of an entry too many", |l| {
        l.index = Some(vec![0; 2 * (ROWS + 1)]);
        [12, 0]
    }),
    ("a need too many", |l| {
        l.need = vec![2; LIST_SIZE + HASH];
        [4, 0]
    }),
    ("a partial need", |l| {
        l.need = vec![2; 32 * 5 + 1];
        [1, 160]
    }),
    ("a have too many", |l| {
        let partial = l.haves.split_off(l.haves.len() / 7 * 7);
        l.haves = [l.haves[..7].repeat(HAVES + 1), partial].concat();
        [4, 0]
    }),
    ("a last-sync hash too many", |l| {
        l.s.resize(LIST_SIZE + HASH + 200, 0);
        l.haves[0] = 100;
        l.haves[1] = HASHES as u64 + 1;
        [4, 0]
    }),
];

/// Every fault alone and every two together, in buffers long and short, against
/// the model: the first in the order is the refusal, and 7 is the last.
#[test]
fn refusals_in_their_order() {
    assert_eq!(answer(good().selection()), [0, 4 * 32]);
    for (k, (name, make)) in FAULTS.iter().enumerate() {
        let mut lent = good();
        let expected = make(&mut lent);
        assert_eq!(answer(lent.selection()), expected, "{name}");
        for (later, make_later) in &FAULTS[k + 1..] {
            let mut lent = good();
            make_later(&mut lent);
            let expected = make(&mut lent);
            assert_eq!(answer(lent.selection()), expected, "{name}, {later}");
            let short = compare(lent.selection(), Rooms::One(0)).unwrap();
            assert_eq!(short[0][..2], expected, "{name}, {later}");
        }
    }
}

/// Tables of no byte, of about a row and at their limit; needs, haves and last-sync
/// hashes, as many as there may be and one more, against the model.
#[test]
fn sizes_at_their_limits() {
    let mut random = Random(23);
    let mut full = good();
    full.table = table_bytes(&random.rows(ROWS, Shape::Recent, Likeness::Spread));
    full.need = full.table[..HASH].repeat(HASHES);
    full.haves = full.haves.repeat(HAVES);
    full.s.resize(LIST_SIZE + 100, 0x11);
    full.haves[..2].copy_from_slice(&[100, HASHES as u64]);
    assert_eq!(answer(full.selection())[0], 0);
    for (length, expected) in [
        (0, [0, 0]),
        (ROW - 1, [6, 0]),
        (ROW, [0, 32]),
        (ROW + 1, [6, 1]),
    ] {
        let mut lent = good();
        lent.table.truncate(length);
        lent.need.clear();
        assert_eq!(answer(lent.selection()), expected, "{length}");
    }
    for long in [
        |l: &mut Lent| l.table.extend([1; ROW]),
        |l: &mut Lent| l.need.extend([1; HASH]),
        |l: &mut Lent| l.haves.extend_from_within(..7),
        |l: &mut Lent| {
            l.s.extend([1; HASH]);
            l.haves[1] = HASHES as u64 + 1;
        },
    ] {
        let mut lent = full.clone();
        long(&mut lent);
        assert_eq!(answer(lent.selection()), [4, 0]);
    }
}

/// Haves with one number at or past an edge, as the first, as the last that there may be
/// and as one more, against the model.
#[test]
fn haves_at_their_edges() {
    let most = u64::from(u32::MAX);
    let far = [
        most,
        most + 1,
        1 << 59,
        1 << 60,
        1 << 63,
        u64::MAX - 31,
        u64::MAX,
    ];
    // Word, value, and whether the have is still good.
    let mut cases = vec![
        (0, 36, true),
        (0, 37, false),
        (1, 0, true),
        (1, 3, true),
        (1, 4, false),
        (2, 21, false),
        (3, 0, false),
        (4, PROBES as u64, true),
        (4, PROBES as u64 + 1, false),
        (5, 75, true),
        (5, 76, false),
        (6, 24, false),
        (6, 26, false),
    ];
    for word in 0..7 {
        cases.extend(far.map(|value| (word, value, false)));
    }
    for (word, value, is_good) in cases {
        let record = good().haves;
        let mut have = record.clone();
        have[word] = value;
        let with = |before: usize, after: usize| {
            let mut lent = good();
            lent.haves = [record.repeat(before), have.clone(), record.repeat(after)].concat();
            answer(lent.selection())[0]
        };
        let told = format!("word {word} is {value}");
        let expected = if is_good { 0 } else { 10 };
        assert_eq!([with(0, 0), with(HAVES - 1, 0)], [expected; 2], "{told}");
        // One more isn't looked at, and is one too many.
        assert_eq!(with(HAVES, 0), 4, "{told}");
        assert_eq!(with(0, HAVES), if is_good { 4 } else { 10 }, "{told}");
    }
}

/// Buffers of every size, against the model: 7 with the bytes wanted, and no byte
/// changed but those that are written.
#[test]
fn every_size() {
    let mut random = Random(24);
    let mut short = 0;
    for _ in 0..12 {
        let case = random.case(1..9, 0..3);
        let (s, haves) = lend(&case.haves, &mut random);
        let need = case.need.concat();
        let selection = Selection {
            table: &case.table,
            index: Beside::Own,
            s: &s,
            haves: &haves,
            need: &need,
        };
        let answers = compare(selection, Rooms::Every).unwrap();
        let wanted = answers.len() as u64 - 4;
        for (room, answer) in answers.iter().enumerate() {
            let first = if (room as u64) < wanted { 7 } else { 0 };
            assert_eq!(answer[..2], [first, wanted], "{room}");
            short += u64::from(first == 7);
        }
    }
    assert!(short > 500, "{short}");
}
