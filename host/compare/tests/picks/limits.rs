//! Lists and picks at their limits, sizes that aren't one a row, and sums at 64 bits.

use crate::{checked, given, hash, hashes, picks};
use bisquetower::limits::{HASHES, HASHES_TO_SEND, ROWS};
use compare::inputs::index::index_of;
use compare::inputs::table::{table_bytes, Likeness, Row, Shape};
use compare::inputs::Random;
use compare::picks::{compare_picks, Given};
use compare::tables::Rooms;

/// A list of as many hashes as there may be to send, and of one more; a hash that isn't
/// whole.
#[test]
fn lists_at_their_limit() {
    let mut own = given(&[&[], &[0]], &[], &[1, 1], 2);
    own.list = hashes(&[1, 0]).repeat(HASHES_TO_SEND / 2);
    assert_eq!(picks(&own), [0, 64]);
    assert_eq!(checked(&own, &hashes(&[0, 1])), [0, 0]);
    own.list.push(0);
    assert_eq!(picks(&own), [4, 0]);
    assert_eq!(checked(&own, &hashes(&[0, 1])), [4, 0]);
    own.list.extend([0; 31]);
    assert_eq!(picks(&own), [4, 0]);
    assert_eq!(checked(&own, &hashes(&[0, 1])), [4, 0]);
    own.list.truncate(97);
    assert_eq!(picks(&own), [1, 96]);
    assert_eq!(checked(&own, &hashes(&[0, 1])), [1, 96]);
    own.list.truncate(31);
    assert_eq!(picks(&own), [1, 0]);
}

/// A pick of as many hashes as a list may have, and of one more.
#[test]
fn picks_at_their_limit() {
    let own = given(&[&[], &[0]], &[0, 1], &[1, 1], 2);
    let most = hashes(&[0]).repeat(HASHES);
    assert_eq!(checked(&own, &most), [17, 1]);
    let one_more = hashes(&[0]).repeat(HASHES + 1);
    assert_eq!(checked(&own, &one_more), [4, 0]);
    assert_eq!(checked(&own, &one_more[..one_more.len() - 31]), [4, 0]);
    assert_eq!(
        checked(&own, &most[..most.len() - 1]),
        [1, 32 * (HASHES as u64 - 1)]
    );
    assert_eq!(checked(&own, &hashes(&[0])[..5]), [1, 0]);
}

/// Everything is listed and picked, of tables of as many rows as there may be: each rule at
/// the last hash, and the sum.
#[test]
fn the_largest_tables() {
    let mut random = Random(110);
    for (shape, likeness) in [
        (Shape::Wide, Likeness::Spread),
        (Shape::Deep, Likeness::Descending),
        (Shape::Full, Likeness::Ascending),
        (Shape::Any, Likeness::Alike),
    ] {
        let rows = random.rows(ROWS, shape, likeness);
        let list: Vec<u8> = rows.iter().flat_map(|row| row.hash).collect();
        let table = table_bytes(&rows);
        let mut own = Given {
            index: index_of(&table),
            table,
            list: [&list[..], &list[..]].concat(),
            sizes: vec![5; ROWS],
            budget: 5 * ROWS as u64,
        };
        assert_eq!(picks(&own), [0, 32 * ROWS as u64]);
        assert_eq!(checked(&own, &list), [0, 0]);
        let last = list.len() - 32;
        let mut twice = list.clone();
        twice.copy_within(last - 32..last, last);
        assert_eq!(checked(&own, &twice), [17, ROWS as u64 - 1]);
        let mut unknown = list.clone();
        unknown[last..].copy_from_slice(&hash(1));
        assert_eq!(checked(&own, &unknown), [17, ROWS as u64 - 1]);
        own.budget -= 1;
        assert_eq!(checked(&own, &list), [17, ROWS as u64]);
        assert_eq!(picks(&own), [0, 32 * (ROWS as u64 - 1)]);
        own.list.truncate(last);
        assert_eq!(checked(&own, &list), [17, ROWS as u64 - 1]);
        own.budget = 4;
        assert_eq!(checked(&own, &[]), [0, 0]);
        assert_eq!(picks(&own), [0, 0]);
        own.budget = 5;
        assert_eq!(checked(&own, &[]), [17, 0]);
    }
}

/// The first row alone could go, or the last one alone: an empty pick isn't accepted.
#[test]
fn one_row_of_many_fits() {
    for one in [0, 1, ROWS / 2, ROWS - 1] {
        let row = |row| Row {
            hash: hash(row),
            dependencies: vec![],
        };
        let rows: Vec<Row> = (0..ROWS).map(row).collect();
        let table = table_bytes(&rows);
        let mut own = Given {
            index: index_of(&table),
            table,
            list: rows.iter().flat_map(|row| row.hash).collect(),
            sizes: vec![9; ROWS],
            budget: 8,
        };
        assert_eq!(checked(&own, &[]), [0, 0]);
        own.sizes[one] = 8;
        assert_eq!(checked(&own, &[]), [17, 0]);
        assert_eq!(checked(&own, &hash(one)), [0, 0]);
        assert_eq!(compare::picks::picked(&own), hash(one));
        own.list.drain(32 * one..32 * (one + 1));
        assert_eq!(checked(&own, &[]), [0, 0]);
    }
}

/// One size too few and too many, and none: behind the hashes' own places.
#[test]
fn sizes_that_arent_one_a_row() {
    let on: [&[usize]; 3] = [&[], &[0], &[]];
    let all = [0, 1, 2];
    for sizes in [&[1, 1][..], &[1, 1, 1, 1], &[], &[1]] {
        let own = given(&on, &all, sizes, 9);
        assert_eq!(picks(&own), [17, 0]);
        assert_eq!(checked(&own, &hashes(&all)), [17, 3]);
        assert_eq!(checked(&own, &hashes(&[0])), [17, 1]);
        assert_eq!(checked(&own, &[]), [17, 0]);
        assert_eq!(checked(&own, &hashes(&[0, 0])), [17, 1]);
        assert_eq!(checked(&own, &hashes(&[1])), [17, 0]);
    }
    let none = given(&[], &[], &[], 0);
    assert_eq!((picks(&none), checked(&none, &[])), ([0, 0], [0, 0]));
    let one = given(&[], &[], &[0], 0);
    assert_eq!((picks(&one), checked(&one, &[])), ([17, 0], [17, 0]));
}

/// Sums around 64 bits: at the largest budget, and past it.
#[test]
fn sums_at_64_bits() {
    const MOST: u64 = u64::MAX;
    const HALF: u64 = 1 << 63;
    let on: [&[usize]; 3] = [&[], &[], &[]];
    let all = [0, 1, 2];
    for (sizes, budget, pick, answer, planned) in [
        ([MOST, 0, 0], MOST, &all[..], [0, 0], 3),
        ([MOST, 0, 1], MOST, &all, [17, 3], 2),
        ([MOST - 1, 0, 1], MOST, &all, [0, 0], 3),
        ([HALF, HALF - 1, 0], MOST, &all, [0, 0], 3),
        ([HALF, HALF - 1, 1], MOST, &all, [17, 3], 2),
        ([HALF, HALF, 0], MOST, &all, [17, 3], 2),
        // The sum is 2^64, and what is left of it in 64 bits is 0.
        ([HALF, HALF, 0], 0, &all, [17, 3], 1),
        ([HALF, HALF, 0], 0, &[0, 1], [17, 2], 1),
        ([HALF, HALF, 7], 7, &all, [17, 3], 1),
        ([MOST, MOST, MOST], MOST, &[1], [0, 0], 1),
        ([MOST, MOST, MOST], MOST, &[1, 2], [17, 2], 1),
        ([MOST, 1, MOST], MOST, &[0, 1], [17, 2], 1),
        ([MOST, 1, MOST], 0, &[0, 1], [17, 2], 0),
        ([MOST, MOST, 2], 0, &all, [17, 3], 0),
    ] {
        let own = given(&on, &all, &sizes, budget);
        assert_eq!(checked(&own, &hashes(pick)), answer, "{sizes:?}, {budget}");
        assert_eq!(picks(&own), [0, 32 * planned], "{sizes:?}, {budget}");
    }
}

/// What goes wrong, and the refusal that it is.
type Fault = (fn(&mut Given), [u64; 2]);

/// Tables and indexes are refused first, and 7 comes last.
#[test]
fn the_order_of_refusals() {
    let good = given(&[&[], &[0]], &[0, 1], &[1, 1], 2);
    let long = vec![0; 32 * HASHES_TO_SEND + 1];
    let faults: [Fault; 5] = [
        (|own| own.table.resize(256 * ROWS + 1, 0), [4, 0]),
        (|own| own.table[32] = 112, [6, 0]),
        (|own| own.index[0] ^= 1, [12, 0]),
        (|own| own.list = vec![0; 32 * HASHES_TO_SEND + 1], [4, 0]),
        (|own| own.sizes.push(1), [17, 0]),
    ];
    for (first, (spoil, refusal)) in faults.iter().enumerate() {
        let alone: fn(&mut Given) = |_| {};
        let later = faults[first + 1..].iter().map(|(later, _)| *later);
        for later in std::iter::once(alone).chain(later) {
            let mut own = good.clone();
            later(&mut own);
            spoil(&mut own);
            assert_eq!(picks(&own), *refusal, "{first}");
            // The pick's own 4 and 1 stand behind the list's, and before 17.
            let pick = if first == 4 { &long[..0] } else { &long[..] };
            assert_eq!(checked(&own, pick), *refusal, "{first}");
            for room in [0, 31, 63] {
                let answers = compare_picks(&own, Rooms::One(room));
                let answers = answers.unwrap_or_else(|why| panic!("{why}"));
                assert_eq!(answers[0][..2], *refusal);
            }
        }
    }
    let mut uneven = good.clone();
    uneven.sizes.push(1);
    assert_eq!(checked(&uneven, &long), [4, 0]);
    assert_eq!(checked(&uneven, &long[..33]), [1, 32]);
    let short = compare_picks(&good, Rooms::One(63)).unwrap();
    assert_eq!(short[0], [7, 64, 0, 0]);
}
