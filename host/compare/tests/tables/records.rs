//! Every way in which a record is bad names its row; every bit, number and length.

use crate::{
    agree, answer, ask, beyond, check, check_tables, diamond, heads, missing, waiting, with_record,
    Bytes, First, CHECK_TABLE, CHECK_TABLES, ROOM,
};
use compare::inputs::table::{
    row_faults, set_number, table_bytes, waiting_bytes, waiting_faults, Likeness, Shape,
    LIKENESSES, SHAPES,
};
use compare::inputs::Random;
use compare::model::table::{DEPENDENCIES, HASH, ROW, ROWS, WAITING_ROW, WAITING_ROWS};
use compare::tables::{Call, Rooms, Tally};

/// Every bit of a change table and of a waiting table changed, through all calls.
#[test]
fn every_bit_of_small_tables() {
    let rows = diamond();
    let good = waiting(&[(10, &[1, 11, 20]), (11, &[])]);
    let flipped = |bytes: &[u8], bit: usize| {
        let mut bytes = bytes.to_vec();
        bytes[bit / 8] ^= 1 << (bit % 8);
        bytes
    };
    let tables: Vec<Bytes> = (0..8 * rows.len()).map(|bit| flipped(&rows, bit)).collect();
    let calls = tables.iter().flat_map(|table| {
        let some = [check(table), check_tables(table, &good)];
        let others = [heads(table, 4), beyond(table, &rows[ROW..][..HASH])];
        some.into_iter().chain(others)
    });
    let calls: Vec<(Call, Rooms)> = calls.map(|call| (call, Rooms::Enough)).collect();
    let tally = agree(&calls);
    // Of the hashes' bits, four make one hash another's: 1 and 3, 2 and 3. Of the
    // others, four leave a good table: the counts of rows 1 and 2, whose number is
    // 0, row 2's number, and row 3's first one.
    assert_eq!(tally.of(CHECK_TABLE, 0), 4 * 256 - 4 + 4);
    let waitings: Vec<Bytes> = (0..8 * good.len()).map(|bit| flipped(&good, bit)).collect();
    for some in waitings.chunks(1_000) {
        let calls = some.iter().flat_map(|waiting| {
            let asked = &good[..HASH];
            [check_tables(&rows, waiting), missing(&rows, waiting, asked)]
        });
        agree(&calls.map(|call| (call, Rooms::Enough)).collect::<Vec<_>>());
    }
}

/// Every count and row number of a table with each of some telling values.
#[test]
fn every_number_of_a_row() {
    let mut random = Random(10);
    let values = [0, 1, 2, 3, 4, 14, 15, 16, 17, 18, 19, 255, 256, 257, 65_535];
    let limits = [DEPENDENCIES, DEPENDENCIES + 1, ROWS - 1, ROWS];
    let mut tally = Tally::default();
    for shape in SHAPES {
        let good = table_bytes(&random.rows(19, shape, Likeness::Spread));
        let mut tables = Vec::new();
        for row in [0, 1, 2, 15, 16, 17, 18] {
            for which in 0..=DEPENDENCIES {
                for value in values.into_iter().chain(limits) {
                    let mut table = good.clone();
                    set_number(&mut table[ROW * row..], which, value);
                    tables.push(table);
                }
            }
        }
        let calls: Vec<_> = tables.iter().map(|t| (check(t), Rooms::Enough)).collect();
        tally.add(&agree(&calls));
    }
    assert!([0, 6].iter().all(|&word| tally.of(CHECK_TABLE, word) > 500));
}

/// The rows of which some are made bad.
fn telling_rows(count: usize) -> Vec<usize> {
    let rows = [0, 1, 2, 3, 14, 15, 16, count / 2, count - 1];
    let mut rows: Vec<usize> = rows.into_iter().filter(|&row| row < count).collect();
    rows.sort();
    rows.dedup();
    rows
}

/// Every way in which one row is bad names that row, in tables of all shapes.
#[test]
fn one_fault_names_its_row() {
    let mut random = Random(11);
    let cases = SHAPES.iter().flat_map(|&shape| {
        [1, 2, 3, 17, 65]
            .iter()
            .zip(LIKENESSES.into_iter().cycle())
            .map(move |(&count, likeness)| (count, shape, likeness))
    });
    for (count, shape, likeness) in cases {
        let rows = random.rows(count, shape, likeness);
        let good = table_bytes(&rows);
        for row in telling_rows(count) {
            for (why, record) in row_faults(&rows, row) {
                let table = with_record(&good, row, &record);
                let told = format!("{shape:?}, row {row} of {count}, {why}");
                let ([first, at, ..], _) = ask(check(&table), 0);
                assert_eq!([first, at], [6, row as u64], "{told}");
            }
        }
    }
}

/// One fault in a table of as many rows as there may be, whose first bad row is the last one or an
/// early one, through every call.
#[test]
fn one_fault_in_the_largest_table() {
    let mut random = Random(12);
    let rows = random.rows(ROWS, Shape::Any, Likeness::Spread);
    let good = table_bytes(&rows);
    for row in [1, ROWS - 1] {
        let faults = row_faults(&rows, row);
        for (why, record) in faults.iter().step_by(faults.len() / 8) {
            let table = with_record(&good, row, record);
            let calls = [
                check(&table),
                check_tables(&table, &[]),
                heads(&table, 1),
                beyond(&table, &[]),
                missing(&table, &[], &[]),
            ];
            for call in calls {
                let ([first, at, ..], _) = ask(call, ROOM);
                assert_eq!([first, at], [6, row as u64], "row {row}, {why}");
            }
        }
    }
    // A hash that stands twice, at every kind of distance.
    for (earlier, later) in [
        (0, ROWS - 1),
        (0, 1),
        (ROWS - 2, ROWS - 1),
        (511, 512),
        (300, 900),
    ] {
        let mut twice = rows[later].clone();
        twice.hash = rows[earlier].hash;
        let table = with_record(&good, later, &twice.bytes());
        assert_eq!(answer(check(&table), 0), [6, later as u64]);
    }
}

/// Several bad rows, and a partial record after them: the first bad row wins.
#[test]
fn of_several_faults_the_first_row_wins() {
    let mut random = Random(13);
    for round in 0..300 {
        let count = 2 + random.below(40);
        let shape = SHAPES[round % SHAPES.len()];
        let rows = random.rows(count, shape, LIKENESSES[round % 4]);
        let mut table = table_bytes(&rows);
        let bad = random.some_of(5, 0..count);
        for &row in &bad {
            let faults = row_faults(&rows, row);
            let (_, record) = &faults[random.below(faults.len())];
            table = with_record(&table, row, record);
        }
        let partial = random.below(ROW);
        table.extend(vec![0; partial]);
        let expected = match (bad.first(), partial) {
            (Some(&row), _) => [6, row as u64],
            (None, 0) => [0, count as u64],
            (None, _) => [6, count as u64],
        };
        assert_eq!(answer(check(&table), 0), expected, "round {round}");
    }
}

/// Every byte length up to a few rows and around as many as there may be, of tables whose
/// rows are good and whose rows aren't.
#[test]
fn byte_lengths_around_rows() {
    let mut random = Random(14);
    let (most, rows) = (ROW * ROWS, ROWS as u64);
    let mut good = table_bytes(&random.rows(ROWS, Shape::Recent, Likeness::Spread));
    good.extend(vec![0; 2 * ROW]);
    let calls: Vec<_> = (0..=4 * ROW + 1)
        .map(|length| (check(&good[..length]), Rooms::Enough))
        .collect();
    let tally = agree(&calls);
    assert_eq!(tally.of(CHECK_TABLE, 0), 5);
    let lengths: [(usize, First); 9] = [
        (most - ROW - 1, [6, rows - 2]),
        (most - ROW, [0, rows - 1]),
        (most - ROW + 1, [6, rows - 1]),
        (most - 1, [6, rows - 1]),
        (most, [0, rows]),
        (most + 1, [4, 0]),
        (most + ROW - 1, [4, 0]),
        (most + ROW, [4, 0]),
        (most + ROW + 1, [4, 0]),
    ];
    for (length, expected) in lengths {
        assert_eq!(answer(check(&good[..length]), 0), expected, "{length}");
    }
    let bad = vec![0xff; most + 1];
    assert_eq!(answer(check(&bad[..most]), 0), [6, 0]);
    assert_eq!(answer(check(&bad), 0), [4, 0]);
    assert_eq!(answer(heads(&bad, usize::MAX), 0), [4, 0]);

    let (most, rows) = (WAITING_ROW * WAITING_ROWS, WAITING_ROWS as u64);
    let own = random.hashes(WAITING_ROWS, Likeness::Spread);
    let mut waiting = waiting_bytes(&random.waiting_rows(&own, &own));
    waiting.extend(vec![0; WAITING_ROW]);
    let table = &good[..2 * ROW];
    let calls: Vec<_> = (0..=2 * WAITING_ROW + 1)
        .map(|length| (check_tables(table, &waiting[..length]), Rooms::Enough))
        .collect();
    assert_eq!(agree(&calls).of(CHECK_TABLES, 0), 3);
    let lengths: [(usize, First); 6] = [
        (most - WAITING_ROW, [0, rows - 1]),
        (most - 1, [9, rows - 1]),
        (most, [0, rows]),
        (most + 1, [4, 0]),
        (most + WAITING_ROW - 1, [4, 0]),
        (most + WAITING_ROW, [4, 0]),
    ];
    for (length, expected) in lengths {
        let call = check_tables(table, &waiting[..length]);
        assert_eq!(answer(call, 0), expected, "{length}");
    }
}

/// Every way in which one waiting row is bad names that row; of several the
/// first wins.
#[test]
fn waiting_faults_name_their_row() {
    let mut random = Random(15);
    for (round, (held, count)) in [(0, 1), (1, 2), (4, 3), (65, 20)].into_iter().enumerate() {
        let all = random.hashes(held + count, LIKENESSES[round]);
        let rows = random.rows_of(&all[..held], Shape::Recent);
        let waiting = random.waiting_rows(&all[held..], &all);
        let table = table_bytes(&rows);
        let good = waiting_bytes(&waiting);
        for row in telling_rows(count) {
            for (why, record) in waiting_faults(&rows, &waiting, row) {
                let mut bytes = with_record(&good, row, &record);
                let expected = [9, row as u64];
                let told = format!("waiting row {row} of {count}, {why}");
                let ([first, at, ..], _) = ask(check_tables(&table, &bytes), 0);
                assert_eq!([first, at], expected, "{told}");
                bytes.push(0);
                let last = WAITING_ROW * (count - 1);
                bytes[last..][HASH] = DEPENDENCIES as u8 + 1;
                let ([first, at, ..], _) = ask(missing(&table, &bytes, &all[0]), ROOM);
                assert_eq!([first, at], expected, "{told}, and later ones");
            }
        }
    }
}
