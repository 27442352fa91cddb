//! The smallest tables at which readings of 01 part, as literals.

use crate::{
    answer, beyond, check, check_tables, diamond, hash, hashes, heads, list, missing, table,
    waiting, written, First, ROOM,
};
use compare::inputs::table::{set_number, table_bytes, waiting_bytes, Row, WaitingRow};
use compare::model::table::{DEPENDENCIES, HASH, ROW, WAITING_ROW};

/// Document 01's P11, and the same rows asked in other ways.
#[test]
fn p11_beyond_b_is_c_and_d() {
    let [a, b, c, d, unknown] = [1, 2, 3, 4, 77];
    let rows = diamond();
    let found = |numbers: &[u16]| written(beyond(&rows, &list(numbers)));
    assert_eq!(found(&[b]), hashes(&[c, d]));
    assert_eq!(found(&[c]), hashes(&[b, d]));
    assert_eq!(found(&[a]), hashes(&[b, c, d]));
    assert_eq!(found(&[d]), hashes(&[]));
    assert_eq!(found(&[]), hashes(&[a, b, c, d]));
    assert_eq!(found(&[unknown]), hashes(&[a, b, c, d]));
    assert_eq!(found(&[unknown, b, b, unknown]), hashes(&[c, d]));
    let heads_of = |before| written(heads(&rows, before));
    assert_eq!(heads_of(4), hashes(&[d]));
    assert_eq!(heads_of(3), hashes(&[b, c]));
    assert_eq!(heads_of(1), hashes(&[a]));
    assert_eq!(heads_of(0), hashes(&[]));
    // Heads ascend; rows beyond keep the table's order.
    let rows = table(&[(9, &[]), (4, &[]), (6, &[])]);
    assert_eq!(written(heads(&rows, 3)), hashes(&[4, 6, 9]));
    assert_eq!(written(beyond(&rows, &[])), hashes(&[9, 4, 6]));
}

/// The smallest tables at which two readings of 01 part, against the answers
/// that are settled.
#[test]
fn settled_readings_of_change_tables() {
    let rows = diamond();
    let lengths: [(usize, First); 7] = [
        (0, [0, 0]),
        (1, [6, 0]),
        (ROW - 1, [6, 0]),
        (ROW, [0, 1]),
        (ROW + 1, [6, 1]),
        (2 * ROW, [0, 2]),
        (4 * ROW - 1, [6, 3]),
    ];
    for (length, expected) in lengths {
        assert_eq!(answer(check(&rows[..length]), 0), expected, "{length}");
    }
    // As many dependencies as may be are good, one more is a bad row and no passed limit.
    let last = DEPENDENCIES + 1;
    let mut wide: Vec<Row> = (0..=last as u16)
        .map(|n| Row {
            hash: hash(n),
            dependencies: Vec::new(),
        })
        .collect();
    let [number, rows_of_all] = [last, last + 1].map(|n| n as u64);
    wide[last].dependencies = (1..last).collect();
    assert_eq!(answer(check(&table_bytes(&wide)), 0), [0, rows_of_all]);
    let ends = hashes(&[0, last as u16]);
    assert_eq!(written(heads(&table_bytes(&wide), last + 1)), ends);
    wide[last].dependencies = (0..last).collect();
    assert_eq!(answer(check(&table_bytes(&wide)), 0), [6, number]);
    // A bad row behind the first ones is a bad row; "rows before" comes after.
    let mut bad = rows.clone();
    set_number(&mut bad[3 * ROW..], 0, DEPENDENCIES + 1);
    assert_eq!(answer(heads(&bad, 2), ROOM), [6, 3]);
    assert_eq!(answer(heads(&bad, 5), ROOM), [6, 3]);
    assert_eq!(answer(heads(&rows, 5), ROOM), [11, 0]);
    assert_eq!(answer(heads(&rows, usize::MAX), 0), [11, 0]);
    assert_eq!(answer(heads(&[], 0), 0), [0, 0]);
    assert_eq!(answer(heads(&[], 1), 0), [11, 0]);
    // The length wanted is what would be written, in bytes; of none it is 0.
    assert_eq!(answer(heads(&rows, 3), 63), [7, 64]);
    assert_eq!(answer(beyond(&rows, &list(&[2])), 63), [7, 64]);
    assert_eq!(answer(beyond(&rows, &list(&[4])), 0), [0, 0]);
    // A hash of zeros is a hash like any other.
    let zero = Row {
        hash: [0; HASH],
        dependencies: Vec::new(),
    };
    let twice = [zero.bytes(), zero.bytes()].concat();
    assert_eq!(answer(check(&twice[..ROW]), 0), [0, 1]);
    assert_eq!(answer(check(&twice), 0), [6, 1]);
    assert_eq!(written(beyond(&twice[..ROW], &[])), [[0; HASH]]);
    assert_eq!(answer(beyond(&twice[..ROW], &[0; HASH]), 0), [0, 0]);
}

/// The smallest waiting tables, and lists that something is missing from, at which two
/// readings of 01 part, against the answers that are settled.
#[test]
fn settled_readings_of_waiting_tables() {
    let rows = diamond();
    let good = waiting(&[(10, &[11]), (11, &[])]);
    let lengths: [(usize, First); 6] = [
        (0, [0, 0]),
        (1, [9, 0]),
        (WAITING_ROW - 1, [9, 0]),
        (WAITING_ROW, [0, 1]),
        (WAITING_ROW + 1, [9, 1]),
        (2 * WAITING_ROW, [0, 2]),
    ];
    for (length, expected) in lengths {
        let call = check_tables(&rows, &good[..length]);
        assert_eq!(answer(call, 0), expected, "{length}");
    }
    // Dependencies in use are free: oneself, one twice, held ones, as many as may be.
    let free = waiting(&[(10, &[10, 10, 1, 4, 30, 30]), (11, &[20; DEPENDENCIES])]);
    assert_eq!(answer(check_tables(&rows, &free), 0), [0, 2]);
    let found = |numbers: &[u16]| written(missing(&rows, &free, &list(numbers)));
    assert_eq!(found(&[10]), hashes(&[30]));
    assert_eq!(found(&[11, 10, 11, 2, 40]), hashes(&[20, 30, 40]));
    // One more is a bad row.
    let more = waiting(&[(10, &[]), (11, &[20; DEPENDENCIES + 1])]);
    assert_eq!(answer(check_tables(&rows, &more), 0), [9, 1]);
    // Only what lies under the asked hashes, not all that waiting rows lack.
    assert_eq!(found(&[]), hashes(&[]));
    assert_eq!(found(&[3, 1]), hashes(&[]));
    // The zero hash in use is asked for, in no use it isn't.
    let zero = [WaitingRow {
        hash: hash(10),
        dependencies: vec![[0; HASH], hash(20)],
    }];
    let asked = written(missing(&rows, &waiting_bytes(&zero), &list(&[10])));
    assert_eq!(asked, [[0; HASH], hash(20)]);
    assert_eq!(written(missing(&[], &[], &[0; HASH])), [[0; HASH]]);
    // A waiting row's hash that is held, or that waits twice.
    let held = waiting(&[(10, &[]), (4, &[])]);
    assert_eq!(answer(check_tables(&rows, &held), 0), [9, 1]);
    assert_eq!(answer(check_tables(&rows[..3 * ROW], &held), 0), [0, 2]);
    let twice = waiting(&[(10, &[]), (11, &[]), (10, &[5])]);
    assert_eq!(answer(check_tables(&rows, &twice), 0), [9, 2]);
    // A cycle gives nothing new; what hangs on it does.
    let cycle = waiting(&[(10, &[11]), (11, &[12]), (12, &[10, 20])]);
    assert_eq!(written(missing(&rows, &cycle, &list(&[11]))), hashes(&[20]));
    let cycle = waiting(&[(10, &[11]), (11, &[10])]);
    assert_eq!(
        written(missing(&rows, &cycle, &list(&[10, 11]))),
        hashes(&[])
    );
}
