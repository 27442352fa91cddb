//! Arguments that are wrong at once: the order of their refusals.

use crate::{
    answer, beyond, build_index, check, check_tables, diamond, extend_index, heads, list, missing,
    waiting, with_record, Bytes, First, ROOM,
};
use compare::inputs::index::index_bytes;
use compare::model::table::{DEPENDENCIES, HASH, HASHES, ROW, ROWS, WAITING_ROW, WAITING_ROWS};

/// Something to lend, and the refusal that it brings, if any.
type Faulty = (Bytes, Option<First>);

/// The refusal that comes first, or the answer.
fn first(faults: &[Option<First>], good: First) -> First {
    faults.iter().flatten().next().copied().unwrap_or(good)
}

/// Buffers too short for `wanted` bytes, and one that isn't.
fn rooms_around(wanted: usize) -> [(usize, Option<First>); 3] {
    let short = Some([7, wanted as u64]);
    [(0, short), (wanted - 1, short), (wanted, None)]
}

/// The diamond, good and bad: a hash twice, a partial record, too long. The long
/// one has bad rows too.
fn faulty_tables() -> [Faulty; 4] {
    let good = diamond();
    let twice = with_record(&good, 2, &good[..ROW]);
    let long = vec![0xff; ROW * ROWS + 1];
    [
        (good.clone(), None),
        (twice, Some([6, 2])),
        (good[..3 * ROW + 8].to_vec(), Some([6, 3])),
        (long, Some([4, 0])),
    ]
}

/// The diamond's index, and some that don't fit it: two entries in each other's place,
/// an entry that is no row, too short, odd, too long.
fn faulty_indexes() -> [Faulty; 6] {
    let bad = Some([12, 0]);
    [
        (index_bytes(&[0, 1, 2, 3]), None),
        (index_bytes(&[0, 2, 1, 3]), bad),
        (index_bytes(&[0, 1, 2, 4]), bad),
        (index_bytes(&[0, 1, 2]), bad),
        (index_bytes(&[0, 1, 2, 3])[..7].to_vec(), bad),
        (index_bytes(&[3; ROWS + 1]), bad),
    ]
}

/// A row with as many unknown hashes under it as may be and a row on that one; and the
/// ways in which such a table is bad.
fn faulty_waitings() -> [Faulty; 4] {
    let full: Vec<u16> = (20_001..).take(DEPENDENCIES).collect();
    let good = waiting(&[(2_000, &full), (1_999, &[2_000])]);
    let twice = waiting(&[(2_000, &full), (2_000, &[])]);
    let long = vec![0xff; WAITING_ROW * WAITING_ROWS + 1];
    [
        (good.clone(), None),
        (twice, Some([9, 1])),
        (good[..WAITING_ROW + 56].to_vec(), Some([9, 1])),
        (long, Some([4, 0])),
    ]
}

/// The waiting hash and unknown ones after it: how many are missing is one less, and the
/// hashes that it asks for, as many as it may.
fn faulty_lists() -> [(Faulty, u64); 7] {
    let many = list(&(2_000..2_001 + HASHES as u16).collect::<Vec<u16>>());
    let part = |length: usize, fault| (many[..length].to_vec(), fault);
    let full = HASHES + 1 - DEPENDENCIES;
    [
        (part(HASH, None), DEPENDENCIES as u64),
        (part(HASH - 1, Some([1, 0])), 0),
        (
            part(HASH * HASHES - 1, Some([1, (HASH * (HASHES - 1)) as u64])),
            0,
        ),
        (part(HASH * HASHES + 1, Some([4, 0])), 0),
        (part(HASH * full, None), HASHES as u64),
        (part(HASH * (full + 1), None), HASHES as u64 + 1),
        (
            part(HASH * HASHES, None),
            (HASHES + DEPENDENCIES - 1) as u64,
        ),
    ]
}

/// Arguments of heads that are wrong at once: 4 or 6, then 12, 11 and 7.
#[test]
fn refusals_of_heads_in_their_order() {
    for (table, table_fault) in faulty_tables() {
        let expected = first(&[table_fault], [0, 4]);
        assert_eq!(answer(check(&table), 0), expected);
        for (index, index_fault) in faulty_indexes() {
            for (before, before_fault) in [(3, None), (5, Some([11, 0]))] {
                for (room, short) in rooms_around(64) {
                    let faults = [table_fault, index_fault, before_fault, short];
                    let call = heads(&table, before).beside(&index);
                    assert_eq!(answer(call, room), first(&faults, [0, 64]));
                }
            }
        }
    }
}

/// Arguments of beyond that are wrong at once: 4 or 6, then 12, then the list's 4 or
/// 1, then 7.
#[test]
fn refusals_of_beyond_in_their_order() {
    for (table, table_fault) in faulty_tables() {
        for (index, index_fault) in faulty_indexes() {
            for ((hashes, list_fault), _) in faulty_lists() {
                for (room, short) in rooms_around(128) {
                    let faults = [table_fault, index_fault, list_fault, short];
                    let call = beyond(&table, &hashes).beside(&index);
                    assert_eq!(answer(call, room), first(&faults, [0, 128]));
                }
            }
        }
    }
}

/// Arguments of missing that are wrong at once: 4 or 6, then 12, then 4 or 9, then the
/// list's 4 or 1, then 4 for what is missing, then 7. Of the indexes that don't
/// fit, one has an entry that is no row and one is odd.
#[test]
fn refusals_of_missing_in_their_order() {
    for (table, table_fault) in faulty_tables() {
        for (index, index_fault) in faulty_indexes().into_iter().step_by(2) {
            for (waiting, waiting_fault) in faulty_waitings() {
                let expected = first(&[table_fault, index_fault, waiting_fault], [0, 2]);
                let call = check_tables(&table, &waiting).beside(&index);
                assert_eq!(answer(call, 0), expected);
                for ((hashes, list_fault), count) in faulty_lists() {
                    let many = (count > HASHES as u64).then_some([4, 0]);
                    let wanted = HASH as u64 * count;
                    for (room, short) in [(0, Some([7, wanted])), (ROOM, None)] {
                        let before = [table_fault, index_fault, waiting_fault];
                        let faults = [&before[..], &[list_fault, many, short]].concat();
                        let call = missing(&table, &waiting, &hashes).beside(&index);
                        assert_eq!(answer(call, room), first(&faults, [0, wanted]));
                    }
                }
            }
        }
    }
}

/// Building refuses with 4 or 6, then 7; extending with 4 or 6, then 12, then 7.
#[test]
fn refusals_of_indexes_in_their_order() {
    for (table, table_fault) in faulty_tables() {
        for (room, short) in rooms_around(8) {
            let expected = first(&[table_fault, short], [0, 8]);
            assert_eq!(answer(build_index(&table), room), expected);
            for (index, index_fault) in [
                (index_bytes(&[0, 1, 2]), None),
                (index_bytes(&[0, 2, 1]), Some([12, 0])),
                (index_bytes(&[0, 1, 3]), Some([12, 0])),
                (index_bytes(&[0, 1, 2, 3]), Some([12, 0])),
                (index_bytes(&[0, 1]), Some([12, 0])),
                (vec![0, 0, 1, 0, 2], Some([12, 0])),
                (index_bytes(&[2; ROWS]), Some([12, 0])),
            ] {
                let expected = first(&[table_fault, index_fault, short], [0, 8]);
                let call = extend_index(&table).beside(&index);
                assert_eq!(answer(call, room), expected);
            }
        }
    }
}
