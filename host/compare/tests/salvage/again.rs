//! What was kept, salvaged again; and good tables, which are kept as they are.

use crate::{agree, agree_all};
use compare::inputs::table::{table_bytes, LIKENESSES, SHAPES};
use compare::inputs::{Random, Seed};
use compare::model::table::{converted, NOW, OLD, ROW};
use compare::salvage::{ask, Rooms};

/// Good tables of every shape come out byte for byte, and nothing is reported of them.
#[test]
fn good_tables() {
    let mut random = Random(4);
    for shape in SHAPES {
        for likeness in LIKENESSES {
            for count in [0, 1, 2, 3, 31, 32, 33, 200] {
                let good = table_bytes(&random.rows(count, shape, likeness));
                let tally = agree(&[(&good, Rooms::Enough)]);
                assert_eq!((tally.whole, tally.kept), (1, count as u64));
                assert_eq!(ask(&good), ([0, good.len() as u64, 0, 0], good, vec![]));
            }
        }
    }
}

/// Of hurt tables what was kept is salvaged as a whole, and so is what is kept of that.
#[test]
fn hurt_tables_again() {
    let seed = Seed::fixed();
    let mut random = seed.random(3);
    let (mut hurt, mut shrunk) = (0, 0);
    for _ in 0..2_000 {
        let mut table = random.hurt_table(20);
        let mut before = table.len();
        // Each time it is hurt anew, and then salvaged twice.
        for _ in 0..4 {
            let (_, kept, report) = ask(&table);
            assert_eq!(
                ask(&kept),
                ([0, kept.len() as u64, 0, 0], kept.clone(), vec![])
            );
            hurt += u64::from(!report.is_empty());
            shrunk += u64::from(kept.len() / ROW < before / ROW);
            (before, table) = (kept.len(), kept);
            random.hurt(&mut table);
        }
    }
    assert!(hurt > 2_000 && shrunk > 2_000, "{hurt} {shrunk}");
}

/// Rows as they were before M-106 are rows of now only by chance: whatever they are taken
/// for, the library and the model agree.
#[test]
fn tables_of_before() {
    let mut random = Random(6);
    let tables: Vec<Vec<u8>> = SHAPES
        .into_iter()
        .filter_map(|shape| {
            let rows = random.rows(40, shape, LIKENESSES[0]);
            converted(NOW, OLD, &table_bytes(&rows)).ok()
        })
        .collect();
    let tally = agree_all(&tables);
    assert_eq!((tally.whole, tally.hurt), (0, tables.len() as u64));
    assert!(tables.len() > 4);
}
