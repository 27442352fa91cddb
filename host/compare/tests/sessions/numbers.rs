//! Plans by other bits and probes than the crate's: passed, or from a settings list
//! (document 02, M-107).

use crate::{hash, hashes, planning, table};
use bisquetower::limits::{FIELD_SIZE, ROWS};
use compare::guarded::FILLS;
use compare::inputs::session::Saying;
use compare::inputs::settings::{settings_bytes, LARGEST};
use compare::inputs::Seed;
use compare::model::plan::{By, Numbers, OF_THE_CRATE};
use compare::model::session::Value;
use compare::model::settings::{Choice, Setting};
use compare::scaled;
use compare::sessions::lent::Lent;
use compare::sessions::library::{compare_plans, plan_answer, same_as_plan, Planning};
use compare::sessions::same_but_for_numbers;

/// Every pair of these, over random sessions: 10 exactly where bits are 0 or above 32 or
/// probes above 64, and else the model's plan, which is the crate's but for its filter.
#[test]
fn every_pair_of_telling_numbers() {
    let seed = Seed::fixed();
    let mut random = seed.random(10);
    let (mut refused, mut as_plan) = (0, 0);
    for bits in [0, 1, 2, 10, 31, 32, 33, 1 << 32] {
        for probes in [0, 1, 7, 63, 64, 65, 1 << 32] {
            let numbers = Numbers { bits, probes };
            let sayings: Vec<Saying> = (0..scaled(20, 400)).map(|_| random.saying(0..12)).collect();
            let plannings = sayings.iter().map(|saying| {
                let session = Lent::in_guise(&saying.session, &mut random);
                let (table, waiting) = (saying.table.clone(), saying.waiting.clone());
                Planning::by(By::Passed(numbers), session, table, waiting)
            });
            let plannings: Vec<Planning> = plannings.collect();
            let left = compare_plans(&plannings, &FILLS).unwrap_or_else(|why| panic!("{why}"));
            let good = (1..=32).contains(&bits) && probes <= 64;
            for ((saying, planning), left) in sayings.iter().zip(&plannings).zip(&left) {
                let first = if good { 0 } else { 10 };
                assert_eq!(left.answer[0], first, "{numbers:?}");
                refused += u64::from(!good);
                if good {
                    let same = same_but_for_numbers(saying, left);
                    same.unwrap_or_else(|why| panic!("{why}"));
                    let same = same_as_plan(planning);
                    as_plan += u64::from(same.unwrap_or_else(|why| panic!("{why}")));
                }
            }
        }
    }
    let each = scaled(20, 400) as u64;
    assert_eq!((refused, as_plan), (each * (3 * 7 + 5 * 2), each));
}

/// Every pair that a station may choose, over a few random sessions each.
#[test]
fn every_allowed_pair() {
    let mut random = Seed::fixed().random(11);
    for bits in 1..=32 {
        for probes in 1..=64 {
            let by = By::Passed(Numbers { bits, probes });
            let plannings = (0..scaled(2, 10)).map(|_| {
                let saying = random.saying(0..12);
                let session = Lent::in_guise(&saying.session, &mut random);
                Planning::by(by.clone(), session, saying.table, saying.waiting)
            });
            let plannings: Vec<Planning> = plannings.collect();
            let left = compare_plans(&plannings, &FILLS).unwrap_or_else(|why| panic!("{why}"));
            assert!(left.iter().all(|left| left.answer[0] == 0), "{by:?}");
        }
    }
}

/// A unit of three rows, of which it has nothing to send.
fn unit(by: By) -> Planning {
    let mut planning = planning(&Value::default(), &table(&[(1, &[]), (2, &[0]), (3, &[0])]));
    planning.by = by;
    planning.rooms = [planning.rooms[0].max(1_024); 6];
    planning
}

fn passed(bits: u64, probes: u64) -> By {
    By::Passed(Numbers { bits, probes })
}

/// The numbers of a have, and the length of its field.
fn filter(planning: &Planning) -> [u64; 4] {
    let answer = plan_answer(planning);
    assert_eq!((answer[0], answer[7]), (0, 1), "a message with a have");
    [answer[10], answer[11], answer[12], answer[14]]
}

#[test]
fn the_filter_has_the_numbers_that_are_passed() {
    assert_eq!(filter(&unit(By::Crate)), [3, 10, 7, 4]);
    assert_eq!(filter(&unit(passed(10, 7))), [3, 10, 7, 4]);
    assert_eq!(filter(&unit(passed(1, 1))), [3, 1, 1, 1]);
    assert_eq!(filter(&unit(passed(32, 64))), [3, 32, 64, 12]);
    assert_eq!(filter(&unit(passed(3, 0))), [3, 3, 0, 2]);
}

/// Station 4 chooses at version 2 and again at version 9; station 5 at version 3.
fn list() -> Vec<u8> {
    let setting = |version, station, bits, probes, read_only| Setting {
        version,
        station,
        choice: Choice {
            bits,
            probes,
            read_only,
        },
    };
    settings_bytes(&[
        setting(2, 4, 16, 11, 0),
        setting(3, 5, 4, 2, 1),
        setting(9, 4, 32, 1, 0),
    ])
}

#[test]
fn the_filter_has_the_numbers_of_its_station() {
    let settled = |list: &[u8], station, version| {
        let list = list.to_vec();
        unit(By::Settings {
            list,
            station,
            version,
        })
    };
    let at = |station, version| filter(&settled(&list(), station, version));
    let of_the_crate = [3, 10, 7, 4];
    for version in [0, 1] {
        assert_eq!(at(4, version), of_the_crate);
    }
    for version in [2, 3, 8] {
        assert_eq!(at(4, version), [3, 16, 11, 6]);
    }
    for version in [9, 10, u64::from(u32::MAX), u64::MAX] {
        assert_eq!(at(4, version), [3, 32, 1, 12]);
    }
    assert_eq!(at(5, 2), of_the_crate);
    assert_eq!(at(5, 3), [3, 4, 2, 2]);
    assert_eq!(at(6, 9), of_the_crate);
    assert_eq!(at((1 << 32) + 4, 9), of_the_crate);
    assert_eq!(filter(&settled(&[], 4, 9)), of_the_crate);
    let whole = list();
    for (length, record) in [(1, 0), (95, 2), (33, 1)] {
        let answer = plan_answer(&settled(&whole[..length], 4, 9));
        assert_eq!(answer[..2], [14, record]);
    }
}

/// A record's read-only byte does nothing by itself: the session's own flag counts.
#[test]
fn a_plan_leaves_read_only_alone() {
    let by = |version| By::Settings {
        list: list(),
        station: 5,
        version,
    };
    let (on, off) = (plan_answer(&unit(by(3))), plan_answer(&unit(by(2))));
    assert_eq!((on[3], on[2]), (off[3], off[2]), "flags, version");
    assert_eq!(on[3], 4);
}

/// A filter over no rows has the numbers that are passed, and none of their bits; a
/// reset's has the crate's.
#[test]
fn filters_of_no_entries() {
    for by in [passed(1, 1), passed(32, 64)] {
        let By::Passed(Numbers { bits, probes }) = by else {
            panic!("they are passed");
        };
        let mut none = planning(&Value::default(), &[]);
        none.by = by.clone();
        assert_eq!(filter(&none), [0, bits, probes, 0]);
        // The first have names an unknown hash.
        let mut reset = unit(by);
        reset.session = Lent {
            words: [0, 0, 0, 0, 0, 0, 1, 1, 0, 0, 0, 0, 0, 0, 0, 0],
            haves: vec![0, 1, 0, 10, 7, 0, 0],
            bytes: hash(999).to_vec(),
            ..Lent::default()
        };
        let answer = plan_answer(&reset);
        assert_eq!(answer[..2], [0, 1], "a reset");
        assert_eq!(answer[8..15], [0, 0, 0, 10, 7, 0, 0]);
    }
}

/// As many rows as there may be, at 32 bits: the field is as long as one may be.
#[test]
fn the_largest_field() {
    let rows: Vec<(u16, &[usize])> = (0..ROWS as u16).map(|n| (n, &[][..])).collect();
    let session = Value::default();
    let mut most = planning(&session, &table(&rows));
    most.by = By::Passed(LARGEST);
    most.rooms[2] = FIELD_SIZE;
    assert_eq!(filter(&most), [ROWS as u64, 32, 64, FIELD_SIZE as u64]);
    most.rooms[2] = FIELD_SIZE - 1;
    assert_eq!(plan_answer(&most)[..2], [7, FIELD_SIZE as u64]);
    // Shared heads stand before it, and their rows aren't in it.
    most.session = Lent::laid(&Value {
        shared: hashes([1, 2]),
        ..session
    });
    most.rooms[2] = FIELD_SIZE + 64;
    assert_eq!(
        filter(&most),
        [ROWS as u64 - 2, 32, 64, FIELD_SIZE as u64 - 8]
    );
}

/// The crate's numbers, passed or from a list, are `bt_plan` in every word and byte.
#[test]
fn the_crates_numbers_are_bt_plan() {
    let ways = [
        By::Passed(OF_THE_CRATE),
        By::Settings {
            list: list(),
            station: 6,
            version: 9,
        },
        By::Settings {
            list: Vec::new(),
            station: 0,
            version: 0,
        },
    ];
    for by in ways {
        let one = unit(by);
        plan_answer(&one);
        assert_eq!(same_as_plan(&one), Ok(true));
    }
}
