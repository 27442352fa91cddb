//! Hurt tables salvaged: what is kept, which rule each dropped row broke, and the words and
//! bytes that tell it.

use bisquetower::limits::{DEPENDENCIES, HASH_SIZE, ROWS, TABLE_SIZE};
use bisquetower::refusal::grouped;
use bisquetower::{ChangeHash, Refusal, Rule, Salvaged, Table};
use std::collections::BTreeSet;
use std::ops::Range;

const ROW: usize = Table::ROW;

fn hash(name: u8) -> ChangeHash {
    ChangeHash([name; 32])
}

/// The records of rows, each named by its number from 1 on, and the rows that it depends on.
fn records(rows: &[&[usize]]) -> Vec<u8> {
    let name = |row: usize| hash(row as u8 + 1);
    Table::lay(rows.iter().enumerate().map(|(row, on)| {
        let on: Vec<ChangeHash> = on.iter().map(|&row| name(row)).collect();
        (name(row), on)
    }))
}

/// Sets a row's count (0) or one of its row numbers (from 1).
fn set(bytes: &mut [u8], row: usize, which: usize, number: u16) {
    bytes[field(row, which)].copy_from_slice(&number.to_le_bytes());
}

fn field(row: usize, which: usize) -> Range<usize> {
    let place = ROW * row + HASH_SIZE + 2 * which;
    place..place + 2
}

fn salvage(bytes: &[u8]) -> Salvaged {
    Table::salvage(bytes).expect("no refusal")
}

/// The dropped rows and their rules.
fn dropped(salvaged: &Salvaged) -> Vec<(usize, Rule)> {
    let report = salvaged.report.iter();
    report.map(|one| (one.row, one.rule)).collect()
}

/// That of this table one row is dropped by itself, for this rule, with this sentence and
/// these bytes of the table.
fn says(bytes: &[u8], row: usize, rule: Rule, sentence: &str, place: Range<usize>) {
    let salvaged = salvage(bytes);
    let first = salvaged.report[0];
    assert_eq!((first.row, first.rule), (row, rule), "{first}");
    assert_eq!(first.to_string(), sentence);
    let cause = first.cause().expect("a cause");
    assert_eq!(cause.to_string(), sentence);
    assert_eq!(cause.place(), Some(place), "{sentence}");
    assert_eq!(cause.captured(), None);
    // The table's own check names the same row, if it was the first.
    assert_eq!(Table::new(bytes), Err(Refusal::new(6, row as u64)));
}

#[test]
fn good_tables_come_out_as_they_went_in() {
    let tables: [&[&[usize]]; 4] = [
        &[],
        &[&[]],
        &[&[], &[0], &[0, 1], &[2]],
        &[&[], &[], &[], &[0, 1, 2]],
    ];
    for rows in tables {
        let bytes = records(rows);
        let salvaged = salvage(&bytes);
        assert!(salvaged.is_whole());
        assert_eq!(salvaged.table, Table::new(bytes.clone()).unwrap());
        assert_eq!(salvaged.table.as_bytes(), bytes);
        assert_eq!((dropped(&salvaged), salvaged.partial), (vec![], 0));
    }
}

#[test]
fn each_rule_in_words() {
    let good = records(&[&[], &[0], &[0, 1], &[1]]);
    let hurt = |change: &dyn Fn(&mut Vec<u8>)| {
        let mut bytes = good.clone();
        change(&mut bytes);
        bytes
    };
    let many = DEPENDENCIES as u16 + 1;
    says(
        &hurt(&|bytes| set(bytes, 2, 0, many)),
        2,
        Rule::Count,
        &format!("row 2 counts {many} dependencies; at most {DEPENDENCIES}"),
        field(2, 0),
    );
    says(
        &hurt(&|bytes| set(bytes, 2, 2, 2)),
        2,
        Rule::RowNumbers,
        "row 2 depends on row 2, which doesn't stand before it",
        field(2, 2),
    );
    says(
        &hurt(&|bytes| set(bytes, 2, 1, 1)),
        2,
        Rule::RowNumbers,
        "row 2 names row 1 after row 1; row numbers ascend",
        field(2, 2),
    );
    says(
        &hurt(&|bytes| set(bytes, 2, DEPENDENCIES, 256)),
        2,
        Rule::Zeros,
        "row 2 has 256 as a row number that isn't in use; those are 0",
        field(2, DEPENDENCIES),
    );
    says(
        &hurt(&|bytes| bytes.copy_within(ROW..ROW + HASH_SIZE, 3 * ROW)),
        3,
        Rule::RepeatedHash,
        "row 3 has the hash of row 1",
        3 * ROW..3 * ROW + HASH_SIZE,
    );
}

/// A row that is lost takes with it what depends on it; each names the first row that it
/// lost.
#[test]
fn lost_dependencies() {
    let mut bytes = records(&[&[], &[0], &[], &[1], &[2, 3], &[2]]);
    set(&mut bytes, 1, 9, 1);
    let salvaged = salvage(&bytes);
    let lost = Rule::LostDependency;
    assert_eq!(dropped(&salvaged), [(1, Rule::Zeros), (3, lost), (4, lost)]);
    let [_, third, fourth] = salvaged.report[..] else {
        panic!("{salvaged:?}");
    };
    assert_eq!(
        third.to_string(),
        "row 3 depends on row 1, which is dropped"
    );
    assert_eq!(
        fourth.to_string(),
        "row 4 depends on row 3, which is dropped"
    );
    assert_eq!(fourth.cause().unwrap().place(), Some(field(4, 2)));
    // Rows 0, 2 and 5 are rows 0, 1 and 2 of what is kept.
    let kept = [
        (hash(1), vec![]),
        (hash(3), vec![]),
        (hash(6), vec![hash(3)]),
    ];
    assert_eq!(salvaged.table, Table::from_changes(kept).unwrap());
    assert_eq!(salvaged.table.dependencies(2), [1]);
}

/// The hash of a row that was dropped may stand again; that of a kept row may not.
#[test]
fn repeated_hashes() {
    let mut bytes = records(&[&[], &[], &[], &[]]);
    bytes.copy_within(..HASH_SIZE, ROW);
    bytes.copy_within(..HASH_SIZE, 2 * ROW);
    set(&mut bytes, 0, 1, 5);
    let salvaged = salvage(&bytes);
    assert_eq!(
        dropped(&salvaged),
        [(0, Rule::Zeros), (2, Rule::RepeatedHash)]
    );
    assert_eq!(
        salvaged.report[1].to_string(),
        "row 2 has the hash of row 1"
    );
    assert_eq!(salvaged.table.hashes(), [hash(1), hash(4)]);
}

#[test]
fn every_cut() {
    let good = records(&[&[], &[0]]);
    for length in 0..=good.len() {
        let salvaged = salvage(&good[..length]);
        let whole = length / ROW;
        assert_eq!(salvaged.table.as_bytes(), &good[..whole * ROW]);
        assert_eq!(salvaged.partial, length % ROW);
        assert_eq!(salvaged.report, []);
        assert_eq!(salvaged.is_whole(), length % ROW == 0);
    }
}

/// The largest table, of which every row but the first is lost; and one byte more.
#[test]
fn the_largest_table() {
    let mut bytes = Vec::with_capacity(TABLE_SIZE);
    for row in 0..ROWS {
        bytes.extend((row as u64).to_le_bytes().repeat(4));
        bytes.resize((row + 1) * ROW, 0);
        if row > 0 {
            set(&mut bytes, row, 0, 1);
            set(&mut bytes, row, 1, row as u16 - 1);
        }
    }
    assert!(salvage(&bytes).is_whole());
    set(&mut bytes, 1, 1, 1);
    let salvaged = salvage(&bytes);
    assert_eq!(salvaged.table.rows(), 1);
    assert_eq!(salvaged.report.len(), ROWS - 1);
    let rules: BTreeSet<Rule> = salvaged.report.iter().map(|one| one.rule).collect();
    assert_eq!(
        Vec::from_iter(rules),
        [Rule::RowNumbers, Rule::LostDependency]
    );
    bytes.push(0);
    let long = Table::salvage(&bytes).unwrap_err();
    assert_eq!(long, Refusal::new(4, 0));
    let most = grouped(ROWS as u64);
    assert_eq!(
        long.sentence(),
        format!("the change table has more than {most} rows")
    );
}

#[test]
fn rules_have_numbers_and_words() {
    let numbers: Vec<u64> = Rule::ALL.iter().map(|rule| rule.number()).collect();
    assert_eq!(numbers, [1, 2, 3, 4, 5]);
    let words = Rule::ALL.iter().map(Rule::to_string);
    let names = Rule::ALL.iter().map(|rule| rule.name().to_string());
    let all: BTreeSet<String> = words.chain(names).collect();
    assert_eq!(all.len(), 2 * Rule::ALL.len());
}
