//! Tables with rows of before M-106: converted both ways, recognised, and read as they are.

use crate::{folder, run, samples, text};
use bisquetower::limits::{OLD_DEPENDENCIES, OLD_ROWS, OLD_ROW_SIZE};
use bisquetower::{ChangeHash, Table};
use std::fs;

fn hash(n: usize) -> ChangeHash {
    let mut hash = [0x5a; 32];
    hash[..8].copy_from_slice(&(n as u64).to_be_bytes());
    ChangeHash(hash)
}

/// A table whose last row depends on the `count` rows before it.
fn merged(rows: usize, count: usize) -> Table {
    let changes = (0..rows).map(|row| match row == rows - 1 {
        true => (hash(row), (row - count..row).map(hash).collect()),
        false => (hash(row), vec![]),
    });
    Table::from_changes(changes).expect("a good table")
}

#[test]
fn there_and_back() {
    let folder = folder("convert");
    let [old, new] = ["old.table", "new.table"].map(|name| folder.join(name));
    let station = samples().join("station.table");
    let told = run(&["convert", text(&station), text(&old), "--to-old"]).ended(0);
    assert!(
        told.out
            .contains("1,024 rows of 64 bytes, from rows of 256 bytes"),
        "{told:?}"
    );
    assert_eq!(fs::read(&old).unwrap().len(), 1_024 * OLD_ROW_SIZE);
    let told = run(&["convert", text(&old), text(&new)]).ended(0);
    assert!(
        told.out
            .contains("1,024 rows of 256 bytes, from rows of 64 bytes"),
        "{told:?}"
    );
    assert_eq!(fs::read(&new).unwrap(), fs::read(&station).unwrap());
    // What is there stays.
    let again = run(&["convert", text(&old), text(&new)]).ended(2);
    assert!(again.err.contains("is there already"), "{again:?}");
    run(&["convert", text(&old), text(&new), "--force"]).ended(0);
}

#[test]
fn old_tables_are_read() {
    let folder = folder("convert-read");
    let old = folder.join("old.table");
    let [station, validator] =
        ["station.table", "validator.table"].map(|name| samples().join(name));
    run(&["convert", text(&station), text(&old), "--to-old"]).ended(0);
    for command in ["table", "inspect"] {
        let shown = run(&[command, text(&old)]).ended(0).out;
        assert!(
            shown.contains("rows of 64 bytes as they were before"),
            "{shown}"
        );
        assert!(shown.contains("1,024"), "{shown}");
    }
    let shown = run(&["table", text(&station)]).ended(0).out;
    assert!(!shown.contains("before;"), "{shown}");
    let by_old = run(&["catch-up", text(&old), text(&validator)])
        .ended(0)
        .out;
    assert_eq!(
        by_old,
        run(&["catch-up", text(&station), text(&validator)])
            .ended(0)
            .out
    );
    // Its kind is told without a name too.
    let bare = folder.join("bare");
    fs::copy(&old, &bare).unwrap();
    let shown = run(&["inspect", text(&bare)]).ended(0).out;
    assert!(
        shown.contains("rows of 64 bytes as they were before"),
        "{shown}"
    );
}

#[test]
fn a_bad_row_of_before() {
    let folder = folder("convert-bad");
    let [old, new] = ["old.table", "new.table"].map(|name| folder.join(name));
    let mut bytes = merged(20, 3).to_old().unwrap();
    bytes[OLD_ROW_SIZE * 7 + 32] = OLD_DEPENDENCIES as u8 + 1;
    fs::write(&old, &bytes).unwrap();
    for words in [
        vec!["table", text(&old)],
        vec!["convert", text(&old), text(&new)],
    ] {
        let run = run(&words).ended(1);
        let told =
            "refusal 6, value 7: row 7 of the change table counts 16 dependencies; at most 15";
        assert!(
            run.err.contains(told) && run.err.contains("places 480 to 481"),
            "{run:?}"
        );
    }
    assert!(!new.exists());
}

#[test]
fn what_old_rows_have_no_room_for() {
    let folder = folder("convert-wide");
    let [wide, many, out] = ["wide.table", "many.table", "out.table"].map(|name| folder.join(name));
    fs::write(&wide, merged(40, OLD_DEPENDENCIES + 1).as_bytes()).unwrap();
    let run_on = |file| run(&["convert", text(file), text(&out), "--to-old"]).ended(1);
    let refused = run_on(&wide);
    let told = "refusal 13, value 39: row 39 has 16 dependencies; a row of before has room for 15";
    assert!(refused.err.contains(told), "{refused:?}");
    fs::write(&many, merged(OLD_ROWS + 1, OLD_DEPENDENCIES + 1).as_bytes()).unwrap();
    let refused = run_on(&many);
    let told = "refusal 4, value 0: the change table has more than 1,024 rows";
    assert!(refused.err.contains(told), "{refused:?}");
    assert!(!out.exists());
}

#[test]
fn rows_that_are_so_already() {
    let folder = folder("convert-already");
    let [old, new, none, out] = ["old", "new", "none", "out"].map(|name| folder.join(name));
    let table = merged(5, 2);
    fs::write(&new, table.as_bytes()).unwrap();
    fs::write(&old, table.to_old().unwrap()).unwrap();
    fs::write(&none, b"").unwrap();
    let already = run(&["convert", text(&new), text(&out)]).ended(1);
    assert!(
        already.err.contains("has rows of 256 bytes already"),
        "{already:?}"
    );
    let already = run(&["convert", text(&old), text(&out), "--to-old"]).ended(1);
    assert!(
        already.err.contains("has rows of 64 bytes already"),
        "{already:?}"
    );
    assert!(!out.exists());
    // A table without rows is one of both.
    run(&["convert", text(&none), text(&out)]).ended(0);
    run(&["convert", text(&none), text(&out), "--to-old", "--force"]).ended(0);
    assert_eq!(fs::read(&out).unwrap(), b"");
}
