//! Hurt tables: what is kept, what is told of the rest, and what is written over.

use crate::{folder, run, run_with, samples, text, Run};
use bisquetower::limits::{OLD_ROW_SIZE, TABLE_SIZE};
use bisquetower::{ChangeHash, Refusal, Table};
use std::fs;
use std::path::{Path, PathBuf};

fn hash(name: u8) -> ChangeHash {
    ChangeHash([name; 32])
}

/// A table of eight rows: two on none, and six on the rows before them.
fn good() -> Table {
    let on: [&[u8]; 8] = [&[], &[1], &[], &[2], &[1], &[3], &[1, 5], &[4]];
    let rows = on.iter().zip(1..);
    Table::from_changes(rows.map(|(on, name)| {
        let on: Vec<ChangeHash> = on.iter().map(|&name| hash(name)).collect();
        (hash(name), on)
    }))
    .expect("a good table")
}

/// The same, of which each rule is broken once, with the beginning of a ninth row.
fn hurt() -> Vec<u8> {
    let mut bytes = good().as_bytes().to_vec();
    let mut put = |row: usize, place: usize, new: &[u8]| {
        bytes[Table::ROW * row + place..][..new.len()].copy_from_slice(new);
    };
    put(1, 32, &[112]);
    put(4, 34, &[0xe8, 3]);
    put(5, 254, &[0, 1]);
    put(6, 0, &[1; 32]);
    put(6, 32, &[1, 0, 0, 0, 0, 0]);
    bytes.extend([7; 100]);
    bytes
}

/// A folder with a file of these bytes, and the name of one that isn't there.
fn files(name: &str, bytes: &[u8]) -> (PathBuf, PathBuf) {
    let folder = folder(name);
    let (table, out) = (folder.join("hurt.table"), folder.join("kept.table"));
    fs::write(&table, bytes).unwrap();
    (table, out)
}

fn salvage(from: &Path, to: &Path, words: &[&str]) -> Run {
    run(&[&["salvage", text(from), text(to)], words].concat())
}

const LINES: &str = "\
row 1 counts 112 dependencies; at most 111 (count 70 00 at place 288)
row 3 depends on row 1, which is dropped (number 01 00 at place 802)
row 4 depends on row 1,000, which doesn't stand before it (number e8 03 at place 1,058)
row 5 has 256 as a row number that isn't in use; those are 0 (number 00 01 at place 1,534)
row 6 has the hash of row 0 (hash 0101010101010101 at place 1,536)
row 7 depends on row 3, which is dropped (number 03 00 at place 1,826)
";

const COUNTS: &str = "  rows kept          2
  rows dropped       6
  count              1  more dependencies are counted than a row has room for
  row numbers        1  its row numbers don't ascend, or one isn't less than its own
  zeros              1  what isn't in use isn't zero
  repeated hash      1  an earlier kept row has its hash
  lost dependency    2  it depends on a row that is dropped
  partial row      100  bytes of a last row that isn't whole
Next: have the unit catch up with its station from these rows: it is sent what is missing.
";

fn summary(from: &Path, to: &Path) -> String {
    let (from, to) = (text(from), text(to));
    format!("{to}: what is kept of {from}\n{COUNTS}")
}

#[test]
fn a_hurt_table() {
    let (table, out) = files("salvage", &hurt());
    let shown = salvage(&table, &out, &[]).ended(0).out;
    assert_eq!(shown, format!("{LINES}{}", summary(&table, &out)));
    let kept = Table::new(fs::read(&out).unwrap()).unwrap();
    assert_eq!(kept.hashes(), [hash(1), hash(3)]);
    assert_eq!(fs::read(&table).unwrap(), hurt());
    // docs/API.md has these lines too.
    let page = Path::new(env!("CARGO_MANIFEST_DIR")).join("../../docs/API.md");
    let page = fs::read_to_string(page).unwrap();
    assert!(page.contains(LINES) && page.contains(COUNTS));
    // What was kept is salvaged as it is.
    let again = table.with_file_name("again.table");
    let shown = salvage(&out, &again, &[]).ended(0).out;
    assert!(shown.contains("Nothing was hurt"), "{shown}");
    assert_eq!(fs::read(&again).unwrap(), kept.as_bytes());
    // The bytes may come from standard input.
    let from_input = table.with_file_name("input.table");
    let shown = run_with(&["salvage", "-", text(&from_input)], &hurt()).ended(0);
    assert!(shown.out.starts_with(LINES), "{shown:?}");
    assert_eq!(fs::read(&from_input).unwrap(), kept.as_bytes());
}

#[test]
fn a_report_of_its_own() {
    let (table, out) = files("salvage-report", &hurt());
    let report = table.with_file_name("report.txt");
    let shown = salvage(&table, &out, &["--report", text(&report)]).ended(0);
    assert_eq!(shown.out, summary(&table, &out));
    assert_eq!(fs::read_to_string(&report).unwrap(), LINES);
    let (words, json) = (["--json", "--force"], table.with_file_name("report.json"));
    let shown = salvage(&table, &out, &words).ended(0).out;
    for part in [
        "\"kept\": 2,\n",
        "\"dropped\": 6,\n",
        "\"partial\": 100,\n",
        "\"widened\": false,\n",
        "\"rules\": {\"count\": 1, \"row numbers\": 1, \"zeros\": 1, \"repeated hash\": 1, \"lost dependency\": 2},\n",
        "{\"row\": 1, \"rule\": 1, \"broke\": \"count\", \"why\": \"row 1 counts 112 dependencies; at most 111\", \"place\": 288, \"bytes\": \"7000\"},\n",
        &format!("\"place\": 1536, \"bytes\": \"{}\"}},\n", "01".repeat(32)),
    ] {
        assert!(shown.contains(part), "{part}: {shown}");
    }
    // The same goes to a file.
    let words = [&words[..], &["--report", text(&json)]].concat();
    let told = salvage(&table, &out, &words).ended(0).out;
    assert_eq!(told, summary(&table, &out));
    assert_eq!(fs::read_to_string(&json).unwrap(), shown);
}

/// Good tables come out byte for byte, and so does one without rows.
#[test]
fn good_tables() {
    for bytes in [good().as_bytes(), &[]] {
        let (table, out) = files("salvage-good", bytes);
        let shown = salvage(&table, &out, &[]).ended(0).out;
        assert!(shown.ends_with("every row is kept as it is.\n"), "{shown}");
        assert_eq!(fs::read(&out).unwrap(), bytes);
    }
}

#[test]
fn nothing_is_written_over() {
    let (table, out) = files("salvage-over", &hurt());
    let report = table.with_file_name("report.txt");
    fs::write(&out, b"mine").unwrap();
    let there = |run: Run| {
        assert!(run.err.contains("is there already"), "{run:?}");
        assert!(run.out.is_empty(), "{run:?}");
    };
    there(salvage(&table, &out, &[]).ended(2));
    assert_eq!(fs::read(&out).unwrap(), b"mine");
    salvage(&table, &out, &["--force"]).ended(0);
    assert_eq!(fs::read(&out).unwrap().len(), 2 * Table::ROW);
    // Nor is the report; and then nothing else is written either.
    fs::write(&report, b"mine").unwrap();
    let other = table.with_file_name("other.table");
    there(salvage(&table, &other, &["--report", text(&report)]).ended(2));
    assert!(!other.exists());
    assert_eq!(fs::read(&report).unwrap(), b"mine");
    // Nothing stays beside what was written.
    let names = fs::read_dir(table.parent().unwrap()).unwrap();
    assert_eq!(names.count(), 3);
}

/// The hurt table stays, by whatever name, and so does what it was salvaged to.
#[test]
fn the_hurt_table_stays() {
    let (table, out) = files("salvage-stays", &hurt());
    let link = table.with_file_name("link.table");
    std::os::unix::fs::symlink(&table, &link).unwrap();
    let below = table.parent().unwrap().join("../salvage-stays/hurt.table");
    for to in [&table, &link, &below] {
        for words in [
            vec!["salvage", text(&table), text(to), "--force"],
            vec!["salvage", text(to), text(&table), "--force"],
            vec![
                "salvage",
                text(&table),
                text(&out),
                "--force",
                "--report",
                text(to),
            ],
        ] {
            let refused = run(&words).ended(2);
            assert!(refused.err.contains("is the hurt table"), "{refused:?}");
        }
    }
    let words = ["--force", "--report", text(&out)];
    let refused = salvage(&table, &out, &words).ended(2);
    assert!(refused.err.contains("are two files"), "{refused:?}");
    assert_eq!(fs::read(&table).unwrap(), hurt());
    assert!(!out.exists());
}

#[test]
fn what_cant_be_salvaged() {
    let (table, out) = files("salvage-long", &vec![0; TABLE_SIZE + 1]);
    let refused = salvage(&table, &out, &[]).ended(1);
    let told = "refusal 4, value 0: the change table has more than 8,192 rows";
    assert!(refused.err.contains(told), "{refused:?}");
    assert!(!out.exists());
    run(&["salvage", text(&table)]).ended(2);
    let missing = table.with_file_name("missing.table");
    salvage(&missing, &out, &[]).ended(2);
    let nowhere = table.with_file_name("nowhere").join("kept.table");
    fs::write(&table, hurt()).unwrap();
    let refused = salvage(&table, &nowhere, &[]).ended(2);
    assert!(refused.err.contains("can't be written"), "{refused:?}");
}

/// Rows of before are widened, good or hurt, and what is told of a hurt one counts in the
/// file's own rows.
#[test]
fn rows_of_before() {
    let old = good().to_old().unwrap();
    let (table, out) = files("salvage-old", &old);
    let shown = salvage(&table, &out, &[]).ended(0).out;
    assert!(shown.contains("rows of 64 bytes"), "{shown}");
    assert!(shown.contains("Nothing was hurt"), "{shown}");
    assert_eq!(fs::read(&out).unwrap(), good().as_bytes());
    let json = salvage(&table, &out, &["--json", "--force"]).ended(0).out;
    assert!(json.contains("\"widened\": true"), "{json}");

    let mut bad = old.clone();
    bad[OLD_ROW_SIZE * 5 + 32] = 16;
    bad.extend([7; 20]);
    fs::write(&table, &bad).unwrap();
    let shown = salvage(&table, &out, &["--force"]).ended(0).out;
    assert!(shown.starts_with("row 5 "), "{shown}");
    assert!(shown.contains("rows of 64 bytes"), "{shown}");
    let kept = Table::new(fs::read(&out).unwrap()).unwrap();
    assert_eq!(
        &kept.as_bytes()[..5 * Table::ROW],
        &good().as_bytes()[..5 * Table::ROW]
    );
    let json = salvage(&table, &out, &["--json", "--force"]).ended(0).out;
    assert!(json.contains("\"partial\": 20"), "{json}");

    // Hurt from its first row on, a table isn't known to be of before unless that is said.
    bad[32] = 1;
    fs::write(&table, &bad).unwrap();
    let shown = salvage(&table, &out, &["--old", "--force"]).ended(0).out;
    let place = OLD_ROW_SIZE - 2 * 15;
    assert!(
        shown.starts_with(&format!(
            "row 0 depends on row 0, which doesn't stand before it (number 00 00 at place {place})"
        )),
        "{shown}"
    );
}

/// A hurt row of now that can be read as four rows of before is still one of now.
#[test]
fn rows_of_now_that_look_old() {
    let mut bytes = good().as_bytes().to_vec();
    (bytes[64], bytes[192]) = (1, 2);
    assert_eq!(Table::from_old(&bytes), Err(Refusal::new(6, 5)));
    let (table, out) = files("salvage-looks-old", &bytes);
    let bad = run(&["table", text(&table)]).ended(1);
    assert!(
        bad.out.contains("zeros: what isn't in use isn't zero"),
        "{bad:?}"
    );
    let shown = salvage(&table, &out, &[]).ended(0).out;
    assert!(shown.starts_with("row 0 has 1 as a row number"), "{shown}");
    assert_eq!(Table::new(fs::read(&out).unwrap()).unwrap().rows(), 2);
}

/// A bad table's first bad row is named with its rule, and what is offered works; then the
/// unit catches up from what was kept.
#[test]
fn offered_and_then_caught_up() {
    let folder = folder("salvage-offered");
    let out = folder.join("kept.table");
    let sample = |name: &str| samples().join(name);
    for (name, rule, kept) in [
        (
            "bad-row.table",
            "repeated hash: an earlier kept row has its hash",
            "982",
        ),
        ("cut.table", "it isn't whole", "1,023"),
    ] {
        let table = sample(name);
        let bad = run(&["table", text(&table)]).ended(1);
        assert!(bad.out.contains(rule), "{bad:?}");
        let offer = format!(
            "`bisquetower salvage {} OUT` keeps {kept} rows",
            text(&table)
        );
        assert!(bad.err.contains(&offer), "{bad:?}");
        salvage(&table, &out, &["--force"]).ended(0);
        let station = sample("station.table");
        let caught_up = run(&["catch-up", text(&station), text(&out)]).ended(0).out;
        assert!(
            caught_up.contains("holds the station's table; proved"),
            "{caught_up}"
        );
    }
    // Of rows of before nothing is offered.
    let old = folder.join("old.table");
    let mut bytes = good().to_old().unwrap();
    bytes[OLD_ROW_SIZE * 5 + 32] = 16;
    fs::write(&old, bytes).unwrap();
    let bad = run(&["table", text(&old)]).ended(1);
    assert!(!bad.err.contains("bisquetower salvage"), "{bad:?}");
}
