//! Catch-ups and tables.

use crate::{folder, run, run_with, samples, text};
use bisquetower::limits::ROWS;
use bisquetower::{ChangeHash, Filter, Table};
use std::fs;
use std::path::Path;

pub fn hash(n: u32) -> ChangeHash {
    let mut hash = [0x33; 32];
    for part in hash.chunks_mut(4).take(3) {
        part.copy_from_slice(&n.wrapping_mul(0x9e37_79b9).to_le_bytes());
    }
    ChangeHash(hash)
}

/// Changes, and the changes that each depends on.
pub type Rows = Vec<(ChangeHash, Vec<ChangeHash>)>;

/// These changes, each on the one before it.
pub fn chained(hashes: &[ChangeHash]) -> Rows {
    let below = hashes.windows(2).map(|two| vec![two[0]]);
    let below = std::iter::once(vec![]).chain(below);
    hashes.iter().copied().zip(below).collect()
}

/// A file with the table of these changes.
pub fn table(folder: &Path, name: &str, rows: Rows) -> String {
    let table = Table::from_changes(rows).unwrap();
    let path = folder.join(name);
    fs::write(&path, table.as_bytes()).unwrap();
    text(&path).to_string()
}

/// A file with the table of these changes, each on the one before it.
pub fn chain(folder: &Path, name: &str, numbers: &[u32]) -> String {
    let hashes: Vec<ChangeHash> = numbers.iter().copied().map(hash).collect();
    table(folder, name, chained(&hashes))
}

/// What stands behind a name in JSON, up to the end of its line.
pub fn value<'a>(json: &'a str, name: &str) -> &'a str {
    let mut lines = json.lines();
    let start = format!("  \"{name}\": ");
    let value = lines.find_map(|line| line.strip_prefix(&start));
    value.expect("the field").trim_end_matches(',')
}

/// The number behind a name in JSON.
pub fn field(json: &str, name: &str) -> usize {
    value(json, name).parse().expect("a number")
}

/// Filters as a station chose, and a station that takes no changes.
#[test]
fn a_station_talks_as_it_chose() {
    let here = folder("catch-up-settings");
    let rows: Vec<u32> = (1..=12).collect();
    let station = chain(&here, "station.table", &rows);
    let validator = chain(&here, "validator.table", &rows[..10]);
    let list = here.join("stations.settings");
    let list = text(&list);
    for set in ["bits=1,probes=1", "bits=32,probes=64", "read-only=on"] {
        run(&["settings", list, "--station", "4", "--set", set]).ended(0);
    }
    let words = ["catch-up", &station, &validator, "--settings", list];
    let talk = |at: &str| {
        let asked = ["--station", "4", "--at", at, "--json"];
        let shown = run(&[&words[..], &asked].concat()).ended(0).out;
        ["bits", "probes", "read_only", "proved"].map(|name| value(&shown, name).to_string())
    };
    assert_eq!(talk("0"), ["10", "7", "false", "true"]);
    assert_eq!(talk("1"), ["1", "1", "false", "true"]);
    assert_eq!(talk("2"), ["32", "64", "false", "true"]);
    assert_eq!(talk("3"), ["32", "64", "true", "false"]);
    let shown = run(&[&words[..], &["--station", "4"]].concat());
    let shown = shown.ended(0).out;
    let chosen = "Filters have 32 bits an entry and 64 probes; the station is read-only and takes no changes.\n";
    assert!(shown.contains(chosen), "{shown}");
    let promise = "m + 1 is 3, promised where both take changes, and the station doesn't.\n";
    assert!(shown.contains(promise), "{shown}");
    run(&words).ended(2);
}

/// The lines of a catch-up's rounds, word by word, below their heads.
fn rounds(shown: &str) -> Vec<Vec<String>> {
    let lines = shown
        .lines()
        .skip_while(|line| !line.contains("to validator"));
    let lines = lines.skip(1).take_while(|line| !line.is_empty());
    let words = |line: &str| line.split_whitespace().map(str::to_string).collect();
    lines.map(words).collect()
}

/// A row a round in the smallest budget that takes one; all of them in one that is large
/// enough; and what is left after each round is shown.
#[test]
fn a_catch_up_within_a_budget() {
    let here = folder("catch-up-budget");
    let all: Vec<u32> = (0..60).collect();
    let station = chain(&here, "station.table", &all);
    let validator = chain(&here, "validator.table", &all[..50]);
    let words = ["catch-up", &station, &validator];
    let within = |budget: &str| {
        let shown = run(&[&words[..], &["--budget", budget]].concat());
        shown.ended(0).out
    };
    // A change of the chain takes 70 bytes.
    let shown = within("70");
    let told = "Changes of a message take at most 70 bytes; the largest takes 70.\n";
    assert!(shown.contains(told), "{shown}");
    let lines = rounds(&shown);
    assert_eq!(lines.len(), 10, "{shown}");
    for (k, line) in lines.iter().enumerate() {
        // Round, held, asked, false yes, sent, left, waiting.
        let told = [&line[1], &line[4], &line[5], &line[6]];
        let expected = [50 + k, 1, 9 - k, 0].map(|n| n.to_string());
        assert_eq!(told, expected.each_ref(), "{shown}");
    }
    assert!(shown.contains("After 10 rounds the validator"), "{shown}");
    assert!(shown.contains("proved: at most 11 (m + 1)"), "{shown}");

    let lines = rounds(&within("350"));
    assert_eq!(lines.len(), 2);
    assert_eq!([&lines[0][4], &lines[0][5]], ["5", "5"]);
    assert_eq!([&lines[1][4], &lines[1][5]], ["5", "0"]);
    let lines = rounds(&within("349"));
    assert_eq!([&lines[0][4], &lines[0][5]], ["4", "6"]);
    let whole = within("700");
    assert_eq!(rounds(&whole).len(), 1);

    // Without one the column isn't there, and all else is the same.
    let plain = run(&words).ended(0).out;
    assert!(!plain.contains(" left "), "{plain}");
    let mut line = rounds(&whole).remove(0);
    assert_eq!(line.remove(5), "0");
    assert_eq!(rounds(&plain), [line]);

    let json = run(&[&words[..], &["--budget", "140", "--json"]].concat());
    let json = json.ended(0).out;
    assert_eq!(
        (field(&json, "budget"), field(&json, "largest_change")),
        (140, 70)
    );
    assert_eq!(value(&json, "proved"), "true", "{json}");
    let lefts: Vec<&str> = json.matches("\"left\": ").collect();
    assert_eq!(lefts.len(), 5, "{json}");
    assert!(
        json.contains("\"sent\": 2, \"body\": \"list\", \"left\": 8"),
        "{json}"
    );
    let json = run(&[&words[..], &["--json"]].concat()).ended(0).out;
    assert_eq!(value(&json, "budget"), "null");
}

/// docs/API.md shows what the command does.
#[test]
fn the_page_shows_the_sample_within_a_budget() {
    let [station, validator] = ["station.table", "validator.table"].map(|n| samples().join(n));
    let words = [
        "catch-up",
        text(&station),
        text(&validator),
        "--budget",
        "3000",
    ];
    let shown = run(&words).ended(0).out;
    let page = include_str!("../../../../docs/API.md");
    assert!(page.contains(&format!("```text\n{shown}```\n")), "{shown}");
}

/// A budget in which a change doesn't fit: the row never comes, and that is said. Where only
/// a row that is held doesn't fit, all of them come and nothing is proved.
#[test]
fn a_budget_that_is_too_small() {
    let here = folder("catch-up-too-small");
    let all: Vec<u32> = (0..20).collect();
    let station = chain(&here, "station.table", &all);
    let validator = chain(&here, "validator.table", &all[..17]);
    for budget in ["0", "69"] {
        let words = ["catch-up", &station, &validator, "--budget", budget];
        let failed = run(&words).ended(1);
        let told = format!("at most {budget} bytes; the largest takes 70.");
        assert!(failed.out.contains(&told), "{failed:?}");
        let ended = "both were still talking after 14 rounds, and of the 20 rows";
        assert!(failed.out.contains(ended), "{failed:?}");
        assert!(!failed.out.contains("proved"), "{failed:?}");
        let next = "give a budget that takes the largest change";
        assert!(failed.err.contains(next), "{failed:?}");
    }

    let mut rows = chained(&all.iter().copied().map(hash).collect::<Vec<_>>());
    rows[5].1.push(hash(2));
    let station = table(&here, "wide.table", rows.clone());
    rows.truncate(17);
    let validator = table(&here, "short.table", rows);
    let words = ["catch-up", &station, &validator, "--budget"];
    let shown = run(&[&words[..], &["70"]].concat()).ended(0).out;
    assert!(shown.contains("After 3 rounds the validator"), "{shown}");
    let promise = "m + 1 is 4, promised where every change fits the budget.\n";
    assert!(shown.contains(promise), "{shown}");
    let shown = run(&[&words[..], &["102"]].concat()).ended(0).out;
    assert!(shown.contains("proved: at most 4 (m + 1)"), "{shown}");
}

/// The document goes whole within any budget; numbers that aren't budgets are told.
#[test]
fn a_document_and_wrong_budgets() {
    let here = folder("catch-up-document-budget");
    let station = chain(&here, "station.table", &[1, 2, 3, 4]);
    let words = ["catch-up", &station, "-", "--budget"];
    let shown = run_with(&[&words[..], &["1"]].concat(), b"").ended(0).out;
    assert_eq!(rounds(&shown)[0][4..7], ["4", "document", "0"], "{shown}");
    for wrong in ["", "-1", "many", "1.5", "18446744073709551616"] {
        let told = run_with(&[&words[..], &[wrong]].concat(), b"").ended(2).err;
        assert!(told.contains("--budget wants a number"), "{told}");
    }
    run_with(&[&words[..], &["18446744073709551615"]].concat(), b"").ended(0);
}

/// Changes that no message holds together go in parts, without a budget too: here a document
/// of rows that depend on many.
#[test]
fn a_document_that_no_message_holds() {
    let here = folder("catch-up-large");
    let hashes: Vec<ChangeHash> = (0..1_500).map(hash).collect();
    let wide = |n: usize| hashes[n.saturating_sub(111)..n].to_vec();
    let rows = (0..1_500).map(|n| (hashes[n], wide(n)));
    let station = table(&here, "station.table", rows.collect());
    let words = ["catch-up", &station, "-"];
    let shown = run_with(&words, b"").ended(0).out;
    let lines = rounds(&shown);
    assert_eq!(lines.len(), 2, "{shown}");
    assert_eq!(lines[0][0..3], ["1", "0", "0"], "{shown}");
    let number = |text: &str| text.replace(',', "").parse::<usize>().unwrap();
    let [sent, left] = [4, 5].map(|k| number(&lines[0][k]));
    assert_eq!(sent + left, 1_500, "{shown}");
    assert!(number(&lines[0][8]) <= 4 << 20, "{shown}");
    assert_eq!(number(&lines[1][4]), left, "{shown}");
    let promise = "promised for replies by list, and the document went here";
    assert!(shown.contains(promise), "{shown}");
}

/// Three false yeses hide each other: a round for each, and the first.
#[test]
fn the_sample_takes_four_rounds() {
    let [station, validator] = ["station.table", "validator.table"].map(|n| samples().join(n));
    let svg = folder("catch-up-sample").join("rounds.svg");
    let words = [
        "catch-up",
        text(&station),
        text(&validator),
        "--svg",
        text(&svg),
    ];
    let shown = run(&words).ended(0).out;
    assert!(shown.contains("A station of 1,024 rows and a validator of 904, 120 short."));
    let rounds = "
round   held  asked  false yes  sent  waiting  to station  to validator
    1    904      0          7   117        1       1,401         9,572
    2  1,020      1          -     1        2       1,000         2,009
    3  1,020      1          -     1        3       1,000         2,009
    4  1,020      1          -     1        0       1,000         2,009
";
    assert!(shown.contains(rounds), "{shown}");
    assert!(shown.contains("After 4 rounds"), "{shown}");
    assert!(shown.contains("proved: at most 121 (m + 1)"), "{shown}");

    let drawn = fs::read_to_string(&svg).unwrap();
    assert!(drawn.starts_with("<svg ") && drawn.ends_with("</svg>\n"));
    for part in [
        "117 sent in the round",
        "3 waiting before",
        "round 3: 1 still missing",
    ] {
        assert!(drawn.contains(part), "{part}");
    }
    let again = run(&words).ended(2).err;
    assert!(again.contains("is there already"), "{again}");
    run(&[&words[..], &["--force"]].concat()).ended(0);
}

#[test]
fn json_says_the_same() {
    let folder = folder("catch-up-json");
    let all: Vec<u32> = (0..60).collect();
    let station = chain(&folder, "station.table", &all);
    let validator = chain(&folder, "validator.table", &all[..50]);
    let json = run(&["catch-up", &station, &validator, "--json"])
        .ended(0)
        .out;
    let numbers = ["station_rows", "validator_rows", "missing", "bound"].map(|n| field(&json, n));
    assert_eq!(numbers, [60, 50, 10, 11]);
    let took = field(&json, "took");
    assert!((1..=11).contains(&took), "{json}");
    assert_eq!(json.matches("\"held\"").count(), took);
    for (name, is) in [
        ("premises", "true"),
        ("contradict", "false"),
        ("differs", "null"),
        ("holds", "true"),
        ("proved", "true"),
        ("silent", "true"),
        ("station_holds", "60"),
        ("validator_holds", "60"),
    ] {
        assert_eq!(value(&json, name), is, "{name}: {json}");
    }
    let lines = run(&["catch-up", &station, &validator]).ended(0).out;
    assert!(lines.contains(&format!("After {took} round")), "{lines}");
}

/// The drawing goes to standard output in place of the lines, and not beside JSON.
#[test]
fn a_drawing_on_standard_output() {
    let folder = folder("catch-up-drawing");
    let station = chain(&folder, "station.table", &[1, 2, 3, 4, 5]);
    let validator = chain(&folder, "validator.table", &[1, 2, 3, 4]);
    let words = ["catch-up", &station, &validator, "--svg", "-"];
    let drawn = run(&words).ended(0).out;
    assert!(
        drawn.starts_with("<svg ") && drawn.ends_with("</svg>\n"),
        "{drawn}"
    );
    let file = folder.join("rounds.svg");
    run(&["catch-up", &station, &validator, "--svg", text(&file)]).ended(0);
    assert_eq!(fs::read_to_string(&file).unwrap(), drawn);
    let both = run(&[&words[..], &["--json"]].concat()).ended(2);
    assert!(
        both.err.contains("the JSON or the drawing, not both"),
        "{both:?}"
    );
    assert!(both.out.is_empty(), "{both:?}");

    let [station, validator] = past_a_gap(&folder, hash(57));
    let failed = run(&["catch-up", &station, &validator, "--svg", "-"]).ended(1);
    assert!(failed.out.starts_with("<svg "), "{failed:?}");
    assert!(failed.err.contains("contradict each other"), "{failed:?}");
}

/// Rows are compared by what they depend on, and not by their numbers.
#[test]
fn rows_may_stand_in_another_order() {
    let folder = folder("catch-up-order");
    let [a, b, c, d] = [1, 2, 3, 4].map(hash);
    let rows = vec![(a, vec![]), (b, vec![]), (c, vec![a, b]), (d, vec![c])];
    let station = table(&folder, "station.table", rows);
    let rows = vec![(b, vec![]), (a, vec![]), (c, vec![a, b])];
    let validator = table(&folder, "validator.table", rows);
    let json = run(&["catch-up", &station, &validator, "--json"])
        .ended(0)
        .out;
    assert_eq!(value(&json, "premises"), "true", "{json}");
    let shown = run(&["catch-up", &station, &validator]).ended(0).out;
    assert!(shown.contains("proved: at most 2 (m + 1)"), "{shown}");
}

/// A station's table of 100 rows in a line, of which row 57 has this hash, and that of a
/// validator without it, whose row 57 is the station's row 58 on its row 56.
pub fn past_a_gap(folder: &Path, row_57: ChangeHash) -> [String; 2] {
    let mut all: Vec<ChangeHash> = (0..100).map(hash).collect();
    all[57] = row_57;
    let station = table(folder, "station.table", chained(&all));
    all.remove(57);
    [station, table(folder, "validator.table", chained(&all))]
}

/// The validator's filter takes the row in the gap for held, so it never gets it: that the
/// station's table is held, or that anything is proved, isn't said.
#[test]
fn a_row_that_never_comes() {
    let held: Vec<ChangeHash> = (0..100).filter(|n| *n != 57).map(hash).collect();
    let filter = Filter::from_hashes(&held).unwrap();
    let tried: Vec<ChangeHash> = (1_000..3_000).map(hash).collect();
    let mut taken_for_held = tried.iter().zip(filter.contains_hashes(&tried));
    let (row_57, _) = taken_for_held.find(|(_, yes)| *yes).expect("a false yes");
    let folder = folder("catch-up-never");
    let [station, validator] = past_a_gap(&folder, *row_57);

    let ended = run(&["catch-up", &station, &validator]).ended(1);
    let shown = &ended.out;
    assert!(shown.contains("a validator of 99, 1 short."), "{shown}");
    let row = hash(58).to_string()[..16].to_string();
    let gap = row_57.to_string()[..16].to_string();
    let sentence = format!(
        "The tables contradict each other: row 57 of the validator's, {row}, doesn't depend on \
         {gap}, and row 58 of the station's, the same change, does."
    );
    assert!(shown.contains(&sentence), "{shown}");
    let holds = "of the 100 rows of both tables the station holds 100, the validator 99";
    assert!(shown.contains(holds), "{shown}");
    for claim in ["holds the station's table", "proved:"] {
        assert!(!shown.contains(claim), "{shown}");
    }
    assert!(
        ended.err.contains("at row 57 of the validator's"),
        "{ended:?}"
    );

    let json = run(&["catch-up", &station, &validator, "--json"])
        .ended(1)
        .out;
    for (name, is) in [
        ("missing", "1"),
        ("premises", "false"),
        ("contradict", "true"),
        ("bound", "null"),
        ("holds", "false"),
        ("proved", "false"),
        ("took", "null"),
        ("validator_holds", "99"),
    ] {
        assert_eq!(value(&json, name), is, "{name}: {json}");
    }
    let differs = format!(
        "{{\"row\": 57, \"hash\": \"{}\", \"how\": \"lacks\", \"station_row\": 58, \
         \"dependency\": \"{row_57}\"}}",
        hash(58)
    );
    assert_eq!(value(&json, "differs"), differs);
}

/// The row in the gap comes, and the units never agree on their heads.
#[test]
fn units_that_never_agree() {
    let folder = folder("catch-up-still-talking");
    let [station, validator] = past_a_gap(&folder, hash(57));
    let svg = folder.join("rounds.svg");
    let words = ["catch-up", &station, &validator, "--svg", text(&svg)];
    let shown = run(&words).ended(1).out;
    assert!(shown.contains("contradict each other: row 57"), "{shown}");
    assert!(
        shown.contains("both were still talking after 10 rounds"),
        "{shown}"
    );
    assert!(shown.contains("\n3 to 10 "), "{shown}");
    let drawn = fs::read_to_string(&svg).unwrap();
    let told = "The tables contradict each other at row 57 of the validator's";
    assert!(drawn.contains(told) && !drawn.contains("proved"), "{drawn}");
}

/// A dependency more than the station's row has.
#[test]
fn a_row_on_another_change_too() {
    let folder = folder("catch-up-adds");
    let hashes: Vec<ChangeHash> = (0..20).map(hash).collect();
    let station = table(&folder, "station.table", chained(&hashes));
    let mut rows = chained(&hashes);
    rows[12].1.push(hashes[3]);
    rows.truncate(15);
    let validator = table(&folder, "validator.table", rows);
    let shown = run(&["catch-up", &station, &validator]).ended(1).out;
    assert!(shown.contains("contradict each other: row 12"), "{shown}");
    assert!(!shown.contains("holds the station's table"), "{shown}");
    let json = run(&["catch-up", &station, &validator, "--json"])
        .ended(1)
        .out;
    assert!(
        value(&json, "differs").contains("\"how\": \"adds\""),
        "{json}"
    );
    assert_eq!(value(&json, "proved"), "false", "{json}");
}

#[test]
fn a_validator_that_lacks_nothing() {
    let folder = folder("catch-up-nothing");
    let table = chain(&folder, "both.table", &[1, 2, 3]);
    let shown = run(&["catch-up", &table, &table]).ended(0).out;
    assert!(shown.contains("After 0 rounds"), "{shown}");
    let json = run(&["catch-up", &table, &table, "--json"]).ended(0).out;
    assert!(json.contains("\"rounds\": []"), "{json}");
}

/// Every number of the lines has its thousands told apart, and none of the JSON.
#[test]
fn columns_of_large_numbers() {
    let station = samples().join("station.table");
    let words = ["catch-up", text(&station), "-"];
    let shown = run_with(&words, b"").ended(0).out;
    let columns = "
round  held  asked  false yes            sent  waiting  to station  to validator
    1     0      0          0  1,024 document        0          10        75,635
";
    assert!(shown.contains(columns), "{shown}");
    let json = run_with(&[&words[..], &["--json"]].concat(), b"");
    let json = json.ended(0).out;
    assert_eq!(field(&json, "station_rows"), 1_024, "{json}");
}

/// A validator without rows gets the whole document.
#[test]
fn a_validator_without_rows() {
    let folder = folder("catch-up-empty");
    let station = chain(&folder, "station.table", &[1, 2, 3, 4]);
    let shown = run_with(&["catch-up", &station, "-"], b"").ended(0).out;
    let columns = "
round  held  asked  false yes        sent  waiting  to station  to validator
    1     0      0          0  4 document        0 ";
    assert!(shown.contains(columns), "{shown}");
    assert!(shown.contains("After 1 round the"), "{shown}");
    assert!(
        shown.contains("m + 1 is 5, promised for replies by list"),
        "{shown}"
    );

    // A station without any sends its document too, so this isn't what is proved.
    let none = table(&folder, "none.table", vec![]);
    let shown = run_with(&["catch-up", &none, "-"], b"").ended(0).out;
    let told = "After 0 rounds the validator holds the station's table; m + 1 is 1, promised";
    assert!(shown.contains(told), "{shown}");
    let json = run_with(&["catch-up", &none, "-", "--json"], b"");
    let json = json.ended(0).out;
    for (name, is) in [("by_list", "false"), ("holds", "true"), ("proved", "false")] {
        assert_eq!(value(&json, name), is, "{name}: {json}");
    }
}

/// Where both lack rows, both get them, and no bound is told.
#[test]
fn a_validator_with_rows_of_its_own() {
    let folder = folder("catch-up-foreign");
    let station = chain(&folder, "station.table", &[1, 2, 3, 4, 5, 6, 7, 8, 9, 10]);
    let validator = chain(
        &folder,
        "validator.table",
        &[1, 2, 3, 4, 5, 6, 7, 8, 9, 20, 21],
    );
    let shown = run(&["catch-up", &station, &validator]).ended(0).out;
    assert!(
        shown.contains("a validator of 11, 1 short and with 2 of its own."),
        "{shown}"
    );
    assert!(shown.contains("both ends hold 12 rows"), "{shown}");
    assert!(
        shown.contains("m + 1 isn't promised here: the validator held 2 rows"),
        "{shown}"
    );
    let json = run(&["catch-up", &station, &validator, "--json"])
        .ended(0)
        .out;
    for (name, is) in [
        ("premises", "false"),
        ("contradict", "false"),
        ("bound", "null"),
        ("holds", "true"),
        ("proved", "false"),
        ("station_holds", "12"),
        ("validator_holds", "12"),
    ] {
        assert_eq!(value(&json, name), is, "{name}: {json}");
    }
    assert!(value(&json, "differs").contains("\"row\": 9, "), "{json}");
}

/// What the station takes is talked about too.
#[test]
fn a_validator_that_alone_has_news() {
    let folder = folder("catch-up-ahead");
    let station = chain(&folder, "station.table", &[1, 2, 3, 4]);
    let validator = chain(&folder, "validator.table", &[1, 2, 3, 4, 5]);
    let shown = run(&["catch-up", &station, &validator]).ended(0).out;
    assert!(shown.contains("0 short and with 1 of its own."), "{shown}");
    assert!(shown.contains("rounds both ends hold 5 rows"), "{shown}");
}

#[test]
fn bad_tables_are_refused() {
    let folder = folder("catch-up-bad");
    let good = chain(&folder, "good.table", &[1, 2]);
    let bad = run_with(&["catch-up", &good, "-"], &[0; 63]).ended(1).err;
    assert!(
        bad.contains("-, read as a change table: refusal 6, value 0"),
        "{bad}"
    );
    run(&["catch-up", "-", "-"]).ended(2);
    run(&["catch-up", &good]).ended(2);
}

/// Units that would pass the most rows together are refused, and not stopped half-way
/// without a word.
#[test]
fn too_many_rows_together() {
    let folder = folder("catch-up-many");
    let most = u32::try_from(ROWS).unwrap();
    let station: Vec<u32> = (0..most - 24).collect();
    let validator: Vec<u32> = (0..most - 224).chain(2 * most..2 * most + 200).collect();
    let station = chain(&folder, "station.table", &station);
    let validator = chain(&folder, "validator.table", &validator);
    let refused = run(&["catch-up", &station, &validator]).ended(1).err;
    assert!(refused.contains("refusal 4"), "{refused}");
}

#[test]
fn what_a_table_is() {
    let folder = folder("table");
    let path = chain(&folder, "four.table", &[1, 2, 3, 4]);
    let shown = run(&["table", &path]).ended(0).out;
    assert!(shown.contains("a good change table"), "{shown}");
    let words: Vec<&str> = shown.split_whitespace().collect();
    let shown = words.join(" ");
    for part in [
        "rows 4",
        "heads 1",
        "widest 1 depends on 1 row",
        "deepest 3 the longest way down passes 3 rows",
        "first bad row none",
    ] {
        assert!(shown.contains(part), "{part}: {shown}");
    }
    let sample = run(&["table", text(&samples().join("station.table"))]);
    let sample = sample.ended(0).out;
    assert!(sample.contains("64  depends on 3 rows"), "{sample}");
    assert!(
        sample.contains("994  the longest way down passes 117 rows"),
        "{sample}"
    );
    let none = run_with(&["table", "-"], b"").ended(0).out;
    assert!(none.contains("rows              0"), "{none}");
}

/// Of a bad table the rows before the bad one are shown.
#[test]
fn the_first_bad_row() {
    let bad = run(&["table", text(&samples().join("bad-row.table"))]).ended(1);
    assert!(bad.out.contains("first bad row  700"), "{bad:?}");
    assert!(bad.err.contains("refusal 6, value 700"), "{bad:?}");
}
