//! `catch-up --both`: two ends that each have news.

use crate::catch_up::{chain, field, hash, past_a_gap, table, value, Rows};
use crate::count::well_formed;
use crate::{folder, run, run_with, text, Run};
use bisquetower::ChangeHash;
use std::fs;
use std::path::{Path, PathBuf};
use std::sync::OnceLock;

/// The sample of two tables with news at both ends.
fn sample() -> [String; 2] {
    static SAMPLE: OnceLock<PathBuf> = OnceLock::new();
    let folder = SAMPLE.get_or_init(|| {
        let folder = folder("both-sample");
        let told = run(&["sample", "--both", text(&folder)]).ended(0).out;
        assert!(told.contains("bisquetower catch-up --both "), "{told}");
        folder
    });
    ["station.table", "validator.table"].map(|name| text(&folder.join(name)).to_string())
}

fn both(tables: &[String; 2], more: &[&str]) -> Run {
    let [station, validator] = tables;
    run(&[&["catch-up", "--both", station, validator], more].concat())
}

/// A hash that any filter takes for held which has another of them.
fn alike(n: u8) -> ChangeHash {
    let mut hash = [0x44; 32];
    hash[31] = n;
    ChangeHash(hash)
}

/// A station and a validator of a chain that forks behind three rows: the validator lacks
/// `j` rows and the station `k`, all of them hidden.
fn forked(folder: &Path, j: u8, k: u8) -> [String; 2] {
    let branch = |from: u8, rows: u8| {
        let names = (0..3).chain(from..from + rows).map(alike);
        let below = (0..3).chain(from..from + rows.saturating_sub(1)).map(alike);
        let below = below.map(|hash| vec![hash]);
        let mut below: Vec<Vec<ChangeHash>> = std::iter::once(vec![]).chain(below).collect();
        if rows > 0 {
            // The first row of a branch is on the last that both hold.
            below[3] = vec![alike(2)];
        }
        names.zip(below).collect::<Rows>()
    };
    [("station", branch(10, j)), ("validator", branch(60, k))]
        .map(|(name, rows)| table(folder, &format!("{name}-{j}-{k}.table"), rows))
}

/// What docs/PROTOCOL.md shows of the sample is what the command does; the three hidden rows
/// at each end come one an exchange, the station's first as it speaks second.
#[test]
fn the_page_shows_the_sample() {
    let shown = both(&sample(), &[]).ended(0).out;
    let page = include_str!("../../../../docs/PROTOCOL.md");
    assert!(page.contains(&format!("```text\n{shown}```\n")), "{shown}");
    assert!(shown.contains("After 5 exchanges both ends hold 1,072 rows"));
    assert!(shown.contains("proved: at most 121 (max(j, k) + 1)."));
}

/// docs/both.svg is what is drawn of the sample.
#[test]
fn the_drawing_of_the_pages() {
    let page = Path::new(env!("CARGO_MANIFEST_DIR")).join("../../docs/both.svg");
    let drawn = both(&sample(), &["--svg", "-"]).ended(0).out;
    well_formed(&drawn);
    assert_eq!(fs::read_to_string(page).unwrap(), drawn);
}

/// Chains that are hidden whole take just the bound, whichever end lacks more. Each end names
/// as many rows as the other one lacked.
#[test]
fn hidden_chains_take_the_bound() {
    let folder = folder("both-hidden");
    for (j, k) in [(1, 0), (0, 1), (1, 1), (2, 5), (5, 2), (12, 12), (20, 3)] {
        let tables = forked(&folder, j, k);
        let (most, j, k) = (usize::from(j.max(k)), j.into(), k.into());
        let json = both(&tables, &["--json"]).ended(0).out;
        let names = ["validator_lacked", "station_lacked", "bound", "took"];
        assert_eq!(
            names.map(|name| field(&json, name)),
            [j, k, most + 1, most + 1]
        );
        for (name, is) in [("by_list", "true"), ("proved", "true"), ("silent", "true")] {
            assert_eq!(value(&json, name), is, "{name}: {json}");
        }
        let sent = |end: &str| -> usize {
            let start = format!("\"{end}\": {{");
            let turns = json.split(&start).skip(1);
            let sent = turns.map(|turn| turn.split("\"sent\": ").nth(1).expect("sent"));
            let numbers = sent.map(|rest| rest.split(',').next().expect("a number"));
            numbers.map(|n| n.parse::<usize>().unwrap()).sum()
        };
        assert_eq!([sent("validator"), sent("station")], [k, j], "{json}");
        let shown = both(&tables, &[]).ended(0).out;
        let count = format!(
            "After {} exchanges both ends hold {} rows",
            most + 1,
            3 + j + k
        );
        assert!(shown.contains(&count), "{shown}");
        let bound = format!("proved: at most {} (max(j, k) + 1).", most + 1);
        assert!(shown.contains(&bound), "{shown}");
        well_formed(&both(&tables, &["--svg", "-"]).ended(0).out);
    }
}

/// The first speaker knows nothing of the other in its first message: it asks for nothing
/// and sends nothing.
#[test]
fn the_first_message_names_nothing() {
    let json = both(&sample(), &["--json"]).ended(0).out;
    let first = "{\"validator\": {\"held\": 952, \"asked\": 0, ";
    assert!(json.contains(first), "{json}");
    let line = json.lines().find(|line| line.contains(first)).unwrap();
    let (validator, station) = line.split_once("\"station\": ").unwrap();
    assert!(
        validator.contains("\"sent\": 0, \"body\": \"list\""),
        "{line}"
    );
    assert!(station.contains("\"asked\": 12, "), "{line}");
    assert!(station.contains("\"sent\": 117, "), "{line}");
    let numbers = ["station_rows", "validator_rows", "joint_rows"].map(|n| field(&json, n));
    assert_eq!(numbers, [1_024, 952, 1_072]);
    assert_eq!(json.matches("\"station\": {").count(), field(&json, "took"));
}

/// An end without rows gets the document, and then nothing is promised.
#[test]
fn an_end_without_rows() {
    let folder = folder("both-empty");
    let four = chain(&folder, "four.table", &[1, 2, 3, 4]);
    let none = table(&folder, "none.table", vec![]);
    for tables in [[&four, &none], [&none, &four]] {
        let tables = tables.map(String::clone);
        let shown = both(&tables, &[]).ended(0).out;
        assert!(shown.contains(" 4 document "), "{shown}");
        assert!(shown.contains("both ends hold 4 rows"), "{shown}");
        let promise = "max(j, k) + 1 is 5, promised for lists of changes, and a document went";
        assert!(shown.contains(promise), "{shown}");
        let json = both(&tables, &["--json"]).ended(0).out;
        for (name, is) in [
            ("by_list", "false"),
            ("proved", "false"),
            ("joint_rows", "4"),
        ] {
            assert_eq!(value(&json, name), is, "{name}: {json}");
        }
        well_formed(&both(&tables, &["--svg", "-"]).ended(0).out);
    }
    let both_empty = both(&[none.clone(), none], &[]).ended(0).out;
    assert!(
        both_empty.contains("After 0 exchanges both ends hold 0 rows"),
        "{both_empty}"
    );
}

#[test]
fn ends_that_lack_nothing() {
    let folder = folder("both-nothing");
    let one = chain(&folder, "both.table", &[1, 2, 3]);
    let tables = [one.clone(), one];
    let shown = both(&tables, &[]).ended(0).out;
    assert!(
        shown.contains("After 0 exchanges both ends hold 3 rows"),
        "{shown}"
    );
    assert!(
        shown.contains("proved: at most 1 (max(j, k) + 1)"),
        "{shown}"
    );
    let json = both(&tables, &["--json"]).ended(0).out;
    assert!(json.contains("\"exchanges\": []"), "{json}");
    well_formed(&both(&tables, &["--svg", "-"]).ended(0).out);
}

/// Of tables that contradict each other the row is told, and nothing is tried.
#[test]
fn tables_that_disagree() {
    let folder = folder("both-disagree");
    let tables = past_a_gap(&folder, hash(57));
    for more in [&[][..], &["--json"], &["--svg", "-"]] {
        let failed = both(&tables, more).ended(1);
        assert!(failed.out.is_empty(), "{failed:?}");
        let told = "the tables contradict each other: row 57 of the validator's, ";
        assert!(failed.err.contains(told), "{failed:?}");
        assert!(
            failed.err.contains("find out which table is wrong"),
            "{failed:?}"
        );
    }
}

/// Within a budget both send in parts; one in which a change doesn't fit is told.
#[test]
fn both_within_a_budget() {
    let within = |budget| both(&sample(), &["--budget", budget]);
    let shown = within("2000").ended(0).out;
    assert!(
        shown.contains("at most 2,000 bytes; the largest takes 134."),
        "{shown}"
    );
    assert!(shown.contains(" left "), "{shown}");
    assert!(
        shown.contains("proved: at most 121 (max(j, k) + 1)."),
        "{shown}"
    );
    let small = within("60").ended(1);
    assert!(
        small.out.contains("It failed: both were still talking"),
        "{small:?}"
    );
    assert!(small.err.contains("give a budget that takes"), "{small:?}");
    // A row that both hold is the largest: all of the others go.
    let shown = within("133").ended(0).out;
    assert!(
        shown.contains("promised where every change fits the budget"),
        "{shown}"
    );
}

#[test]
fn both_as_a_station_chose() {
    let list = folder("both-settings").join("stations.settings");
    let list = text(&list);
    for set in ["bits=1,probes=1", "read-only=on"] {
        run(&["settings", list, "--station", "4", "--set", set]).ended(0);
    }
    let at = |version| {
        let words = ["--settings", list, "--station", "4", "--at", version];
        both(&sample(), &words)
    };
    let shown = at("1").ended(0).out;
    assert!(
        shown.contains("Filters have 1 bit an entry and 1 probe.\n"),
        "{shown}"
    );
    assert!(
        shown.contains("proved: at most 121 (max(j, k) + 1)."),
        "{shown}"
    );
    let refused = at("2").ended(1);
    let told = "the station is read-only and takes no changes, so both ends can't catch up";
    assert!(
        refused.err.contains(told) && refused.out.is_empty(),
        "{refused:?}"
    );
}

/// Files are written as without --both, and standard output is one thing.
#[test]
fn a_drawing_in_a_file() {
    let file = folder("both-drawing").join("both.svg");
    let words = ["--svg", text(&file)];
    let shown = both(&sample(), &words).ended(0).out;
    let told = format!("The exchanges are drawn in {}.\n", text(&file));
    assert!(shown.ends_with(&told), "{shown}");
    assert_eq!(
        fs::read_to_string(&file).unwrap(),
        both(&sample(), &["--svg", "-"]).ended(0).out
    );
    let again = both(&sample(), &words).ended(2).err;
    assert!(again.contains("is there already"), "{again}");
    let two = both(&sample(), &["--svg", "-", "--json"]).ended(2);
    assert!(
        two.err.contains("the JSON or the drawing, not both"),
        "{two:?}"
    );
}

#[test]
fn wrong_words_and_tables() {
    let [station, _] = sample();
    let bad = run_with(&["catch-up", "--both", &station, "-"], &[0; 63])
        .ended(1)
        .err;
    assert!(
        bad.contains("-, read as a change table: refusal 6, value 0"),
        "{bad}"
    );
    run(&["catch-up", "--both", &station]).ended(2);
    run(&["catch-up", "--both=yes", &station, &station]).ended(2);
    let folder = folder("both-words");
    run(&["sample", "--both", text(&folder), "more"]).ended(2);
    run(&["sample", "--both", text(&folder), "--seed", "1"]).ended(2);
    run(&["sample", "--both", text(&folder)]).ended(0);
    let again = run(&["sample", "--both", text(&folder)]).ended(2).err;
    assert!(again.contains("is there already"), "{again}");
    run(&["sample", "--both", text(&folder), "--force"]).ended(0);
}
