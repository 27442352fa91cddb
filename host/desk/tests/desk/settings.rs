//! Settings lists: shown, asked for, appended to and drawn.

use crate::{folder, run, run_with, samples, text, Run};
use bisquetower::{ChangeHash, Choice, Filter, Settings};
use std::fs;
use std::path::Path;

fn sample() -> String {
    text(&samples().join("stations.settings")).to_string()
}

/// What is asked of the sample.
fn ask(words: &[&str]) -> String {
    let file = sample();
    let words = [&["settings", &file], words].concat();
    run(&words).ended(0).out
}

fn choice(bits: u32, probes: u32) -> Choice {
    Choice {
        bits,
        probes,
        ..Choice::default()
    }
}

/// Appends for a station of a list.
fn set(file: &Path, station: &str, what: &str) -> Run {
    run(&["settings", text(file), "--station", station, "--set", what])
}

fn list(file: &Path) -> Settings {
    Settings::parse(fs::read(file).unwrap()).unwrap()
}

#[test]
fn the_sample_list() {
    let shown = ask(&[]);
    let title = "stations.settings: a settings list, 5 records, the newest version 5\n";
    let table = "
version  station  bits  probes  read-only   false yes
      1        7    12       8        off    1 in 318
      2       21     6       4        off     1 in 18
      3        8    12       8        off    1 in 318
      4       21     6       4         on     1 in 18
      5        7    16      11        off  1 in 2,180
False yes: expected of a filter over 1,024 rows, for a change that isn't in it.
";
    assert!(shown.contains(title) && shown.ends_with(table), "{shown}");
    // Over a row its field has whole bytes, and so more bits for it.
    let few = ask(&["--rows", "1"]);
    assert!(
        few.contains("  1 in 34\n") && few.contains("over 1 row,"),
        "{few}"
    );
}

#[test]
fn one_setting() {
    assert_eq!(
        ask(&["--station", "7", "--at", "4"]),
        "station 7 at version 4: 12 bits, 8 probes (false yes 1 in 318) and read-only off; \
         as version 1 has it\n"
    );
    assert_eq!(
        ask(&["--station", "21"]),
        "station 21 at version 5, the newest: 6 bits, 4 probes (false yes 1 in 18) and \
         read-only on; as version 4 has it\n"
    );
    let crates = "10 bits, 7 probes (false yes 1 in 122) and read-only off";
    let by = "as the crate has it, since no record of the station is there";
    for (station, version) in [("7", "0"), ("8", "2"), ("9", "4294967295")] {
        let told = ask(&["--station", station, "--at", version]);
        assert!(told.ends_with(&format!(": {crates}; {by}\n")), "{told}");
    }
    let json = ask(&["--station", "21", "--at", "3", "--json"]);
    assert_eq!(
        json,
        "{\n  \"station\": 21,\n  \"version\": 3,\n  \"record\": 2,\n  \"bits\": 6,\n  \
         \"probes\": 4,\n  \"read_only\": false,\n  \"false_yes\": 5.607e-2\n}\n"
    );
    let json = ask(&["--station", "5", "--json"]);
    assert!(
        json.contains("\"record\": null,\n  \"bits\": 10,"),
        "{json}"
    );
}

#[test]
fn a_stations_history() {
    let shown = ask(&["--history", "21"]);
    assert!(
        shown.contains(": a settings list, of station 21, 2 of 5 records, the newest version 5\n"),
        "{shown}"
    );
    let versions = shown.lines().filter(|line| line.contains("  1 in 18"));
    assert_eq!(versions.count(), 2, "{shown}");
    assert!(!shown.contains("1 in 318"), "{shown}");
    let none = ask(&["--history", "1"]);
    assert!(
        none.ends_with(
            ", 0 of 5 records: it has the crate's 10 bits, 7 probes \
             (false yes 1 in 122) and read-only off\n"
        ),
        "{none}"
    );
    let json = ask(&["--history", "7", "--json"]);
    assert!(
        json.starts_with("{\n  \"version\": 5,\n  \"rows\": 1024,\n"),
        "{json}"
    );
    let first = "    {\"version\": 1, \"station\": 7, \"bits\": 12, \"probes\": 8, \
                 \"read_only\": false, \"false_yes\": 3.143e-3},\n";
    assert!(json.contains(first), "{json}");
    assert_eq!(json.matches("\"station\"").count(), 2, "{json}");
}

#[test]
fn a_list_that_grows() {
    let folder = folder("settings-set");
    let file = folder.join("own.settings");
    let told = set(&file, "7", "bits=12,probes=8").ended(0).out;
    assert!(
        told.ends_with(
            "own.settings: version 1, from which on station 7 has 12 bits, 8 probes \
             (false yes 1 in 318) and read-only off\n"
        ),
        "{told}"
    );
    let before = fs::read(&file).unwrap();
    set(&file, "9", "bits=6,probes=4,read-only=on").ended(0);
    // What isn't named stays as the station has it.
    set(&file, "7", "read-only=on").ended(0);
    let own = list(&file);
    assert_eq!(own.version(), 3);
    assert_eq!(own.at(7, 2), choice(12, 8));
    let read_only = Choice {
        read_only: true,
        ..choice(12, 8)
    };
    assert_eq!(own.latest(7), read_only);
    assert!(own.latest(9).read_only);
    assert_eq!(own.as_bytes()[..before.len()], before);
    // Nothing else is left beside it.
    assert_eq!(fs::read_dir(&folder).unwrap().count(), 1);
    let json = run(&[
        "settings",
        text(&file),
        "--station",
        "7",
        "--set",
        "read-only=off",
        "--json",
    ]);
    let json = json.ended(0).out;
    assert!(
        json.starts_with("{\n  \"version\": 4,\n  \"station\": 7,\n  \"bits\": 12,\n"),
        "{json}"
    );
}

/// A list that isn't changed for any reason is the same file with the same bytes.
#[test]
fn what_isnt_appended() {
    let folder = folder("settings-refused");
    let file = folder.join("own.settings");
    set(&file, "7", "bits=12,probes=8").ended(0);
    let before = fs::read(&file).unwrap();
    for (what, why) in [
        ("bits=0", "has 0 bits per entry; 1 to 32 are allowed"),
        (
            "bits=33,probes=7",
            "has 33 bits per entry; 1 to 32 are allowed",
        ),
        ("probes=65", "has 65 probes; 1 to 64 are allowed"),
        ("probes=0", "has 0 probes; 1 to 64 are allowed"),
    ] {
        let refused = set(&file, "7", what).ended(1).err;
        let told = format!("stays as it was: refusal 15, value 0: the new setting {why}\n");
        assert!(refused.contains(&told), "{refused}");
        let next = "next: choose 1 to 32 bits and 1 to 64 probes.";
        assert!(refused.contains(next), "{refused}");
    }
    for what in [
        "",
        "bits",
        "bits=ten",
        "bits=-1",
        "read-only=yes",
        "zones=3",
        "bits=1,",
    ] {
        let wrong = set(&file, "7", what).ended(2).err;
        assert!(wrong.contains("--set wants bits=N, probes=N"), "{wrong}");
    }
    assert_eq!(fs::read(&file).unwrap(), before);

    // No version is left behind the last.
    let mut last = before.clone();
    last[..4].fill(0xff);
    fs::write(&file, &last).unwrap();
    let refused = set(&file, "7", "bits=10").ended(1).err;
    assert!(
        refused.contains("has no version left: the last, 4,294,967,295, is given")
            && refused.contains("next: begin a new list"),
        "{refused}"
    );
    // A bad list gets no record.
    let mut bad = before;
    bad[31] = 1;
    fs::write(&file, &bad).unwrap();
    let refused = set(&file, "7", "bits=10").ended(1).err;
    assert!(refused.contains("refusal 14, value 0"), "{refused}");
    assert_eq!(fs::read(&file).unwrap(), bad);
    let none = folder.join("none.settings");
    set(&none, "7", "bits=33").ended(1);
    assert!(!none.exists());
    run_with(&["settings", "-", "--station", "7", "--set", "bits=9"], b"").ended(2);
    set(&folder, "7", "bits=9").ended(2);
    set(&folder.join("no/such.settings"), "7", "bits=9").ended(2);
}

/// A link stays one, and what it leads to keeps its rights.
#[cfg(unix)]
#[test]
fn a_list_behind_a_link() {
    use std::os::unix::fs::{symlink, PermissionsExt};

    let folder = folder("settings-link");
    let [file, link] = ["own.settings", "link.settings"].map(|name| folder.join(name));
    set(&file, "7", "bits=12").ended(0);
    fs::set_permissions(&file, fs::Permissions::from_mode(0o640)).unwrap();
    symlink(&file, &link).unwrap();
    set(&link, "7", "bits=14").ended(0);
    assert!(fs::symlink_metadata(&link).unwrap().is_symlink());
    assert_eq!(list(&file).latest(7).bits, 14);
    let mode = fs::metadata(&file).unwrap().permissions().mode();
    assert_eq!(mode & 0o777, 0o640);
}

#[test]
fn bad_lists() {
    let file = samples().join("bad-record.settings");
    let bad = run(&["settings", text(&file)]).ended(1);
    let title = "a bad settings list; of its records before the first bad one, 3 records, \
                 the newest version 3\n";
    assert!(bad.out.contains(title), "{bad:?}");
    assert_eq!(bad.out.matches("1 in 318").count(), 2, "{bad:?}");
    let told = "read as a settings list: refusal 14, value 3: record 3 of the settings list \
                has version 3 after version 3; versions ascend\n";
    assert!(
        bad.err.contains(told) && bad.err.contains("^^ places 96 to 99"),
        "{bad:?}"
    );
    let asked = run(&["settings", text(&file), "--station", "7", "--at", "1"]).ended(1);
    assert!(
        asked.err.contains(told) && asked.out.is_empty(),
        "{asked:?}"
    );
    let json = run(&["settings", text(&file), "--json"]).ended(1);
    assert!(json.err.contains(told) && json.out.is_empty(), "{json:?}");

    let bytes = fs::read(sample()).unwrap();
    let shown = |bytes: &[u8]| run_with(&["settings", "-"], bytes);
    let cut = shown(&bytes[..bytes.len() - 1]).ended(1);
    assert!(
        cut.err.contains("refusal 14, value 4")
            && cut.err.contains("is cut: it has 31 of 32 bytes"),
        "{cut:?}"
    );
    assert!(cut.out.contains("4 records"), "{cut:?}");
    let none = shown(b"").ended(0).out;
    assert!(
        none.contains("a settings list, 0 records: every station has the crate's 10 bits"),
        "{none}"
    );
}

#[test]
fn lists_are_inspected() {
    let bytes = fs::read(sample()).unwrap();
    let columns = "a settings list\n  records   5\n  stations  3\n  version   5  the newest\n";
    for shown in [
        run(&["inspect", &sample()]),
        run_with(&["inspect", "--as", "settings", "-"], &bytes),
        // Its kind is told by the bytes too.
        run_with(&["inspect", "-"], &bytes),
    ] {
        let shown = shown.ended(0).out;
        assert!(shown.ends_with(columns), "{shown}");
    }
    let first = run_with(&["inspect", "-"], &bytes[..Settings::RECORD]);
    assert!(first.ended(0).out.contains("records   1"));
    let bad = run(&["inspect", text(&samples().join("bad-record.settings"))]).ended(1);
    assert!(bad.err.contains("refusal 14, value 3"), "{bad:?}");
    assert!(bad.err.contains("next: look at that record"), "{bad:?}");
}

/// More records than a message has bytes for: a list has no limit, and none is lost.
#[test]
fn a_long_list() {
    let folder = folder("settings-long");
    let file = folder.join("long.settings");
    let record = |version: u32| {
        let numbers = [version, version % 9, 10, 7].map(u32::to_le_bytes);
        [&numbers.concat()[..], &[0; 16]].concat()
    };
    let most = 140_000;
    let bytes: Vec<u8> = (1..=most).flat_map(record).collect();
    fs::write(&file, &bytes).unwrap();
    let told = set(&file, "3", "bits=11").ended(0).out;
    assert!(told.contains("version 140,001, "), "{told}");
    let after = fs::read(&file).unwrap();
    assert_eq!(after.len(), bytes.len() + Settings::RECORD);
    assert!(after.starts_with(&bytes));
    let shown = run(&["inspect", text(&file)]).ended(0).out;
    assert!(shown.contains("140,001"), "{shown}");

    // Gigabytes that begin with a bad record are refused without being held.
    let huge = folder.join("huge.settings");
    let zeros = fs::File::create(&huge).unwrap();
    zeros.set_len(8 << 30).unwrap();
    for command in ["settings", "inspect"] {
        let refused = run(&[command, text(&huge)]).ended(1).err;
        assert!(refused.contains("refusal 14, value 0"), "{refused}");
    }
    fs::remove_file(huge).unwrap();
}

#[test]
fn wrong_questions() {
    let wrong = |words: &[&str], what: &str| {
        let run = run(&[&["settings"], words].concat()).ended(2);
        assert!(run.err.contains(what) && run.out.is_empty(), "{run:?}");
    };
    wrong(&[], "one file is wanted, not 0 names");
    wrong(&["a", "b"], "one file is wanted, not 2 names");
    wrong(&["a", "--at", "3"], "--at and --set want a --station");
    wrong(&["a", "--set", "bits=9"], "--at and --set want a --station");
    let both = ["a", "--station", "7", "--at", "3", "--set", "bits=9"];
    wrong(&both, "--at and --set don't go together");
    let both = ["a", "--station", "7", "--history", "7"];
    wrong(&both, "--history goes with no other question");
    wrong(&["a", "--station", "tram"], "--station wants a number");
    let large = ["a", "--station", "4294967296"];
    wrong(&large, "--station wants a number from 0 to 4,294,967,295");
    for rows in ["0", "8193"] {
        wrong(
            &["a", "--rows", rows],
            "--rows wants a number from 1 to 8,192",
        );
    }
    let drawn = ["a", "--svg", "b", "--history", "7"];
    wrong(&drawn, "--svg goes with no other question");
    wrong(&["--svg", "-", "--json"], "there is JSON of a list");
    wrong(&["a", "b", "--svg", "c"], "one file, or none, is wanted");
    let missing = run(&["settings", "no/such/file"]).ended(2).err;
    assert!(missing.contains("no/such/file can't be read"), "{missing}");
}

#[test]
fn the_drawing() {
    let folder = folder("settings-svg");
    let file = folder.join("choice.svg");
    let list = sample();
    let words = ["settings", &list, "--svg", text(&file)];
    let shown = run(&words).ended(0).out;
    assert!(
        shown.contains("5 records") && shown.contains("The choice is drawn in "),
        "{shown}"
    );
    let drawn = fs::read_to_string(&file).unwrap();
    assert!(drawn.starts_with("<svg ") && drawn.ends_with("</svg>\n"));
    for part in [
        "What a filter over 1,024 rows costs",
        "<title>1 probe</title>",
        "<title>10 probes</title>",
        ">1 in 1,000,000<",
        "10 bits, 7 probes,<",
        ">1 in 122<",
        ">1,284 bytes<",
        "<title>station 7: 16 bits, 11 probes, 1 in 2,180</title>",
        "<title>station 8: 12 bits, 8 probes, 1 in 318</title>",
    ] {
        assert!(drawn.contains(part), "{part}");
    }
    assert_eq!(drawn.matches("<polyline").count(), 6);
    let again = run(&words).ended(2).err;
    assert!(again.contains("is there already"), "{again}");
    run(&[&words[..], &["--force"]].concat()).ended(0);

    let alone = run(&["settings", "--svg", "-", "--rows", "8192"]);
    let alone = alone.ended(0).out;
    assert!(
        alone.contains("What a filter over 8,192 rows costs") && !alone.contains("station"),
        "{alone}"
    );
    // The least that there is to draw.
    run(&["settings", "--svg", "-", "--rows", "1"]).ended(0);
}

/// docs/settings.svg is what is drawn.
#[test]
fn the_drawing_of_the_pages() {
    let page = Path::new(env!("CARGO_MANIFEST_DIR")).join("../../docs/settings.svg");
    let drawn = run(&["settings", "--svg", "-"]).ended(0).out;
    assert_eq!(fs::read_to_string(page).unwrap(), drawn);
}

/// What is expected of filters is what they do: of 40,000 changes that aren't in them, as
/// many as that are taken for held.
#[test]
fn false_yeses_are_as_expected() {
    let hash = |n: u64| {
        let mut hash = [0; 32];
        let mut word = n;
        for part in hash.chunks_mut(8) {
            word = word.wrapping_add(0x9e37_79b9_7f4a_7c15);
            let mut mixed = (word ^ (word >> 30)).wrapping_mul(0xbf58_476d_1ce4_e5b9);
            mixed = (mixed ^ (mixed >> 27)).wrapping_mul(0x94d0_49bb_1331_11eb);
            part.copy_from_slice(&(mixed ^ (mixed >> 31)).to_le_bytes());
        }
        ChangeHash(hash)
    };
    let held: Vec<ChangeHash> = (0..1_024).map(hash).collect();
    let others: Vec<ChangeHash> = (1 << 32..(1 << 32) + 40_000).map(hash).collect();
    let folder = folder("settings-rates");
    let file = folder.join("own.settings");
    for (bits, probes) in [(10, 7), (12, 8), (6, 4), (1, 1), (4, 10), (8, 1)] {
        set(&file, "1", &format!("bits={bits},probes={probes}")).ended(0);
        let json = run(&["settings", text(&file), "--station", "1", "--json"]);
        let json = json.ended(0).out;
        let (_, rate) = json.split_once("\"false_yes\": ").expect("the field");
        let rate: f64 = rate.trim_end_matches("\n}\n").parse().expect("a number");
        let filter = Filter::with(bits, probes, &held).unwrap();
        let yes = filter.contains_hashes(&others).into_iter();
        let yes = yes.filter(|yes| *yes).count() as f64;
        let expected = rate * others.len() as f64;
        assert!(
            (0.8..1.25).contains(&(yes / expected)),
            "{bits}, {probes}: {yes} of {expected}"
        );
    }
}
