//! A night's captures: counted, named where they are refused, written as JSON and CSV, and
//! drawn.

use crate::{folder, run, run_into, text, Run};
use bisquetower::{ChangeHash, Filter, Have, Message, Table};
use std::collections::{BTreeMap, HashSet};
use std::fs;
use std::path::{Path, PathBuf};
use std::process::Stdio;
use std::sync::OnceLock;

const MANIFEST: &str = "captures.txt";

/// The sample's night, for tests that only read it.
fn night() -> &'static Path {
    static NIGHT: OnceLock<PathBuf> = OnceLock::new();
    NIGHT.get_or_init(|| {
        let folder = folder("night");
        run(&["sample", "--night", text(&folder)]).ended(0);
        folder
    })
}

fn count(night: &Path, words: &[&str]) -> Run {
    run(&[&["count", text(night)], words].concat())
}

fn hash(n: u64) -> ChangeHash {
    let mut hash = [0; 32];
    let mut word = n;
    for part in hash.chunks_mut(8) {
        word = word.wrapping_add(0x9e37_79b9_7f4a_7c15);
        let mut mixed = (word ^ (word >> 30)).wrapping_mul(0xbf58_476d_1ce4_e5b9);
        mixed = (mixed ^ (mixed >> 27)).wrapping_mul(0x94d0_49bb_1331_11eb);
        part.copy_from_slice(&(mixed ^ (mixed >> 31)).to_le_bytes());
    }
    ChangeHash(hash)
}

fn table(numbers: std::ops::Range<u64>) -> Table {
    let rows = numbers.map(|n| (hash(n), vec![]));
    Table::from_changes(rows).expect("a good table")
}

/// A night of one validator and one station: 40 rows, of which the validator has 30 and a
/// filter over them, and lines of a manifest.
fn small(name: &str, manifest: &str) -> PathBuf {
    let folder = folder(name);
    let write = |file: &str, bytes: &[u8]| fs::write(folder.join(file), bytes).unwrap();
    let filter = Filter::with(2, 2, table(0..30).hashes()).unwrap();
    write("validator.table", table(0..30).as_bytes());
    write("station.table", table(0..40).as_bytes());
    write("said.filter", &filter.to_bytes());
    write("said", &filter.to_bytes());
    write("no-bits.filter", &[1, 0, 7]);
    write("cut.table", &table(0..3).as_bytes()[..300]);
    write(MANIFEST, manifest.as_bytes());
    folder
}

/// What the filter of a small night says of the ten rows that its validator lacks.
fn contained_of_small() -> usize {
    let filter = Filter::with(2, 2, table(0..30).hashes()).unwrap();
    let others: Vec<ChangeHash> = (30..40).map(hash).collect();
    let yes = filter.contains_hashes(&others);
    yes.into_iter().filter(|yes| *yes).count()
}

const GOOD: &str = "7 said.filter validator.table station.table\n";

#[test]
fn the_sample_night() {
    let counted = count(night(), &[]).ended(1);
    let shown = "\
line 102, 0101-7.filter: refusal 1, value 4: the filter ends inside the item that starts at its place 4
line 313, 0312-8.filter: refusal 5, value 0: the filter has entries and 0 bits per entry
line 524, 0523-12.message, have 1: refusal 6, value 209: row 209 of the sender's table has the hash of row 0 (bad-row.table)
line 735, 0734-21.filter: refusal 6, value 209: row 209 of the listener's table is cut: it has 128 of 256 bytes (cut.table)
line 946, 0945-30.filter: refusal 1, value 4: the filter ends inside the item that starts at its place 4
station  captures  refused  entries  field bits  set bits  contained of tested
7             193        1   40,194     643,104   319,557         20 of 46,360
8             193        1   40,180     482,504   234,962        157 of 46,320
12            229        1   46,298     463,704   233,432        436 of 55,880
21            193        1   40,160     241,536   116,751      2,566 of 45,940
30            192        1   40,820     163,656    64,054      6,945 of 45,740
in all      1,000        5  207,652   1,994,504   968,756    10,124 of 240,240
";
    assert_eq!(counted.out, shown);
    // docs/API.md has the table too.
    let page = Path::new(env!("CARGO_MANIFEST_DIR")).join("../../docs/API.md");
    let (_, table) = shown.split_at(shown.find("station  captures").expect("a table"));
    assert!(fs::read_to_string(page).unwrap().contains(table));
    let told = "5 of 1,000 captures refused, which add to no total";
    assert!(counted.err.contains(told), "{counted:?}");
    // Nothing of how far it is stands in a pipe.
    assert!(!counted.err.contains('%'), "{counted:?}");
}

/// Every number by station, found again from the files with sets and the filters' own answers.
#[test]
fn totals_found_again() {
    let folder = folder("count-again");
    let captures = ["--captures", "203", "--seed", "9"];
    let words = ["sample", "--night", text(&folder)];
    run(&[&words[..], &captures].concat()).ended(0);
    let manifest = fs::read_to_string(folder.join(MANIFEST)).unwrap();
    let mut stations: BTreeMap<&str, [u64; 6]> = BTreeMap::new();
    let lines = manifest.lines().filter(|line| !line.starts_with('#'));
    for line in lines {
        let names: Vec<&str> = line.split_whitespace().collect();
        let [station, file, sender, listener] = names[..] else {
            panic!("{line}");
        };
        let read = |name: &str| fs::read(folder.join(name)).unwrap();
        let filters = match file.ends_with(".message") {
            true => Message::decode(&read(file)).map(|message| {
                let haves = message.have.into_iter();
                haves.map(|have| have.bloom).collect()
            }),
            false => Filter::parse(&read(file)).map(|filter| vec![filter]),
        };
        let (Ok(filters), Ok(sender), Ok(listener)) = (
            filters,
            Table::new(read(sender)),
            Table::new(read(listener)),
        ) else {
            continue;
        };
        let held: HashSet<ChangeHash> = sender.hashes().into_iter().collect();
        let mut tested = listener.hashes();
        tested.retain(|hash| !held.contains(hash));
        for filter in filters {
            let yes = filter.contains_hashes(&tested);
            let counts = [
                1,
                filter.num_entries() as usize,
                8 * filter.bits().len(),
                filter
                    .bits()
                    .iter()
                    .map(|byte| byte.count_ones() as usize)
                    .sum(),
                tested.len(),
                yes.into_iter().filter(|yes| *yes).count(),
            ];
            let own = stations.entry(station).or_default();
            own.iter_mut()
                .zip(counts)
                .for_each(|(sum, more)| *sum += more as u64);
        }
    }
    let json = count(&folder, &["--json"]).ended(1).out;
    let told: BTreeMap<String, [u64; 6]> = objects(&json)
        .into_iter()
        .filter(|object| object["kind"] == "\"station\"")
        .map(|object| {
            let number = |name: &str| object[name].parse::<u64>().unwrap();
            let counts = ["entries", "field_bits", "set_bits", "tested", "contained"];
            let [entries, field, set, tested, contained] = counts.map(number);
            let counted = number("captures") - number("refused");
            let name = object["station"].trim_matches('"').to_string();
            (name, [counted, entries, field, set, tested, contained])
        })
        .collect();
    let stations = stations
        .into_iter()
        .map(|(name, own)| (name.to_string(), own));
    assert_eq!(told, stations.collect());
}

/// Lines, totals, JSON and CSV are the same, whatever is looked at first: of a thousand
/// captures, and of a few in every form.
#[test]
fn any_number_of_threads() {
    let few = folder("count-threads");
    let words = ["sample", "--night", text(&few), "--captures", "150"];
    run(&words).ended(0);
    let agree = |night: &Path, form: &[&str], others: &[&str]| {
        let by = |threads: &str| count(night, &[form, &["--threads", threads]].concat()).ended(1);
        let one = by("1");
        for threads in others {
            let more = by(threads);
            assert_eq!((&one.out, &one.err), (&more.out, &more.err), "{form:?}");
        }
    };
    agree(night(), &["--json"], &["5"]);
    for form in [&[][..], &["--json"], &["--csv"], &["--svg", "-"]] {
        agree(&few, form, &["2", "3", "16"]);
    }
}

#[test]
fn a_manifest() {
    let manifest = "\
# A night.

7 said.filter validator.table station.table
\t 7\tsaid.filter   validator.table  station.table \r
\"old town\" said.filter validator.table \"station.table\"
  # no capture
9 \"with blanks.filter\" \"the sender.table\" station.table
9 said.filter validator.table station.table";
    let folder = small("count-manifest", manifest);
    for (from, to) in [
        ("said.filter", "with blanks.filter"),
        ("validator.table", "the sender.table"),
    ] {
        fs::copy(folder.join(from), folder.join(to)).unwrap();
    }
    let shown = count(&folder, &[]).ended(0).out;
    let [one, two, five] = [1, 2, 5].map(|captures| {
        let share = format!("{} of {}", captures * contained_of_small(), captures * 10);
        (captures.to_string(), share)
    });
    let rows: Vec<Vec<&str>> = shown
        .lines()
        .map(|line| {
            line.split("  ")
                .map(str::trim)
                .filter(|cell| !cell.is_empty())
                .collect()
        })
        .collect();
    let cells = |row: usize| {
        (
            rows[row][0],
            rows[row][1].to_string(),
            rows[row][6].to_string(),
        )
    };
    assert_eq!(cells(1), ("7", two.0.clone(), two.1.clone()));
    assert_eq!(cells(2), ("9", two.0, two.1));
    assert_eq!(cells(3), ("old town", one.0, one.1));
    assert_eq!(cells(4), ("in all", five.0, five.1));
    assert_eq!(rows.len(), 5, "{shown}");
}

/// The longest line that is read, and one that is a byte longer; at the end too.
#[test]
fn long_lines() {
    let line = |length: usize| {
        let good = GOOD.trim_end();
        format!("{good}{}", " ".repeat(length - good.len()))
    };
    let [longest, longer] = [4_096, 4_097].map(line);
    let manifest = [&longest[..], &longer, &line(9_000), &longest, &longer].join("\n");
    let folder = small("count-long", &manifest);
    let counted = count(&folder, &[]).ended(2).out;
    let told = [2, 3, 5].map(|line| format!("line {line}: it is longer than 4,096 bytes\n"));
    assert!(counted.starts_with(&told.concat()), "{counted}");
    assert!(counted.contains("in all          2        0 "), "{counted}");
}

/// What is wrong with a line is named with its number, and the others count.
#[test]
fn broken_manifests() {
    let manifest = [
        GOOD,
        "7 said.filter validator.table\n",
        "7 said.filter validator.table station.table more\n",
        "7 \"said.filter validator.table station.table\n",
        "7 \"said\".filter validator.table station.table\n",
        "7 none.filter validator.table station.table\n",
        "7 said.filter none.table station.table\n",
        "7 said.filter validator.table no/such/folder\n",
        "7 said.filter validator.table .\n",
        &"x".repeat(5_000),
        "\n",
        GOOD,
    ];
    let folder = small("count-broken", &manifest.concat());
    let counted = count(&folder, &[]).ended(2);
    let wanted = "a station, a filter or message, the sender's table and the listener's are wanted";
    let told = [
        format!("line 2: {wanted}, not 3 names"),
        format!("line 3: {wanted}, not 5 names"),
        "line 4: a double quote isn't closed".to_string(),
        "line 5: a blank is wanted behind the double quotes of a name".to_string(),
        "line 6: none.filter can't be read: No such file".to_string(),
        "line 7: none.table can't be read: No such file".to_string(),
        "line 8: no/such/folder can't be read: No such file".to_string(),
        "line 9: . can't be read: Is a directory".to_string(),
        "line 10: it is longer than 4,096 bytes".to_string(),
        "station".to_string(),
        "7               2        0".to_string(),
        "in all          2        0".to_string(),
    ];
    assert_eq!(counted.out.lines().count(), told.len(), "{counted:?}");
    for (line, told) in counted.out.lines().zip(told) {
        assert!(line.starts_with(&told), "{line}");
    }
    let end = "9 lines of captures.txt that can't be read\n";
    assert!(counted.err.contains(end), "{counted:?}");
    let json = count(&folder, &["--json"]).ended(2).out;
    let unread = objects(&json)
        .into_iter()
        .filter(|one| one["kind"] == "\"unread\"");
    assert_eq!(
        unread.map(|one| one["line"].clone()).collect::<Vec<_>>(),
        ["2", "3", "4", "5", "6", "7", "8", "9", "10"]
    );

    // Bytes that are no text, and a manifest that isn't there or is no file.
    fs::write(
        folder.join(MANIFEST),
        [GOOD.as_bytes(), b"caf\xe9 a b c\n"].concat(),
    )
    .unwrap();
    let odd = count(&folder, &[]).ended(2);
    assert!(odd.out.starts_with("line 2: it isn't text\n"), "{odd:?}");
    fs::remove_file(folder.join(MANIFEST)).unwrap();
    let none = count(&folder, &[]).ended(2);
    assert!(
        none.err
            .contains("captures.txt can't be read: No such file")
            && none.err.contains("sample --night"),
        "{none:?}"
    );
    fs::create_dir(folder.join(MANIFEST)).unwrap();
    let folders = count(&folder, &[]).ended(2);
    assert!(
        folders.err.contains("captures.txt can't be read"),
        "{folders:?}"
    );
}

#[test]
fn refused_captures() {
    let manifest = [
        "7 no-bits.filter validator.table station.table\n",
        "7 said.filter cut.table station.table\n",
        "7 said.filter validator.table cut.table\n",
        "7 no-bits.filter cut.table cut.table\n",
        "7 said.filter said.filter station.table\n",
        GOOD,
    ];
    let folder = small("count-refused", &manifest.concat());
    let counted = count(&folder, &[]).ended(1);
    let cut = |whose| {
        format!("refusal 6, value 1: row 1 of the {whose} table is cut: it has 44 of 256 bytes (cut.table)")
    };
    let told = [
        "line 1, no-bits.filter: refusal 5, value 0: the filter has entries and 0 bits per entry".to_string(),
        format!("line 2, said.filter: {}", cut("sender's")),
        format!("line 3, said.filter: {}", cut("listener's")),
        format!("line 4, no-bits.filter: {}", cut("sender's")),
        "line 5, said.filter: refusal 6, value 0: row 0 of the sender's table is cut: it has 11 of 256 bytes".to_string(),
    ];
    for (line, told) in counted.out.lines().zip(&told) {
        assert_eq!(line, told);
    }
    assert!(
        counted.out.contains("7               6        5 "),
        "{counted:?}"
    );
    let share = format!("{} of 10\n", contained_of_small());
    assert!(counted.out.ends_with(&share), "{counted:?}");
    let end = "5 of 6 captures refused, which add to no total\nnext: ";
    assert!(counted.err.contains(end), "{counted:?}");
    // Both kinds of failure: files that can't be read weigh more.
    let more = [
        &manifest.concat()[..],
        "9 none validator.table station.table\n",
    ]
    .concat();
    fs::write(folder.join(MANIFEST), more).unwrap();
    let both = count(&folder, &[]).ended(2).err;
    let told = "1 line of captures.txt that can't be read; 5 of 6 captures refused";
    assert!(both.contains(told), "{both}");
}

/// Each have of a message is a capture; what a file is, its name's end says, else its bytes.
#[test]
fn messages() {
    let manifest = "\
7 two.message validator.table station.table
7 two validator.table station.table
7 none.message validator.table station.table
7 said validator.table station.table
7 empty validator.table station.table
8 two.filter validator.table station.table
8 said.message validator.table station.table
8 said.message cut.table station.table
";
    let folder = small("count-messages", manifest);
    let have = |rows: std::ops::Range<u64>| Have {
        last_sync: vec![hash(0)],
        bloom: Filter::with(2, 2, table(rows).hashes()).unwrap(),
    };
    let two = Message {
        have: vec![have(0..30), have(10..30)],
        changes: vec![b"fares".to_vec()],
        ..Message::default()
    };
    let two = two.encode().unwrap();
    let none = Message::default().encode().unwrap();
    for (name, bytes) in [
        ("two.message", &two[..]),
        ("two", &two),
        ("two.filter", &two),
        ("none.message", &none),
        ("empty", b""),
        ("said.message", &fs::read(folder.join("said")).unwrap()),
    ] {
        fs::write(folder.join(name), bytes).unwrap();
    }
    let counted = count(&folder, &["--json"]).ended(1).out;
    let captures: Vec<(String, String, String)> = objects(&counted)
        .into_iter()
        .filter(|one| one["kind"] == "\"capture\"")
        .map(|one| {
            let came = one.get("entries").or(one.get("refusal"));
            (
                one["file"].clone(),
                one["have"].clone(),
                came.unwrap().clone(),
            )
        })
        .collect();
    let expected = [
        ("two.message", "1", "30"),
        ("two.message", "2", "20"),
        ("two", "1", "30"),
        ("two", "2", "20"),
        ("said", "null", "30"),
        ("empty", "null", "0"),
        // A message's bytes are no filter, nor a filter's a message; bad tables come first.
        ("two.filter", "null", "5"),
        ("said.message", "null", "2"),
        ("said.message", "null", "6"),
    ];
    let expected = expected
        .map(|(file, have, came)| (format!("\"{file}\""), have.to_string(), came.to_string()));
    assert_eq!(captures, expected);
    let lines = count(&folder, &[]).ended(1).out;
    assert!(
        lines.starts_with(
            "line 3, none.message: a message without haves, in which there is nothing to count\n"
        ),
        "{lines}"
    );
}

/// Tables with rows of before are read as they are, as other commands do.
#[test]
fn tables_of_before() {
    let folder = small("count-before", GOOD);
    let expected = count(&folder, &[]).ended(0).out;
    for (own, other) in [("old", "new"), ("new", "old"), ("old", "old")] {
        for (name, rows, width) in [("validator", 0..30, own), ("station", 0..40, other)] {
            let table = table(rows);
            let bytes = match width {
                "old" => table.to_old().unwrap(),
                _ => table.as_bytes().to_vec(),
            };
            fs::write(folder.join(format!("{name}.table")), bytes).unwrap();
        }
        assert_eq!(count(&folder, &[]).ended(0).out, expected);
    }
}

#[test]
fn an_empty_night() {
    let folder = small("count-empty", "# nothing\n");
    let shown = count(&folder, &[]).ended(0).out;
    assert!(
        shown.ends_with("0 of 0\n") && shown.lines().count() == 2,
        "{shown}"
    );
    assert_eq!(count(&folder, &["--csv"]).ended(0).out.lines().count(), 1);
    let json = count(&folder, &["--json"]).ended(0).out;
    assert_eq!(objects(&json).len(), 1);
    well_formed(&count(&folder, &["--svg", "-"]).ended(0).out);
}

#[test]
fn json() {
    let odd = "\"st \\ <&'é\" said.filter validator.table station.table\n";
    let folder = small(
        "count-json",
        &[
            GOOD,
            odd,
            "7 no-bits.filter validator.table station.table\n",
        ]
        .concat(),
    );
    let json = count(&folder, &["--json"]).ended(1).out;
    let objects = objects(&json);
    let kinds: Vec<&str> = objects.iter().map(|one| &one["kind"][..]).collect();
    let expected = [
        "capture", "capture", "capture", "station", "station", "totals",
    ];
    assert_eq!(kinds, expected.map(|kind| format!("\"{kind}\"")));
    assert_eq!(objects[1]["station"], r#""st \\ <&'é""#);
    let contained = contained_of_small().to_string();
    let first =
        "{\"kind\": \"capture\", \"line\": 1, \"station\": \"7\", \"file\": \"said.filter\", \
                 \"have\": null, \"sender\": \"validator.table\", \"listener\": \"station.table\", \
                 \"entries\": 30, \"field_bits\": 64, ";
    assert!(json.starts_with(first), "{json}");
    assert_eq!(
        (&objects[0]["tested"][..], &objects[0]["contained"]),
        ("10", &contained)
    );
    let refused = &objects[2];
    assert_eq!((&refused["refusal"][..], &refused["value"][..]), ("5", "0"));
    assert_eq!(
        refused["why"],
        "\"the filter has entries and 0 bits per entry\""
    );
    assert_eq!(refused["bad_file"], "\"no-bits.filter\"");
    assert!(!refused.contains_key("entries"));
    let all = &objects[5];
    assert_eq!(
        (
            &all["captures"][..],
            &all["refused"][..],
            &all["unread"][..]
        ),
        ("3", "1", "0")
    );
}

#[test]
fn csv() {
    let odd = "\"a, b\" said.filter validator.table station.table\n7 a\"b validator.table station.table\n";
    let folder = small(
        "count-csv",
        &[
            GOOD,
            odd,
            "7 no-bits.filter validator.table station.table\n",
        ]
        .concat(),
    );
    let csv = count(&folder, &["--csv"]).ended(2).out;
    let lines: Vec<&str> = csv.lines().collect();
    let set = Filter::parse(&fs::read(folder.join("said.filter")).unwrap()).unwrap();
    let set: u32 = set.bits().iter().map(|byte| byte.count_ones()).sum();
    let contained = contained_of_small();
    let counted =
        format!("said.filter,,validator.table,station.table,30,64,{set},10,{contained},,,");
    assert_eq!(
        lines,
        [
            "line,station,file,have,sender,listener,entries,field_bits,set_bits,tested,contained,refusal,value,why",
            &format!("1,7,{counted}"),
            &format!("2,\"a, b\",{counted}"),
            "3,,,,,,,,,,,,,\"a\"\"b can't be read: No such file or directory (os error 2)\"",
            "4,7,no-bits.filter,,validator.table,station.table,,,,,,5,0,the filter has entries and 0 bits per entry",
        ]
    );
}

#[test]
fn the_drawing() {
    let odd = "\"<a & b> of a name that goes on\" said.filter validator.table station.table\n";
    let folder = small("count-svg", &[GOOD, odd].concat());
    let file = folder.join("night.svg");
    let shown = count(&folder, &["--svg", text(&file)]).ended(0).out;
    assert!(
        shown.contains("in all") && shown.contains("The night is drawn in "),
        "{shown}"
    );
    let drawn = fs::read_to_string(&file).unwrap();
    well_formed(&drawn);
    for part in [
        "2 captures at 2 stations, 0 refused",
        ">station 7<",
        ">2 bits, 2 probes<",
        "<title>&lt;a &amp; b&gt; of a name that goes on: ",
        ">station &lt;a &amp; b&gt; of a …<",
        ">expected 1 in 2.7<",
    ] {
        assert!(drawn.contains(part), "{part} in {drawn}");
    }
    // What is there stays, and nothing is counted first.
    let again = count(&folder, &["--svg", text(&file)]).ended(2);
    assert!(
        again.err.contains("is there already") && again.out.is_empty(),
        "{again:?}"
    );
    count(&folder, &["--svg", text(&file), "--force"]).ended(0);
    let json = count(&folder, &["--svg", text(&file), "--force", "--json"])
        .ended(0)
        .out;
    assert_eq!(objects(&json).len(), 5);
    assert_eq!(count(&folder, &["--svg", "-"]).ended(0).out, drawn);
}

/// docs/night.svg is what is drawn of the sample's night.
#[test]
fn the_drawing_of_the_pages() {
    let page = Path::new(env!("CARGO_MANIFEST_DIR")).join("../../docs/night.svg");
    let drawn = count(night(), &["--svg", "-"]).ended(1).out;
    well_formed(&drawn);
    assert_eq!(fs::read_to_string(page).unwrap(), drawn);
}

#[test]
fn wrong_words() {
    let wrong = |words: &[&str], what: &str| {
        let run = run(words).ended(2);
        assert!(run.err.contains(what) && run.out.is_empty(), "{run:?}");
    };
    wrong(&["count"], "one folder is wanted, not 0 names");
    wrong(&["count", "a", "b"], "one folder is wanted, not 2 names");
    let both = "standard output can be the JSON, the CSV or the drawing";
    wrong(&["count", "a", "--json", "--csv"], both);
    wrong(&["count", "a", "--json", "--svg", "-"], both);
    wrong(
        &["count", "a", "--threads", "0"],
        "--threads wants a number from 1 to 256",
    );
    wrong(
        &["sample", "a", "--captures", "3"],
        "--captures and --seed want a --night",
    );
    wrong(
        &["sample", "a", "--night", "b"],
        "no folder but the night's is wanted, not 1 names",
    );
    wrong(
        &["sample", "--night", "b", "--captures", "0"],
        "--captures wants a number from 1",
    );
}

/// A night is written whole or not at all, and another seed makes another.
#[test]
fn sample_nights() {
    let folder = folder("count-sample");
    let make = |name: &str, seed: &str| {
        let night = folder.join(name);
        let words = [
            "sample",
            "--night",
            text(&night),
            "--captures",
            "40",
            "--seed",
            seed,
        ];
        run(&words)
    };
    let told = make("one", "1").ended(0).out;
    assert!(
        told.starts_with("40 captures in ") && told.contains("bisquetower count "),
        "{told}"
    );
    make("same", "1").ended(0);
    make("other", "2").ended(0);
    let counted = |name: &str| count(&folder.join(name), &["--csv"]).ended(0).out;
    assert_eq!(counted("one"), counted("same"));
    assert_ne!(counted("one"), counted("other"));
    assert_eq!(counted("one").lines().count(), 41);
    let again = make("one", "1").ended(2).err;
    assert!(again.contains("is there already"), "{again}");
    // What was captured is looked at as any other file.
    for (file, kind) in [
        ("0001-7.filter", "a filter"),
        ("0003-12.message", "a message"),
        ("7-hour-1.table", "a change table"),
    ] {
        let shown = run(&["inspect", text(&folder.join("one").join(file))])
            .ended(0)
            .out;
        assert!(shown.contains(kind), "{shown}");
    }
}

/// A reader that has gone away is no failure, and the drawing is made all the same.
#[test]
fn a_reader_that_stops_reading() {
    let folder = folder("count-pipe");
    let svg = folder.join("night.svg");
    let [json, csv] = ["--json", "--csv"].map(|form| vec!["count", text(night()), form]);
    for (words, status) in [
        (json.clone(), 0),
        (csv, 0),
        ([&json[..], &["--svg", text(&svg)]].concat(), 1),
    ] {
        let (reader, writer) = std::io::pipe().unwrap();
        drop(reader);
        run_into(&words, b"", writer.into()).ended(status);
    }
    let page = fs::read_to_string(&svg).unwrap();
    assert_eq!(page, count(night(), &["--svg", "-"]).ended(1).out);
}

/// A full disk loses no line in silence.
#[cfg(target_os = "linux")]
#[test]
fn output_that_cant_be_written() {
    for form in ["--json", "--csv"] {
        let full = fs::File::options().write(true).open("/dev/full");
        let words = ["count", text(night()), form];
        let run = run_into(&words, b"", full.unwrap().into()).ended(2);
        assert!(
            run.err.contains("standard output can't be written"),
            "{run:?}"
        );
    }
}

/// Ten thousand captures take the memory of a thousand: the most that the process ever held.
#[cfg(target_os = "linux")]
#[test]
fn ten_thousand_captures() {
    let folder = small("count-memory", "");
    let held = |captures: usize| {
        fs::write(folder.join(MANIFEST), GOOD.repeat(captures)).unwrap();
        most_held(&folder, captures)
    };
    let (few, many) = (held(1_000), held(10_000));
    assert!(many < few + 2_048 && many < 32_768, "{few} and {many} KiB");
}

/// KiB that the process held at the most, as far as that is seen while it writes; and that
/// it counts so many captures.
#[cfg(target_os = "linux")]
fn most_held(night: &Path, captures: usize) -> u64 {
    use std::io::{BufRead, BufReader};

    let mut child = std::process::Command::new(env!("CARGO_BIN_EXE_bisquetower"))
        .args(["count", text(night), "--json", "--threads", "4"])
        .stdout(Stdio::piped())
        .stderr(Stdio::null())
        .spawn()
        .expect("the command starts");
    let status = format!("/proc/{}/status", child.id());
    let held = || -> Option<u64> {
        let status = fs::read_to_string(&status).ok()?;
        let line = status.lines().find(|line| line.starts_with("VmHWM:"))?;
        line.split_whitespace().nth(1)?.parse().ok()
    };
    let (mut most, mut seen) = (0, 0);
    let lines = BufReader::new(child.stdout.take().expect("a pipe")).lines();
    for (k, line) in lines.enumerate() {
        seen += usize::from(line.unwrap().contains("\"capture\""));
        if k % 50 == 0 {
            most = most.max(held().unwrap_or(0));
        }
    }
    child.wait().expect("the command ends");
    assert_eq!(seen, captures);
    assert!(most > 0);
    most
}

/// The objects of lines of JSON, each a flat one; values are as they stand there.
fn objects(json: &str) -> Vec<BTreeMap<String, String>> {
    json.lines().map(object).collect()
}

fn object(line: &str) -> BTreeMap<String, String> {
    let mut fields = BTreeMap::new();
    let mut left = line.strip_prefix('{').expect("an object");
    loop {
        let (name, after) = quoted(left);
        let after = after.strip_prefix(": ").expect("a value");
        let (value, after) = match after.starts_with('"') {
            true => quoted(after),
            false => after.split_at(after.find([',', '}']).expect("an end")),
        };
        let plain = value == "null" || value.starts_with('"') || value.parse::<u64>().is_ok();
        assert!(plain, "{value} in {line}");
        let name = name.trim_matches('"').to_string();
        assert_eq!(fields.insert(name, value.to_string()), None, "{line}");
        match after.strip_prefix(", ") {
            Some(more) => left = more,
            None => {
                assert_eq!(after, "}", "{line}");
                return fields;
            }
        }
    }
}

/// A text in quotes, and what stands behind it.
fn quoted(json: &str) -> (&str, &str) {
    let mut letters = json.char_indices().skip(1);
    assert!(json.starts_with('"'), "{json}");
    while let Some((place, letter)) = letters.next() {
        assert!(letter >= ' ', "{json}");
        match letter {
            '\\' => drop(letters.next()),
            '"' => return json.split_at(place + 1),
            _ => {}
        }
    }
    panic!("no end of {json}");
}

/// That every element of a drawing is closed in its turn, and nothing stands in it that
/// wants to be escaped.
pub fn well_formed(svg: &str) {
    let mut open: Vec<&str> = Vec::new();
    let mut left = svg;
    while let Some((before, after)) = left.split_once('<') {
        for entity in before.split('&').skip(1) {
            let known = ["amp;", "lt;", "gt;"]
                .iter()
                .any(|end| entity.starts_with(end));
            assert!(known, "{before}");
        }
        assert!(!before.contains('>'), "{before}");
        let (tag, behind) = after.split_once('>').expect("a tag ends");
        left = behind;
        assert_eq!(tag.matches('"').count() % 2, 0, "{tag}");
        let name = tag.split([' ', '/']).next().unwrap_or_default();
        match tag.strip_prefix('/') {
            Some(closed) => assert_eq!(open.pop(), Some(closed), "{tag}"),
            None if tag.ends_with('/') => {}
            None => open.push(name),
        }
    }
    assert!(open.is_empty() && left == "\n", "{open:?}, {left}");
}
