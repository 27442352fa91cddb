//! The command itself: help, wrong words, and what it writes over.

use crate::{folder, run, run_into, text};
use bisquetower::Table;
use std::fs;
use std::process::Stdio;

const COMMANDS: [&str; 9] = [
    "inspect", "table", "catch-up", "convert", "salvage", "settings", "count", "sample", "compare",
];

/// Lines and columns of a screen.
const SCREEN: (usize, usize) = (24, 80);

#[test]
fn help_fits_a_screen() {
    let all = run(&["--help"]).ended(0).out;
    for command in COMMANDS {
        assert!(all.contains(command), "{command}");
        let own = run(&[command, "--help"]).ended(0).out;
        assert!(own.starts_with(&format!("bisquetower {command} ")), "{own}");
        for text in [&all, &own] {
            assert!(text.lines().count() <= SCREEN.0, "{text}");
            assert!(text.lines().all(|line| line.len() <= SCREEN.1), "{text}");
        }
    }
    assert_eq!(run(&["help"]).ended(0).out, all);
    assert_eq!(run(&["-h"]).ended(0).out, all);
}

#[test]
fn wrong_words() {
    let wrong = |words: &[&str], what: &str| {
        let run = run(words).ended(2);
        assert!(run.err.contains(what) && run.out.is_empty(), "{run:?}");
    };
    wrong(&[], "no command is named");
    wrong(&["look"], "there is no command look");
    wrong(&["inspect"], "one file is wanted, not 0 names");
    wrong(&["table", "a", "b"], "one file is wanted, not 2 names");
    wrong(&["inspect", "a", "--all"], "there is no option --all");
    wrong(&["inspect", "a", "--as"], "--as wants a value");
    wrong(&["inspect", "a", "--as", "fare"], "fare is no kind");
    wrong(&["inspect", "a", "--full=yes"], "--full takes no value");
    wrong(&["sample"], "one folder is wanted");
    wrong(
        &["convert", "a"],
        "a file to read and one to write is wanted, not 1 names",
    );
}

#[test]
fn nothing_is_written_over() {
    let folder = folder("command-samples");
    run(&["sample", text(&folder)]).ended(0);
    let table = folder.join("station.table");
    fs::write(&table, b"mine").unwrap();
    let again = run(&["sample", text(&folder)]).ended(2).err;
    assert!(again.contains("is there already"), "{again}");
    assert_eq!(fs::read(&table).unwrap(), b"mine");
    run(&["sample", text(&folder), "--force"]).ended(0);
    assert_eq!(fs::read(&table).unwrap().len(), 1_024 * Table::ROW);
}

/// One file that is there is enough, and the others aren't written either.
#[test]
fn all_samples_or_none() {
    let folder = folder("command-one");
    fs::write(folder.join("no-bits.filter"), b"mine").unwrap();
    run(&["sample", text(&folder)]).ended(2);
    assert_eq!(fs::read_dir(&folder).unwrap().count(), 1);
}

#[test]
fn a_folder_that_cant_be_made() {
    let folder = folder("command-file");
    let file = folder.join("file");
    fs::write(&file, b"").unwrap();
    run(&["sample", text(&file.join("below"))]).ended(2);
}

/// Names of files are any bytes, and are shown as well as can be.
#[cfg(target_os = "linux")]
#[test]
fn names_that_arent_text() {
    use std::ffi::{OsStr, OsString};
    use std::os::unix::ffi::OsStrExt;

    let folder = folder("command-names").into_os_string();
    let name = |bytes: &[u8]| -> OsString {
        let parts = [
            &folder,
            OsStr::from_bytes(b"/caf\xe9"),
            OsStr::from_bytes(bytes),
        ];
        parts.into_iter().collect()
    };
    let run = |words: &[&OsStr]| run_into(words, b"", Stdio::piped());
    let (message, table) = (name(b".message"), name(b".table"));
    fs::write(&message, b"\x42\0\0\0\0").unwrap();
    fs::write(&table, b"").unwrap();
    let shown = run(&["inspect".as_ref(), &message]).ended(0).out;
    assert!(shown.contains("caf\u{fffd}.message: a message"), "{shown}");
    let shown = run(&["table".as_ref(), &table]).ended(0).out;
    assert!(
        shown.contains("caf\u{fffd}.table: a good change table"),
        "{shown}"
    );
    let svg = name(b".svg");
    run(&["catch-up".as_ref(), &table, &table, "--svg".as_ref(), &svg]).ended(0);
    assert!(fs::read(&svg).unwrap().starts_with(b"<svg "));
    let samples = name(b"");
    run(&["sample".as_ref(), &samples]).ended(0);
    assert!(std::path::Path::new(&samples).join("cut.message").exists());

    let wrong = |words: &[&OsStr], what: &str| {
        let run = run(words).ended(2);
        assert!(run.err.contains(what), "{run:?}");
    };
    let odd = OsStr::from_bytes(b"caf\xe9");
    wrong(&["inspect".as_ref(), odd], "caf\u{fffd} can't be read");
    wrong(&[odd], "there is no command caf\u{fffd}");
    wrong(
        &["inspect".as_ref(), &message, "--as".as_ref(), odd],
        "caf\u{fffd} is no kind",
    );
    wrong(
        &["inspect".as_ref(), OsStr::from_bytes(b"--as=\xe9")],
        "isn't text",
    );
    wrong(&["compare".as_ref(), odd], "caf\u{fffd} is none of");
    wrong(
        &["compare".as_ref(), "--seed".as_ref(), odd],
        "--seed wants a number",
    );
}

/// A full disk loses no output in silence, whatever else went wrong.
#[cfg(target_os = "linux")]
#[test]
fn output_that_cant_be_written() {
    let message = b"\x42\0\0\0\0";
    for (words, input) in [
        (&["--help"][..], &b""[..]),
        (&["inspect", "-"], message),
        (&["table", "-"], &[0; 100]),
    ] {
        let full = fs::File::options().write(true).open("/dev/full");
        let run = run_into(words, input, full.unwrap().into()).ended(2);
        assert!(
            run.err.contains("standard output can't be written"),
            "{run:?}"
        );
    }
}

/// A full disk is told of a file too, and its folder isn't blamed.
#[cfg(target_os = "linux")]
#[test]
fn a_file_that_cant_be_written() {
    let none = folder("command-full").join("none.table");
    fs::write(&none, b"").unwrap();
    let none = text(&none);
    let words = ["catch-up", none, none, "--svg", "/dev/full", "--force"];
    let full = run(&words).ended(2);
    let told = "/dev/full can't be written";
    let next = "next: make room where it stands";
    assert!(
        full.err.contains(told) && full.err.contains(next),
        "{full:?}"
    );
}

/// A reader that has gone away is no failure.
#[test]
fn a_reader_that_stops_reading() {
    let (reader, writer) = std::io::pipe().unwrap();
    drop(reader);
    let run = run_into(&["--help"], b"", writer.into()).ended(0);
    assert!(run.err.is_empty(), "{run:?}");
}

/// A pipe is no terminal.
#[test]
fn no_colours_in_a_pipe() {
    let folder = folder("command-colours");
    let path = folder.join("none.table");
    fs::write(&path, b"").unwrap();
    let shown = run(&["table", text(&path)]).ended(0).out;
    let refused = run(&["inspect", "--as", "message", text(&path)])
        .ended(1)
        .err;
    assert!(!shown.contains('\x1b') && !refused.contains('\x1b'));
}
