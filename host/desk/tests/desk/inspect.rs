//! Files that are inspected: good, damaged, missing, empty and huge.

use crate::{folder, run, run_with, samples, text, Run};
use bisquetower::limits::{HASHES, PROBES};
use bisquetower::refusal::grouped;
use bisquetower::{Table, Waiting};
use compare::model::number_bytes;
use std::fs::{self, File};

fn inspect(bytes: &[u8]) -> Run {
    run_with(&["inspect", "-"], bytes)
}

#[test]
fn the_samples() {
    let show = |name: &str| run(&["inspect", text(&samples().join(name))]);
    let first = show("1-validator.message").ended(0).out;
    assert!(
        first.contains("a message of version 1, 1,401 bytes"),
        "{first}"
    );
    assert!(
        first.contains("904 entries, 10 bits each, 7 probes"),
        "{first}"
    );
    assert!(first.contains(" of 9,040 bits set"), "{first}");
    assert!(show("2-station.message").ended(0).out.contains("version 2"));
    assert!(show("station.table").ended(0).out.contains("1,024"));
    assert!(show("validator.state")
        .ended(0)
        .out
        .contains("shared heads  30"));
    let waiting = show("validator.waiting").ended(0).out;
    assert!(
        waiting.contains("waiting  3") && waiting.contains("lacking  1"),
        "{waiting}"
    );
    assert!(show("validator.filter")
        .ended(0)
        .out
        .contains("904 entries"));

    let refused = |name: &str| show(name).ended(1).err;
    assert!(refused("cut.message").contains("refusal 1, value 261"));
    assert!(refused("long-number.message").contains("refusal 3, value 1"));
    assert!(refused("no-bits.filter").contains("refusal 5, value 0"));
    assert!(refused("bad-row.table").contains("refusal 6, value 700"));
    assert!(refused("cut.table").contains("refusal 6, value 1,023"));
}

#[test]
fn a_message_from_standard_input() {
    let shown = inspect(b"\x43\0\0\0\x01\x04sync\x02\x02\x87more")
        .ended(0)
        .out;
    assert!(
        shown.starts_with("-: a message of version 2, 13 bytes\n"),
        "{shown}"
    );
    assert!(shown.contains("chunks  1  4 bytes together"), "{shown}");
    let flags = "flags   7  asks for a reset, takes no changes, understands resets";
    assert!(shown.contains(flags), "{shown}");
    assert!(
        shown.contains("4 bytes from place 13 on, ignored"),
        "{shown}"
    );
    let none = inspect(b"\x42\0\0\0\0").ended(0).out;
    assert!(none.contains("flags   -  no section"), "{none}");
}

/// Bytes behind a filter's field, and after the flags section.
#[test]
fn what_is_ignored() {
    let message = |behind: &[u8], after: &[u8]| {
        let length = 5 + behind.len() as u8;
        let parts: [&[u8]; 6] = [
            b"\x42\0\0\x01\0",
            &[length],
            b"\x01\x0a\x07\x0b\x0f",
            behind,
            b"\0\x02\x02\x84",
            after,
        ];
        inspect(&parts.concat()).ended(0).out
    };
    let odd = message(b"odd", b"more");
    assert!(odd.contains("; 3 bytes behind the filter's field"), "{odd}");
    assert!(odd.contains("4 bytes from place 18 on, ignored"), "{odd}");
    assert!(message(b"o", b"").contains("; 1 byte behind the filter's field"));
    let none = message(b"", b"");
    assert!(
        !none.contains("behind") && !none.contains("ignored"),
        "{none}"
    );
}

/// The heads of messages that are good, cut further on, and cut in the heads.
#[test]
fn heads_alone() {
    let show = |name: &str| run(&["inspect", "--heads", text(&samples().join(name))]);
    let first = show("1-validator.message").ended(0).out;
    assert!(
        first.contains("version 1, which is read no further"),
        "{first}"
    );
    assert!(!first.contains("haves"), "{first}");
    show("cut.message").ended(0);
    assert!(show("long-number.message")
        .ended(1)
        .err
        .contains("refusal 3, value 1"));

    let heads = |bytes: &[u8]| run_with(&["inspect", "--heads", "--full", "-"], bytes);
    let bytes = [&b"\x43\x01"[..], &[0xab; 32], b"\x80"].concat();
    let shown = heads(&bytes).ended(0).out;
    assert!(
        shown.contains(&format!("heads  1  {}", "ab".repeat(32))),
        "{shown}"
    );
    let refused = heads(&bytes[..33]).ended(1).err;
    assert!(refused.contains("refusal 1, value 2"), "{refused}");
    assert!(refused.contains("^^ place 2"), "{refused}");
    run_with(&["inspect", "--heads", "--as", "state", "-"], &bytes).ended(2);
}

/// The mark stands under the byte that the refusal names.
#[test]
fn the_mark_is_under_the_place() {
    let refused = inspect(b"\x42\0\0\0\x01\x02\xaa").ended(1).err;
    let lines: Vec<&str> = refused.lines().collect();
    assert!(lines[0].contains("refusal 1, value 5"), "{refused}");
    assert_eq!(
        lines[1],
        "  00000000  42 00 00 00 01 02 aa                             B......"
    );
    assert_eq!(lines[2], "                           ^^ place 5");
    assert_eq!(lines[1].find("02 aa"), lines[2].find("^^"));

    // A place at the end of a full line has a line of its own.
    let sixteen = [&b"\x42\0\0\0\x01\x0a"[..], &[7; 10]].concat();
    let refused = inspect(&[&sixteen[..], &[0x80]].concat()).ended(1).err;
    assert!(refused.contains("refusal 1, value 16"), "{refused}");
    let refused = inspect(b"\x42").ended(1).err;
    assert!(refused.contains("^^ place 1 the end"), "{refused}");
}

/// The columns under which there are marks, and the label behind them.
fn marked(refused: &str) -> (Vec<usize>, &str) {
    let mut lines = refused.lines();
    let marks = lines.find(|line| line.trim_start().starts_with("^^"));
    let marks = marks.expect("marks");
    let columns = marks.match_indices("^^").map(|(k, _)| (k - 12) / 3);
    let (_, label) = marks.split_once(" place").expect("a label");
    (columns.collect(), label)
}

/// What broke is said, and its bytes are marked: not the filter's first, nor the row's.
#[test]
fn the_marks_are_under_the_field() {
    let many = PROBES + 1;
    let message = [&b"\x42\0\0\x01\0\x05\x01\x0a"[..], &[many as u8, 0, 0]].concat();
    let probes = inspect(&message).ended(1).err;
    let sentence = format!("value 6: the filter at place 6 has {many} probes; at most {PROBES}\n");
    assert!(probes.contains(&sentence), "{probes}");
    assert_eq!(marked(&probes), (vec![8], " 8"), "{probes}");

    let many = HASHES as u64 + 1;
    let message = [vec![0x42], number_bytes(many)].concat();
    assert_eq!(message.len(), 3);
    let heads = inspect(&message).ended(1).err;
    let sentence = format!("{} heads", grouped(many));
    assert!(heads.contains(&sentence), "{heads}");
    assert_eq!(marked(&heads), (vec![1, 2], "s 1 to 2"), "{heads}");

    let mut rows = fs::read(samples().join("station.table")).unwrap();
    // The second dependency of row 64, which has three.
    let field = 64 * Table::ROW + 32 + 4;
    rows[field..field + 2].copy_from_slice(&[0, 4]);
    let row = run_with(&["inspect", "--as", "table", "-"], &rows)
        .ended(1)
        .err;
    let sentence = "row 64 of the change table depends on row 1,024, which doesn't stand before it";
    assert!(row.contains(sentence), "{row}");
    let [first, last] = [field, field + 1].map(|place| grouped(place as u64));
    let places = format!("s {first} to {last}");
    assert_eq!(marked(&row), (vec![4, 5], &places[..]), "{row}");
    let table = run_with(&["table", "-"], &rows).ended(1);
    assert!(table.err.contains(sentence), "{table:?}");
    assert_eq!(marked(&table.err), marked(&row), "{table:?}");
}

/// A long field is marked in its first lines.
#[test]
fn the_marks_of_a_long_field() {
    let zeros = [0; Waiting::ROW - 1];
    let cut = run_with(&["inspect", "--as", "waiting", "-"], &zeros)
        .ended(1)
        .err;
    let [last, bytes, whole] = [2, 1, 0].map(|less| grouped((Waiting::ROW - less) as u64));
    let sentence = format!("is cut: it has {bytes} of {whole} bytes");
    assert!(cut.contains(&sentence), "{cut}");
    let marks = cut.lines().filter(|line| line.contains("^^"));
    assert_eq!(marks.count(), 4, "{cut}");
    let places = format!("^^ places 0 to {last}");
    assert!(cut.contains(&places), "{cut}");
}

/// Bits for no entry are the sender's fault.
#[test]
fn a_filter_without_bits() {
    let refused = inspect(b"\x42\0\0\x01\0\x03\x01\0\x07\0").ended(1).err;
    assert!(refused.contains("refusal 5, value 6"), "{refused}");
    assert_eq!(marked(&refused), (vec![7], " 7"), "{refused}");
    let advice = "next: look at the sender: it built a filter with 0 bits for its entries, \
                  and sending it again won't help.";
    assert!(refused.contains(advice), "{refused}");
}

#[test]
fn no_bytes() {
    let refused = inspect(b"").ended(1).err;
    assert!(
        refused.contains("read as a message: refusal 1, value 0"),
        "{refused}"
    );
    let shown = |kind| run_with(&["inspect", "--as", kind, "-"], b"");
    assert!(shown("state").ended(1).err.contains("refusal 1, value 0"));
    assert!(shown("filter").ended(0).out.contains("0 entries"));
    assert!(shown("table").ended(0).out.contains("rows          0"));
}

#[test]
fn a_file_that_is_not_there() {
    let missing = run(&["inspect", "no/such/file"]).ended(2).err;
    assert!(missing.contains("no/such/file can't be read"), "{missing}");
    let folder = folder("inspect-folder");
    run(&["inspect", text(&folder)]).ended(2);
}

/// Gigabytes are refused, or read as far as they count, without being held.
#[test]
fn a_huge_file() {
    let folder = folder("inspect-huge");
    let name = folder.join("huge.message");
    let file = File::create(&name).unwrap();
    file.set_len(8 << 30).unwrap();
    let refused = run(&["inspect", text(&name)]).ended(1).err;
    assert!(refused.contains("refusal 4, value 0"), "{refused}");
    let table = run(&["table", text(&name)]).ended(1).err;
    assert!(table.contains("refusal 4, value 0"), "{table}");
    let filter = run(&["inspect", "--as", "filter", text(&name)])
        .ended(0)
        .out;
    assert!(
        filter.contains("0 entries, 0 bits each, 0 probes"),
        "{filter}"
    );
    assert!(
        filter.contains("all bytes from place 3 on, ignored"),
        "{filter}"
    );
    fs::remove_file(name).unwrap();
}

/// 43 begins messages and saved states: what takes all the bytes is shown, and what else
/// they may be is told.
#[test]
fn a_kind_is_told_by_the_bytes() {
    let state = [&b"\x43\x01"[..], &[9; 32]].concat();
    assert!(inspect(&state)
        .ended(0)
        .out
        .contains("a saved state, 34 bytes"));
    assert!(inspect(&[1, 10, 7, 0x0b, 0x0f])
        .ended(0)
        .out
        .contains("a filter, 5 bytes"));
    let mut row = [0; Table::ROW];
    row[0] = 9;
    assert!(inspect(&row).ended(0).out.contains("a change table"));
    // A message of six bytes, with others that are ignored; all are a table's row.
    row[0] = 0x42;
    let shown = inspect(&row).ended(0).out;
    assert!(shown.contains("a change table"), "{shown}");
    // A filter of one entry, whose bits are all that stands behind its numbers, is a
    // table's row too.
    let bits = number_bytes(8 * (Table::ROW as u64 - 4));
    row[..4].copy_from_slice(&[vec![0x01], bits, vec![0x07]].concat());
    let both = inspect(&row).ended(0).out;
    assert!(both.contains("a change table"), "{both}");
    assert!(
        both.contains("it can be read otherwise too: --as filter"),
        "{both}"
    );
    let text = inspect(b"hello").ended(1).err;
    assert!(text.contains("refusal 2, value 104"), "{text}");
}

/// A kind that isn't named and ignores more than half of the bytes is doubtful; one that is
/// named, or that ignores half, isn't.
#[test]
fn a_doubtful_guess() {
    let zeros = [0; 640];
    let guess = inspect(&zeros).ended(1);
    assert!(guess.out.contains("a filter, 3 bytes"), "{guess:?}");
    let doubt = "- was taken for a filter, which is doubtful: 637 of its 640 bytes are ignored";
    assert!(guess.err.contains(doubt), "{guess:?}");
    assert!(
        guess.err.contains("next: say what it is with --as "),
        "{guess:?}"
    );
    let named = run_with(&["inspect", "--as", "filter", "-"], &zeros).ended(0);
    assert_eq!(named.out, guess.out);

    let folder = folder("inspect-doubtful");
    let [by_name, nameless] = ["zeros.filter", "zeros"].map(|name| folder.join(name));
    for path in [&by_name, &nameless] {
        fs::write(path, zeros).unwrap();
    }
    run(&["inspect", text(&by_name)]).ended(0);
    run(&["inspect", text(&nameless)]).ended(1);

    let message = b"\x42\0\0\0\0\0";
    let behind = |count: usize| inspect(&[&message[..], &vec![0x55; count]].concat());
    behind(6).ended(0);
    behind(7).ended(1);
}

/// A waiting table whose second row is the first again, and one that is cut.
#[test]
fn bad_waiting_tables() {
    let table = fs::read(samples().join("validator.waiting")).unwrap();
    let row = &table[..Waiting::ROW];
    let show = |bytes: &[u8]| run_with(&["inspect", "--as", "waiting", "-"], bytes);
    assert!(show(row).ended(0).out.contains("waiting  1"));
    let twice = show(&[row, row].concat()).ended(1).err;
    assert!(twice.contains("refusal 9, value 1"), "{twice}");
    assert!(twice.contains("has the hash of row 0"), "{twice}");
    let [first, last] = [Waiting::ROW, Waiting::ROW + 31].map(|place| grouped(place as u64));
    let places = format!("^^ places {first} to {last}");
    assert!(twice.contains(&places), "{twice}");
    assert!(show(&table[..Waiting::ROW - 1])
        .ended(1)
        .err
        .contains("refusal 9, value 0"));
}

#[test]
fn full_hashes() {
    let heads: Vec<u8> = (1..=6u8).flat_map(|n| [n; 32]).collect();
    let state = [&b"\x43\x06"[..], &heads].concat();
    let short = inspect(&state).ended(0).out;
    assert!(short.contains("0404040404040404  and 2 more"), "{short}");
    let full = run_with(&["inspect", "--full", "-"], &state).ended(0).out;
    assert!(full.contains(&"06".repeat(32)), "{full}");
}
