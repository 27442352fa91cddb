//! What refusals say: which list, number or field broke which rule, and where it stands.

use bisquetower::limits::{
    CHUNKS, DEPENDENCIES, FIELD_SIZE, HASHES, HAVES, HAVES_WORDS, MESSAGE_SIZE, PROBES, ROWS,
    SENT_HASHES, TABLE_SIZE, WAITING_ROWS,
};
use bisquetower::message::{View, CHUNK_WORDS};
use bisquetower::refusal::{answer, grouped};
use bisquetower::{
    hashes_to_send, raw, ChangeHash, Filter, Have, Host, MemoryError, Message, Refusal, SavedState,
    Session, SessionParts, Table, Waiting,
};
use std::borrow::Cow;
use std::fmt::Debug;
use std::ops::Range;

fn hash(n: usize) -> ChangeHash {
    let mut hash = [0x5a; 32];
    hash[..8].copy_from_slice(&(n as u64).to_le_bytes());
    ChangeHash(hash)
}

fn hashes(count: usize) -> Vec<ChangeHash> {
    (0..count).map(hash).collect()
}

/// A number as sentences show it.
fn shown(n: usize) -> String {
    grouped(n as u64)
}

/// A number as it stands in messages.
fn spelt(n: usize) -> Vec<u8> {
    let mut bytes = vec![0; 10];
    let [length, ..] = answer(raw::write_number(n as u64, &mut bytes)).unwrap();
    bytes.truncate(length as usize);
    bytes
}

/// The refusal of what has to be refused with this number and value.
fn refused<T: Debug>(made: Result<T, Refusal>, number: u64, value: u64) -> Refusal {
    let refusal = made.expect_err("a refusal");
    assert_eq!(refusal, Refusal::new(number, value), "{refusal}");
    refusal
}

/// That a refusal has this sentence and marks these bytes.
fn says(refusal: Refusal, sentence: &str, place: impl Into<Option<Range<usize>>>) {
    assert_eq!(refusal.sentence(), sentence);
    let whole = format!(
        "refusal {}, value {}: {sentence}",
        refusal.number, refusal.value
    );
    assert_eq!(refusal.to_string(), whole);
    let cause = refusal.cause().expect("a cause");
    assert_eq!(cause.place(), place.into(), "{sentence}");
}

#[test]
fn a_message_that_cant_be_written() {
    let have = |count| Have {
        last_sync: hashes(count),
        ..Have::default()
    };
    let [hash_count, most_hashes] = [HASHES + 1, HASHES].map(shown);
    let [have_count, most_haves] = [HAVES + 1, HAVES].map(shown);
    let [chunk_count, most_chunks] = [CHUNKS + 1, CHUNKS].map(shown);
    let [bytes, most_bytes] = [2 * MESSAGE_SIZE + 9, MESSAGE_SIZE].map(shown);
    let empty = Message::default;
    let cases = [
        (
            Message {
                heads: hashes(HASHES + 1),
                ..empty()
            },
            format!("the message has {hash_count} heads; at most {most_hashes}"),
        ),
        (
            Message {
                need: hashes(HASHES + 1),
                ..empty()
            },
            format!("the message needs {hash_count} hashes; at most {most_hashes}"),
        ),
        (
            Message {
                have: vec![have(1); HAVES + 1],
                ..empty()
            },
            format!("the message has {have_count} haves; at most {most_haves}"),
        ),
        (
            Message {
                have: vec![have(3), have(HASHES + 1)],
                ..empty()
            },
            format!("the have at index 1 has {hash_count} last-sync hashes; at most {most_hashes}"),
        ),
        (
            Message {
                changes: vec![vec![7]; CHUNKS + 1],
                ..empty()
            },
            format!("the message has {chunk_count} chunks; at most {most_chunks}"),
        ),
        (
            Message {
                changes: vec![vec![7; 2 * MESSAGE_SIZE]],
                ..empty()
            },
            format!("the message takes {bytes} bytes; at most {most_bytes}"),
        ),
    ];
    for (message, sentence) in cases {
        says(refused(message.encode(), 4, 0), &sentence, None);
        says(refused(message.encode_into(&mut []), 4, 0), &sentence, None);
    }
    // A buffer that is too short is no limit that is passed.
    let short = refused(empty().encode_into(&mut []), 7, 5);
    assert_eq!(short.cause(), None);
}

/// A message of one chunk has nine bytes beside it: its first byte, four counts, and the four
/// of the chunk's length.
#[test]
fn a_message_is_counted_to_the_byte() {
    let most = MESSAGE_SIZE;
    let message = |bytes: usize| Message {
        changes: vec![vec![0; bytes]],
        ..Message::default()
    };
    assert_eq!(
        message(most - 9).encode().map(|bytes| bytes.len()),
        Ok(most)
    );
    let refusal = refused(message(most - 8).encode(), 4, 0);
    let [bytes, most] = [most + 1, most].map(shown);
    let sentence = format!("the message takes {bytes} bytes; at most {most}");
    says(refusal, &sentence, None);
}

#[test]
fn a_state_of_too_many_heads() {
    let many = 2 * HASHES;
    let state = SavedState {
        shared_heads: hashes(many),
    };
    let refusal = refused(state.encode(), 10, 0);
    let [heads, most] = [many, HASHES].map(shown);
    let sentence = format!("the saved state has {heads} shared heads; at most {most}");
    says(refusal, &sentence, None);
    let read = format!(
        "the saved state has {heads} shared heads, by the count at place 1; at most {most}"
    );
    let bytes = [vec![0x43], spelt(many)].concat();
    let place = 1..bytes.len();
    says(
        refused(SavedState::decode(&bytes), 4, 1),
        &read,
        place.clone(),
    );
    says(refused(Session::decode(&bytes), 4, 1), &read, place);
}

/// That a message is refused with this sentence, whichever way it is read.
fn unread(bytes: &[u8], value: u64, sentence: &str, place: Range<usize>) {
    let refusal = refused(Message::decode(bytes), 4, value);
    says(refusal, sentence, place.clone());
    let (mut haves, mut chunks) = ([0; HAVES_WORDS], [0; CHUNK_WORDS]);
    let refusal = refused(View::read(bytes, &mut haves, &mut chunks), 4, value);
    says(refusal, sentence, place);
}

/// What is told of a message that ends with a number, which is what is marked.
fn unread_number(before: &[u8], number: usize, sentence: &str) {
    let bytes = [before, &spelt(number)].concat();
    let place = before.len();
    unread(&bytes, place as u64, sentence, place..bytes.len());
}

#[test]
fn a_message_that_cant_be_read() {
    let [many, most] = [HASHES + 1, HASHES].map(shown);
    let heads = format!("the message has {many} heads, by the count at place 1; at most {most}");
    unread_number(b"\x42", HASHES + 1, &heads);
    let need = format!("the message needs {many} hashes, by the count at place 34; at most {most}");
    let before = [&b"\x42\x01"[..], &[9; 32]].concat();
    unread_number(&before, HASHES + 1, &need);
    let synced = format!(
        "the have at index 1 has {many} last-sync hashes, by the count at place 6; at most {most}"
    );
    unread_number(b"\x43\0\0\x02\0\0", HASHES + 1, &synced);
    let [many, most] = [HAVES + 1, HAVES].map(shown);
    let haves = format!("the message has {many} haves, by the count at place 3; at most {most}");
    unread_number(b"\x43\0\0", HAVES + 1, &haves);
    let [many, most] = [CHUNKS + 1, CHUNKS].map(shown);
    let chunks = format!("the message has {many} chunks, by the count at place 4; at most {most}");
    unread_number(b"\x42\0\0\0", CHUNKS + 1, &chunks);
}

#[test]
fn a_message_with_a_filter_that_cant_be_read() {
    // The three numbers of the filter, and which of them are marked.
    let unread = |numbers: [usize; 3], sentence: &str, marked: Range<usize>| {
        let numbers = numbers.map(spelt);
        let string = numbers.concat();
        let bytes = [&b"\x42\0\0\x01\0"[..], &spelt(string.len()), &string].concat();
        let end = |count: usize| 6 + numbers[..count].concat().len();
        unread(&bytes, 6, sentence, end(marked.start)..end(marked.end));
    };
    let [many, most] = [PROBES + 1, PROBES].map(shown);
    let probes = format!("the filter at place 6 has {many} probes; at most {most}");
    unread([1, 10, PROBES + 1], &probes, 2..3);
    let [many, most] = [FIELD_SIZE + 1, FIELD_SIZE].map(shown);
    let field = format!("the filter at place 6 has a field of {many} bytes; at most {most}");
    unread([8, FIELD_SIZE + 1, 7], &field, 0..2);
}

#[test]
fn a_message_that_is_too_long() {
    let long = vec![0x42; MESSAGE_SIZE + 1];
    let sentence = format!("the message has more than {} bytes", shown(MESSAGE_SIZE));
    says(refused(Message::decode(&long), 4, 0), &sentence, None);
    says(refused(Message::peek_heads(&long), 4, 0), &sentence, None);
    let [many, most] = [HASHES + 1, HASHES].map(shown);
    let heads = format!("the message has {many} heads, by the count at place 1; at most {most}");
    let bytes = [vec![0x42], spelt(HASHES + 1)].concat();
    let refusal = refused(Message::peek_heads(&bytes), 4, 1);
    says(refusal, &heads, 1..bytes.len());
}

#[test]
fn a_filter_that_cant_be_read() {
    let no_bits = "the filter at place 0 has entries and 0 bits per entry";
    says(
        refused(Filter::parse(b"\x81\x01\0\x07"), 5, 0),
        no_bits,
        2..3,
    );
    let no_bits = "the filter at place 6 has entries and 0 bits per entry";
    let refusal = refused(Message::decode(b"\x42\0\0\x01\0\x03\x01\0\x07"), 5, 6);
    says(refusal, no_bits, 7..8);
    let many = [1, 10, PROBES as u8 + 1, 0, 0];
    let refusal = refused(Filter::parse(&many), 4, 0);
    let probes = PROBES + 1;
    let sentence = format!("the filter at place 0 has {probes} probes; at most {PROBES}");
    says(refusal, &sentence, 2..3);
    let refusal = refused(
        Filter::parse(b"\xff\xff\xff\xff\x0f\xff\xff\xff\xff\x0f\x07"),
        4,
        0,
    );
    let field = "the filter at place 0 has a field of 2,305,843,008,139,952,129 bytes";
    let sentence = format!("{field}; at most {}", shown(FIELD_SIZE));
    says(refusal, &sentence, 0..10);
}

/// A filter that isn't read stands at no place.
#[test]
fn a_filter_that_cant_be_made() {
    let built = |bits: usize, probes: usize| Filter::with(bits as u32, probes as u32, hashes(8));
    assert!(built(FIELD_SIZE, PROBES).is_ok());
    let probes = PROBES + 1;
    let many = format!("the filter has {probes} probes; at most {PROBES}");
    says(refused(built(10, probes), 10, 0), &many, None);
    let no_bits = "the filter has entries and 0 bits per entry";
    says(refused(built(0, 7), 10, 0), no_bits, None);
    let [bytes, most] = [FIELD_SIZE + 1, FIELD_SIZE].map(shown);
    let large = format!("the filter has a field of {bytes} bytes; at most {most}");
    says(refused(built(FIELD_SIZE + 1, 7), 10, 0), &large, None);
    let [count, most] = [HASHES + 1, HASHES].map(shown);
    let entries = format!("the filter has {count} entries; at most {most}");
    let refusal = refused(Filter::from_hashes(hashes(HASHES + 1)), 4, 0);
    says(refusal, &entries, None);

    let of_parts = |probes: usize, field: &[u8]| Filter::from_parts(1, 10, probes as u64, field);
    assert!(of_parts(7, &[0; 2]).is_ok());
    says(refused(of_parts(probes, &[0; 2]), 10, 0), &many, None);
    let long = "the filter has a field of length 3; its entries and bits ask for 2";
    says(refused(of_parts(7, &[0; 3]), 10, 0), long, None);
    let none = "the filter has a field of length 1; its entries and bits ask for 0";
    let refusal = refused(Filter::from_parts(0, 10, 7, &[0]), 10, 0);
    says(refusal, none, None);
    // Numbers that no filter of bytes can have.
    let huge = refused(Filter::from_parts(0, u64::MAX, 7, &[]), 10, 0);
    assert_eq!(huge.cause(), None);
}

/// The parts of a session, each as long as it may be but for one, which has one more.
#[test]
fn a_session_of_bad_parts() {
    let have = |count| Have {
        last_sync: hashes(count),
        ..Have::default()
    };
    let good = SessionParts {
        shared_heads: hashes(HASHES),
        last_sent_heads: hashes(HASHES),
        their_heads: Some(hashes(HASHES)),
        their_need: Some(hashes(HASHES)),
        their_have: Some(vec![have(HASHES); HAVES]),
        ..SessionParts::default()
    };
    assert!(Session::from_parts(&good).is_ok());
    let [count, most] = [HASHES + 1, HASHES].map(shown);
    let of_hashes = |items: &str| format!("the session has {count} {items}; at most {most}");
    let many = || Some(hashes(HASHES + 1));
    let [have_count, most_haves] = [HAVES + 1, HAVES].map(shown);
    let [sent_count, most_sent] = [SENT_HASHES + 1, SENT_HASHES].map(shown);
    let mut sent = hashes(SENT_HASHES + 1);
    sent.sort();
    let cases = [
        (
            SessionParts {
                shared_heads: hashes(HASHES + 1),
                ..good.clone()
            },
            of_hashes("shared heads"),
        ),
        (
            SessionParts {
                last_sent_heads: hashes(HASHES + 1),
                ..good.clone()
            },
            of_hashes("last-sent heads"),
        ),
        (
            SessionParts {
                their_heads: many(),
                ..good.clone()
            },
            of_hashes("heads of the peer's"),
        ),
        (
            SessionParts {
                their_need: many(),
                ..good.clone()
            },
            of_hashes("needs of the peer's"),
        ),
        (
            SessionParts {
                their_have: Some(vec![have(1); HAVES + 1]),
                ..good.clone()
            },
            format!("the session has {have_count} haves of the peer's; at most {most_haves}"),
        ),
        (
            SessionParts {
                their_have: Some(vec![have(1), have(HASHES + 1)]),
                ..good.clone()
            },
            format!("the have at index 1 has {count} last-sync hashes; at most {most}"),
        ),
        (
            SessionParts {
                sent_hashes: sent,
                ..good.clone()
            },
            format!("the session has {sent_count} sent hashes; at most {most_sent}"),
        ),
        (
            SessionParts {
                sent_hashes: vec![hash(1), hash(2), hash(2)],
                ..good
            },
            "the sent hash at index 2 isn't above the one before it; sent hashes ascend".into(),
        ),
    ];
    for (parts, sentence) in cases {
        says(refused(Session::from_parts(&parts), 10, 0), &sentence, None);
    }
}

#[test]
fn too_many_hashes_that_are_passed() {
    let table = Table::new(rows()).unwrap();
    let [count, most] = [HASHES + 1, HASHES].map(shown);
    let passed = format!("{count} hashes are passed; at most {most}");
    let many = hashes(HASHES + 1);
    says(refused(table.beyond(&many), 4, 0), &passed, None);
    let missing = table.missing(&Waiting::default(), &many);
    says(refused(missing, 4, 0), &passed, None);
    says(
        refused(hashes_to_send(&table, &[], &many), 4, 0),
        &passed,
        None,
    );
    let [have_count, most_haves] = [HAVES + 1, HAVES].map(shown);
    let haves = format!("{have_count} haves are passed; at most {most_haves}");
    let refusal = refused(
        hashes_to_send(&table, &vec![Have::default(); HAVES + 1], &[]),
        4,
        0,
    );
    says(refusal, &haves, None);
    let synced = Have {
        last_sync: many,
        ..Have::default()
    };
    let refusal = refused(hashes_to_send(&table, &[synced], &[]), 4, 0);
    let sentence = format!("the have at index 0 has {count} last-sync hashes; at most {most}");
    says(refusal, &sentence, None);
}

/// A table of 20 rows; row 18 depends on rows 3, 5 and 17.
fn rows() -> Vec<u8> {
    let on = |row: usize| match row {
        0 => vec![],
        18 => vec![hash(3), hash(5), hash(17)],
        row => vec![hash(row - 1)],
    };
    Table::lay((0..20).map(|row| (hash(row), on(row))))
}

#[test]
fn bad_rows() {
    let start = 18 * Table::ROW;
    let count = start + 32;
    // The field, from the row's count on, and what it becomes.
    let damaged = |field: usize, to: u16| {
        let mut rows = rows();
        rows[count + 2 * field..][..2].copy_from_slice(&to.to_le_bytes());
        refused(Table::new(rows), 6, 18)
    };
    let place = |field: usize| count + 2 * field..count + 2 * field + 2;
    let row = "row 18 of the change table";
    let says = |refusal, what: &str, place| says(refusal, &format!("{row} {what}"), place);
    for many in [DEPENDENCIES + 1, 4_096] {
        let count = shown(many);
        let sentence = format!("counts {count} dependencies; at most {DEPENDENCIES}");
        says(damaged(0, many as u16), &sentence, place(0));
    }
    let before = "which doesn't stand before it";
    says(
        damaged(3, 18),
        &format!("depends on row 18, {before}"),
        place(3),
    );
    says(
        damaged(2, 1_000),
        &format!("depends on row 1,000, {before}"),
        place(2),
    );
    says(
        damaged(2, 3),
        "names row 3 after row 3; row numbers ascend",
        place(2),
    );
    says(
        damaged(1, 6),
        "names row 5 after row 6; row numbers ascend",
        place(2),
    );
    let unused = "as a row number that isn't in use; those are 0";
    let last = DEPENDENCIES;
    says(damaged(last, 2), &format!("has 2 {unused}"), place(last));
    says(damaged(0, 2), &format!("has 17 {unused}"), place(3));

    let mut twice = rows();
    twice.copy_within(7 * Table::ROW..7 * Table::ROW + 32, start);
    says(
        refused(Table::new(twice), 6, 18),
        "has the hash of row 7",
        start..start + 32,
    );
    let cut = &rows()[..start + 33];
    says(
        refused(Table::new(cut), 6, 18),
        &format!("is cut: it has 33 of {} bytes", shown(Table::ROW)),
        start..start + 33,
    );
}

#[test]
fn a_row_that_cant_be_added() {
    let mut table = Table::new(rows()).unwrap();
    let row = "row 20 of the change table";
    let start = 20 * Table::ROW;
    let twice = refused(table.push(hash(4), &[]), 6, 20);
    let sentence = format!("{row} has the hash of row 4");
    says(twice, &sentence, start..start + 32);
    let count = start + 32;
    let on_itself = refused(table.push(hash(20), &[hash(21)]), 6, 20);
    let sentence = format!("{row} depends on row 20, which doesn't stand before it");
    says(on_itself, &sentence, count + 2..count + 4);

    let many = DEPENDENCIES + 1;
    let mut wide = Table::from_changes((0..many).map(|row| (hash(row), vec![]))).unwrap();
    let refusal = refused(wide.push(hash(many), &hashes(many)), 6, many as u64);
    let counts = format!("counts {many} dependencies; at most {DEPENDENCIES}");
    let count = many * Table::ROW + 32;
    let sentence = format!("row {many} of the change table {counts}");
    says(refusal, &sentence, count..count + 2);
}

#[test]
fn tables_of_too_many_rows() {
    let table = Table::lay((0..=ROWS).map(|row| (hash(row), vec![])));
    let sentence = format!("the change table has more than {} rows", shown(ROWS));
    let longer = &table[..TABLE_SIZE + 1];
    says(refused(Table::new(longer), 4, 0), &sentence, None);
    says(refused(Table::new(table), 4, 0), &sentence, None);
    let waiting = (0..=WAITING_ROWS).map(|row| (hash(row), vec![]));
    let refusal = refused(Waiting::from_changes(waiting, &Table::default()), 4, 0);
    let most = shown(WAITING_ROWS);
    let sentence = format!("the waiting table has more than {most} rows");
    says(refusal, &sentence, None);
}

/// Two rows that wait, the second on two changes, beside a table that holds another.
#[test]
fn bad_waiting_rows() {
    let table = Table::from_changes([(hash(8), vec![]), (hash(9), vec![])]).unwrap();
    let rows = Waiting::lay([(hash(1), vec![]), (hash(2), vec![hash(3), hash(4)])]);
    let start = Waiting::ROW;
    let damaged = |field: usize, to: &[u8]| {
        let mut rows = rows.clone();
        rows[start + field..][..to.len()].copy_from_slice(to);
        refused(Waiting::new(rows, &table), 9, 1)
    };
    let row = "row 1 of the waiting table";
    let says = |refusal, what: &str, place: Range<usize>| {
        let place = start + place.start..start + place.end;
        says(refusal, &format!("{row} {what}"), place)
    };
    let many = DEPENDENCIES + 1;
    says(
        damaged(32, &[many as u8]),
        &format!("counts {many} dependencies; at most {DEPENDENCIES}"),
        32..33,
    );
    says(
        damaged(50, &[1]),
        "has a byte behind its count that isn't 0",
        50..51,
    );
    let unused = "that isn't in use; those are zero";
    let (last, end) = (DEPENDENCIES - 1, Waiting::ROW);
    says(
        damaged(end - 1, &[1]),
        &format!("has a hash at index {last} {unused}"),
        end - 32..end,
    );
    says(
        damaged(32, &[1]),
        &format!("has a hash at index 1 {unused}"),
        96..128,
    );
    says(damaged(0, &hash(1).0), "has the hash of row 0", 0..32);
    says(
        damaged(0, &hash(9).0),
        "has the hash of row 1 of the change table",
        0..32,
    );
    let cut = refused(Waiting::new(&rows[..start + 9], &table), 9, 1);
    says(
        cut,
        &format!("is cut: it has 9 of {} bytes", shown(end)),
        0..9,
    );
}

/// A message with two of everything.
fn sample() -> Vec<u8> {
    let have = |count| {
        let last_sync = hashes(count);
        let bloom = Filter::from_hashes(&last_sync).unwrap();
        Have { last_sync, bloom }
    };
    let message = Message {
        heads: hashes(2),
        need: hashes(2),
        have: vec![have(1), have(2)],
        changes: vec![vec![1; 3]; 2],
        ..Message::default()
    };
    message.encode().unwrap()
}

/// Each byte of a message becomes other bytes, numbers of two bytes among them: whatever
/// limit is passed, it is named, and every kind of limit is passed somewhere.
#[test]
fn every_limit_that_damage_passes_is_named() {
    let good = sample();
    let mut sentences = Vec::new();
    for place in 1..good.len() {
        let field = 8 * FIELD_SIZE;
        let limits = [HAVES, PROBES, HASHES, CHUNKS, field].map(|limit| spelt(limit + 1));
        for other in limits.into_iter().chain([vec![0]]) {
            let bytes = [&good[..place], &other, &good[place + 1..]].concat();
            match Message::decode(&bytes) {
                Err(refusal) if refusal.number == 4 => {
                    let cause = refusal.cause().expect("a cause");
                    let marked = cause.place().expect("a place");
                    assert!(marked.start as u64 >= refusal.value && marked.end <= bytes.len());
                    sentences.push(refusal.sentence());
                }
                _ => continue,
            }
        }
    }
    for part in [
        " heads",
        "needs",
        " haves",
        "last-sync",
        " chunks",
        "probes",
        "field",
    ] {
        let named = sentences.iter().filter(|sentence| sentence.contains(part));
        assert!(named.count() > 0, "{part}: {sentences:#?}");
    }
}

/// Each byte of a row becomes other bytes: whatever row is bad, what is wrong in it is told
/// and stands in it.
#[test]
fn every_row_that_damage_makes_bad_is_explained() {
    let waiting = Waiting::lay([(hash(1), vec![]), (hash(2), vec![hash(3), hash(4)])]);
    let empty = Table::default();
    let mut told = [0, 0];
    let mut look = |kind: usize, size: usize, refusal: Refusal| {
        if ![6, 9].contains(&refusal.number) {
            return;
        }
        let start = size * refusal.value as usize;
        let marked = refusal.cause().expect("a cause").place().expect("a place");
        assert!(
            start <= marked.start && marked.end <= start + size,
            "{refusal}"
        );
        told[kind] += 1;
    };
    for byte in 0..Table::ROW {
        for to in [1, 2, 17, 18, 19, 255] {
            let mut rows = rows();
            rows[18 * Table::ROW + byte] = to;
            if let Err(refusal) = Table::new(rows) {
                look(0, Table::ROW, refusal);
            }
        }
    }
    for byte in 0..Waiting::ROW {
        for to in [0, 1, DEPENDENCIES as u8 + 1] {
            let mut rows = waiting.clone();
            rows[Waiting::ROW + byte] = to;
            if let Err(refusal) = Waiting::new(rows, &empty) {
                look(1, Waiting::ROW, refusal);
            }
        }
    }
    assert!(told[0] > 150 && told[1] > 800, "{told:?}");
}

/// A host that lends these tables and nothing else.
struct Tables(Vec<u8>, Vec<u8>);

impl Host for Tables {
    type Error = MemoryError;

    fn table(&self) -> Cow<'_, [u8]> {
        Cow::Borrowed(&self.0)
    }

    fn waiting(&self) -> Cow<'_, [u8]> {
        Cow::Borrowed(&self.1)
    }

    fn change(&self, hash: &ChangeHash) -> Result<Cow<'_, [u8]>, MemoryError> {
        Err(MemoryError::Unknown(*hash))
    }

    fn save(&self) -> Result<Vec<u8>, MemoryError> {
        Ok(Vec::new())
    }

    fn load(&mut self, _: &[u8]) -> Result<(), MemoryError> {
        Ok(())
    }
}

/// A session's errors say it too: of the host's tables, and of the message that came.
#[test]
fn a_session_says_what_broke() {
    let cut = rows()[..Table::ROW + 36].to_vec();
    let cut_row = format!(
        "refusal 6, value 1: row 1 of the change table is cut: it has 36 of {} bytes",
        shown(Table::ROW)
    );
    let twice = Waiting::lay([(hash(1), vec![]), (hash(1), vec![])]);
    let generated = |host: &Tables| Session::new().generate(host).unwrap_err().to_string();
    assert_eq!(generated(&Tables(cut.clone(), vec![])), cut_row);
    assert_eq!(
        generated(&Tables(vec![], twice)),
        "refusal 9, value 1: row 1 of the waiting table has the hash of row 0"
    );
    let received = |table: Vec<u8>, message: &[u8]| {
        let mut host = Tables(table, vec![]);
        let refused = Session::new().receive(&mut host, message);
        refused.unwrap_err().to_string()
    };
    assert_eq!(received(cut, b"\x42\0\0\0\0"), cut_row);
    let many = [
        &b"\x42\0\0\x01\0\x05\x01\x0a"[..],
        &[PROBES as u8 + 1, 0, 0],
    ]
    .concat();
    assert_eq!(
        received(rows(), &many),
        format!(
            "refusal 4, value 6: the filter at place 6 has {} probes; at most {PROBES}",
            PROBES + 1
        )
    );
}

/// What planning refuses for these parts of a session, which stays as it was.
fn unplanned(parts: &SessionParts, host: &Tables) -> Refusal {
    let mut session = Session::from_parts(parts).unwrap();
    let refusal = refused(session.plan(&host.0, &host.1), 4, 0);
    assert_eq!(session.parts(), *parts);
    refusal
}

/// Changes wait for others, which together are one more than a list has.
#[test]
fn a_plan_with_too_many_needs() {
    let many = HASHES + 1;
    let waits = many.div_ceil(DEPENDENCIES);
    let needs = |k: usize| {
        let each = DEPENDENCIES * k..many.min(DEPENDENCIES * (k + 1));
        each.map(|n| hash(waits + n)).collect::<Vec<_>>()
    };
    let waiting = Waiting::lay((0..waits).map(|k| (hash(k), needs(k))));
    let parts = SessionParts {
        their_heads: Some(hashes(waits)),
        ..SessionParts::default()
    };
    let refusal = unplanned(&parts, &Tables(vec![], waiting));
    let most = shown(HASHES);
    let sentence = format!("the needs of the message would be more than {most}");
    says(refusal, &sentence, None);
}

/// As many hashes are remembered as sent as may be, and a row is to be sent.
#[test]
fn a_plan_with_too_many_sent_hashes() {
    let row = hash(SENT_HASHES);
    let mut sent_hashes = hashes(SENT_HASHES);
    sent_hashes.sort();
    let parts = SessionParts {
        their_heads: Some(vec![hash(SENT_HASHES + 1)]),
        their_need: Some(vec![row]),
        their_have: Some(vec![Have::default()]),
        sent_hashes,
        ..SessionParts::default()
    };
    let refusal = unplanned(&parts, &Tables(Table::lay([(row, vec![])]), vec![]));
    let most = shown(SENT_HASHES);
    let sentence = format!("the sent hashes of the session would be more than {most}");
    says(refusal, &sentence, None);
}

/// As many heads are shared as may be, and a known head comes beside an unknown one.
#[test]
fn a_message_after_which_too_many_heads_are_shared() {
    let row = hash(HASHES);
    let parts = SessionParts {
        shared_heads: hashes(HASHES),
        ..SessionParts::default()
    };
    let message = Message {
        heads: vec![row, hash(HASHES + 1)],
        ..Message::default()
    };
    let mut session = Session::from_parts(&parts).unwrap();
    let mut host = Tables(Table::lay([(row, vec![])]), vec![]);
    let received = session.receive(&mut host, &message.encode().unwrap());
    let most = shown(HASHES);
    assert_eq!(
        received.unwrap_err().to_string(),
        format!("refusal 4, value 0: the shared heads of the session would be more than {most}")
    );
    assert_eq!(session.parts(), parts);
}

/// Refusals of other numbers say all there is.
#[test]
fn other_refusals_have_no_cause() {
    for bytes in [&b""[..], b"\x41", b"\x42", b"\x42\x80\0"] {
        let refusal = Message::decode(bytes).expect_err("a refusal");
        assert!((1..4).contains(&refusal.number), "{refusal}");
        assert_eq!(refusal.cause(), None, "{refusal}");
    }
}
