//! Filters, messages, saved states and tables as values, at their bounds.

use bisquetower::limits::{
    DEPENDENCIES, FIELD_SIZE, HASHES, HASH_SIZE, MESSAGE_SIZE, OLD_DEPENDENCIES, OLD_ROWS,
    OLD_ROW_SIZE, OLD_WAITING_ROW_SIZE, PROBES, ROWS,
};
use bisquetower::{
    hashes_to_send, ChangeHash, Filter, Have, Memory, Message, MessageFlags, MessageVersion,
    Refusal, SavedState, Session, Table, Waiting,
};

fn hash(n: usize) -> ChangeHash {
    let mut hash = [0x5a; 32];
    hash[..8].copy_from_slice(&(n as u64).to_le_bytes());
    ChangeHash(hash)
}

fn hashes(count: usize) -> Vec<ChangeHash> {
    (0..count).map(hash).collect()
}

fn refusal(number: u64, value: u64) -> Refusal {
    Refusal::new(number, value)
}

/// Every part, more chunks than are read at first, and a filter of each kind.
#[test]
fn a_message_is_read_back() {
    let mut flags = MessageFlags::new();
    flags.set(MessageFlags::READ_ONLY);
    let have = |count| Have {
        last_sync: hashes(count),
        bloom: Filter::from_hashes(hashes(count)).unwrap(),
    };
    let message = Message {
        heads: hashes(3),
        need: hashes(2),
        have: vec![have(5), Have::default(), have(1)],
        changes: (0..300).map(|length| vec![7; length % 5]).collect(),
        flags: Some(flags),
        version: MessageVersion::V1,
    };
    let bytes = message.encode().unwrap();
    assert_eq!(Message::decode(&bytes), Ok(message.clone()));

    let mut out = vec![0; bytes.len()];
    assert_eq!(message.encode_into(&mut out), Ok(bytes.len()));
    assert_eq!(out, bytes);
    let short = message.encode_into(&mut out[1..]);
    assert_eq!(short, Err(refusal(7, bytes.len() as u64)));
}

#[test]
fn no_section_and_an_empty_one_differ() {
    let read = |bytes: &[u8]| Message::decode(bytes).unwrap();
    let none = read(b"\x42\0\0\0\0");
    let empty = read(b"\x42\0\0\0\0\0");
    assert_eq!((none.flags, empty.flags), (None, Some(MessageFlags::new())));
    assert_eq!(none.encode().unwrap(), b"\x42\0\0\0\0");
}

#[test]
fn limits_of_a_message() {
    let long = Message {
        heads: hashes(HASHES + 1),
        ..Message::default()
    };
    assert_eq!(long.encode(), Err(refusal(4, 0)));
    let large = Message {
        changes: vec![vec![0; MESSAGE_SIZE]],
        ..Message::default()
    };
    assert_eq!(large.encode(), Err(refusal(4, 0)));
    assert_eq!(Message::decode(b""), Err(refusal(1, 0)));
    assert_eq!(Message::decode(b"\x41"), Err(refusal(2, 0x41)));
}

/// What a fresh session says of an empty document, and a read-only one.
#[test]
fn first_words() {
    let said = |mut session: Session| {
        let message = session.generate(&Memory::new()).unwrap();
        message.expect("the first message").encode().unwrap()
    };
    assert_eq!(said(Session::new()), b"\x42\0\0\x01\0\0\0\x02\x02\x84");
    assert_eq!(
        said(Session::new_read_only()),
        b"\x42\0\0\x01\0\0\0\x02\x02\x86"
    );
}

#[test]
fn filters_at_their_bounds() {
    // A bit more for each is more than the longest field has.
    let all = hashes(HASHES * 4 / 5);
    let (bits, probes) = ((8 * FIELD_SIZE / all.len()) as u32, PROBES as u32);
    let filter = Filter::with(bits, probes, &all).unwrap();
    assert!((FIELD_SIZE - all.len() / 8..=FIELD_SIZE).contains(&filter.bits().len()));
    assert!(filter.contains_hashes(&all).iter().all(|&yes| yes));
    assert_eq!(Filter::parse(&filter.to_bytes()), Ok(filter));
    assert_eq!(Filter::with(bits + 1, probes, &all), Err(refusal(10, 0)));
    assert_eq!(Filter::with(10, probes + 1, &all), Err(refusal(10, 0)));
    assert_eq!(Filter::from_hashes(hashes(HASHES + 1)), Err(refusal(4, 0)));

    let parts = |entries, length| Filter::from_parts(entries, 10, 7, &all[0].0[..length]);
    assert_eq!(parts(2, 3).map(|filter| filter.num_entries()), Ok(2));
    assert_eq!(parts(2, 4), Err(refusal(10, 0)));
    assert_eq!(Filter::from_parts(1, 0, 7, &[]), Err(refusal(10, 0)));

    assert_eq!(Filter::parse(&[]), Ok(Filter::default()));
    assert_eq!(Filter::default().to_bytes(), []);
    assert!(!Filter::default().contains_hash(&hash(0)));
    assert_eq!(Filter::parse_first(&[0, 3, 100, 9]).unwrap().1, 3);
}

/// A filter is one and the same whichever way its hashes are handed over.
#[test]
fn a_filter_of_any_hashes() {
    let all = hashes(5);
    let filter = Filter::from_hashes(&all).unwrap();
    assert_eq!(filter.num_entries(), 5);
    assert_eq!(Filter::from_hashes(all.iter()).as_ref(), Ok(&filter));
    assert_eq!(Filter::from_hashes((0..5).map(hash)).as_ref(), Ok(&filter));
    assert_eq!(Filter::with(10, 7, &all), Ok(filter));
    assert_eq!(Filter::from_hashes(&all[..0]), Ok(Filter::default()));
}

/// The filter of the hash whose words are 1, 2, 3, and a hash that it mistakes for it.
#[test]
fn a_false_yes() {
    let words = |words: [u32; 3]| {
        let mut hash = [0; 32];
        for (part, word) in hash.chunks_mut(4).zip(words) {
            part.copy_from_slice(&word.to_le_bytes());
        }
        ChangeHash(hash)
    };
    let filter = Filter::from_hashes([words([1, 2, 3])]).unwrap();
    assert_eq!(filter.to_bytes(), [1, 10, 7, 0x0b, 0x0f]);
    let asked = [words([1, 0, 0]), words([2, 0, 0])];
    assert_eq!(filter.contains_hashes(&asked), [true, false]);
}

#[test]
fn saved_states_at_their_bounds() {
    let state = |count| SavedState {
        shared_heads: hashes(count),
    };
    let bytes = state(HASHES).encode().unwrap();
    assert_eq!(SavedState::decode(&bytes), Ok(state(HASHES)));
    assert_eq!(state(HASHES + 1).encode(), Err(refusal(10, 0)));
    let cut = &bytes[..bytes.len() - 1];
    let last = (bytes.len() - HASH_SIZE) as u64;
    assert_eq!(SavedState::decode(cut), Err(refusal(1, last)));
    assert_eq!(SavedState::decode(b"\x42"), Err(refusal(2, 0x42)));
}

#[test]
fn a_table_of_the_most_rows() {
    let chain = |rows: usize| {
        (0..rows).map(|row| {
            let on: Vec<ChangeHash> = row.checked_sub(1).map(hash).into_iter().collect();
            (hash(row), on)
        })
    };
    let table = Table::from_changes(chain(ROWS)).unwrap();
    assert_eq!((table.rows(), table.heads()), (ROWS, vec![hash(ROWS - 1)]));
    assert_eq!(
        table.beyond(&[hash(ROWS - 4)]).unwrap(),
        [ROWS - 3, ROWS - 2, ROWS - 1].map(hash)
    );
    assert_eq!(Table::from_changes(chain(ROWS + 1)), Err(refusal(4, 0)));
    let cut = &table.as_bytes()[..Table::ROW - 1];
    assert_eq!(Table::new(cut), Err(refusal(6, 0)));
}

/// A table that grows is the one that is made at once, with all that is found in it.
#[test]
fn a_table_grows_row_by_row() {
    let on = |row: usize| match row {
        0 => vec![],
        _ => vec![hash(row - 1), hash(row / 2)],
    };
    let mut table = Table::default();
    for row in 0..ROWS {
        table.push(hash(row), &on(row)).unwrap();
        if (row + 1).is_multiple_of(ROWS / 8) {
            let rows = (0..=row).map(|row| (hash(row), on(row)));
            assert_eq!(Table::from_changes(rows), Ok(table.clone()));
            assert_eq!(table.heads(), [hash(row)]);
        }
    }
    let full = table.clone();
    assert_eq!(table.push(hash(ROWS), &[]), Err(refusal(4, 0)));
    let mut short = Table::from_changes([(hash(0), vec![])]).unwrap();
    for (change, on) in [
        (hash(0), vec![]),
        (hash(1), vec![hash(1)]),
        (hash(1), vec![hash(2)]),
    ] {
        assert_eq!(short.push(change, &on), Err(refusal(6, 1)));
    }
    assert_eq!(
        short.push(hash(1), &hashes(DEPENDENCIES + 1)),
        Err(refusal(6, 1))
    );
    assert_eq!((short.rows(), table), (1, full));
}

#[test]
fn bad_rows_are_told() {
    let many = DEPENDENCIES + 1;
    let on = |count| {
        let mut rows: Vec<_> = (0..many).map(|n| (hash(n), vec![])).collect();
        rows.push((hash(many), hashes(count)));
        Table::from_changes(rows).map(|table| table.dependencies(many).len())
    };
    assert_eq!(on(DEPENDENCIES), Ok(DEPENDENCIES));
    assert_eq!(on(many), Err(refusal(6, many as u64)));
    let twice = Table::from_changes([(hash(0), vec![]), (hash(0), vec![])]);
    assert_eq!(twice, Err(refusal(6, 1)));
    let none = Table::from_changes([(hash(0), vec![hash(1)])]);
    assert_eq!(none, Err(refusal(6, 0)));
}

/// What a call panics with.
fn panics<T>(call: impl FnOnce() -> T) -> String {
    let call = std::panic::AssertUnwindSafe(call);
    let Err(what) = std::panic::catch_unwind(call) else {
        panic!("it answers");
    };
    let text = what.downcast_ref::<String>().expect("a text");
    text.clone()
}

/// A row that isn't there is no other row's, however large its number: the bytes before
/// row 2^58 of a table, or 2^59 of a waiting table, are as many as before row 0 in a sum
/// that wraps.
#[test]
fn rows_that_arent_there() {
    let rows = [(hash(0), vec![]), (hash(1), vec![hash(0)])];
    let table = Table::from_changes(rows).unwrap();
    let waiting = Waiting::from_changes([(hash(3), vec![hash(2)])], &table).unwrap();
    assert_eq!((table.hash(1), table.dependencies(1)), (hash(1), vec![0]));
    assert_eq!(waiting.hash(0), hash(3));
    for row in [2, 3, 1 << 58, (1 << 58) + 1, 1 << 59, usize::MAX] {
        let of =
            |rows| format!("row out of bounds: the number of rows is {rows} but the row is {row}");
        assert_eq!(panics(|| table.hash(row)), of(2));
        assert_eq!(panics(|| table.dependencies(row)), of(2));
        assert_eq!(panics(|| waiting.hash(row)), of(1));
    }
}

/// A waiting change asks for what it depends on, and this for what lies under it.
#[test]
fn what_is_missing_through_waiting_changes() {
    let table = Table::from_changes([(hash(0), vec![])]).unwrap();
    let changes = [(hash(3), vec![hash(2)]), (hash(2), vec![hash(0), hash(1)])];
    let waiting = Waiting::from_changes(changes, &table).unwrap();
    assert_eq!((waiting.rows(), waiting.hash(1)), (2, hash(2)));
    let missing = table.missing(&waiting, &[hash(3), hash(9), hash(0)]);
    assert_eq!(missing.unwrap(), [hash(1), hash(9)]);
    let held = Waiting::from_changes([(hash(0), vec![])], &table);
    assert_eq!(held, Err(refusal(9, 0)));
    let many = Waiting::from_changes([(hash(1), hashes(DEPENDENCIES + 1))], &table);
    assert_eq!(many, Err(refusal(9, 0)));
}

#[test]
fn without_a_have_needs_alone_are_sent() {
    let table = Table::from_changes([(hash(0), vec![]), (hash(1), vec![hash(0)])]).unwrap();
    let need = [hash(1), hash(7), hash(1)];
    let sent = hashes_to_send(&table, &[], &need).unwrap();
    assert_eq!(sent, [hash(1), hash(1)]);
}

/// Each row on the `most` rows before it.
fn full_table(rows: usize, most: usize) -> Table {
    let on = |row: usize| (row.saturating_sub(most)..row).map(hash);
    Table::from_changes((0..rows).map(|row| (hash(row), on(row).collect::<Vec<_>>()))).unwrap()
}

#[test]
fn rows_of_before() {
    for rows in [0, 1, 40, OLD_ROWS] {
        let table = full_table(rows, OLD_DEPENDENCIES);
        let old = table.to_old().unwrap();
        assert_eq!(old.len(), rows * OLD_ROW_SIZE);
        let again = Table::from_old(&old).unwrap();
        assert_eq!(again, table);
        assert_eq!(again.heads(), table.heads());
    }
    let old = full_table(40, OLD_DEPENDENCIES).to_old().unwrap();
    let cut = Table::from_old(&old[..OLD_ROW_SIZE * 2 + 1]).unwrap_err();
    assert_eq!(cut, refusal(6, 2));
    let told = "row 2 of the change table is cut: it has 1 of 64 bytes";
    assert_eq!(cut.cause().unwrap().to_string(), told);
    let mut bad = old.clone();
    bad[OLD_ROW_SIZE * 3 + 34] = 3;
    let bad = Table::from_old(&bad).unwrap_err();
    assert_eq!(bad, refusal(6, 3));
    assert_eq!(bad.cause().unwrap().place(), Some(226..228));
}

#[test]
fn what_rows_of_before_have_no_room_for() {
    let wide = full_table(40, OLD_DEPENDENCIES + 1).to_old().unwrap_err();
    assert_eq!(wide, refusal(13, OLD_DEPENDENCIES as u64 + 1));
    let told = "row 16 has 16 dependencies; a row of before has room for 15";
    assert_eq!(wide.cause().unwrap().to_string(), told);
    let many = full_table(OLD_ROWS + 1, DEPENDENCIES).to_old().unwrap_err();
    assert_eq!(many, refusal(4, 0));
    let long = vec![0; OLD_ROW_SIZE * OLD_ROWS + 1];
    assert_eq!(Table::from_old(&long).unwrap_err(), refusal(4, 0));
}

/// A waiting row of before, on some hashes, said to be on `count`.
fn old_waiting(n: usize, on: &[ChangeHash], count: usize) -> Vec<u8> {
    let mut row = hash(n).0.to_vec();
    row.push(count as u8);
    row.resize(64, 0);
    row.extend(on.iter().flat_map(|hash| hash.0));
    row.resize(OLD_WAITING_ROW_SIZE, 0);
    row
}

#[test]
fn waiting_rows_of_before() {
    let none = Table::default();
    let on = hashes(OLD_DEPENDENCIES);
    let rows = [(100, &on[..0]), (101, &on[..1]), (102, &on[..])];
    let old = rows.map(|(n, on)| old_waiting(n, on, on.len())).concat();
    let waiting = Waiting::from_changes(rows.map(|(n, on)| (hash(n), on)), &none);
    let waiting = waiting.unwrap();
    assert_eq!(Waiting::from_old(&old, &none), Ok(waiting));
    let cut = Waiting::from_old(&old[..old.len() - 1], &none);
    assert_eq!(cut, Err(refusal(9, 2)));
    // A count that rows of now may have.
    let wide = old_waiting(103, &on, OLD_DEPENDENCIES + 1);
    let bad = [&old[..], &wide, &old[..1]].concat();
    assert_eq!(Waiting::from_old(&bad, &none), Err(refusal(9, 3)));
    let twice = [&old[..], &old, &wide].concat();
    assert_eq!(Waiting::from_old(&twice, &none), Err(refusal(9, 3)));
}
