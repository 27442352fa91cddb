//! Captures counted and added up: what is counted, which part of a bad capture is told and
//! how, and totals at the end of 64 bits.

use bisquetower::limits::{DEPENDENCIES, FIELD_SIZE, PROBES, ROWS, TABLE_SIZE};
use bisquetower::refusal::grouped;
use bisquetower::{Captured, ChangeHash, Counts, Filter, Refusal, Table, Totals};
use std::fmt::Debug;
use std::ops::Range;

/// A hash whose words are spread; other numbers have others.
fn hash(n: u64) -> ChangeHash {
    let mut hash = [0; 32];
    let mut word = n;
    for part in hash.chunks_mut(8) {
        word = word.wrapping_add(0x9e37_79b9_7f4a_7c15);
        let mut mixed = (word ^ (word >> 30)).wrapping_mul(0xbf58_476d_1ce4_e5b9);
        mixed = (mixed ^ (mixed >> 27)).wrapping_mul(0x94d0_49bb_1331_11eb);
        part.copy_from_slice(&(mixed ^ (mixed >> 31)).to_le_bytes());
    }
    ChangeHash(hash)
}

/// A table of these changes, each on the one before it.
fn table(numbers: Range<u64>) -> Table {
    let first = numbers.start;
    let changes = numbers.map(|n| match n == first {
        true => (hash(n), vec![]),
        false => (hash(n), vec![hash(n - 1)]),
    });
    Table::from_changes(changes).expect("a good table")
}

/// The refusal of what has to be refused with this number and value.
fn refused<T: Debug>(made: Result<T, Refusal>, number: u64, value: u64) -> Refusal {
    let refusal = made.expect_err("a refusal");
    assert_eq!(refusal, Refusal::new(number, value), "{refusal}");
    refusal
}

/// That a refusal is of this part, has this sentence and marks these bytes.
fn says(refusal: Refusal, part: Captured, sentence: &str, place: impl Into<Option<Range<usize>>>) {
    assert_eq!(refusal.sentence(), sentence);
    let cause = refusal.cause().expect("a cause");
    assert_eq!(cause.captured(), Some(part), "{sentence}");
    assert_eq!(cause.place(), place.into(), "{sentence}");
}

fn counts(numbers: [u64; 5]) -> Counts {
    let [entries, field_bits, set_bits, tested, contained] = numbers;
    Counts {
        entries,
        field_bits,
        set_bits,
        tested,
        contained,
    }
}

/// Every number, found again by the filter's own answers.
#[test]
fn what_is_counted() {
    let (sender, listener) = (table(0..300), table(200..900));
    for (bits, probes) in [(10, 7), (4, 3), (1, 1), (3, 0), (32, 64)] {
        let filter = Filter::with(bits, probes, sender.hashes()).unwrap();
        let counted = Counts::of(&sender, &listener, &filter);
        let set = filter.bits().iter().map(|byte| byte.count_ones());
        let others: Vec<ChangeHash> = (300..900).map(hash).collect();
        let yes = filter.contains_hashes(&others);
        let contained = yes.iter().filter(|yes| **yes).count();
        assert_eq!(counted.entries, 300);
        assert_eq!(counted.field_bits, 8 * filter.bits().len() as u64);
        assert_eq!(counted.set_bits, u64::from(set.sum::<u32>()));
        assert_eq!(counted.share(), (contained as u64, 600));
        let lent = [sender.as_bytes(), listener.as_bytes(), &filter.to_bytes()];
        let [own, heard, filter] = lent;
        assert_eq!(Counts::of_capture(own, heard, filter), Ok(counted));
        let behind = [filter, b"behind"].concat();
        assert_eq!(Counts::of_capture(own, heard, &behind), Ok(counted));
    }
    // Nobody holds anything, and nothing is said.
    let none = Counts::of(&Table::default(), &Table::default(), &Filter::default());
    assert_eq!(none, Counts::default());
    let silent = Counts::of(&sender, &listener, &Filter::default());
    assert_eq!(silent, counts([0, 0, 0, 600, 0]));
    // A filter without entries has no field, whatever its other numbers are.
    let odd = Filter::parse(&[0, 3, 70]).unwrap();
    assert_eq!(Counts::of(&sender, &listener, &odd), silent);
}

#[test]
fn bad_tables() {
    let (good, filter) = (table(0..5), Filter::from_hashes([hash(1)]).unwrap());
    let (good, filter) = (good.as_bytes(), filter.to_bytes());
    let cut = &good[..3 * Table::ROW + 100];
    let mut wide = good.to_vec();
    let count = 2 * Table::ROW + 32;
    wide[count] = DEPENDENCIES as u8 + 1;
    let mut twice = good.to_vec();
    twice.copy_within(..32, 4 * Table::ROW);
    let long = vec![0; TABLE_SIZE + 1];
    let many = format!(
        "counts {} dependencies; at most {DEPENDENCIES}",
        DEPENDENCIES + 1
    );
    let last = 4 * Table::ROW;
    let bad = [
        (
            cut.to_vec(),
            6,
            3,
            "row 3 of WHOSE table is cut: it has 100 of 256 bytes".to_string(),
            Some(3 * Table::ROW..cut.len()),
        ),
        (
            wide,
            6,
            2,
            format!("row 2 of WHOSE table {many}"),
            Some(count..count + 2),
        ),
        (
            twice,
            6,
            4,
            "row 4 of WHOSE table has the hash of row 0".to_string(),
            Some(last..last + 32),
        ),
        (
            long.clone(),
            4,
            0,
            format!("WHOSE table has more than {} rows", grouped(ROWS as u64)),
            None,
        ),
    ];
    for (bytes, number, value, sentence, place) in bad {
        let of = |whose: &str| sentence.replace("WHOSE", whose);
        let sent = refused(Counts::of_capture(&bytes, good, &filter), number, value);
        says(sent, Captured::Sender, &of("the sender's"), place.clone());
        let heard = refused(Counts::of_capture(good, &bytes, &filter), number, value);
        says(
            heard,
            Captured::Listener,
            &of("the listener's"),
            place.clone(),
        );
        // The sender's comes first, and both before the filter.
        let all = refused(Counts::of_capture(&bytes, cut, &[1, 0]), number, value);
        says(all, Captured::Sender, &of("the sender's"), place);
    }
    let both = refused(Counts::of_capture(cut, &long, &filter), 6, 3);
    assert_eq!(both.cause().unwrap().captured(), Some(Captured::Sender));
}

#[test]
fn bad_filters() {
    let table = table(0..3);
    let refused = |filter: &[u8], number, value| {
        let rows = table.as_bytes();
        refused(
            Counts::of_capture(rows, &rows[..256], filter),
            number,
            value,
        )
    };
    let of_filter = |refusal, sentence: &str, place| {
        says(
            refusal,
            Captured::Filter,
            &format!("the filter {sentence}"),
            place,
        )
    };
    let inside = "ends inside the item that starts at its place";
    of_filter(refused(&[1, 10], 1, 2), &format!("{inside} 2"), 2..2);
    of_filter(refused(&[1, 10, 7, 9], 1, 3), &format!("{inside} 3"), 3..4);
    let form = "that isn't in its shortest form or is too large";
    of_filter(
        refused(&[1, 0x8a, 0], 3, 1),
        &format!("has a number at its place 1 {form}"),
        1..2,
    );
    of_filter(
        refused(&[1, 0, 7], 5, 0),
        "has entries and 0 bits per entry",
        1..2,
    );
    of_filter(
        refused(&[1, 10, 65, 0, 0], 4, 0),
        &format!("has 65 probes; at most {PROBES}"),
        2..3,
    );
    let [bytes, most] = [FIELD_SIZE as u64 + 1, FIELD_SIZE as u64].map(grouped);
    of_filter(
        refused(&[1, 0x81, 0x80, 0x10, 7], 4, 0),
        &format!("has a field of {bytes} bytes; at most {most}"),
        0..4,
    );
    // Of a filter that isn't in a capture no part is told.
    let alone = Filter::parse(&[1, 0, 7]).unwrap_err();
    assert_eq!(alone.cause().unwrap().captured(), None);
    let alone = Table::new([0; 7]).unwrap_err();
    assert_eq!(alone.cause().unwrap().captured(), None);
}

#[test]
fn sums() {
    let captures = [
        counts([300, 3_000, 1_400, 600, 5]),
        counts([0, 0, 0, 600, 0]),
        counts([1, 16, 7, 0, 0]),
    ];
    let sum = counts([301, 3_016, 1_407, 1_200, 5]);
    for order in [[0, 1, 2], [2, 1, 0], [1, 2, 0]] {
        let mut totals = Totals::new();
        for one in order {
            totals.add(&captures[one]).unwrap();
        }
        assert_eq!(totals.counts(), sum);
        assert_eq!(totals.counts().share(), (5, 1_200));
    }
    assert_eq!(Totals::new().counts(), Counts::default());
}

/// The first total that would pass is named; the last that there is is reached, and after a
/// refusal the totals go on as they were.
#[test]
fn totals_that_would_pass() {
    let names = [
        "entries",
        "field bits",
        "set bits",
        "tested rows",
        "contained rows",
    ];
    for (k, name) in names.into_iter().enumerate() {
        let only = |number: u64| {
            let mut numbers = [0; 5];
            numbers[k] = number;
            counts(numbers)
        };
        let mut totals = Totals::from(only(u64::MAX - 3));
        let before = totals;
        let refusal = refused(totals.add(&counts([4; 5])), 16, 0);
        let sentence = format!("the total of {name} would pass 64 bits");
        assert_eq!(refusal.sentence(), sentence);
        assert_eq!(refusal.cause().unwrap().captured(), None);
        assert_eq!(totals, before);
        totals.add(&only(3)).unwrap();
        assert_eq!(totals.counts(), only(u64::MAX));
        refused(totals.add(&only(1)), 16, 0);
        totals.add(&only(0)).unwrap();
    }
    let mut full = Totals::from(counts([u64::MAX; 5]));
    let refusal = refused(full.add(&counts([0, 0, 1, 1, 0])), 16, 0);
    assert!(refusal.sentence().contains("set bits"), "{refusal}");
    assert_eq!(
        Refusal::new(16, 0).to_string(),
        "refusal 16, value 0: a total would pass 64 bits"
    );
}
