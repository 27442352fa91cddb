//! Fields of every length, tables that share rows in every way, and every way in which a
//! part is bad.

use crate::{agree, answer, counted, hash, refused, table};
use bisquetower::limits::{FIELD_SIZE, HASHES, PROBES};
use compare::counts::Capture;
use compare::inputs::counts::{filter_bytes, filter_of};
use compare::inputs::table::{row_faults, table_bytes, Likeness, Shape, LIKENESSES, SHAPES};
use compare::inputs::Random;
use compare::model::table::{converted, Hash, NOW, OLD, ROW, ROWS};

/// Every length of a rest behind whole words, with each bit set alone, and all of them.
#[test]
fn every_bit_of_short_fields() {
    for size in 1..=25 {
        let bits = 8 * size as u64;
        for bit in 0..8 * size {
            let mut field = vec![0; size];
            field[bit / 8] = 1 << (bit % 8);
            let filter = filter_bytes(1, bits, 1, &field);
            assert_eq!(counted(&[], &[], &filter), [1, bits, 1, 0, 0]);
            field.iter_mut().for_each(|byte| *byte = !*byte);
            let filter = filter_bytes(bits, 1, 1, &field);
            assert_eq!(counted(&[], &[], &filter), [bits, bits, bits - 1, 0, 0]);
        }
    }
}

/// Every byte of a field with every value, in a word and in the rest behind it.
#[test]
fn every_value_of_every_byte() {
    let mut field = Random(5).bytes(13);
    for place in 0..field.len() {
        let before = field[place];
        for byte in 0..=u8::MAX {
            field[place] = byte;
            let filter = filter_bytes(104, 1, 3, &field);
            let set: u32 = field.iter().map(|byte| byte.count_ones()).sum();
            let counts = counted(&[], &[], &filter);
            assert_eq!(counts, [104, 104, set.into(), 0, 0]);
        }
        field[place] = before;
    }
}

#[test]
fn the_largest_field() {
    let entries = 8 * FIELD_SIZE as u64;
    let full = filter_bytes(entries, 1, PROBES as u64, &vec![0xff; FIELD_SIZE]);
    let rows = Random(8).rows(100, Shape::Any, Likeness::Spread);
    let listener = table_bytes(&rows);
    let counts = [entries, entries, entries, 100, 100];
    assert_eq!(counted(&[], &listener, &full), counts);
    let clear = filter_bytes(entries, 1, 0, &vec![0; FIELD_SIZE]);
    assert_eq!(
        counted(&[], &listener, &clear),
        [entries, entries, 0, 100, 0]
    );
}

/// A filter has what was put in, so that the sender's own rows would all be contained: none
/// of them is tested.
#[test]
fn rows_of_the_sender_arent_tested() {
    let mut random = Random(31);
    for shape in SHAPES {
        for likeness in LIKENESSES {
            let hashes = random.hashes(90, likeness);
            let (own, others) = hashes.split_at(60);
            let filter = filter_of(10, 7, own);
            let sender = table_bytes(&random.rows_of(own, shape));
            for listener in [
                own.to_vec(),
                own.iter().rev().copied().collect(),
                others.to_vec(),
                [others, own].concat(),
                [&own[30..], others].concat(),
            ] {
                let tested = listener.iter().filter(|hash| !own.contains(hash)).count();
                let lent = table_bytes(&random.rows_of(&listener, shape));
                let [entries, field, _, told, contained] = counted(&sender, &lent, &filter);
                assert_eq!([entries, field, told], [60, 600, tested as u64]);
                assert!(contained <= told);
                // Nothing but the order and the dependencies of rows is another here.
                let mut turned = listener.clone();
                turned.reverse();
                let turned = table_bytes(&random.rows_of(&turned, Shape::Wide));
                assert_eq!(
                    counted(&sender, &turned, &filter),
                    counted(&sender, &lent, &filter)
                );
            }
        }
    }
}

/// Hashes that are alike but for a byte, at each place of a hash: all of it counts.
#[test]
fn hashes_that_differ_in_a_byte() {
    let base = [7; 32];
    let other = |place: usize, by: u8| {
        let mut hash: Hash = base;
        hash[place] ^= by;
        hash
    };
    let filter = filter_bytes(1, 8, 1, &[0xff]);
    for place in 0..32 {
        for by in [1, 0x80, 0xff] {
            let (sender, listener) = (table(&[base]), table(&[other(place, by), base]));
            assert_eq!(counted(&sender, &listener, &filter)[3..], [1, 1]);
            assert_eq!(counted(&listener, &sender, &filter)[3..], [0, 0]);
        }
    }
}

/// As many rows as there may be, in both tables: none shared, half of them, all.
#[test]
fn the_largest_tables() {
    let mut random = Random(77);
    let hashes = random.hashes(2 * ROWS, Likeness::Spread);
    let sender = table_bytes(&random.rows_of(&hashes[..ROWS], Shape::Any));
    let filter = filter_of(10, 7, &hashes[..HASHES.min(ROWS)]);
    for first in [0, ROWS / 2, ROWS] {
        let listener = &hashes[first..first + ROWS];
        let listener = table_bytes(&random.rows_of(listener, Shape::Merges));
        let [.., tested, contained] = counted(&sender, &listener, &filter);
        assert_eq!(tested, first as u64);
        assert!(contained <= tested / 20, "{contained} of {tested}");
    }
    let long = [sender.clone(), table(&[hash(1, 2)])].concat();
    assert_eq!(answer(&long, &sender, &filter), refused(4, 0));
    assert_eq!(answer(&sender, &long, &filter), refused(4, 0));
}

/// Every way in which a row of either table is bad.
#[test]
fn bad_rows() {
    let mut random = Random(12);
    let rows = random.rows(12, Shape::Recent, Likeness::Spread);
    let good = table_bytes(&rows);
    let filter = filter_of(10, 7, &[rows[0].hash]);
    let mut tried = 0;
    for row in [0, 1, 5, 11] {
        for (_, record) in row_faults(&rows, row) {
            let mut bad = good.clone();
            bad[ROW * row..][..ROW].copy_from_slice(&record);
            let expected = refused(6, row as u64);
            assert_eq!(answer(&bad, &good, &filter), expected);
            assert_eq!(answer(&good, &bad, &filter), expected);
            tried += 1;
        }
    }
    assert!(tried > 200, "{tried}");
}

/// Every length of two rows, in either table; and of the filter, whose field has three bytes.
#[test]
fn every_length() {
    let rows = table(&[hash(1, 0), hash(2, 0)]);
    let filter = filter_bytes(24, 1, 2, &[0x55; 3]);
    for length in 0..=rows.len() {
        let part = &rows[..length];
        let (whole, cut) = ((length / ROW) as u64, length % ROW > 0);
        let [sent, heard] = [answer(part, &rows, &filter), answer(&[], part, &filter)];
        match cut {
            true => assert_eq!([sent, heard], [refused(6, whole); 2]),
            false => assert_eq!([sent[4], heard[4]], [2 - whole, whole]),
        }
    }
    for length in 0..=filter.len() {
        let expected = match length {
            0 => [0, 0, 0, 0, 2, 0, 0, 0],
            1 => refused(1, 1),
            2 => refused(1, 2),
            3..6 => refused(1, 3),
            _ => [0, 24, 24, 12, 2, 1, 0, 0],
        };
        assert_eq!(answer(&[], &rows, &filter[..length]), expected, "{length}");
    }
}

/// Rows as they were before M-106 are no rows of now.
#[test]
fn tables_of_before() {
    let rows = Random(3).rows(8, Shape::Deep, Likeness::Spread);
    let now = table_bytes(&rows);
    let old = converted(NOW, OLD, &now).expect("they fit");
    let captures = [(&old, &now), (&now, &old), (&old, &old)];
    let captures = captures.map(|(sender, listener)| Capture {
        sender,
        listener,
        filter: &[],
    });
    assert_eq!(agree(&captures).of(6), 3);
}
