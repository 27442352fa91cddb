//! Captures and answers written out.

use crate::{answer, counted, hash, refused, table};
use compare::model::table::{ROW, ROWS};

/// One entry of 10 bits and 7 probes: the field has two bytes, of which 0b and 0f set seven
/// bits. 01's filter P3.
const FILTER: [u8; 5] = [0x01, 0x0a, 0x07, 0x0b, 0x0f];

#[test]
fn numbers_of_a_filter() {
    assert_eq!(counted(&[], &[], &FILTER), [1, 16, 7, 0, 0]);
    // No bytes, and no entries with any other numbers, are a filter without a field.
    assert_eq!(counted(&[], &[], &[]), [0; 5]);
    assert_eq!(counted(&[], &[], &[0, 10, 7]), [0; 5]);
    assert_eq!(counted(&[], &[], &[0, 0, 99, 0xff, 0xff]), [0; 5]);
    // What stands behind the field counts for nothing.
    let longer = [&FILTER[..], &[0xff; 20]].concat();
    assert_eq!(counted(&[], &[], &longer), [1, 16, 7, 0, 0]);
    // Three entries of one bit are a byte of field: five bits that they don't ask for count,
    // and may be set.
    assert_eq!(counted(&[], &[], &[3, 1, 1, 0b1010_0001]), [3, 8, 3, 0, 0]);
}

/// A field of one byte, whose bits 0 to 3 are set, and one probe: a hash that begins with a
/// number below 4 is contained.
#[test]
fn tested_and_contained() {
    let filter = [4, 2, 1, 0x0f];
    let few = [0, 1, 2, 3, 4, 5, 6, 7].map(|x| hash(x, 0));
    let rows = |numbers: &[usize]| table(&numbers.iter().map(|&n| few[n]).collect::<Vec<_>>());
    let count = |sender: &[usize], listener: &[usize]| {
        let [entries, field, set, tested, contained] =
            counted(&rows(sender), &rows(listener), &filter);
        assert_eq!([entries, field, set], [4, 8, 4]);
        [tested, contained]
    };
    assert_eq!(count(&[], &[]), [0, 0]);
    assert_eq!(count(&[0, 5], &[]), [0, 0]);
    assert_eq!(count(&[], &[0, 5]), [2, 1]);
    assert_eq!(count(&[0, 1, 2, 3], &[4, 5, 6, 7]), [4, 0]);
    assert_eq!(count(&[4, 5, 6, 7], &[0, 1, 2, 3]), [4, 4]);
    // What the sender holds isn't tested, wherever it stands, and what it has alone neither.
    assert_eq!(count(&[0, 1, 2, 3], &[0, 1, 2, 3]), [0, 0]);
    assert_eq!(count(&[3, 7, 0], &[0, 1, 2, 7, 3, 6]), [3, 2]);
    assert_eq!(count(&[7, 6, 5, 4, 3, 2, 1], &[1, 2, 3, 0]), [1, 1]);
    // A filter without entries contains nothing.
    let none = counted(&[], &rows(&[0, 1]), &[]);
    assert_eq!(none, [0, 0, 0, 2, 0]);
}

/// Three parts that are all bad: the first of them is told, the sender's table before the
/// listener's, and the filter last, its place from its own first byte.
#[test]
fn the_first_bad_part() {
    let good = table(&[hash(1, 0), hash(2, 0)]);
    let cut = &good[..ROW + 9];
    let mut stray = good.clone();
    stray[ROW - 1] = 1;
    let long = vec![0; ROW * ROWS + 1];
    for filter in [&FILTER[..], &[], &[1, 0, 7], &FILTER[..4]] {
        assert_eq!(answer(cut, &stray, filter), refused(6, 1));
        assert_eq!(answer(&stray, cut, filter), refused(6, 0));
        assert_eq!(answer(&good, cut, filter), refused(6, 1));
        assert_eq!(answer(cut, &good, filter), refused(6, 1));
        assert_eq!(answer(&long, cut, filter), refused(4, 0));
        assert_eq!(answer(cut, &long, filter), refused(6, 1));
        assert_eq!(answer(&good, &long, filter), refused(4, 0));
    }
    let of_filter = |filter: &[u8]| answer(&good, &good[..ROW], filter);
    // The field is cut, a number is cut, a number is too long, too large, 0 bits, too many
    // probes, too large a field.
    assert_eq!(of_filter(&FILTER[..4]), refused(1, 3));
    assert_eq!(of_filter(&FILTER[..2]), refused(1, 2));
    assert_eq!(of_filter(&[1, 0x80, 0]), refused(3, 1));
    assert_eq!(of_filter(&[0xff, 0xff, 0xff, 0xff, 0x1f]), refused(3, 0));
    assert_eq!(of_filter(&[1, 0, 7]), refused(5, 0));
    assert_eq!(of_filter(&[1, 10, 65, 0, 0]), refused(4, 0));
    assert_eq!(of_filter(&[1, 0x81, 0x80, 0x10, 7]), refused(4, 0));
}
