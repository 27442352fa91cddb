//! P1 to P3 of document 01, and the smallest inputs at which two readings of it
//! part, against the answers that are settled; neither model nor crate is asked.

use crate::ask;
use bisquetower::raw;

fn refused(s: &[u8]) -> [u64; 2] {
    let (words, haves, chunks) = ask(s);
    assert_eq!(words[2..], [0; 12]);
    assert!(haves.iter().chain(&chunks).all(|&word| word == 0));
    [words[0], words[1]]
}

/// P1: all empty, no flags. P2: empty flags. P3: flags 4.
#[test]
fn p1_to_p3() {
    let empty = [0x42, 0, 0, 0, 0];
    let words = |flags, next| [0, 1, 2, 0, 3, 0, 4, 0, 5, 0, flags, next, 0, 0];
    assert_eq!(ask(&empty).0, words(256, 5));
    assert_eq!(ask(&[&empty[..], &[0]].concat()).0, words(0, 6));
    assert_eq!(ask(&[&empty[..], &[2, 2, 0x84]].concat()).0, words(4, 8));
    // They are written so, too.
    let mut out = [0x5a; 9];
    let mut write = |flags| {
        out = [0x5a; 9];
        let answer = raw::write_message(1, &[], &[], &[], &[], &[], &[], flags, &mut out);
        (answer, out)
    };
    let (answer, out) = write(256);
    assert_eq!(
        (answer, &out[..6]),
        ([0, 5, 0, 0], &[0x42, 0, 0, 0, 0, 0x5a][..])
    );
    let (answer, out) = write(4);
    assert_eq!(answer, [0, 8, 0, 0]);
    assert_eq!(out, [0x42, 0, 0, 0, 0, 2, 2, 0x84, 0x5a]);
}

/// The bytes of P4, read: one have without hashes and with the default filter.
#[test]
fn p4_is_read() {
    let s = [0x42, 0, 0, 1, 0, 0, 0, 2, 2, 0x84];
    let (words, haves, chunks) = ask(&s);
    assert_eq!(words, [0, 1, 2, 0, 3, 0, 4, 1, 7, 0, 4, 10, 0, 0]);
    assert_eq!(haves[..8], [5, 0, 0, 10, 7, 6, 0, 0]);
    assert_eq!(chunks[0], 0);
}

/// Every word of a message with all parts in it.
#[test]
fn places_of_all_parts() {
    let hash = [9; 32];
    let parts: [&[u8]; 10] = [
        &[0x43, 1],
        &hash,
        &[2],
        &[hash, hash].concat(),
        &[2, 1],
        &hash,
        &[5, 1, 10, 7, 0x0b, 0x0f],
        &[0, 7, 0, 0, 0x80, 1, 5, 5, 5],
        &[2, 3, 1, 2, 3, 0],
        &[2, 0x81, 0x84, 0xff],
    ];
    let s = parts.concat();
    let (words, haves, chunks) = ask(&s);
    assert_eq!(words, [0, 2, 2, 1, 35, 2, 100, 2, 149, 2, 5, 157, 3, 1]);
    let first = [101, 1, 1, 10, 7, 137, 2];
    let second = [140, 0, 0, 0, 128, 145, 0];
    assert_eq!(haves[..15], [&first[..], &second, &[0]].concat());
    assert_eq!(chunks[..5], [150, 3, 154, 0, 0]);
    assert_eq!(s.len(), 158);
}

#[test]
fn settled_readings() {
    assert_eq!(refused(&[]), [1, 0]);
    assert_eq!(refused(&[0x41]), [2, 0x41]);
    assert_eq!(refused(&[0x42]), [1, 1]);
    // A cut hash has its own place, a cut string that of its length number.
    assert_eq!(refused(&[&[0x42, 0x02][..], &[9; 40]].concat()), [1, 34]);
    assert_eq!(refused(&[0x42, 0, 0, 0, 1, 2, 0xaa]), [1, 5]);
    assert_eq!(refused(&[0x42, 0, 0, 0, 0, 5]), [1, 5]);
    assert_eq!(refused(&[0x42, 0, 0, 0, 0, 0x80, 0]), [3, 5]);
    // A length that no place can be added to.
    let most = [0xff, 0xff, 0xff, 0xff, 0xff, 0xff, 0xff, 0xff, 0xff, 0x01];
    assert_eq!(refused(&[&[0x42, 0, 0, 0, 1][..], &most].concat()), [1, 5]);
    // A count is limited before its elements are looked at, and cut before that.
    assert_eq!(refused(&[0x42, 0x81, 0x40]), [4, 1]);
    assert_eq!(refused(&[0x42, 0x80, 0x80, 0x80, 0x80, 0x80, 0x80]), [1, 1]);
    assert_eq!(refused(&[0x42, 0, 0, 0x11]), [4, 3]);
    assert_eq!(refused(&[0x42, 0, 0, 0, 0x81, 0x80, 0x01]), [4, 4]);
    // A filter's string has to be there before its inside is read; a number is cut
    // at its own start, a field at its first byte; 5 and 4 name the filter.
    let filter = |string: &[u8]| refused(&[&[0x42, 0, 0, 1, 0][..], string].concat());
    assert_eq!(filter(&[5, 1, 0]), [1, 5]);
    assert_eq!(filter(&[1, 1, 0]), [1, 7]);
    assert_eq!(filter(&[4, 1, 0x0a, 7, 0xff, 0]), [1, 9]);
    assert_eq!(filter(&[3, 1, 0, 0x41]), [5, 6]);
    assert_eq!(filter(&[3, 1, 0x0a, 0x41]), [4, 6]);
    assert_eq!(filter(&[5, 0x80, 0x80, 0x80, 0x80, 0x80]), [3, 6]);
    assert_eq!(filter(&[4, 0x80, 0x80, 0x80, 0x80]), [1, 6]);
}

/// Flags are joined, not added, of all bytes of 80 or more; the rest is ignored.
#[test]
fn flags() {
    let flags = |section: &[u8]| {
        let (words, ..) = ask(&[&[0x43, 0, 0, 0, 0][..], section].concat());
        [words[0], words[10], words[11]]
    };
    assert_eq!(flags(&[2, 0x82, 0x82]), [0, 2, 8]);
    assert_eq!(flags(&[3, 0x81, 0x7f, 0xc0, 9, 9]), [0, 0x41, 9]);
    assert_eq!(flags(&[1, 0x07, 0x80, 0x00]), [0, 0, 7]);
    for byte in 0..=u8::MAX {
        let expected = if byte < 0x80 { 0 } else { byte & 0x7f };
        assert_eq!(flags(&[1, byte]), [0, expected.into(), 7]);
    }
}
