//! Limits, settled readings and intended differences, as literals.

use crate::whole;
use bisquetower::limits::{HASHES, LIST_SIZE};
use bisquetower::raw::{self, Reader};
use compare::model::number_bytes;
use compare::published;
use compare::wire::{self, Difference};

/// The library's limits against 01's Sizes.
#[test]
fn limits_are_those_that_are_told() {
    let sizes = [
        32, 4_194_304, 8_192, 1_024, 111, 8_192, 8_192, 16, 16_384, 32_768, 64, 16_384,
    ];
    let mut limits = [raw::UNWRITTEN; 12];
    raw::limits(&mut limits);
    assert_eq!(limits, sizes);
}

/// The smallest inputs at which two readings of 01 part, against the answers
/// that are settled; neither model nor crate is asked.
#[test]
fn settled_readings() {
    let read = |reader, s: &[u8]| raw::read_many(&[whole(reader, s)])[0];
    let hashes = |count: &[u8], bytes: usize| [count.to_vec(), vec![7; bytes]].concat();
    // Five bytes that go on can't become a filter number; four can.
    assert_eq!(read(Reader::FilterNumber, &[0x80; 5]), [3, 0, 0, 0]);
    assert_eq!(read(Reader::FilterNumber, &[0x80; 4]), [1, 0, 0, 0]);
    assert_eq!(
        read(Reader::FilterNumber, &[0x80, 0x80, 0x80, 0x80, 0x10]),
        [3, 0, 0, 0]
    );
    assert_eq!(read(Reader::Number, &[0x80; 9]), [1, 0, 0, 0]);
    assert_eq!(read(Reader::Number, &[0x80; 10]), [3, 0, 0, 0]);
    // A number that isn't there at all is cut, at the place where it would start.
    assert_eq!(raw::read_number(&[0x42], 1, 1), [1, 1, 0, 0]);
    assert_eq!(raw::read_number(&[0x42], 5, 9), [1, 5, 0, 0]);
    // A cut hash has its own place, a cut string that of its length number.
    assert_eq!(read(Reader::Hashes, &hashes(&[2], 40)), [1, 33, 0, 0]);
    assert_eq!(raw::read_prefixed(&[9, 2, 0xaa], 1, 3), [1, 1, 0, 0]);
    // A count's own faults come before its limit, the limit before the hashes.
    let [most, over] = [HASHES as u64, HASHES as u64 + 1];
    assert_eq!(read(Reader::Hashes, &number_bytes(over)), [4, 0, 0, 0]);
    assert_eq!(read(Reader::Hashes, &[0x80; 6]), [1, 0, 0, 0]);
    assert_eq!(read(Reader::Hashes, &number_bytes(1 << 40)), [4, 0, 0, 0]);
    assert_eq!(read(Reader::Hashes, &[0x80, 0x00]), [3, 0, 0, 0]);
    let count = number_bytes(most);
    let [start, end] = [count.len(), count.len() + LIST_SIZE].map(|place| place as u64);
    assert_eq!(
        read(Reader::Hashes, &hashes(&count, LIST_SIZE)),
        [0, start, most, end]
    );
    // The largest length is compared with what is left, never added to a place.
    assert_eq!(
        read(Reader::Prefixed, &number_bytes(u64::MAX)),
        [1, 0, 0, 0]
    );
}

/// The two intended differences at their smallest, crate beside library.
#[test]
fn differences_are_the_two_that_are_intended() {
    let count = number_bytes(HASHES as u64 + 1);
    let list = [count.clone(), vec![7; LIST_SIZE + 32]].concat();
    let cases: [(Reader, &[u8], Difference, u64, u64); 3] = [
        (
            Reader::FilterNumber,
            &[0x80; 5],
            Difference::CutFilterNumber,
            3,
            1,
        ),
        (Reader::Hashes, &count, Difference::CountPastLimit, 4, 1),
        (Reader::Hashes, &list, Difference::CountPastLimit, 4, 0),
    ];
    for (reader, s, difference, here, there) in cases {
        let read = whole(reader, s);
        assert_eq!(wire::difference(&read), Some(difference));
        assert_eq!(raw::read_many(&[read])[0][0], here);
        assert_eq!(published::read(&read).words[0], there);
    }
}
