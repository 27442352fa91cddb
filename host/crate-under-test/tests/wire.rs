//! Numbers, lists, filters, messages and saved states, by the crate's own code.

mod common;

use common::{hash, hashes, message, words};
use crate_under_test::facade::*;
use crate_under_test::record::{record, Value};

#[test]
fn numbers() {
    assert_eq!(read_u64(&[9, 0x80, 1, 7], 1), Ok((128, 3)));
    assert_eq!(read_u64(&[0x80, 0], 0), Err(Kind::Overlong));
    assert_eq!(read_u64(&[0x80], 0), Err(Kind::NotEnoughInput));
    assert_eq!(read_u64(&[], 0), Err(Kind::NotEnoughInput));
    assert_eq!(read_u64(&[1], 5), Err(Kind::NotEnoughInput));
    let mut tenth = [0x80; 10];
    tenth[9] = 1;
    assert_eq!(read_u64(&tenth, 0), Ok((1 << 63, 10)));
    tenth[9] = 2;
    assert_eq!(read_u64(&tenth, 0), Err(Kind::TooLarge));
    assert_eq!(read_u64(&[0x80; 10], 0), Err(Kind::TooLarge));
}

#[test]
fn a_filter_number_is_read_as_64_bits_first() {
    assert_eq!(
        read_u32(&[0x80, 0x80, 0x80, 0x80, 0x10], 0),
        Err(Kind::TooLarge)
    );
    assert_eq!(
        read_u32(&[0xff, 0xff, 0xff, 0xff, 0x0f], 0),
        Ok((u32::MAX, 5))
    );
    // Document 01 gives refusal 3 here (docs/DIFFERENCES.md).
    assert_eq!(read_u32(&[0x80; 5], 0), Err(Kind::NotEnoughInput));
}

#[test]
fn written_numbers_are_read_back() {
    let around = |k: u32| [(1u64 << k) - 1, 1 << k, (1 << k) + 1];
    for value in (0..64).flat_map(around).chain([u64::MAX]) {
        let bytes = write_u64(value);
        assert_eq!(read_u64(&bytes, 0), Ok((value, bytes.len())));
    }
}

/// Also shows that the build is the release one: another would stop here, since
/// `encode_hashes` asserts that hashes ascend.
#[test]
fn hash_lists_keep_order_and_repeats() {
    let list: Vec<[u8; 32]> = hashes(&[3, 1, 3]).iter().map(|h| h.0).collect();
    let bytes = write_hashes(&list);
    assert_eq!(bytes.len(), 1 + 3 * 32);
    assert_eq!(read_hashes(&bytes, 0), Ok((list, bytes.len())));
    assert_eq!(read_hashes(&bytes[..96], 0), Err(Kind::NotEnoughInput));
}

#[test]
fn prefixed_strings() {
    assert_eq!(read_prefixed(&[7, 2, 5, 6, 9], 1), Ok((&[5, 6][..], 4)));
    assert_eq!(read_prefixed(&[2, 5], 0), Err(Kind::NotEnoughInput));
    let longest = write_u64(u64::MAX);
    assert_eq!(read_prefixed(&longest, 0), Err(Kind::NotEnoughInput));
}

#[test]
fn p1_to_p3_no_flags_empty_flags_and_flags() {
    let read = |bytes: &[u8]| read_message(bytes).unwrap();
    assert_eq!(read(&[0x42, 0, 0, 0, 0]), message(&[]));
    let flags = |bytes: &[u8]| read(bytes).flags.map(flags_value);
    assert_eq!(flags(&[0x42, 0, 0, 0, 0]), None);
    assert_eq!(flags(&[0x42, 0, 0, 0, 0, 0]), Some(0));
    assert_eq!(flags(&[0x42, 0, 0, 0, 0, 2, 2, 0x84]), Some(4));
}

#[test]
fn flag_bytes_are_joined_bit_by_bit() {
    let read = read_message(&[0x42, 0, 0, 0, 0, 2, 0x82, 0x82]).unwrap();
    assert_eq!(read.flags.map(flags_value), Some(2));
}

#[test]
fn flags_of_80_or_more_are_written_with_the_high_bit_once() {
    for value in 0..=u8::MAX {
        assert_eq!(flags_value(flags_of(value)), value);
    }
    let written = Message {
        flags: Some(flags_of(0x81)),
        ..message(&[])
    };
    assert_eq!(written.encode(), [0x42, 0, 0, 0, 0, 2, 2, 0x81]);
}

#[test]
fn first_bytes_and_cuts() {
    assert_eq!(read_message(&[]), Err(Kind::NotEnoughInput));
    assert_eq!(read_message(&[0x41]), Err(Kind::WrongType(0x41)));
    assert_eq!(read_message(&[0x42]), Err(Kind::NotEnoughInput));
    assert_eq!(read_message(&[0x42, 0x80, 0]), Err(Kind::Overlong));
    assert_eq!(
        read_message(&[0x42, 0, 0, 0, 0, 5]),
        Err(Kind::NotEnoughInput)
    );
    assert_eq!(read_state(&[0x42, 0]), Err(Kind::WrongType(0x42)));
    assert_eq!(read_state(&[0x43, 0x80, 0]), Err(Kind::Other));
}

#[test]
fn a_filter_without_entries_keeps_its_numbers() {
    let filter = read_filter(&[0, 0, 0x80, 1, 5, 5]).unwrap();
    let parts = FilterParts {
        entries: 0,
        bits_per_entry: 0,
        probes: 128,
        field: Vec::new(),
    };
    assert_eq!(filter_parts(&filter), parts);
    assert_eq!(filter_of(&parts), Some(filter.clone()));
    assert!(filter.to_bytes().is_empty());
}

#[test]
fn no_bytes_are_the_default_filter() {
    let parts = filter_parts(&read_filter(&[]).unwrap());
    assert_eq!(
        (parts.entries, parts.bits_per_entry, parts.probes),
        (0, 10, 7)
    );
}

#[test]
fn all_three_numbers_come_before_the_rules_of_a_filter() {
    assert_eq!(read_filter(&[1, 0]), Err(Kind::NotEnoughInput));
    assert!(read_filter(&[1, 0, 7]).is_ok());
}

#[test]
fn p6_p7_probes_of_the_words_1_2_3() {
    let filter = BloomFilter::from_hashes([words(1, 2, 3)].iter());
    assert_eq!(filter.to_bytes(), [1, 10, 7, 0x0b, 0x0f]);
    assert!(filter.contains_hash(&words(1, 2, 3)));
    assert!(filter.contains_hash(&words(1, 0, 0)));
    assert!(!filter.contains_hash(&words(2, 0, 0)));
}

#[test]
fn p10_no_probes_are_one_probe() {
    let filter = read_filter(&[1, 10, 0, 0x02, 0]).unwrap();
    assert!(filter.contains_hash(&words(1, 5, 5)));
    assert!(!filter.contains_hash(&words(2, 5, 5)));
}

#[test]
#[should_panic(expected = "divisor of zero")]
fn p8_entries_without_bits_divide_by_zero_in_the_crate() {
    let filter = read_filter(&[1, 0, 7]).unwrap();
    filter.contains_hash(&words(1, 2, 3));
}

#[test]
fn a_field_of_another_length_is_no_filter() {
    let parts = |field: Vec<u8>| FilterParts {
        entries: 1,
        bits_per_entry: 10,
        probes: 7,
        field,
    };
    assert!(filter_of(&parts(vec![1, 2])).is_some());
    assert_eq!(filter_of(&parts(vec![1])), None);
    assert_eq!(filter_of(&parts(vec![1, 2, 3])), None);
}

#[test]
fn a_whole_message_is_read_back() {
    let whole = Message {
        need: hashes(&[9, 2, 9]),
        have: vec![
            Have {
                last_sync: hashes(&[5, 4]),
                bloom: BloomFilter::from_hashes(hashes(&[1, 2, 3]).iter()),
            },
            Have::default(),
        ],
        changes: vec![vec![1, 2, 3], Vec::new()].into(),
        flags: Some(flags_of(6)),
        version: MessageVersion::V2,
        ..message(&[8, 7])
    };
    let bytes = whole.clone().encode();
    assert_eq!(read_message(&bytes), Ok(whole.clone()));
    let Value::Fields(fields) = record(&whole) else {
        panic!("a message is a map");
    };
    let names: Vec<&str> = fields.iter().map(|(name, _)| name.as_str()).collect();
    assert_eq!(names, ["heads", "need", "have", "changes"]);
}

#[test]
fn a_saved_state_gives_a_fresh_session_with_an_empty_have() {
    let state = State {
        shared_heads: hashes(&[2, 1, 2]),
        in_flight: true,
        ..State::new()
    };
    let mut bytes = state.encode();
    bytes.push(0xff);
    let fresh = State {
        shared_heads: hashes(&[2, 1, 2]),
        their_have: Some(Vec::new()),
        ..State::new()
    };
    assert_eq!(read_state(&bytes), Ok(fresh));
}

#[test]
fn error_texts_come_from_the_published_attributes() {
    let wrong = Message::decode(&[0x41]).unwrap_err().to_string();
    assert_eq!(wrong, "expected [66, 67] but found 65");
    let cut = Message::decode(&[]).unwrap_err().to_string();
    assert_eq!(cut, "not enough input");
    let number = State::decode(&[0x43, 0x80, 0]).unwrap_err().to_string();
    assert_eq!(number, "\"bad leb128 encoding\"");
}

#[test]
fn the_small_documents_hashes_ascend() {
    assert!((0..300).all(|n| hash(n) < hash(n + 1)));
}
