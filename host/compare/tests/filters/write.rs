//! Writing: the bytes of a filter that is passed as numbers; refusals 10 and 7.

use crate::{compare_writes, every};
use bisquetower::limits::{FIELD_SIZE, PROBES};
use bisquetower::raw;
use compare::inputs::{boundary_values, Random, Seed};
use compare::model::filter::{self, field_size, Filter};
use compare::writes::{compare_rooms, compare_write, Write};

/// Written filters of every size of numbers, in every size of buffer, against the
/// crate's bytes, the model's, and every other byte as it was.
#[test]
fn written_filters() {
    let mut random = Random(1);
    let long = 8 * FIELD_SIZE as u64;
    let numbers = [
        (1, 1, 0),
        (1, 10, 7),
        (2, 10, PROBES as u64),
        (127, 1, 1),
        (128, 3, 7),
        (1, 127, 7),
        (1, 128, 7),
        (200, 10, 7),
        (1_024, 10, 7),
        (long / 64, 64, PROBES as u64),
        (long, 1, 7),
        (1, long, 7),
        (16_384, 4, 0),
    ];
    for (entries, bits, probes) in numbers {
        let field = random.bytes(field_size(entries, bits) as usize);
        let filter = Filter {
            entries,
            bits,
            probes,
            field: &field,
        };
        let wanted = filter::bytes(&filter).unwrap().len();
        let written = compare_writes(Write::Filter(filter), every(wanted));
        assert_eq!(written, 5, "{entries}, {bits}, {probes}");
    }
}

/// Filters without entries, bits and probes at every boundary, against the crate's
/// bytes and the model's: there are none, and no byte of the buffer changes.
#[test]
fn filters_without_entries_are_no_bytes() {
    let values: Vec<u64> = boundary_values()
        .into_iter()
        .filter(|&value| value < 1 << 32)
        .collect();
    for &bits in &values {
        for &probes in &values {
            let filter = Filter {
                entries: 0,
                bits,
                probes,
                field: &[],
            };
            let answers = compare_rooms(Write::Filter(filter), [0, 1, 9]).unwrap();
            assert_eq!(answers, [[0; 4]; 3]);
        }
    }
}

/// Filters that break one rule, by one too many or too few, in buffers short and
/// long, against the model: 10 with 0, and no byte changed.
#[test]
fn refused_filters() {
    let most = u64::from(u32::MAX);
    let field = vec![0x5a; FIELD_SIZE + 8];
    let (long, probes) = (8 * FIELD_SIZE as u64, PROBES as u64);
    // Entries, bits, probes and bytes of the field, and whether they are a filter.
    let cases = [
        (1, 10, 7, 2, true),
        (1, 10, 7, 1, false),
        (1, 10, 7, 3, false),
        (1, 10, 7, 0, false),
        (1, 10, probes, 2, true),
        (1, 10, probes + 1, 2, false),
        (1, 10, most, 2, false),
        (1, 10, u64::MAX, 2, false),
        (1, 0, 7, 0, false),
        (1, 0, 7, 1, false),
        (1, 1, 7, 1, true),
        (0, 10, 7, 0, true),
        (0, 10, 7, 1, false),
        (0, 0, 0, 0, true),
        (0, most, most, 0, true),
        (0, most + 1, 7, 0, false),
        (0, 10, most + 1, 0, false),
        (0, u64::MAX, u64::MAX, 0, false),
        (long, 1, 7, FIELD_SIZE, true),
        (long + 1, 1, 7, FIELD_SIZE, false),
        (long + 1, 1, 7, FIELD_SIZE + 1, false),
        (long - 8, 1, 7, FIELD_SIZE - 1, true),
        (long - 7, 1, 7, FIELD_SIZE - 1, false),
        (long - 7, 1, 7, FIELD_SIZE, true),
        (1, long + 1, 7, FIELD_SIZE + 1, false),
        (most, 1, 7, FIELD_SIZE, false),
        (most + 1, 1, 7, FIELD_SIZE, false),
        (most + 1, 0, 0, 0, false),
        // Whose product is 0 or small in 32 or in 64 bits.
        (1 << 16, 1 << 16, 7, 0, false),
        (1 << 31, 2, 7, 0, false),
        (1 << 32, 1 << 32, 7, 0, false),
        (1 << 63, 2, 7, 0, false),
        (u64::MAX, u64::MAX, 7, 1, false),
        (u64::MAX, u64::MAX, 7, 0, false),
        (u64::MAX, 1, 7, 0, false),
        (1, u64::MAX, 7, 0, false),
    ];
    for (entries, bits, probes, size, good) in cases {
        let filter = Filter {
            entries,
            bits,
            probes,
            field: &field[..size],
        };
        let rooms = [0, 1, 2, 16, FIELD_SIZE + 16];
        let answers = compare_rooms(Write::Filter(filter), rooms).unwrap();
        let last = answers[rooms.len() - 1];
        assert_eq!(last[0] == 0, good, "{filter:?}");
        if !good {
            assert_eq!(answers, [[10, 0, 0, 0]; 5], "{filter:?}");
        }
    }
}

/// Random filters, some breaking a rule, into random buffers, against the crate's
/// bytes and the model's; and what is written is read back.
#[test]
fn random_writes() {
    let seed = Seed::fixed();
    let mut random = seed.random(0);
    let mut answers = [0; 11];
    let mut out = vec![0; 8_300];
    for round in 0..20_000 {
        let told = |why| panic!("round {round}: {why}");
        let (entries, bits) = random.entries_and_bits();
        let spoilt = random.one_in(4);
        let size = field_size(entries, bits) as usize;
        let length = if spoilt { size + random.below(3) } else { size };
        let field = random.bytes(length);
        let filter = Filter {
            entries,
            bits,
            probes: random.below(if spoilt { PROBES + 16 } else { PROBES + 1 }) as u64,
            field: &field,
        };
        let room = random.below(2 * length + 12);
        let [first, ..] = compare_write(Write::Filter(filter), room).unwrap_or_else(told);
        answers[first as usize] += 1;
        let [first, written, ..] = Write::Filter(filter).library(&mut out);
        if first == 0 {
            let place = written - length as u64;
            let probes = filter.probes;
            let behind = out.len() as u64 - written;
            let words = [
                0,
                entries,
                bits,
                probes,
                place,
                length as u64,
                written,
                behind,
            ];
            assert_eq!(raw::read_filter(&out, 0, out.len()), words);
            assert_eq!(out[place as usize..written as usize], field);
        }
    }
    assert!(
        [0, 7, 10].iter().all(|&first| answers[first] > 1_000),
        "{answers:?}"
    );
}
