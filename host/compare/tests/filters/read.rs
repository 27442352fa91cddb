//! Reading: n, b, p, the field's place and length, the next place; refusals 1, 3,
//! 4 and 5 with their places.

use bisquetower::limits::{FIELD_SIZE, PROBES};
use bisquetower::raw;
use compare::filters::{compare_reads, difference, Difference, Part, Tally};
use compare::inputs::filter::number_forms_in_filters;
use compare::inputs::{boundary_values, every_byte, string, strings, Random, Seed};
use compare::model::filter::field_size;
use compare::model::number_bytes;
use compare::published;

/// Most of what one exchange with the library is worth.
const MANY: usize = 1 << 15;

fn compare_all(parts: &[Part]) -> Tally {
    let mut tally = Tally::default();
    for some in parts.chunks(MANY) {
        tally.add(&compare_reads(some).unwrap_or_else(|disagreement| panic!("{disagreement}")));
    }
    assert_eq!(tally.total(), parts.len() as u64);
    tally
}

fn part(s: &[u8], at: usize, end: usize) -> Part<'_> {
    Part { s, at, end }
}

/// These bytes at a place of a longer slice, with others before and after them,
/// as (slice, place, end).
fn within(s: &[u8], before: usize, after: usize) -> (Vec<u8>, usize, usize) {
    let around = [0x80, 0x01, 0x0a, 0x00, 0x07, 0x7f];
    let slice = [&around[..before], s, &around[..after]].concat();
    (slice, before, before + s.len())
}

/// Compares every string of `length` bytes from this alphabet, lent alone and in a
/// slice of more bytes.
fn compare_strings(alphabet: &[u8], length: usize) -> Tally {
    let count = alphabet.len().pow(length as u32);
    let mut tally = Tally::default();
    for start in (0..count).step_by(MANY) {
        let numbers = start..count.min(start + MANY);
        let lent: Vec<(Vec<u8>, Vec<u8>, usize)> = numbers
            .map(|number| {
                let alone = string(alphabet, length, number);
                let (slice, before, _) = within(&alone, number % 7, number / 7 % 7);
                (alone, slice, before)
            })
            .collect();
        let parts: Vec<Part> = lent
            .iter()
            .flat_map(|(alone, slice, at)| [Part::alone(alone), part(slice, *at, at + alone.len())])
            .collect();
        tally.add(&compare_all(&parts));
    }
    assert_eq!(tally.total(), 2 * count as u64);
    tally
}

const TELLING: [u8; 6] = [0x00, 0x01, 0x0a, 0x07, 0x7f, 0x80];

/// A filter in every string of up to two bytes, alone and in a slice, against
/// crate and model.
#[test]
fn every_string_of_two_bytes() {
    let every_byte = every_byte();
    for length in 0..=2 {
        compare_strings(&every_byte, length);
    }
}

/// A filter in every string of up to eight telling bytes, alone and in a slice,
/// against crate and model.
#[test]
fn every_string_of_eight_telling_bytes() {
    let mut tally = Tally::default();
    for length in 0..=8 {
        tally.add(&compare_strings(&TELLING, length));
    }
    assert_eq!(tally.total(), 2 * 2_015_539);
    assert_eq!(tally.answers[2], 0);
    for first_word in [0, 1, 3, 4, 5] {
        assert!(tally.answers[first_word] > 10_000, "{tally:?}");
    }
    assert_eq!(tally.no_bits, tally.answers[5]);
    assert_eq!(tally.past_size, tally.answers[4]);
    assert!(tally.cut_numbers > 0, "{tally:?}");
}

/// A filter at every place up to every end, in and around strings of up to four
/// telling bytes and some longer ones, against crate and model.
#[test]
fn places_and_ends_anywhere() {
    let mut inputs = Vec::new();
    for length in 0..=4 {
        inputs.extend(strings(&TELLING, length));
    }
    inputs.push(vec![9, 1, 10, 7, 0x0b, 0x0f, 1, 2]);
    let most = PROBES as u8;
    inputs.push(vec![1, 10, most, 1, 10, most + 1, 1, 0, 7]);
    inputs.push(vec![0x80; 12]);
    inputs.push([vec![1, 1], vec![0x80; 9], vec![1]].concat());
    for some in inputs.chunks(100) {
        let far = [usize::MAX - 1, usize::MAX];
        let mut parts = Vec::new();
        for s in some {
            let places = || (0..s.len() + 3).chain(far);
            for at in places() {
                parts.extend(places().map(|end| part(s, at, end)));
            }
        }
        compare_all(&parts);
    }
}

/// Each of the three numbers in every form that a number has, whole and cut at
/// each byte, by the slice's end and by the part's, against crate and model.
#[test]
fn numbers_in_every_form() {
    let mut tally = Tally::default();
    for some in number_forms_in_filters().chunks(500) {
        let lent: Vec<(Vec<u8>, usize, usize)> = some.iter().map(|s| within(s, 2, 2)).collect();
        let mut parts = Vec::new();
        for (filter, (slice, at, end)) in some.iter().zip(&lent) {
            parts.extend((0..=filter.len()).map(|cut| Part::alone(&filter[..cut])));
            parts.extend((*at..=end + 2).map(|end| part(slice, *at, end)));
        }
        tally.add(&compare_all(&parts));
    }
    for first_word in [0, 1, 3, 4, 5] {
        assert!(tally.answers[first_word] > 0, "{tally:?}");
    }
    assert!(tally.cut_numbers > 1_000, "{tally:?}");
}

/// The bytes of a filter, its field as long as is told.
fn filter_bytes(entries: u64, bits: u64, probes: u64, field: usize) -> Vec<u8> {
    let numbers = [entries, bits, probes].map(number_bytes).concat();
    [numbers, vec![0x5a; field]].concat()
}

/// Fields of about as many bytes as there may be and of products past 32 and 64 bits,
/// whole, with bytes after them, and cut around their ends, against crate and
/// model.
#[test]
fn fields_around_their_limit() {
    let most = u64::from(u32::MAX);
    let long = 8 * FIELD_SIZE as u64;
    let (whole, tens) = (long / 64, long / 10);
    let mut pairs = vec![(whole, 64), (64, whole), (tens, 10), (tens + 1, 10)];
    for less in [9, 8, 7, 1, 0] {
        pairs.extend([(long - less, 1), (1, long - less)]);
    }
    for more in [1, 9] {
        pairs.extend([(long + more, 1), (1, long + more)]);
    }
    // Products that are 0 or small in 32 bits, and the largest of all.
    pairs.extend([(1 << 16, 1 << 16), (1 << 31, 2), (3, 1_431_655_766)]);
    pairs.extend([(most, 1), (1, most), (most, most), (most, most - 7)]);
    let mut tally = Tally::default();
    for (entries, bits) in pairs {
        let size = field_size(entries, bits);
        let lent = size.min(FIELD_SIZE as u128 + 8) as usize;
        for probes in [0, 7, PROBES as u64, PROBES as u64 + 1] {
            let bytes = filter_bytes(entries, bits, probes, lent + 3);
            let start = bytes.len() - lent - 3;
            let near = |cut: &usize| *cut <= start + 2 || cut + 9 > bytes.len();
            let cuts: Vec<usize> = (0..=bytes.len()).filter(near).collect();
            let alone = cuts.iter().map(|&cut| Part::alone(&bytes[..cut]));
            let ended = cuts.iter().map(|&cut| part(&bytes, 0, cut));
            tally.add(&compare_all(&alone.chain(ended).collect::<Vec<Part>>()));
        }
    }
    assert!(tally.answers[0] > 50 && tally.answers[4] > 50, "{tally:?}");
}

/// Every number of probes up to two too many and some larger, with bits and without, with
/// entries and without, against crate and model.
#[test]
fn probes_around_their_limit() {
    let most = PROBES as u64;
    let probes = (0..=most + 2).chain([127, 128, 1 << 16, (1 << 32) - 1, 1 << 32]);
    let mut tally = Tally::default();
    for p in probes {
        for (entries, bits) in [(1, 10), (1, 0), (0, 10), (0, 0), (3, 5)] {
            let lent = [0, 1, 2, 3].map(|field| filter_bytes(entries, bits, p, field));
            let parts = lent.iter().map(|bytes| Part::alone(bytes));
            tally.add(&compare_all(&parts.collect::<Vec<Part>>()));
        }
    }
    // 0 bits: every number of probes that is one; over the most: (1, 10) and (3, 5).
    let good = most + 7;
    assert_eq!((tally.answers[5], tally.answers[4]), (good * 4, 6 * 8));
}

/// Filters without entries, bits and probes at every boundary and bytes after
/// them, against crate and model: both numbers are kept, and there is no field.
#[test]
fn filters_without_entries() {
    let small = |value: &u64| *value < 1 << 32;
    let values: Vec<u64> = boundary_values().into_iter().filter(small).collect();
    for &bits in &values {
        for &probes in &values {
            let lent = [0, 1, 5].map(|after| filter_bytes(0, bits, probes, after));
            let parts = lent.each_ref().map(|bytes| Part::alone(bytes));
            assert_eq!(compare_all(&parts).answers[0], 3);
            let place = lent[0].len() as u64;
            let read = raw::read_filter(&lent[2], 0, usize::MAX);
            assert_eq!(read, [0, 0, bits, probes, place, 0, place, 5]);
        }
    }
}

/// Compares random and damaged filters, 10,000 a batch.
fn compare_random(seed: Seed, batches: usize) -> Tally {
    let mut random = seed.random(0);
    let mut tally = Tally::default();
    for batch in 0..batches {
        let inputs: Vec<_> = (0..10_000).map(|_| random.input(Random::filter)).collect();
        let parts: Vec<Part> = inputs
            .iter()
            .map(|(s, at, end)| part(s, *at, *end))
            .collect();
        match compare_reads(&parts) {
            Ok(seen) => tally.add(&seen),
            Err(disagreement) => panic!("batch {batch}: {disagreement}"),
        }
    }
    tally
}

/// A few of them with another seed each time.
#[test]
fn filters_of_a_fresh_seed() {
    compare_random(Seed::fresh(), 2);
}

/// A million random and damaged filters, at places and up to ends anywhere, against
/// crate and model.
#[test]
fn random_and_damaged_filters() {
    let tally = compare_random(Seed::fixed(), 100);
    assert_eq!(tally.total(), 1_000_000);
    for first_word in [0, 1, 3, 4, 5] {
        assert!(tally.answers[first_word] > 10_000, "{tally:?}");
    }
    assert!(tally.cut_numbers > 1_000, "{tally:?}");
}

/// The smallest inputs at which two readings of 01 part, against the answers that
/// are settled; neither model nor crate is asked.
#[test]
fn settled_readings() {
    let read = |s: &[u8]| raw::read_filter(s, 0, s.len());
    let refused = |number, value| [number, value, 0, 0, 0, 0, 0, 0];
    // No bytes are the default filter, wherever they stand.
    assert_eq!(read(&[]), [0, 0, 10, 7, 0, 0, 0, 0]);
    assert_eq!(raw::read_filter(&[9, 9], 2, 2), [0, 0, 10, 7, 2, 0, 2, 0]);
    assert_eq!(raw::read_filter(&[9, 9], 5, 9), [0, 0, 10, 7, 5, 0, 5, 0]);
    // One that starts past the slice's end has a place that no have may have.
    let have = |place| [0, 0, 0, 10, 7, place, 0];
    let hash = [9; 32];
    assert_eq!(raw::filters_contain(&[9, 9], &have(2), &hash), [0; 4]);
    assert_eq!(raw::filters_contain(&[9, 9], &have(5), &hash)[0], 10);
    // A missing number is cut at the place where it would start.
    assert_eq!(read(&[1]), refused(1, 1));
    assert_eq!(read(&[1, 0]), refused(1, 2));
    assert_eq!(raw::read_filter(&[9, 9, 1, 10], 2, 4), refused(1, 4));
    // Five bytes that go on can't become a filter number; four can.
    assert_eq!(read(&[1, 0x80, 0x80, 0x80, 0x80, 0x80]), refused(3, 1));
    assert_eq!(read(&[1, 0x80, 0x80, 0x80, 0x80]), refused(1, 1));
    // A cut field has the place of its own first byte; 4 and 5 that of n.
    let many = PROBES as u8 + 1;
    assert_eq!(raw::read_filter(&[9, 1, 10, 7, 3], 1, 5), refused(1, 4));
    assert_eq!(raw::read_filter(&[9, 1, 10, many], 1, 4), refused(4, 1));
    assert_eq!(raw::read_filter(&[9, 1, 0, many], 1, 4), refused(5, 1));
    // Without entries b and p may be anything; what follows is ignored.
    assert_eq!(read(&[0, 0, 0x80, 1, 5, 5]), [0, 0, 0, 128, 4, 0, 4, 2]);
    assert_eq!(read(&[0, 0, 0x80]), refused(1, 2));
    assert_eq!(read(&[0, 0x80, 0]), refused(3, 1));
    // The product of the largest numbers, plus 7, is no small number.
    let most = u64::from(u32::MAX);
    assert_eq!(read(&filter_bytes(most, most, 7, 9)), refused(4, 0));
    assert_eq!(read(&filter_bytes(1 << 31, 2, 7, 9)), refused(4, 0));
}

/// The intended differences at their smallest, crate beside library.
#[test]
fn differences_are_the_three_that_are_intended() {
    let long = filter_bytes(8 * FIELD_SIZE as u64 + 1, 1, 7, FIELD_SIZE + 1);
    let many = PROBES as u8 + 1;
    let cases: [(&[u8], Difference, u64, u64); 7] = [
        (&[0x80; 5], Difference::CutNumber, 3, 1),
        (
            &[1, 10, 0x80, 0x80, 0x80, 0x80, 0x80],
            Difference::CutNumber,
            3,
            1,
        ),
        (&[1, 0, 7], Difference::NoBits, 5, 0),
        (&[1, 10, many, 0, 0], Difference::PastSize, 4, 0),
        (&[1, 10, many, 0], Difference::PastSize, 4, 1),
        (&long, Difference::PastSize, 4, 0),
        (&long[..FIELD_SIZE - 192], Difference::PastSize, 4, 1),
    ];
    for (s, kind, here, there) in cases {
        assert_eq!(difference(Part::alone(s)), Some((kind, there)));
        assert_eq!(raw::read_filter(s, 0, s.len())[0], here);
        let crates = published::read_filter(s);
        assert_eq!(crates.map_or_else(|kind| kind, |_| 0), there);
    }
    let no_bits = published::read_filter(&[1, 0, 7]).unwrap();
    assert!(no_bits.field.is_empty());
}
