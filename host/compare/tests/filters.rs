//! Filters read, written, built and asked: the proved library against the crate
//! and the model. `compare::filters` says what is held against what.

#[path = "filters/ask.rs"]
mod ask;
#[path = "filters/build.rs"]
mod build;
#[path = "filters/haves.rs"]
mod haves;
#[path = "filters/literal.rs"]
mod literal;
#[path = "filters/read.rs"]
mod read;
#[path = "filters/write.rs"]
mod write;

use bisquetower::limits::{FIELD_SIZE, HASHES, PROBES};
use bisquetower::raw;
use compare::inputs::filter::{edges, hash_of};
use compare::inputs::Random;
use compare::model::filter::{field_size, Filter};
use compare::writes::{compare_rooms, Write};

/// Compares a write into buffers of these sizes; returns how many were written.
fn compare_writes(write: Write, rooms: impl IntoIterator<Item = usize>) -> usize {
    let answers =
        compare_rooms(write, rooms).unwrap_or_else(|disagreement| panic!("{disagreement}"));
    answers.iter().filter(|answer| answer[0] == 0).count()
}

/// Every size from none to three too many, and a larger one.
fn every(wanted: usize) -> impl Iterator<Item = usize> {
    (0..=wanted + 3).chain([wanted + 100])
}

/// As many bits an entry as a filter of the most hashes has room for.
const MOST_BITS: u64 = 8 * FIELD_SIZE as u64 / HASHES as u64;

/// How many hashes the lists of the tests have.
const COUNTS: [usize; 10] = [0, 1, 2, 15, 16, 17, 255, 256, HASHES - 1, HASHES];

/// Hashes of several kinds for a field of `count` entries: random ones, one hash
/// again and again, and ones that probe at the field's edges.
fn lists(count: usize, bits: u64, random: &mut Random) -> [Vec<u8>; 3] {
    let m = 8 * field_size(count as u64, bits) as u32;
    let once = random.bytes(32);
    let edge = |random: &mut Random| hash_of(std::array::from_fn(|_| random.of(&edges(m.max(1)))));
    [
        random.bytes(32 * count),
        once.repeat(count),
        (0..count).flat_map(|_| edge(random)).collect(),
    ]
}

/// The field that the library builds.
fn field_of(bits: u64, probes: u64, hashes: &[u8]) -> Vec<u8> {
    let wanted = field_size(hashes.len() as u64 / 32, bits) as usize;
    let mut field = vec![0xff; wanted];
    let answer = raw::build_filter(bits, probes, hashes, &mut field);
    assert_eq!(answer, [0, wanted as u64, 0, 0]);
    field
}

/// A random filter that keeps the rules, now and then one without entries: its
/// numbers and its field.
fn random_filter(random: &mut Random) -> ([u64; 3], Vec<u8>) {
    if random.one_in(12) {
        let [bits, probes] = [random.number(), random.number()].map(|n| n & 0xffff_ffff);
        return ([0, bits, probes], Vec::new());
    }
    let (entries, bits) = random.entries_and_bits();
    let most = random.of(&[8, PROBES + 1]);
    let probes = random.below(most) as u64;
    let field = random.field(field_size(entries, bits) as usize);
    ([entries, bits, probes], field)
}

fn with_field((numbers, field): &([u64; 3], Vec<u8>)) -> Filter<'_> {
    let [entries, bits, probes] = *numbers;
    Filter {
        entries,
        bits,
        probes,
        field,
    }
}
