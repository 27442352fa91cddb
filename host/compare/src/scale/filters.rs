//! Filters read, written, built and asked.

use super::case::{apart, room, Case, Compared};
use crate::filters::{compare_question, compare_reads, have_of, Build, Haves, Part};
use crate::inputs::Random;
use crate::model::filter::{self, field_size, Filter};
use crate::writes::{compare_write, Write};
use bisquetower::limits::{FIELD_SIZE, HASH_SIZE, HAVES};

/// A field that is too long, but not by much.
const LONG: u128 = FIELD_SIZE as u128 + 808;

pub fn filter(random: &mut Random) -> Case {
    let (bytes, at, end) = random.input(Random::filter);
    Case::new([bytes], [at as u64, end as u64])
}

pub fn read(case: &Case) -> Compared {
    let ([s], places) = (case.lent(), case.told());
    let [at, end] = places.map(|place| place as usize);
    let tally = compare_reads(&[Part { s, at, end }])?;
    Ok(tally.cut_numbers + tally.no_bits + tally.past_size > 0)
}

/// A filter's numbers and field, some of which break a rule.
fn numbers_and_field(random: &mut Random) -> ([u64; 3], Vec<u8>) {
    let (entries, bits) = random.entries_and_bits();
    let mut numbers = [entries, bits, random.probes()];
    let mut size = field_size(entries, bits) as usize;
    match random.below(12) {
        0 => size += 1,
        1 => size -= 1,
        2 => numbers[2] += 60,
        3 => numbers[random.below(3)] = random.number(),
        4 => (numbers, size) = ([0, random.number(), random.number()], 0),
        _ => {}
    }
    (numbers, random.field(size))
}

pub fn written(random: &mut Random) -> Case {
    let ([entries, bits, probes], field) = numbers_and_field(random);
    let room = random.below(2 * field.len() + 16) as u64;
    Case::new([field], [entries, bits, probes, room])
}

pub fn write(case: &Case) -> Compared {
    let ([field], [entries, bits, probes, lent]) = (case.lent(), case.told());
    let filter = Filter {
        entries,
        bits,
        probes,
        field,
    };
    let answer = compare_write(Write::Filter(filter), room(lent))?;
    Ok(apart(answer[0]))
}

/// Hashes, mostly whole, and mostly the crate's own 10 bits and 7 probes.
pub fn to_build(random: &mut Random) -> Case {
    let count = match random.one_in(300) {
        true => random.many_hashes(),
        false => random.below(20),
    };
    let cut = random.below(6).saturating_sub(4) * random.below(HASH_SIZE);
    let hashes = random.bytes(HASH_SIZE * count + cut);
    let [bits, probes] = match random.below(4) {
        0 => [random.below(70), random.below(70)].map(|n| n as u64),
        1 => [random.number(), random.number()],
        _ => [10, 7],
    };
    let wanted = field_size(count as u64, bits).min(LONG) as usize;
    let room = random.below(3 * wanted + 2) as u64;
    Case::new([hashes], [bits, probes, room])
}

pub fn build(case: &Case) -> Compared {
    let ([hashes], [bits, probes, lent]) = (case.lent(), case.told());
    let build = Build {
        bits,
        probes,
        hashes,
    };
    let answer = compare_write(Write::Built(build), room(lent))?;
    Ok(apart(answer[0]))
}

/// A filter and a hash that probes at its edges, or anywhere.
pub fn question(random: &mut Random) -> Case {
    let ([entries, bits, probes], field) = numbers_and_field(random);
    let hash = random.probing(8 * field.len().max(1) as u32).to_vec();
    let probes = if random.one_in(2) { probes % 8 } else { probes };
    Case::new([field, hash], [entries, bits, probes])
}

/// Asks one filter: beside the crate's if it is one, else beside the model's alone.
pub fn ask(case: &Case) -> Compared {
    let ([field, hash], [entries, bits, probes]) = (case.lent(), case.told());
    let one = Filter {
        entries,
        bits,
        probes,
        field,
    };
    if let (Ok(hash), Ok(_)) = (hash[..].try_into(), filter::bytes(&one)) {
        Haves::one(one).compare(&[hash])?;
        return Ok(false);
    }
    Ok(apart(compare_question(field, &have_of(&one), hash)?[0]))
}

/// A seed, and most haves.
pub fn several(random: &mut Random) -> Case {
    Case::new([], [random.word(), 1 + random.below(HAVES) as u64])
}

/// Asks several haves over one buffer, as they are and with a word of them changed.
pub fn ask_several(case: &Case) -> Compared {
    let [seed, count] = case.told();
    let mut random = Random(seed);
    let parts: Vec<_> = (0..count.min(HAVES as u64))
        .map(|_| numbers_and_field(&mut random))
        .collect();
    let filters = parts
        .iter()
        .map(|&([entries, bits, probes], ref field)| Filter {
            entries,
            bits,
            probes,
            field,
        });
    let filters: Vec<Filter> = filters
        .filter(|filter| filter::bytes(filter).is_ok())
        .collect();
    let (s, mut haves) = random.haves(&filters);
    let hash = random.probing(64);
    Haves::new(&filters, (s.clone(), haves.clone())).compare(&[hash])?;
    if !haves.is_empty() {
        let word = random.below(haves.len());
        haves[word] = match random.below(3) {
            0 => random.number(),
            1 => haves[word].wrapping_sub(1),
            _ => random.below(s.len() + 2) as u64,
        };
    }
    Ok(apart(compare_question(&s, &haves, &hash)?[0]))
}
