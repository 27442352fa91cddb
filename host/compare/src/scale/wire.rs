//! Numbers, prefixed strings and hash lists.

use super::case::{apart, room, Case, Compared};
use crate::inputs::Random;
use crate::wire::{compare, READERS};
use crate::writes::{compare_write, Write};
use bisquetower::limits::HASH_SIZE;
use bisquetower::raw::Read;

pub fn item(random: &mut Random) -> Case {
    let (bytes, at, end) = random.input(Random::item);
    Case::new([bytes], [at as u64, end as u64])
}

/// Reads an item with one of the readers.
pub fn read<const READER: usize>(case: &Case) -> Compared {
    let ([bytes], [at, end]) = (case.lent(), case.told());
    let tally = compare(&[Read {
        reader: READERS[READER],
        bytes,
        at: at as usize,
        end: end as usize,
    }])?;
    Ok(tally.cut_filter_numbers + tally.counts_past_limit > 0)
}

/// Bytes to be written in some way, now and then hashes around their limit.
pub fn written(random: &mut Random) -> Case {
    let length = match random.one_in(200) {
        true => HASH_SIZE * random.many_hashes(),
        false => random.below(200),
    };
    let whole = random.one_in(2);
    let bytes = random.bytes(if whole {
        length / HASH_SIZE * HASH_SIZE
    } else {
        length
    });
    let room = random.below(2 * length + 12) as u64;
    let way = random.below(3) as u64;
    Case::new([bytes], [way, random.number(), room])
}

pub fn write(case: &Case) -> Compared {
    let ([bytes], [way, number, lent]) = (case.lent(), case.told());
    let write = match way {
        0 => Write::Number(number),
        1 => Write::Prefixed(bytes),
        _ => Write::Hashes(bytes),
    };
    Ok(apart(compare_write(write, room(lent))?[0]))
}
