//! Numbers, prefixed strings and hash lists: the proved library against the crate and
//! the model. `compare::wire` and `compare::writes` say what is held against what.

#[path = "wire/every_string.rs"]
mod every_string;
#[path = "wire/forms.rs"]
mod forms;
#[path = "wire/literal.rs"]
mod literal;
#[path = "wire/random.rs"]
mod random;
#[path = "wire/write.rs"]
mod write;

use bisquetower::raw::{Read, Reader};
use compare::wire::{compare, Tally};

/// Most of what one exchange with the library is worth.
const MANY: usize = 1 << 16;

/// Compares reads of all these, each as every kind of item it is asked for.
fn compare_all(reads: &[Read]) -> Tally {
    let mut tally = Tally::default();
    for some in reads.chunks(MANY) {
        tally.add(&compare(some).unwrap_or_else(|disagreement| panic!("{disagreement}")));
    }
    assert_eq!(tally.total(), reads.len() as u64);
    tally
}

fn at(reader: Reader, bytes: &[u8], at: usize, end: usize) -> Read<'_> {
    Read {
        reader,
        bytes,
        at,
        end,
    }
}

fn whole(reader: Reader, s: &[u8]) -> Read<'_> {
    at(reader, s, 0, s.len())
}
