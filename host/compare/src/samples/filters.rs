//! Filters: the bytes of the one that the crate builds over hashes, and what it
//! says of these and of others.

use super::{bytes_column, bytes_of};
use crate::inputs::filter::hash_of;
use crate::inputs::table::Likeness;
use crate::inputs::Random;
use crate::model::table::Hash;
use crate::published;
use crate_under_test::facade::BloomFilter;

#[derive(Clone, Debug, PartialEq, Eq)]
pub struct Record {
    pub hashes: Vec<u8>,
    pub filter: Vec<u8>,
    pub contained: Vec<u8>,
    pub others: Vec<u8>,
}

/// How many filters, of fewer than how many hashes each, and how many hashes they
/// are asked for: of their own at the most, and of others.
const FILTERS: usize = 40;
const HASHES: usize = 14;
const OWN: usize = 3;
const OTHERS: usize = 8;

impl super::Record for Record {
    const FILE: &'static str = "host/compare/samples/filters.txt";
    const COLUMNS: &'static str =
        "hashes; the filter over them; some hashes that it contains; some that it doesn't";

    /// P6 and P7 of document 01 come first.
    fn sample() -> Vec<Record> {
        let asked = [[1, 2, 3], [1, 0, 0], [2, 0, 0]].map(hash_of);
        let mut records = vec![record(&asked[..1], &asked)];
        let mut random = Random(0x0066_696c_7465_7273);
        records.extend((1..FILTERS).map(|_| random_record(&mut random)));
        records
    }

    fn columns(&self) -> Vec<String> {
        [&self.hashes, &self.filter, &self.contained, &self.others]
            .map(|bytes| bytes_column(bytes))
            .to_vec()
    }

    fn of(columns: &[&str]) -> Option<Record> {
        let [hashes, filter, contained, others] = columns else {
            return None;
        };
        Some(Record {
            hashes: bytes_of(hashes)?,
            filter: bytes_of(filter)?,
            contained: bytes_of(contained)?,
            others: bytes_of(others)?,
        })
    }
}

/// What the crate builds over hashes, and which of those asked for it contains.
fn record(hashes: &[Hash], asked: &[Hash]) -> Record {
    let change_hashes = hashes.iter().map(|hash| published::change_hash(hash));
    let filter = BloomFilter::from_hashes(change_hashes);
    let contains = |hash: &&Hash| filter.contains_hash(&published::change_hash(*hash));
    let (contained, others): (Vec<&Hash>, Vec<&Hash>) = asked.iter().partition(contains);
    let joined = |list: Vec<&Hash>| list.into_iter().flatten().copied().collect();
    Record {
        hashes: hashes.concat(),
        filter: filter.to_bytes(),
        contained: joined(contained),
        others: joined(others),
    }
}

/// Hashes that lie anywhere, or whose probes often meet.
fn random_record(random: &mut Random) -> Record {
    let count = random.below(HASHES);
    let all = match random.below(4) {
        0 => random.hashes(count + OTHERS, Likeness::Spread),
        1 => random.hashes(count + OTHERS, Likeness::Alike),
        2 => random.crowded_hashes(count + OTHERS, 4),
        _ => random.crowded_hashes(count + OTHERS, 64),
    };
    let (hashes, others) = all.split_at(count);
    let own = &hashes[..count.min(OWN)];
    record(hashes, &[own, others].concat())
}
