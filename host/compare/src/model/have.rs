//! Haves that are passed as records over lent bytes, by document 01's refusals 10
//! and 4: as every call tests them that takes a list of haves.

use super::filter::{built, contains, keeps_rules, Filter};
use super::table::{hashes_of, Hash};
use super::{number_bytes, words, Refused, HASH, LIST_SIZE};

pub use bisquetower::limits::HAVES;

/// Words of a have's record: place and count of its last-sync hashes, entries,
/// bits, probes, place and length of the field.
pub const HAVE_WORDS: usize = 7;

/// A have, and the bytes of its last-sync hashes.
#[derive(Clone, Copy, Debug, PartialEq, Eq)]
pub struct Have<'a> {
    pub last_sync: &'a [u8],
    pub filter: Filter<'a>,
}

impl Have<'_> {
    pub fn own(&self) -> OwnHave {
        OwnHave {
            last_sync: hashes_of(self.last_sync),
            numbers: [self.filter.entries, self.filter.bits, self.filter.probes],
            field: self.filter.field.to_vec(),
        }
    }
}

/// A have with what it owns.
#[derive(Clone, Debug, PartialEq, Eq)]
pub struct OwnHave {
    pub last_sync: Vec<Hash>,
    /// Entries, bits, probes.
    pub numbers: [u64; 3],
    pub field: Vec<u8>,
}

impl OwnHave {
    /// With the filter of these hashes.
    pub fn over(last_sync: Vec<Hash>, bits: u64, probes: u64, hashes: &[Hash]) -> OwnHave {
        let field = built(bits, probes, &hashes.concat()).expect("a good filter");
        OwnHave {
            last_sync,
            numbers: [hashes.len() as u64, bits, probes],
            field,
        }
    }

    pub fn have(&self) -> Have<'_> {
        Have {
            last_sync: self.last_sync.as_flattened(),
            filter: self.filter(),
        }
    }

    pub fn filter(&self) -> Filter<'_> {
        let [entries, bits, probes] = self.numbers;
        let field = &self.field;
        Filter {
            entries,
            bits,
            probes,
            field,
        }
    }

    /// The bytes of its filter's string, with 0 entries spelt as numbers too.
    pub fn filter_string(&self) -> Vec<u8> {
        let numbers = self.numbers.map(number_bytes).concat();
        [numbers, self.field.clone()].concat()
    }
}

/// The haves of a list of records; 10 if it isn't whole records, or if of the
/// first `HAVES` one has last-sync hashes or a field outside the bytes or breaks
/// the filter rules. Those after them aren't looked at: they are too many in any
/// case, and stand here as haves of nothing.
pub fn haves<'a>(s: &'a [u8], records: &[u64]) -> Result<Vec<Have<'a>>, Refused> {
    if !records.len().is_multiple_of(HAVE_WORDS) {
        return Err((10, 0));
    }
    let (looked_at, others) = records.split_at(records.len().min(HAVES * HAVE_WORDS));
    let haves = looked_at.chunks(HAVE_WORDS).map(|record| have(s, record));
    let haves: Option<Vec<Have>> = haves.collect();
    let mut haves = haves.ok_or((10, 0))?;
    let nothing = Have {
        last_sync: &[],
        filter: Filter {
            entries: 0,
            bits: 0,
            probes: 0,
            field: &[],
        },
    };
    haves.extend(vec![nothing; others.len() / HAVE_WORDS]);
    Ok(haves)
}

/// The have of a record; none if it isn't one over these bytes.
fn have<'a>(s: &'a [u8], record: &[u64]) -> Option<Have<'a>> {
    let [place, count, entries, bits, probes, field, length] = record.try_into().ok()?;
    if !keeps_rules(entries, bits, probes, u128::from(length)) {
        return None;
    }
    Some(Have {
        last_sync: at_place(s, place, HASH as u128 * u128::from(count))?,
        filter: Filter {
            entries,
            bits,
            probes,
            field: at_place(s, field, length.into())?,
        },
    })
}

fn at_place(s: &[u8], place: u64, length: u128) -> Option<&[u8]> {
    let end = u128::from(place) + length;
    let inside = end <= s.len() as u128;
    inside.then(|| &s[place as usize..end as usize])
}

/// 4 for more than `HAVES` haves, and for one with more last-sync hashes than a
/// list may have.
pub fn limited(haves: &[Have]) -> Result<(), Refused> {
    let long = |have: &Have| have.last_sync.len() > LIST_SIZE;
    match haves.len() > HAVES || haves.iter().any(long) {
        true => Err((4, 0)),
        false => Ok(()),
    }
}

/// What a call has to answer that is asked for a hash in the filters of haves:
/// 10 and 4 for the haves; 4 or 1 for a hash of another length; else 1 for yes
/// and 0 for no.
pub fn contained(s: &[u8], records: &[u64], hash: &[u8]) -> [u64; 4] {
    let answer = haves(s, records).and_then(|haves| {
        limited(&haves)?;
        match hash.len() {
            HASH => {
                let yes = haves.iter().any(|have| contains(&have.filter, hash));
                Ok([u64::from(yes), 0, 0])
            }
            ..HASH => Err((1, 0)),
            _ => Err((4, 0)),
        }
    });
    words(answer)
}
