//! Filters: the library's answers beside the model's and the crate's.

use crate::inputs;
use crate::model::filter::{self, Filter, DEFAULT_BITS, DEFAULT_PROBES};
use crate::model::have::{contained, HAVE_WORDS};
use crate::published;
use bisquetower::limits::{FIELD_SIZE, PROBES};
use bisquetower::raw::{self, Batch, Read, Reader};
use crate_under_test::facade::{self, BloomFilter};

/// Where the library's refusal of a filter isn't the crate's, on purpose.
#[derive(Clone, Copy, Debug, PartialEq, Eq)]
pub enum Difference {
    /// A number that is cut, but whose first five bytes leave no good ending: 3
    /// here, too little input there.
    CutNumber,
    /// Entries and 0 bits per entry: 5 here. The crate reads a filter of no field.
    NoBits,
    /// More probes than a filter may have, or a longer field: 4 here. The crate reads
    /// on, to the field's end.
    PastSize,
}

/// A filter to be read: at `at`, in the bytes of `s` up to `end`.
#[derive(Clone, Copy, Debug, PartialEq, Eq)]
pub struct Part<'a> {
    pub s: &'a [u8],
    pub at: usize,
    pub end: usize,
}

impl<'a> Part<'a> {
    /// A filter that is lent alone.
    pub fn alone(s: &'a [u8]) -> Self {
        let end = s.len();
        Part { s, at: 0, end }
    }

    /// The bytes up to the part's end: what the crate is lent.
    fn up_to_end(&self) -> &'a [u8] {
        &self.s[..self.end.min(self.s.len())]
    }

    fn bytes(&self) -> &'a [u8] {
        self.up_to_end().get(self.at..).unwrap_or_default()
    }
}

/// The intended difference that reading a filter shows, and the refusal that the
/// crate gives there, 0 for none: both told from the crate's own reading of the
/// three numbers.
pub fn difference(part: Part) -> Option<(Difference, u64)> {
    let s = part.up_to_end();
    if part.bytes().is_empty() {
        return None;
    }
    let (mut numbers, mut at) = ([0; 3], part.at);
    for number in &mut numbers {
        match facade::read_u32(s, at) {
            Ok((value, next)) => (*number, at) = (u128::from(value), next),
            Err(_) => {
                let read = Read {
                    reader: Reader::FilterNumber,
                    bytes: s,
                    at,
                    end: s.len(),
                };
                return crate::wire::difference(&read).map(|_| (Difference::CutNumber, 1));
            }
        }
    }
    let [entries, bits, probes] = numbers;
    let size = (entries * bits).div_ceil(8);
    let cut = u64::from(size > (s.len() - at) as u128);
    match numbers {
        [0, ..] => None,
        [_, 0, _] => Some((Difference::NoBits, 0)),
        _ if probes > PROBES as u128 || size > FIELD_SIZE as u128 => {
            Some((Difference::PastSize, cut))
        }
        _ => None,
    }
}

/// How often each answer was given, and each difference seen.
#[derive(Clone, Copy, Debug, Default, PartialEq, Eq)]
pub struct Tally {
    /// By the answer's first word.
    pub answers: [u64; 6],
    pub cut_numbers: u64,
    pub no_bits: u64,
    pub past_size: u64,
}

impl Tally {
    pub fn total(&self) -> u64 {
        self.answers.iter().sum()
    }

    pub fn add(&mut self, other: &Tally) {
        let answers = self.answers.iter_mut().zip(other.answers);
        answers.for_each(|(mine, theirs)| *mine += theirs);
        self.cut_numbers += other.cut_numbers;
        self.no_bits += other.no_bits;
        self.past_size += other.past_size;
    }

    fn count(&mut self, first_word: u64, difference: Option<Difference>) {
        self.answers[first_word as usize] += 1;
        match difference {
            Some(Difference::CutNumber) => self.cut_numbers += 1,
            Some(Difference::NoBits) => self.no_bits += 1,
            Some(Difference::PastSize) => self.past_size += 1,
            None => {}
        }
    }
}

/// The library's answers to reads of filters.
pub fn read_many(parts: &[Part]) -> Vec<[u64; 8]> {
    let mut answers = vec![[raw::UNWRITTEN; 8]; parts.len()];
    let mut batch = Batch::new();
    for (&Part { s, at, end }, answer) in parts.iter().zip(&mut answers) {
        batch.read_filter(s, at, end, answer);
    }
    batch.run();
    answers
}

/// Compares the library's answers to these reads with the model's and the
/// crate's; the first that disagrees is the error.
pub fn compare_reads(parts: &[Part]) -> Result<Tally, String> {
    let mut tally = Tally::default();
    for (part, answer) in parts.iter().zip(read_many(parts)) {
        let expected = filter::read(part.s, part.at, part.end);
        let difference = difference(*part);
        let told = || {
            let Part { s, at, end } = part;
            let bytes = inputs::shown(s);
            format!("a filter at {at} up to {end} of {bytes}: the library's answer is {answer:?}")
        };
        if answer != expected {
            return Err(format!("{}, the model's {expected:?}", told()));
        }
        if !agrees(part, answer, difference) {
            let crates = published::read_filter(part.bytes());
            let intended = format!("with {difference:?} intended");
            return Err(format!("{}, {intended}, the crate's {crates:?}", told()));
        }
        tally.count(answer[0], difference.map(|(kind, _)| kind));
    }
    Ok(tally)
}

/// Whether the library's answer is what it should be beside the crate's: the same
/// filter, the same kind of refusal, or the difference that is intended.
fn agrees(part: &Part, answer: [u64; 8], difference: Option<(Difference, u64)>) -> bool {
    let published = published::read_filter(part.bytes());
    let kind = published.as_ref().err().copied().unwrap_or(0);
    if let Some((difference, theirs)) = difference {
        let ours = match difference {
            Difference::CutNumber => 3,
            Difference::NoBits => 5,
            Difference::PastSize => 4,
        };
        return (answer[0], kind) == (ours, theirs);
    }
    let [first, entries, bits, probes, place, length, ..] = answer;
    let Ok(parts) = published else {
        return first == kind;
    };
    let numbers = [parts.entries, parts.bits_per_entry, parts.probes].map(u64::from);
    // A part that starts past the bytes has no bytes, and no field in them.
    let field = match length {
        0 => &[][..],
        _ => &part.s[place as usize..][..length as usize],
    };
    first == 0 && numbers == [entries, bits, probes] && parts.field == field
}

pub fn shown(filter: &Filter) -> String {
    let Filter {
        entries,
        bits,
        probes,
        field,
    } = filter;
    let field = inputs::shown(field);
    format!("the filter of {entries} entries, {bits} bits, {probes} probes, {field}")
}

/// A filter that is to be built over hashes that are lent as bytes.
#[derive(Clone, Copy)]
pub struct Build<'a> {
    pub bits: u64,
    pub probes: u64,
    pub hashes: &'a [u8],
}

impl Build<'_> {
    pub fn shown(&self) -> String {
        let Build {
            bits,
            probes,
            hashes,
        } = self;
        let hashes = inputs::shown(hashes);
        format!("a filter with {bits} bits and {probes} probes over {hashes}")
    }

    /// The crate builds with 10 bits and 7 probes.
    pub fn published(&self) -> Option<Vec<u8>> {
        if (self.bits, self.probes) != (DEFAULT_BITS, DEFAULT_PROBES) {
            return None;
        }
        let parts = published::built(self.hashes);
        let entries = (self.hashes.len() / 32) as u32;
        let numbers = [parts.entries, parts.bits_per_entry, parts.probes];
        assert_eq!(numbers, [entries, 10, 7], "the crate's own numbers");
        Some(parts.field)
    }
}

/// A list of haves over one buffer, and the crate's filters of them.
pub struct Haves {
    s: Vec<u8>,
    haves: Vec<u64>,
    published: Vec<BloomFilter>,
}

impl Haves {
    /// Filters that keep the rules, as they are lent.
    pub fn new(filters: &[Filter], (s, haves): (Vec<u8>, Vec<u64>)) -> Self {
        let crates = filters.iter().map(published::filter);
        let published = crates.collect::<Option<_>>();
        Haves {
            s,
            haves,
            published: published.expect("the crate has every filter"),
        }
    }

    /// One filter, its field the whole buffer.
    pub fn one(filter: Filter) -> Self {
        let lent = (filter.field.to_vec(), have_of(&filter).to_vec());
        Haves::new(&[filter], lent)
    }

    /// Compares the library's answers for these hashes with the model's and with
    /// the crate's filters, asked one after the other; returns how many are yes.
    pub fn compare(&self, hashes: &[[u8; 32]]) -> Result<usize, String> {
        let mut answers = vec![[raw::UNWRITTEN; 4]; hashes.len()];
        let mut batch = Batch::new();
        for (hash, answer) in hashes.iter().zip(&mut answers) {
            batch.filters_contain(&self.s, &self.haves, hash, answer);
        }
        batch.run();
        for (hash, &answer) in hashes.iter().zip(&answers) {
            let told = || {
                let (hash, s) = (inputs::shown(hash), inputs::shown(&self.s));
                let haves = &self.haves;
                format!("{hash} in {haves:?} over {s}: the library's answer is {answer:?}")
            };
            let expected = contained(&self.s, &self.haves, hash);
            if answer != expected {
                return Err(format!("{}, the model's {expected:?}", told()));
            }
            let hash = published::change_hash(hash);
            let crates = self.published.iter().any(|one| one.contains_hash(&hash));
            if answer != [0, u64::from(crates), 0, 0] {
                return Err(format!("{}, the crate's {crates}", told()));
            }
        }
        Ok(answers.iter().filter(|answer| answer[1] == 1).count())
    }
}

/// The record of one filter whose field is the whole buffer.
pub fn have_of(filter: &Filter) -> [u64; HAVE_WORDS] {
    let Filter {
        entries,
        bits,
        probes,
        field,
    } = *filter;
    [0, 0, entries, bits, probes, 0, field.len() as u64]
}

/// Compares the library's answer with the model's alone, for haves and hashes
/// that may be refused; returns it.
pub fn compare_question(s: &[u8], haves: &[u64], hash: &[u8]) -> Result<[u64; 4], String> {
    let answer = raw::filters_contain(s, haves, hash);
    let expected = contained(s, haves, hash);
    if answer == expected {
        return Ok(answer);
    }
    let (hash, bytes) = (inputs::shown(hash), s.len());
    Err(format!(
        "{hash} in {haves:?} over {bytes} bytes: the library's answer is {answer:?}, the model's {expected:?}"
    ))
}
