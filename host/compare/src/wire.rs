//! Numbers, prefixed strings and hash lists read: the library's answers beside the
//! model's and the crate's.

use crate::{inputs, model, published};
use bisquetower::limits::HASHES;
use bisquetower::raw::{self, Read, Reader};

pub const READERS: [Reader; 4] = [
    Reader::Number,
    Reader::FilterNumber,
    Reader::Prefixed,
    Reader::Hashes,
];

/// Where the library's refusal isn't the crate's, on purpose.
#[derive(Clone, Copy, Debug, PartialEq, Eq)]
pub enum Difference {
    /// A filter number that is cut, but whose first five bytes leave no good
    /// ending: 3 here. The crate reads 64 bits first and finds too little input.
    CutFilterNumber,
    /// A count above the limit of a hash list: 4 here. The crate has no such limit.
    CountPastLimit,
}

/// The intended difference that a read shows, told from its bytes and, for a
/// count, from the crate's own reading of it.
pub fn difference(read: &Read) -> Option<Difference> {
    let s = &read.bytes[..read.end.min(read.bytes.len())];
    let part = s.get(read.at..).unwrap_or_default();
    match read.reader {
        // Five bytes of 80 or more mean 2^35 at the least; the tenth byte ends
        // the number in the crate too.
        Reader::FilterNumber => {
            let cut = (5..10).contains(&part.len()) && part.iter().all(|&byte| byte >= 0x80);
            cut.then_some(Difference::CutFilterNumber)
        }
        Reader::Hashes => {
            let count = published::read(&Read {
                reader: Reader::Number,
                ..*read
            });
            let past = count.words[0] == 0 && count.words[1] > HASHES as u64;
            past.then_some(Difference::CountPastLimit)
        }
        Reader::Number | Reader::Prefixed => None,
    }
}

/// How often each reader gave each answer, and each difference was seen. A test
/// asks this, so that none passes by having tried too little.
#[derive(Clone, Copy, Debug, Default, PartialEq, Eq)]
pub struct Tally {
    /// By reader, then by the answer's first word.
    answers: [[u64; 5]; 4],
    pub cut_filter_numbers: u64,
    pub counts_past_limit: u64,
}

impl Tally {
    pub fn of(&self, reader: Reader, first_word: usize) -> u64 {
        self.answers[reader as usize][first_word]
    }

    pub fn total(&self) -> u64 {
        self.answers.iter().flatten().sum()
    }

    pub fn add(&mut self, other: &Tally) {
        let mine = self.answers.iter_mut().flatten();
        for (mine, theirs) in mine.zip(other.answers.iter().flatten()) {
            *mine += theirs;
        }
        self.cut_filter_numbers += other.cut_filter_numbers;
        self.counts_past_limit += other.counts_past_limit;
    }

    fn count(&mut self, reader: Reader, first_word: u64, difference: Option<Difference>) {
        self.answers[reader as usize][first_word as usize] += 1;
        match difference {
            Some(Difference::CutFilterNumber) => self.cut_filter_numbers += 1,
            Some(Difference::CountPastLimit) => self.counts_past_limit += 1,
            None => {}
        }
    }
}

/// Compares the library's answers to these reads with the model's and the
/// crate's; the first that disagrees is the error.
pub fn compare(reads: &[Read]) -> Result<Tally, String> {
    let mut tally = Tally::default();
    for (read, answer) in reads.iter().zip(raw::read_many(reads)) {
        let difference = difference(read);
        let expected = model::read(read);
        let published = published::read(read);
        if answer != expected {
            return Err(report(read, answer, "the model's", expected));
        }
        if !agrees(read, answer, &published, difference) {
            let whose = format!("with {difference:?} intended, the crate's");
            return Err(report(read, answer, &whose, published.words));
        }
        tally.count(read.reader, answer[0], difference);
    }
    Ok(tally)
}

/// Whether the library's answer is what it should be beside the crate's.
fn agrees(
    read: &Read,
    answer: [u64; 4],
    published: &published::Answer,
    difference: Option<Difference>,
) -> bool {
    let kinds = (answer[0], published.words[0]);
    match difference {
        Some(Difference::CutFilterNumber) => kinds == (3, 1),
        Some(Difference::CountPastLimit) => answer[0] == 4 && [0, 1].contains(&published.words[0]),
        None if answer[0] != 0 => kinds.0 == kinds.1,
        None => answer == published.words && published.content == content(read, answer),
    }
}

/// The bytes at the places that an answer names.
fn content<'a>(read: &Read<'a>, answer: [u64; 4]) -> &'a [u8] {
    let places = match read.reader {
        Reader::Number | Reader::FilterNumber => 0..0,
        Reader::Prefixed => answer[1] as usize..answer[2] as usize,
        Reader::Hashes => answer[1] as usize..answer[3] as usize,
    };
    &read.bytes[places]
}

fn report(read: &Read, answer: [u64; 4], whose: &str, other: [u64; 4]) -> String {
    let Read {
        reader,
        bytes,
        at,
        end,
    } = read;
    let bytes = inputs::shown(bytes);
    format!(
        "{reader:?} at {at} up to {end} of {bytes}: the library's answer is {answer:?}, {whose} {other:?}"
    )
}
