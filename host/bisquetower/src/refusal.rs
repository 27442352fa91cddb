//! Answers as results, and refusals in words (document 01, Refusal numbers).

use crate::cause::Cause;
use std::fmt;

/// Why a call refused: 01's number, and the value that goes with it. Two refusals are the
/// same if both are; what broke in particular ([`cause`](Refusal::cause)) is told beside
/// them.
#[derive(Clone, Copy, Debug)]
pub struct Refusal {
    /// 1 to 17.
    pub number: u64,
    /// A place, a row, a record, a byte, a length or 0, by the number.
    pub value: u64,
    cause: Option<Cause>,
}

impl PartialEq for Refusal {
    fn eq(&self, other: &Refusal) -> bool {
        (self.number, self.value) == (other.number, other.value)
    }
}

impl Eq for Refusal {}

/// The words of an answer, of any length that an exported call has: build.rs writes
/// an implementation for each.
pub trait Answer {
    /// One less than there are words.
    type Numbers;

    /// The numbers, or the refusal.
    fn numbers(self) -> Result<Self::Numbers, Refusal>;
}

/// The numbers of a call that answered, or its refusal.
///
/// ```
/// use bisquetower::{raw, refusal};
///
/// let bytes = [0x01, 0x0a, 0x07, 0x0b, 0x0f];
/// let filter = refusal::answer(raw::read_filter(&bytes, 0, 5));
/// let [entries, bits, probes, field, length, next, _] = filter.unwrap();
/// assert_eq!([entries, bits, probes, field, length, next], [1, 10, 7, 3, 2, 5]);
/// ```
pub fn answer<A: Answer>(words: A) -> Result<A::Numbers, Refusal> {
    words.numbers()
}

/// The first word told from the others.
pub(crate) fn numbers<const WORDS: usize, const NUMBERS: usize>(
    words: [u64; WORDS],
) -> Result<[u64; NUMBERS], Refusal> {
    const { assert!(NUMBERS >= 1 && WORDS == NUMBERS + 1) };
    match words[0] {
        0 => Ok(std::array::from_fn(|k| words[k + 1])),
        number => Err(Refusal::new(number, words[1])),
    }
}

impl Refusal {
    /// The refusal of a number and its value.
    pub const fn new(number: u64, value: u64) -> Refusal {
        Refusal {
            number,
            value,
            cause: None,
        }
    }

    /// This refusal, with what broke.
    pub(crate) fn because(self, cause: Cause) -> Refusal {
        let cause = Some(cause);
        Refusal { cause, ..self }
    }

    /// What broke in particular, where it was looked for and found: in messages, saved
    /// states, filters, tables, settings and sessions that are values of this crate, in
    /// captures and totals, and in picks.
    pub fn cause(&self) -> Option<Cause> {
        self.cause
    }

    /// What broke, or else what the refusal and its value are, in plain words.
    pub fn sentence(&self) -> String {
        if let Some(cause) = self.cause {
            return cause.to_string();
        }
        let value = grouped(self.value);
        match self.number {
            1 => format!("the input ends inside the item that starts at place {value}"),
            2 => format!(
                "the first byte is {:02x} (hexadecimal), which begins nothing that is read here",
                self.value
            ),
            3 => format!("the number at place {value} isn't in its shortest form or is too large"),
            // A size without a place and the place 0 have the same value.
            4 if self.value == 0 => {
                "a limit is passed, by what stands at place 0 or as a whole".to_string()
            }
            4 => format!("a limit is passed by the count or filter at place {value}"),
            5 => format!("the filter at place {value} has entries and 0 bits per entry"),
            6 => format!("row {value} is the first bad row of the change table"),
            7 => format!("the output buffer is too short: a length of {value} is wanted"),
            8 => "the chunks could not be loaded".to_string(),
            9 => format!("row {value} is the first bad row of the waiting table"),
            10 => "the session is bad, or a filter passed as numbers is".to_string(),
            11 => "more rows before loading are named than there are rows".to_string(),
            12 => "the index doesn't fit the change table".to_string(),
            13 => format!("row {value} has more dependencies than a row of before has room for"),
            14 => format!("record {value} is the first bad record of the settings list"),
            15 => "the new setting is bad, or no version is left for it".to_string(),
            16 => "a total would pass 64 bits".to_string(),
            17 => format!(
                "the pick isn't accepted, for its hash at index {value}, or as a whole if it has {value} of them"
            ),
            number => format!("no refusal has the number {number} (its value: {value})"),
        }
    }
}

impl fmt::Display for Refusal {
    fn fmt(&self, f: &mut fmt::Formatter<'_>) -> fmt::Result {
        let (number, value) = (self.number, grouped(self.value));
        write!(f, "refusal {number}, value {value}: {}", self.sentence())
    }
}

/// A number as sentences show it, its thousands told apart.
///
/// ```
/// assert_eq!(bisquetower::refusal::grouped(4_194_304), "4,194,304");
/// ```
pub fn grouped(n: u64) -> String {
    let digits = n.to_string();
    let mut text = String::new();
    for (k, digit) in digits.chars().enumerate() {
        if k > 0 && (digits.len() - k).is_multiple_of(3) {
            text.push(',');
        }
        text.push(digit);
    }
    text
}

impl std::error::Error for Refusal {}

#[cfg(test)]
mod tests {
    use super::*;

    fn sentence(number: u64, value: u64) -> String {
        Refusal::new(number, value).sentence()
    }

    #[test]
    fn the_first_word_tells_answers_from_refusals() {
        assert_eq!(answer([0, 7, 8, 9]), Ok([7, 8, 9]));
        let refusal = Refusal::new(7, 64);
        assert_eq!(answer([7, 64, 0, 0]), Err(refusal));
        assert_eq!(answer([0, 1, 2, 3, 4, 5, 6, 8]), Ok([1, 2, 3, 4, 5, 6, 8]));
        let words = [7, 64, 0, 0, 0, 0, 0, 0, 0, 0, 0, 0, 0, 0];
        assert_eq!(answer(words), Err(refusal));
    }

    /// Refusals 8, 10 to 12, 15 and 16 have the value 0 always, so theirs don't show it.
    #[test]
    fn each_sentence_is_its_own_and_shows_its_value() {
        let sentences: Vec<String> = (1..=17).map(|number| sentence(number, 66)).collect();
        for (k, one) in sentences.iter().enumerate() {
            let number = k + 1;
            let shown = if number == 2 { "42" } else { "66" };
            assert_eq!(
                one.contains(shown),
                ![8, 10, 11, 12, 15, 16].contains(&number),
                "{one}"
            );
            assert!(!sentences[..k].contains(one), "{one}");
        }
        assert_eq!(
            sentence(18, 0),
            "no refusal has the number 18 (its value: 0)"
        );
    }
}
