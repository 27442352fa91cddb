//! Bytes that were read: which count passes its limit, or which number of a filter isn't
//! what it may be.

use super::{wrong_numbers, LIMIT, NO_BITS};
use crate::cause::{Cause, List, Numbers, Rule};
use crate::refusal::{answer, Refusal};
use crate::{raw, Limits};
use std::ops::Range;

/// The refusal of a message's bytes.
pub(crate) fn message(bytes: &[u8], refusal: Refusal) -> Refusal {
    explained(refusal, || {
        let mut walk = Walk::from(bytes, 1);
        let most = walk.limits.message;
        if bytes.len() as u64 > most {
            let rule = Rule::MessageBytes { bytes: None, most };
            return Err(Some((0, Cause::new(rule, None))));
        }
        walk.message()
    })
}

/// The refusal of a saved state's bytes.
pub(crate) fn state(bytes: &[u8], refusal: Refusal) -> Refusal {
    explained(refusal, || Walk::from(bytes, 1).hashes(List::SharedHeads))
}

/// The refusal of a filter's bytes.
pub(crate) fn filter(bytes: &[u8], refusal: Refusal) -> Refusal {
    explained(refusal, || Walk::from(bytes, 0).filter(0..bytes.len()))
}

/// What ends a walk: what broke, with the place that the refusal names, or an item that
/// can't be read for another reason.
type End = Option<(usize, Cause)>;

/// The refusal with what a walk finds, if that stands where the refusal says.
fn explained(refusal: Refusal, walk: impl FnOnce() -> Result<(), End>) -> Refusal {
    if ![LIMIT, NO_BITS].contains(&refusal.number) {
        return refusal;
    }
    match walk() {
        Err(Some((place, cause))) if place as u64 == refusal.value => refusal.because(cause),
        _ => refusal,
    }
}

/// A place in bytes that are read item by item.
struct Walk<'a> {
    bytes: &'a [u8],
    at: usize,
    limits: Limits,
}

impl Walk<'_> {
    fn from(bytes: &[u8], at: usize) -> Walk<'_> {
        let limits = Limits::told();
        Walk { bytes, at, limits }
    }

    /// A message up to its count of chunks, the last that has a limit.
    fn message(&mut self) -> Result<(), End> {
        self.hashes(List::Heads)?;
        self.hashes(List::Need)?;
        for k in 0..self.count(List::Haves, self.limits.haves)? {
            self.hashes(List::LastSync(k as usize))?;
            let string = raw::read_prefixed(self.bytes, self.at, self.bytes.len());
            let [start, end, _] = answer(string).map_err(|_| None)?;
            self.at = end as usize;
            self.filter(start as usize..end as usize)?;
        }
        self.count(List::Chunks, self.limits.chunks)?;
        Ok(())
    }

    fn hashes(&mut self, list: List) -> Result<(), End> {
        let read = raw::read_hashes(self.bytes, self.at, self.bytes.len());
        let Ok([_, _, next]) = answer(read) else {
            self.count(list, self.limits.hashes)?;
            return Err(None);
        };
        self.at = next as usize;
        Ok(())
    }

    /// A count that is within its limit.
    fn count(&mut self, list: List, most: u64) -> Result<u64, End> {
        let place = self.at;
        let read = raw::read_number(self.bytes, place, self.bytes.len());
        let [count, next, _] = answer(read).map_err(|_| None)?;
        self.at = next as usize;
        if count <= most {
            return Ok(count);
        }
        let rule = Rule::Items { list, count, most };
        Err(Some((place, Cause::new(rule, Some(place..self.at)))))
    }

    /// The filter that stands in these bytes.
    fn filter(&self, string: Range<usize>) -> Result<(), End> {
        let read = answer(raw::read_filter(self.bytes, string.start, string.end));
        read.map(|_| ()).map_err(|_| self.filter_numbers(string))
    }

    /// Which of a filter's numbers is wrong.
    fn filter_numbers(&self, string: Range<usize>) -> End {
        let start = string.start;
        let number = |at: usize| {
            let read = answer(raw::read_filter_number(self.bytes, at, string.end));
            let [number, next, _] = read.ok()?;
            Some((number, next as usize))
        };
        let (entries, bits_at) = number(start)?;
        let (bits, probes_at) = number(bits_at)?;
        let (probes, end) = number(probes_at)?;
        let rule = wrong_numbers(entries, bits, probes)?;
        let field = match rule {
            Numbers::NoBits => bits_at..probes_at,
            Numbers::Probes { .. } => probes_at..end,
            Numbers::Field { .. } => start..probes_at,
        };
        let place = Some(start);
        let rule = Rule::Filter { place, rule };
        Some((start, Cause::new(rule, Some(field))))
    }
}
