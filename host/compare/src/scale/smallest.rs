//! A differing input made smaller, as long as it differs.

use super::case::{Case, Kind};
use std::ops::Range;

/// Tries that one input is worth.
const TRIES: usize = 4_000;

/// What is done to a case: some of its bytes left out, a byte or a number changed. The
/// first number says which bytes, or which number.
enum Edit {
    Without(usize, Range<usize>),
    Byte(usize, usize, u8),
    Number(usize, u64),
}

impl Edit {
    fn of(&self, case: &Case) -> Case {
        let mut edited = case.clone();
        match self {
            Edit::Without(k, places) => drop(edited.bytes[*k].drain(places.clone())),
            Edit::Byte(k, place, byte) => edited.bytes[*k][*place] = *byte,
            Edit::Number(k, number) => edited.numbers[*k] = *number,
        }
        edited
    }
}

/// The smallest that was found of the variants that differ, and what differs there.
pub fn smallest(kind: &Kind, case: Case, why: String) -> (Case, String) {
    let mut best = (case, why);
    let mut tries = 0;
    loop {
        let mut better = None;
        for edit in edits(kind, &best.0) {
            let smaller = edit.of(&best.0);
            if smaller.size() >= best.0.size() {
                continue;
            }
            if tries == TRIES {
                return best;
            }
            tries += 1;
            if let Err(why) = kind.compare(&smaller) {
                better = Some((smaller, why));
                break;
            }
        }
        match better {
            Some(found) => best = found,
            None => return best,
        }
    }
}

/// Items left out, most of them first; smaller numbers; bytes with fewer bits.
fn edits(kind: &Kind, case: &Case) -> Vec<Edit> {
    let mut edits = Vec::new();
    for (k, (_, item)) in kind.bytes.iter().enumerate() {
        let length = case.bytes[k].len();
        let items = length.div_ceil(*item);
        let mut out = items;
        while out > 0 {
            for first in (0..items).step_by(out) {
                let to = length.min((first + out) * item);
                edits.push(Edit::Without(k, first * item..to));
            }
            out /= 2;
        }
    }
    for (k, number) in case.numbers.iter().enumerate() {
        let less = (0..u64::BITS).map(|halves| number - (number >> halves));
        edits.extend(less.map(|less| Edit::Number(k, less)));
    }
    for (k, bytes) in case.bytes.iter().enumerate() {
        for (place, byte) in bytes.iter().enumerate() {
            let fewer = [0, byte & byte.wrapping_sub(1)];
            edits.extend(fewer.map(|fewer| Edit::Byte(k, place, fewer)));
        }
    }
    edits
}
