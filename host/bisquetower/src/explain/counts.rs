//! Captures that were counted, and totals that were added to: which part of a capture was
//! refused and why, and which total would pass 64 bits.

use super::{filter, rows, BAD_NUMBER, CUT, TOTAL};
use crate::cause::{Cause, InFilter, Rows, Rule};
use crate::counts::{Counts, NAMES};
use crate::raw;
use crate::refusal::{answer, Refusal};

/// The refusal of a capture. Its parts are tested in this order, so that the first table
/// that is refused by itself is the one that was refused, and else it is the filter.
pub(crate) fn capture(sender: &[u8], listener: &[u8], own: &[u8], refusal: Refusal) -> Refusal {
    let tables = [(Rows::Sender, sender), (Rows::Listener, listener)];
    let bad = |table: &&(Rows, &[u8])| answer(raw::check_table(table.1)).is_err();
    let cause = match tables.iter().find(bad) {
        Some(&(table, bytes)) => rows::captured(table, bytes, refusal),
        None => in_filter(own, refusal),
    };
    cause.map_or(refusal, |cause| refusal.because(cause))
}

/// What is wrong with a filter, whose places count from its own first byte.
fn in_filter(own: &[u8], refusal: Refusal) -> Option<Cause> {
    let place = refusal.value as usize;
    let rule = match refusal.number {
        CUT => InFilter::Cut(place),
        BAD_NUMBER => InFilter::Number(place),
        _ => return filter(own, refusal).cause().map(Cause::of_captured_filter),
    };
    let marked = match rule {
        InFilter::Cut(_) => place..own.len(),
        _ => place..place + 1,
    };
    Some(Cause::new(Rule::Captured(rule), Some(marked)))
}

/// The refusal to add these counts to totals.
pub(crate) fn adding(totals: &Counts, counts: &Counts, refusal: Refusal) -> Refusal {
    if refusal.number != TOTAL {
        return refusal;
    }
    let sums = totals.words().into_iter().zip(counts.words());
    let mut named = NAMES.into_iter().zip(sums);
    let passes = named.find(|(_, (total, more))| total.checked_add(*more).is_none());
    passes.map_or(refusal, |(counted, _)| {
        refusal.because(Cause::new(Rule::Total(counted), None))
    })
}
