//! Lists that were lent beside a session's words or a table, and those that a step would
//! make: which one is too long, or doesn't ascend.

use super::pick::long_pick;
use super::settings::{lent_pair, pair};
use super::written::{first_long, items, synced};
use super::{message, table, tables, BAD_NUMBERS, LIMIT};
use crate::cause::{Cause, List, Rule};
use crate::index::Index;
use crate::limits::LIST_SIZE;
use crate::refusal::{answer, Refusal};
use crate::{raw, ChangeHash, Choice, Have, Limits, SessionParts};

/// The refusal of a session that is made of its parts.
pub(crate) fn session(parts: &SessionParts, refusal: Refusal) -> Refusal {
    if refusal.number != BAD_NUMBERS {
        return refusal;
    }
    let limits = Limits::told();
    let heard = |list: &Option<Vec<ChangeHash>>| list.as_ref().map_or(0, Vec::len);
    let haves = parts.their_have.as_deref().unwrap_or_default();
    let lists = [
        ("shared heads", parts.shared_heads.len(), limits.hashes),
        (
            "last-sent heads",
            parts.last_sent_heads.len(),
            limits.hashes,
        ),
        (
            "heads of the peer's",
            heard(&parts.their_heads),
            limits.hashes,
        ),
        (
            "needs of the peer's",
            heard(&parts.their_need),
            limits.hashes,
        ),
        ("haves of the peer's", haves.len(), limits.haves),
        ("sent hashes", parts.sent_hashes.len(), limits.sent_hashes),
    ];
    let lists = lists.map(|(items, count, most)| (List::OfSession(items), count, most));
    let long = first_long(lists.into_iter().chain(synced(haves)));
    let cause = long.or_else(|| descent(&parts.sent_hashes));
    cause.map_or(refusal, |cause| refusal.because(cause))
}

/// The first sent hash that isn't above the one before it.
fn descent(sent: &[ChangeHash]) -> Option<Cause> {
    let before = sent.windows(2).position(|two| two[0] >= two[1])?;
    Some(Cause::new(Rule::SentOrder(before + 1), None))
}

/// The refusal of a plan over these tables with this choice, for a peer that said these
/// heads. The choice is tested first, then the tables, and the lists that would be made last.
pub(crate) fn planning(
    choice: Choice,
    own: &[u8],
    waiting: &[u8],
    heads: &[u8],
    refusal: Refusal,
) -> Refusal {
    made(tables(own, waiting, pair(choice, refusal)), |limits| {
        let index = Index::of(own).unwrap_or_default();
        let mut needs = vec![0; LIST_SIZE];
        let missing = raw::missing(own, index.as_bytes(), waiting, heads, &mut needs);
        match answer(missing) {
            Ok(_) => ("sent hashes of the session", limits.sent_hashes),
            Err(_) => ("needs of the message", limits.hashes),
        }
    })
}

/// The refusal of a plan with a pick, which is tested behind the tables; the choice was lent
/// as a settings list of one record.
pub(crate) fn planning_picked(
    choice: Choice,
    own: &[u8],
    waiting: &[u8],
    heads: &[u8],
    pick: &[ChangeHash],
    refusal: Refusal,
) -> Refusal {
    let told = tables(own, waiting, lent_pair(choice, refusal));
    match (told.cause(), told.number, long_pick(pick)) {
        (None, LIMIT, Some(cause)) => told.because(cause),
        _ => planning(choice, own, waiting, heads, told),
    }
}

/// The refusal of a session that was lent a change table and a message's bytes. The table is
/// tested first, and the shared heads that would be made last.
pub(crate) fn receiving(own: &[u8], bytes: &[u8], refusal: Refusal) -> Refusal {
    let told = table(own, refusal);
    let told = match told.cause() {
        Some(_) => told,
        None => message(bytes, refusal),
    };
    made(told, |limits| {
        ("shared heads of the session", limits.hashes)
    })
}

/// The refusal, with a list that would be made where nothing that was lent passes a limit:
/// the name of its items, and how many it may have.
fn made(refusal: Refusal, list: impl FnOnce(Limits) -> (&'static str, u64)) -> Refusal {
    if (refusal.number, refusal.value) != (LIMIT, 0) || refusal.cause().is_some() {
        return refusal;
    }
    let (items, most) = list(Limits::told());
    refusal.because(Cause::new(Rule::Made { items, most }, None))
}

/// The refusal of a list of `hashes` hashes that are asked about.
pub(crate) fn passed(hashes: usize, refusal: Refusal) -> Refusal {
    selecting(&[], hashes, refusal)
}

/// The refusal of haves and `hashes` needs to which hashes are to be sent.
pub(crate) fn selecting(haves: &[Have], hashes: usize, refusal: Refusal) -> Refusal {
    if refusal.number != LIMIT {
        return refusal;
    }
    let limits = Limits::told();
    let long = items(List::Passed("haves"), haves.len(), limits.haves)
        .or_else(|| first_long(synced(haves)))
        .or_else(|| items(List::Passed("hashes"), hashes, limits.hashes));
    long.map_or(refusal, |cause| refusal.because(cause))
}
