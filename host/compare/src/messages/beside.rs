//! What a reader says of a message beside what the crate says of it.

use crate::model::table::HASH;
use crate::published;
use bisquetower::message::{Have, View};
use bisquetower::refusal::Refusal;
use crate_under_test::facade::{self, ChangeHash, Message, MessageVersion};

/// How a reading stands beside the crate's.
#[derive(Clone, Debug, PartialEq)]
pub enum Beside {
    /// Both read the same values: the crate's message.
    Read(Box<Message>),
    /// Both refuse, with the same kind.
    Refused,
    /// 3 here, for a filter number that is cut but whose first five bytes leave no
    /// good ending; too little input there.
    CutNumber,
    /// 4, 5 or 7, which are no refusals of the crate's.
    Apart,
}

/// A reading beside the crate's of the same bytes; the error is what disagrees.
pub fn beside_crate(s: &[u8], read: &Result<View, Refusal>) -> Result<Beside, String> {
    let crates = published::read_message(s);
    let refusal = match read {
        Ok(view) => {
            let message = crates.map_err(|theirs| format!("the crate refuses: {theirs:?}"))?;
            same_values(view, &message)?;
            return Ok(Beside::Read(Box::new(message)));
        }
        Err(refusal) => refusal,
    };
    let theirs = crates.err();
    match (refusal.number, theirs) {
        (4 | 5 | 7, _) => Ok(Beside::Apart),
        (2, Some(theirs)) if theirs == (2, refusal.value) => Ok(Beside::Refused),
        (3, Some((1, _))) if hopeless(s, refusal.value) => Ok(Beside::CutNumber),
        (1 | 3, Some((theirs, _))) if refusal.number == theirs => Ok(Beside::Refused),
        _ => Err(format!("{refusal:?} isn't the crate's {theirs:?}")),
    }
}

/// Whether five bytes that go on stand at a place: no filter number begins so, and
/// the crate reads on.
fn hopeless(s: &[u8], place: u64) -> bool {
    let bytes = s.get(place as usize..).unwrap_or_default();
    bytes.len() >= 5 && bytes[..5].iter().all(|&byte| byte >= 0x80)
}

fn same_values(view: &View, message: &Message) -> Result<(), String> {
    let version = match message.version {
        MessageVersion::V1 => 1,
        MessageVersion::V2 => 2,
    };
    let same = [
        ("versions", view.version() == version),
        ("heads", view.heads() == hashes(&message.heads)),
        ("needs", view.need() == hashes(&message.need)),
        ("haves", same_haves(view, &message.have)),
        ("chunks", view.chunks().eq(message.changes.iter())),
        (
            "flags",
            view.flags() == message.flags.map(facade::flags_value),
        ),
    ];
    match same.iter().find(|(_, same)| !same) {
        Some((what, _)) => Err(format!("the {what} aren't the crate's")),
        None => Ok(()),
    }
}

fn same_haves(view: &View, haves: &[facade::Have]) -> bool {
    let same = |(have, theirs): (Have, &facade::Have)| {
        let parts = facade::filter_parts(&theirs.bloom);
        let numbers = [parts.entries, parts.bits_per_entry, parts.probes].map(u64::from);
        have.last_sync == hashes(&theirs.last_sync)
            && [have.entries, have.bits, have.probes] == numbers
            && have.field == parts.field
    };
    view.haves().len() == haves.len() && view.haves().zip(haves).all(same)
}

fn hashes(list: &[ChangeHash]) -> Vec<u8> {
    let bytes: Vec<u8> = list.iter().flat_map(|hash| hash.0).collect();
    assert_eq!(bytes.len(), HASH * list.len());
    bytes
}
