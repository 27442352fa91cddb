//! The crate's sessions and messages beside the model's values.

use crate::model::have::OwnHave;
use crate::model::plan::Plan;
use crate::model::session::Value;
use crate::model::state::{
    HAVE_RESPONDED, IN_FLIGHT, NEEDS_RESET, PEER_READ_ONLY, READ_ONLY, RESET, V2,
};
use crate::model::table::Hash;
use crate::published;
use crate::states::words_of;
use crate::units::chunks_for;
use crate_under_test::facade::{self, Automerge, Capability, Change, ChangeHash, ChunkList};
use crate_under_test::facade::{Have, Message, MessageVersion, State};

/// The crate's session with these lists and flags. Where nothing is known of the
/// peer, its capabilities are absent.
pub fn state(value: &Value) -> State {
    let known = [(V2, Capability::MessageV2), (RESET, Capability::SyncReset)];
    let known = known.into_iter().filter(|(flag, _)| value.is(*flag));
    let known: Vec<Capability> = known.map(|(_, capability)| capability).collect();
    State {
        shared_heads: hashes(&value.shared),
        last_sent_heads: hashes(&value.last_sent),
        their_heads: value.their_heads.as_deref().map(hashes),
        their_need: value.their_need.as_deref().map(hashes),
        their_have: value.their_have.as_deref().map(haves),
        sent_hashes: value.sent.iter().copied().map(ChangeHash).collect(),
        in_flight: value.is(IN_FLIGHT),
        have_responded: value.is(HAVE_RESPONDED),
        their_capabilities: (!known.is_empty()).then_some(known),
        read_only: value.is(READ_ONLY),
        peer_read_only: value.is(PEER_READ_ONLY),
        needs_reset: value.is(NEEDS_RESET),
    }
}

/// The lists and flags of the crate's session.
pub fn value(state: &State) -> Value {
    let words = words_of(state);
    let own = |haves: &Vec<Have>| haves.iter().map(own_have).collect();
    Value {
        shared: bare(&state.shared_heads),
        last_sent: bare(&state.last_sent_heads),
        their_heads: state.their_heads.as_deref().map(bare),
        their_need: state.their_need.as_deref().map(bare),
        their_have: state.their_have.as_ref().map(own),
        sent: state.sent_hashes.iter().map(|hash| hash.0).collect(),
        flags: crate::model::state::Session::of(&words).flags,
    }
}

/// The crate's message of a plan, with the chunks that a host lends for it.
pub fn message(plan: &Plan, document: &Automerge) -> Message {
    Message {
        heads: hashes(&plan.heads),
        need: hashes(&plan.need),
        have: haves(&plan.haves),
        changes: ChunkList::from(chunks_for(plan, document)),
        flags: Some(facade::flags_of(plan.flags as u8)),
        version: match plan.version {
            2 => MessageVersion::V2,
            _ => MessageVersion::V1,
        },
    }
}

/// What the crate's message says: of its chunks, the changes in them. A saved document
/// of the stand-in begins with a byte of its own.
pub fn plan_of(message: &Message) -> Plan {
    let records: Vec<u8> = message.changes.iter().flatten().copied().collect();
    let changes = Change::read_all(&records).expect("chunks are records");
    let flags = message.flags.expect("every message has flags");
    Plan {
        version: match message.version {
            MessageVersion::V1 => 1,
            MessageVersion::V2 => 2,
        },
        flags: u64::from(facade::flags_value(flags)),
        heads: bare(&message.heads),
        need: bare(&message.need),
        haves: message.have.iter().map(own_have).collect(),
        document: records.first() == Some(&0),
        hashes: changes.iter().map(|change| change.hash().0).collect(),
    }
}

/// The crate's haves.
pub fn haves(haves: &[OwnHave]) -> Vec<Have> {
    let have = |one: &OwnHave| Have {
        last_sync: hashes(&one.last_sync),
        bloom: published::filter(&one.filter()).expect("the crate has every filter"),
    };
    haves.iter().map(have).collect()
}

fn own_have(have: &Have) -> OwnHave {
    let parts = facade::filter_parts(&have.bloom);
    OwnHave {
        last_sync: bare(&have.last_sync),
        numbers: [parts.entries, parts.bits_per_entry, parts.probes].map(u64::from),
        field: parts.field,
    }
}

fn hashes(list: &[Hash]) -> Vec<ChangeHash> {
    list.iter().copied().map(ChangeHash).collect()
}

fn bare(list: &[ChangeHash]) -> Vec<Hash> {
    list.iter().map(|hash| hash.0).collect()
}
