//! The library's two steps of a session against the model, in every word and byte of
//! answers, sessions and buffers, and around them; and what the first of them has to send.
//! Nothing else here calls these.

mod offering;
mod planning;
mod receiving;

pub use offering::{compare_offers, offer, Offer, Offering};
pub use planning::{
    compare_plans, plan, plan_answer, same_as_plan, same_as_whole, PlanLeft, Planning,
};
pub use receiving::{compare_receipts, receive, receive_answer, ReceiptLeft, Receiving};

use crate::model::state::WORDS;

/// Items that a buffer has more than are wanted.
const SPARE: usize = 3;

fn sixteen(words: &mut [u64]) -> &mut [u64; WORDS] {
    words.try_into().expect("sixteen words")
}

fn sixteen_of(words: &[u64]) -> [u64; WORDS] {
    words.try_into().expect("sixteen words")
}
