//! Calls that say what a pick is made of.

use super::SPARE;
use crate::guarded::{Fill, Guarded, FILLS};
use crate::inputs::index::index_of;
use crate::model::plan::offered;
use crate::model::table::{hashes_of, Hash, HASH};
use crate::model::Refused;
use crate::same_answer;
use crate::sessions::lent::Lent;
use bisquetower::raw::{Batch, UNWRITTEN};

/// What such a call is lent.
#[derive(Clone, Debug)]
pub struct Offering {
    pub session: Lent,
    pub table: Vec<u8>,
    pub index: Vec<u8>,
    /// How long the list's buffer is.
    pub room: usize,
}

impl Offering {
    /// With the table's own index and room to spare.
    pub fn new(session: Lent, table: Vec<u8>) -> Offering {
        let mut offering = Offering {
            session,
            index: index_of(&table),
            table,
            room: 0,
        };
        let wanted = offering.model().map_or(2, |(_, list)| list.len());
        offering.room = HASH * wanted + SPARE;
        offering
    }

    /// Whether the document goes, and the hashes, were there room for them.
    pub fn model(&self) -> Result<(bool, Vec<Hash>), Refused> {
        let lists = self.session.lists();
        offered(&self.session.words, &lists, &self.table, &self.index)
    }
}

/// A call, and the buffer that it is lent.
struct OfferCall<'a> {
    offering: &'a Offering,
    list: Guarded<u8>,
    answer: [u64; 4],
}

impl<'a> OfferCall<'a> {
    fn new(offering: &'a Offering, fill: Fill) -> Self {
        OfferCall {
            offering,
            list: Guarded::new(offering.room, fill),
            answer: [UNWRITTEN; 4],
        }
    }

    /// Has the model write what is expected; returns its answer.
    fn expect(&mut self) -> [u64; 4] {
        let (document, hashes) = match self.offering.model() {
            Ok(offered) => offered,
            Err((number, value)) => return [number, value, 0, 0],
        };
        match self.list.expected().get_mut(..HASH * hashes.len()) {
            Some(start) => {
                start.copy_from_slice(&hashes.concat());
                [0, document.into(), hashes.len() as u64, 0]
            }
            None => [7, (HASH * hashes.len()) as u64, 0, 0],
        }
    }

    fn ask<'m>(&'m mut self, batch: &mut Batch<'m>) {
        let Offering {
            session,
            table,
            index,
            ..
        } = self.offering;
        batch.offer(
            &session.words,
            &session.shared,
            &session.last_sent,
            &session.their_heads,
            &session.their_need,
            &session.haves,
            &session.bytes,
            &session.sent,
            table,
            index,
            self.list.lent(),
            &mut self.answer,
        );
    }

    fn agrees(&self, expected: [u64; 4]) -> Result<(), String> {
        let told = |why: String| format!("{:?}: {why}", self.offering);
        same_answer(self.answer, expected).map_err(told)?;
        self.list.agrees().map_err(told)
    }

    fn offer(&self) -> Offer {
        let (document, list) = match self.answer {
            [0, document, count, _] => (document != 0, &self.list.left()[..HASH * count as usize]),
            _ => (false, &[][..]),
        };
        Offer {
            answer: self.answer,
            document,
            list: hashes_of(list),
        }
    }
}

/// What a call answered: nothing is listed where it refused.
#[derive(Clone, Debug, PartialEq, Eq)]
pub struct Offer {
    pub answer: [u64; 4],
    pub document: bool,
    pub list: Vec<Hash>,
}

/// What the library offers; the model isn't asked.
pub fn offer(offering: &Offering) -> Offer {
    let mut call = OfferCall::new(offering, Fill::One);
    let mut batch = Batch::new();
    call.ask(&mut batch);
    batch.run();
    call.offer()
}

/// Compares what the library offers with what the model does, each over both fills; the
/// first that disagrees is the error.
pub fn compare_offers(offerings: &[Offering]) -> Result<Vec<Offer>, String> {
    let both = offerings
        .iter()
        .flat_map(|one| FILLS.map(|fill| OfferCall::new(one, fill)));
    let mut calls: Vec<OfferCall> = both.collect();
    let expected: Vec<_> = calls.iter_mut().map(OfferCall::expect).collect();
    let mut batch = Batch::new();
    for call in &mut calls {
        call.ask(&mut batch);
    }
    batch.run();
    for (call, expected) in calls.iter().zip(expected) {
        call.agrees(expected)?;
    }
    let first = calls.iter().step_by(FILLS.len());
    Ok(first.map(OfferCall::offer).collect())
}
