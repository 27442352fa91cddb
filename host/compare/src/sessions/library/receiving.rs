//! Calls that receive.

use super::{sixteen, sixteen_of, SPARE};
use crate::guarded::{Fill, Guarded, FILLS};
use crate::inputs::index::index_of;
use crate::model::receive::{self, Received, Told};
use crate::model::state::{Lists, WORDS};
use crate::same_answer;
use crate::sessions::lent::Lent;
use bisquetower::raw::{Batch, UNWRITTEN};

/// What a call is lent that receives.
#[derive(Clone, Debug)]
pub struct Receiving {
    pub session: Lent,
    pub table: Vec<u8>,
    pub index: Vec<u8>,
    pub before: usize,
    pub message: Vec<u8>,
    /// 0 for a load that failed.
    pub loaded: u64,
    /// How long the session's lists are, in the order in which their room is tested:
    /// shared, last-sent, their heads, their need, haves in words, bytes, sent.
    pub rooms: [usize; 7],
}

impl Receiving {
    /// With the table's own index, and room to spare.
    pub fn new(
        session: Lent,
        table: Vec<u8>,
        before: usize,
        message: Vec<u8>,
        loaded: u64,
    ) -> Self {
        let mut receiving = Receiving {
            session,
            index: index_of(&table),
            table,
            before,
            message,
            loaded,
            rooms: [0; 7],
        };
        receiving.rooms = receiving.wants().map(|want| want + SPARE);
        receiving
    }

    fn told(&self) -> Told<'_> {
        Told {
            table: &self.table,
            index: &self.index,
            before: self.before,
            message: &self.message,
            loaded: self.loaded != 0,
        }
    }

    /// What the model makes of it, were there room for everything.
    pub fn model(&self) -> Received {
        receive::of_lent(&self.session.words, &self.session.lists(), &self.told())
    }

    /// How long the lists are now.
    pub fn content(&self) -> [usize; 7] {
        let s = &self.session;
        [
            s.shared.len(),
            s.last_sent.len(),
            s.their_heads.len(),
            s.their_need.len(),
            s.haves.len(),
            s.bytes.len(),
            s.sent.len(),
        ]
    }

    /// How long the lists have to be, for what they have too.
    pub fn wants(&self) -> [usize; 7] {
        let content = self.content();
        match self.model() {
            Received::Took(next) => {
                let wants = receive::wants(&next);
                std::array::from_fn(|k| wants[k].max(content[k]))
            }
            _ => content,
        }
    }
}

/// What a call left that receives.
#[derive(Clone, Debug)]
pub struct ReceiptLeft {
    pub answer: [u64; 4],
    pub session: Lent,
}

/// A call that receives, and what it is lent to write.
struct ReceiveCall<'a> {
    receiving: &'a Receiving,
    answer: [u64; 4],
    words: Guarded<u64>,
    haves: Guarded<u64>,
    /// The others in the order of their rooms.
    lists: [Guarded<u8>; 6],
}

impl<'a> ReceiveCall<'a> {
    fn new(receiving: &'a Receiving, fill: Fill) -> Self {
        let s = &receiving.session;
        let [shared, last_sent, their_heads, their_need, haves, bytes, sent] = receiving.rooms;
        let held = |content: &[u8], room: usize| Guarded::holding(content, room, fill);
        ReceiveCall {
            receiving,
            answer: [UNWRITTEN; 4],
            words: Guarded::holding(&s.words, WORDS, fill),
            haves: Guarded::holding(&s.haves, haves, fill),
            lists: [
                held(&s.shared, shared),
                held(&s.last_sent, last_sent),
                held(&s.their_heads, their_heads),
                held(&s.their_need, their_need),
                held(&s.bytes, bytes),
                held(&s.sent, sent),
            ],
        }
    }

    /// Has the model write what is expected; returns its answer.
    fn expect(&mut self) -> [u64; 4] {
        let [shared, last_sent, their_heads, their_need, bytes, sent] =
            self.lists.each_ref().map(Guarded::left);
        let lists = Lists {
            shared,
            last_sent,
            their_heads,
            their_need,
            haves: self.haves.left(),
            bytes,
            sent,
        };
        let words = &self.receiving.session.words;
        let received = receive::of_lent(words, &lists, &self.receiving.told());
        let [shared, last_sent, their_heads, their_need, bytes, sent] =
            self.lists.each_mut().map(Guarded::expected);
        let mut buffers = receive::Buffers {
            shared,
            last_sent,
            their_heads,
            their_need,
            haves: self.haves.expected(),
            bytes,
            sent,
        };
        receive::put_all(&received, sixteen(self.words.expected()), &mut buffers)
    }

    fn ask<'m>(&'m mut self, batch: &mut Batch<'m>) {
        let told = self.receiving;
        let [shared, last_sent, their_heads, their_need, bytes, sent] =
            self.lists.each_mut().map(Guarded::lent);
        batch.receive(
            sixteen(self.words.lent()),
            shared,
            last_sent,
            their_heads,
            their_need,
            self.haves.lent(),
            bytes,
            sent,
            &told.table,
            &told.index,
            told.before,
            &told.message,
            told.loaded,
            &mut self.answer,
        );
    }

    fn agrees(&self, expected: [u64; 4]) -> Result<(), String> {
        same_answer(self.answer, expected)?;
        let named = |name: &str, why| format!("of the {name}, {why}");
        self.words.agrees().map_err(|why| named("session", why))?;
        self.haves.agrees().map_err(|why| named("haves", why))?;
        let names = [
            "shared",
            "last-sent",
            "their heads",
            "their need",
            "bytes",
            "sent",
        ];
        for (name, list) in names.iter().zip(&self.lists) {
            list.agrees().map_err(|why| named(name, why))?;
        }
        Ok(())
    }

    fn left(&self) -> ReceiptLeft {
        let [shared, last_sent, their_heads, their_need, bytes, sent] =
            self.lists.each_ref().map(|list| list.left().to_vec());
        ReceiptLeft {
            answer: self.answer,
            session: Lent {
                words: sixteen_of(self.words.left()),
                shared,
                last_sent,
                their_heads,
                their_need,
                haves: self.haves.left().to_vec(),
                bytes,
                sent,
            },
        }
    }
}

/// What the library makes of a message; the model isn't asked.
pub fn receive(receiving: &Receiving) -> ReceiptLeft {
    let mut call = ReceiveCall::new(receiving, Fill::One);
    let mut batch = Batch::new();
    call.ask(&mut batch);
    batch.run();
    call.left()
}

/// Compares what the library makes of messages with what the model does; the first
/// that disagrees is the error.
pub fn compare_receipts(
    receivings: &[Receiving],
    fills: &[Fill],
) -> Result<Vec<ReceiptLeft>, String> {
    let fills = fills.iter().cycle();
    let calls = receivings.iter().zip(fills);
    let mut calls: Vec<ReceiveCall> = calls
        .map(|(one, &fill)| ReceiveCall::new(one, fill))
        .collect();
    let expected: Vec<_> = calls.iter_mut().map(ReceiveCall::expect).collect();
    let mut batch = Batch::new();
    for call in &mut calls {
        call.ask(&mut batch);
    }
    batch.run();
    let left = |(call, expected): (&ReceiveCall, _)| {
        let told = |why| format!("{:?}: {why}", call.receiving);
        call.agrees(expected).map_err(told)?;
        Ok(call.left())
    };
    calls.iter().zip(expected).map(left).collect()
}

/// The answer to one that receives, the same over both fills.
pub fn receive_answer(receiving: &Receiving) -> [u64; 4] {
    let both = [receiving.clone(), receiving.clone()];
    let left = compare_receipts(&both, &FILLS).unwrap_or_else(|why| panic!("{why}"));
    left[0].answer
}
