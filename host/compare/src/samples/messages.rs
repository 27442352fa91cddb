//! Messages: what the crate's decode says of bytes, and what its encode writes of
//! the message that was read.

use super::{bytes_column, bytes_of, number_of, refusal_columns, refusal_of};
use crate::inputs::message::good_messages;
use crate::inputs::message::{TELLING, TELLING_OF_FILTERS, UP_TO_FILTER};
use crate::inputs::{overlong, string, Random};
use crate::messages::beside::Beside;
use crate::messages::beside_model;
use crate::model::{number_bytes, Refused};
use crate::published;
use crate_under_test::facade;
use std::collections::HashSet;

#[derive(Clone, Debug, PartialEq, Eq)]
pub struct Record {
    pub input: Vec<u8>,
    pub answer: Result<Read, Refused>,
}

/// A message that was read. Its bytes, written again, say every part of it but the
/// numbers of filters without entries.
#[derive(Clone, Debug, PartialEq, Eq)]
pub struct Read {
    pub written: Vec<u8>,
    pub flags: Option<u8>,
}

const READ: &str = "read";
const NO_FLAGS: &str = "none";

impl super::Record for Record {
    const FILE: &'static str = "host/compare/samples/messages.txt";
    const COLUMNS: &'static str = "input; the refusal (1, 2 and the byte, 3), or `read`, the message encoded again, its flags (`none`, or their value)";

    fn sample() -> Vec<Record> {
        let mut seen = HashSet::new();
        let mut inputs = inputs(&mut Random(0x6d65_7373_6167_6573));
        inputs.retain(|input| seen.insert(input.clone()));
        inputs.into_iter().filter_map(record).collect()
    }

    fn columns(&self) -> Vec<String> {
        let mut columns = vec![bytes_column(&self.input)];
        match &self.answer {
            Ok(Read { written, flags }) => {
                let flags = flags.map_or(NO_FLAGS.to_string(), |value| bytes_column(&[value]));
                columns.extend([READ.to_string(), bytes_column(written), flags]);
            }
            Err(refused) => columns.extend(refusal_columns(*refused)),
        }
        columns
    }

    fn of(columns: &[&str]) -> Option<Record> {
        let (input, answer) = columns.split_first()?;
        let answer = match answer {
            [READ, written, flags] => Ok(Read {
                written: bytes_of(written)?,
                flags: match *flags {
                    NO_FLAGS => None,
                    value => Some(number_of(value)?.try_into().ok()?),
                },
            }),
            refused => Err(refusal_of(refused)?),
        };
        Some(Record {
            input: bytes_of(input)?,
            answer,
        })
    }
}

/// What the crate says of an input; none where the library's refusal is another,
/// by intention.
fn record(input: Vec<u8>) -> Option<Record> {
    let beside = beside_model(&input).expect("model and crate agree");
    if matches!(beside, Beside::CutNumber | Beside::Apart) {
        return None;
    }
    let answer = published::read_message(&input).map(|message| Read {
        flags: message.flags.map(facade::flags_value),
        written: message.encode(),
    });
    Some(Record { input, answer })
}

/// How many inputs there are of some kinds, and how long a random message is at
/// the most.
const SHORT: usize = 40;
const WITH_FILTER: usize = 35;
const VALID: usize = 50;
const MISSPELT: usize = 15;
const CUT: usize = 25;
const DAMAGED: usize = 40;
const LONGEST: usize = 320;

fn inputs(random: &mut Random) -> Vec<Vec<u8>> {
    let mut inputs = vec![Vec::new()];
    inputs.extend((0..=u8::MAX).map(|byte| vec![byte]));
    // P1 to P3 of document 01 are the first of these.
    let mut good = good_messages();
    inputs.extend((0..SHORT).map(|_| short(random)));
    inputs.extend((0..WITH_FILTER).map(|_| with_filter(random)));
    good.extend((0..VALID).map(|_| valid(random)));
    inputs.extend(good.clone());
    inputs.extend((0..MISSPELT).map(|_| misspelt(random)));
    for _ in 0..CUT {
        let message = &good[random.below(good.len())];
        inputs.push(message[..random.below(message.len())].to_vec());
    }
    for _ in 0..DAMAGED {
        let mut message = good[random.below(good.len())].clone();
        let place = random.below(message.len());
        message[place] ^= 1 + random.below(0xff) as u8;
        inputs.push(message);
    }
    inputs
}

/// A first byte, some counts of nothing, and telling bytes.
fn short(random: &mut Random) -> Vec<u8> {
    let first = 0x42 + random.below(2) as u8;
    let start = [vec![first], vec![0; random.below(5)]].concat();
    let length = 1 + random.below(4);
    [start, string(&TELLING, length, random.below(usize::MAX))].concat()
}

/// A message up to a filter, and bytes that tell something of one.
fn with_filter(random: &mut Random) -> Vec<u8> {
    let length = 2 + random.below(5);
    let filter = string(&TELLING_OF_FILTERS, length, random.below(usize::MAX));
    [&UP_TO_FILTER[..], &filter].concat()
}

/// A message that the crate reads; in every third, lists stand twice.
fn valid(random: &mut Random) -> Vec<u8> {
    loop {
        let mut draft = random.draft();
        if random.one_in(3) {
            draft.heads.extend_from_within(..);
            draft.need.extend_from_within(..);
            draft.haves.extend_from_within(..);
            draft.chunks.extend_from_within(..);
        }
        let message = draft.bytes();
        if message.len() <= LONGEST && published::read_message(&message).is_ok() {
            return message;
        }
    }
}

/// A message with one of its counts and lengths in a byte too many.
fn misspelt(random: &mut Random) -> Vec<u8> {
    loop {
        let draft = random.draft();
        let which = 1 + random.below(8);
        let mut spelt = 0;
        let message = draft.spelt(&mut |n| {
            spelt += 1;
            match spelt == which {
                true => overlong(n, 1),
                false => number_bytes(n),
            }
        });
        if message.len() <= LONGEST && spelt >= which {
            return message;
        }
    }
}
