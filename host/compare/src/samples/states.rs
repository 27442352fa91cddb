//! Saved states: what the crate's decode says of bytes, and what its encode
//! writes of the state that was read.

use super::{bytes_column, bytes_of, refusal_columns, refusal_of};
use crate::inputs::{overlong, Random};
use crate::model::state::{self, WORDS};
use crate::model::table::{HASH, HASHES};
use crate::model::{number_bytes, Refused};
use crate::published;
use std::collections::HashSet;

#[derive(Clone, Debug, PartialEq, Eq)]
pub struct Record {
    pub input: Vec<u8>,
    /// The state written again.
    pub answer: Result<Vec<u8>, Refused>,
}

const READ: &str = "read";

impl super::Record for Record {
    const FILE: &'static str = "host/compare/samples/states.txt";
    const COLUMNS: &'static str =
        "input; the refusal (1, 2 and the byte, 3), or `read` and the state encoded again";

    fn sample() -> Vec<Record> {
        let mut seen = HashSet::new();
        let mut inputs = inputs(&mut Random(0x7374_6174_6573));
        inputs.retain(|input| seen.insert(input.clone()) && !past_limit(input));
        inputs.into_iter().map(record).collect()
    }

    fn columns(&self) -> Vec<String> {
        let mut columns = vec![bytes_column(&self.input)];
        columns.extend(match &self.answer {
            Ok(written) => vec![READ.to_string(), bytes_column(written)],
            Err(refused) => refusal_columns(*refused),
        });
        columns
    }

    fn of(columns: &[&str]) -> Option<Record> {
        let (input, answer) = columns.split_first()?;
        let answer = match answer {
            [READ, written] => Ok(bytes_of(written)?),
            refused => Err(refusal_of(refused)?),
        };
        Some(Record {
            input: bytes_of(input)?,
            answer,
        })
    }
}

fn record(input: Vec<u8>) -> Record {
    let read = published::read_state(&input);
    let answer = read
        .map(|state| state.encode())
        .map_err(|[number, value]| (number, value));
    Record { input, answer }
}

/// Whether a state has more hashes than a list may have: 4 here, and no refusal of
/// the crate's.
fn past_limit(input: &[u8]) -> bool {
    let mut shared = vec![0; HASH * HASHES];
    state::read(input, &mut shared, &mut [0; WORDS])[0] == 4
}

const DAMAGED: usize = 60;

fn inputs(random: &mut Random) -> Vec<Vec<u8>> {
    let mut inputs = vec![Vec::new()];
    inputs.extend([0x00, 0x01, 0x41, 0x42, 0x43, 0x44, 0x80, 0xc3, 0xff].map(|byte| vec![byte]));
    for count in 0..=5 {
        let hashes = random.bytes(HASH * count);
        let counted = number_bytes(count as u64);
        let state = [&[0x43][..], &counted, &hashes].concat();
        inputs.push([&state[..], &[0x2a, 0x80]].concat());
        inputs.push([&[0x42][..], &counted, &hashes].concat());
        for extra in 1..3 {
            inputs.push([&[0x43][..], &overlong(count as u64, extra), &hashes].concat());
        }
        for cut in [1, 2, 31, 32, 33] {
            inputs.push(state[..state.len().saturating_sub(cut)].to_vec());
        }
        inputs.push(state);
        // Repeats are kept.
        let twice = number_bytes(2 * count as u64);
        inputs.push([&[0x43][..], &twice, &hashes, &hashes].concat());
    }
    // The last byte of the largest number, and one too many.
    for last in [0x01, 0x02, 0x7f, 0x80, 0xff] {
        inputs.push([vec![0x43], vec![0xff; 9], vec![last]].concat());
        inputs.push([vec![0x43], vec![0x80; 10], vec![last]].concat());
    }
    for _ in 0..DAMAGED {
        let mut state = inputs[random.below(inputs.len())].clone();
        random.damage(&mut state);
        inputs.push(state);
    }
    inputs
}
