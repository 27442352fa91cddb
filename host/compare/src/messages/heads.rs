//! The heads of messages from their first part alone (document 02, M-104): the library
//! against the model in every word, in the buffer and around it, and against its own
//! full read of the same bytes.

use super::SPARE;
use crate::guarded::{Fill, Guarded, FILLS};
use crate::model;
use crate::model::table::HASH;
use crate::{inputs, same_answer};
use bisquetower::message::View;
use bisquetower::raw::{self, Batch};
use bisquetower::refusal::Refusal;

type Full<'a> = Result<View<'a>, Refusal>;

/// A peek into some room.
struct Asked<'a> {
    s: &'a [u8],
    expected: [u64; 4],
    answer: [u64; 4],
    out: Guarded<u8>,
}

impl<'a> Asked<'a> {
    fn new(s: &'a [u8], room: usize, fill: Fill) -> Self {
        let mut out = Guarded::new(room, fill);
        Asked {
            s,
            expected: model::message::peek(s, out.expected()),
            answer: [raw::UNWRITTEN; 4],
            out,
        }
    }

    fn agrees(&self) -> Result<(), String> {
        same_answer(self.answer, self.expected)?;
        self.out.agrees()
    }

    /// "Whenever the full read accepts, this answer, given room, is its version and
    /// heads; whenever this answer refuses, but for 7, the full read of the same bytes
    /// gives the same refusal and place." Whether the heads are answered of a message
    /// that the full read refuses.
    fn beside(&self, full: &Full) -> Result<bool, String> {
        let [number, value, count, _] = self.answer;
        match (number, full) {
            (7, _) => Ok(false),
            (0, Err(_)) => Ok(true),
            (0, Ok(view)) => {
                let heads = &self.out.left()[..HASH * count as usize];
                match (value, heads) == (view.version(), view.heads()) {
                    true => Ok(false),
                    false => Err(format!("the full read says {view:?}")),
                }
            }
            (_, Err(refusal)) if (refusal.number, refusal.value) == (number, value) => Ok(false),
            (_, full) => Err(format!("the full read says {full:?}")),
        }
    }
}

/// Bytes for the heads of a message, one fewer, and some more; of a message whose heads
/// are refused, none and some, which must not be touched.
fn rooms(s: &[u8]) -> Vec<usize> {
    match model::message::peek(s, &mut []) {
        [7, wanted, ..] => {
            let wanted = wanted as usize;
            vec![wanted, wanted - 1, wanted + SPARE]
        }
        _ => vec![0, HASH],
    }
}

/// Compares what the library says of the heads of these messages with what the model
/// says and with the full reads, into just enough room, too little and more. How many
/// are answered that the full read refuses.
pub fn compare(messages: &[(&[u8], Full)]) -> Result<u64, String> {
    let mut asked = Vec::new();
    for (which, (s, _)) in messages.iter().enumerate() {
        let rooms = rooms(s).into_iter();
        asked.extend(rooms.map(|room| (which, Asked::new(s, room, FILLS[which % FILLS.len()]))));
    }
    let mut batch = Batch::new();
    for (_, one) in &mut asked {
        batch.peek_heads(one.s, one.out.lent(), &mut one.answer);
    }
    batch.run();

    let mut bad_later = 0;
    let mut counted = None;
    for (which, one) in &asked {
        let (room, shown) = (one.out.room(), inputs::shown(one.s));
        let told = |why| format!("the heads of {shown} into {room} bytes: {why}");
        one.agrees().map_err(told)?;
        let later = one.beside(&messages[*which].1).map_err(told)?;
        if later && counted.replace(*which) != Some(*which) {
            bad_later += 1;
        }
    }
    Ok(bad_later)
}

/// Compares the library's answers with the model's for buffers of these sizes, over
/// both fills; returns the answers.
pub fn compare_rooms(s: &[u8], rooms: &[usize]) -> Result<Vec<[u64; 4]>, String> {
    let each = rooms
        .iter()
        .flat_map(|&room| FILLS.map(|fill| (room, fill)));
    let mut asked: Vec<Asked> = each.map(|(room, fill)| Asked::new(s, room, fill)).collect();
    let mut batch = Batch::new();
    for one in &mut asked {
        batch.peek_heads(one.s, one.out.lent(), &mut one.answer);
    }
    batch.run();
    for one in &asked {
        one.agrees()?;
    }
    let each = asked.iter().step_by(FILLS.len());
    Ok(each.map(|one| one.answer).collect())
}
