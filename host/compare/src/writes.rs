//! Calls that write one buffer: what the library answers and leaves beside the
//! model's bytes and the crate's.

use crate::filters::{self, Build};
use crate::guarded::{Guarded, FILLS};
use crate::model::filter::Filter;
use crate::model::message::Parts;
use crate::model::{self, Refused};
use crate::{inputs, messages, published, same_answer};
use bisquetower::raw;

/// What a call is to write.
#[derive(Clone, Copy)]
pub enum Write<'a> {
    Number(u64),
    Prefixed(&'a [u8]),
    Hashes(&'a [u8]),
    Filter(Filter<'a>),
    /// The field of the filter over hashes.
    Built(Build<'a>),
    /// A saved state of the first hashes of a buffer.
    State {
        shared: &'a [u8],
        count: usize,
    },
    Message(Parts<'a>),
}

impl Write<'_> {
    fn shown(&self) -> String {
        match *self {
            Write::Number(n) => format!("the number {n}"),
            Write::Prefixed(bytes) => format!("the string {}", inputs::shown(bytes)),
            Write::Hashes(hashes) => format!("the hashes {}", inputs::shown(hashes)),
            Write::Filter(filter) => filters::shown(&filter),
            Write::Built(build) => build.shown(),
            Write::State { shared, count } => {
                format!("a state of {count} in {}", inputs::shown(shared))
            }
            Write::Message(parts) => messages::parts::shown(&parts),
        }
    }

    pub fn library(&self, out: &mut [u8]) -> [u64; 4] {
        match *self {
            Write::Number(n) => raw::write_number(n, out),
            Write::Prefixed(bytes) => raw::write_prefixed(bytes, out),
            Write::Hashes(hashes) => raw::write_hashes(hashes, out),
            Write::Filter(f) => raw::write_filter(f.entries, f.bits, f.probes, f.field, out),
            Write::Built(b) => raw::build_filter(b.bits, b.probes, b.hashes, out),
            Write::State { shared, count } => raw::write_state(shared, count, out),
            Write::Message(parts) => messages::parts::write(&parts, out),
        }
    }

    pub fn model(&self) -> Result<Vec<u8>, Refused> {
        match *self {
            Write::Number(n) => Ok(model::number_bytes(n)),
            Write::Prefixed(bytes) => Ok(model::prefixed_bytes(bytes)),
            Write::Hashes(hashes) => model::hash_list_bytes(hashes),
            Write::Filter(filter) => model::filter::bytes(&filter),
            Write::Built(b) => model::filter::built(b.bits, b.probes, b.hashes),
            Write::State { shared, count } => model::state::bytes(shared, count),
            Write::Message(parts) => model::message::bytes(&parts),
        }
    }

    /// The crate's bytes, of what the model writes; none where it has no such call.
    /// It writes a prefixed string as a number and the bytes, one after the other.
    pub fn published(&self) -> Option<Vec<u8>> {
        use crate_under_test::facade::{write_hashes, write_u64};
        match *self {
            Write::Number(n) => Some(write_u64(n)),
            Write::Prefixed(bytes) => Some([&write_u64(bytes.len() as u64), bytes].concat()),
            Write::Hashes(hashes) => {
                let whole = hashes.chunks_exact(32);
                let list: Vec<[u8; 32]> = whole.map(|h| h.try_into().expect("32 bytes")).collect();
                Some(write_hashes(&list))
            }
            Write::Filter(filter) => {
                let filter = published::filter(&filter).expect("the crate has every filter");
                Some(filter.to_bytes())
            }
            Write::Built(build) => build.published(),
            Write::State { shared, count } => Some(published::state_bytes(&shared[..32 * count])),
            Write::Message(parts) => Some(published::message(&parts).encode()),
        }
    }
}

/// Compares what the library writes into a buffer of this size, every byte of it
/// and some around it, with the model's bytes and the crate's. Each byte of the
/// buffer is tried over two values.
/// Returns the answer.
pub fn compare_write(write: Write, room: usize) -> Result<[u64; 4], String> {
    Ok(compare_rooms(write, [room])?[0])
}

/// Compares a write into buffers of several sizes.
pub fn compare_rooms(
    write: Write,
    rooms: impl IntoIterator<Item = usize>,
) -> Result<Vec<[u64; 4]>, String> {
    let wanted = write.model();
    if let Ok(bytes) = &wanted {
        if write.published().is_some_and(|others| others != *bytes) {
            let what = write.shown();
            return Err(format!("{what}: the model's bytes aren't the crate's"));
        }
    }
    let each = rooms.into_iter().map(|room| {
        let told = |why| format!("{} into {room} bytes: {why}", write.shown());
        compare_room(write, &wanted, room).map_err(told)
    });
    each.collect()
}

fn compare_room(
    write: Write,
    wanted: &Result<Vec<u8>, Refused>,
    room: usize,
) -> Result<[u64; 4], String> {
    let mut answer = [0; 4];
    for fill in FILLS {
        let mut out = Guarded::new(room, fill);
        answer = write.library(out.lent());
        same_answer(answer, model::write(out.expected(), wanted.clone()))?;
        out.agrees()?;
    }
    Ok(answer)
}
