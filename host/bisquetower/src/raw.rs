//! The exported functions of docs/ABI.md, each as a safe function that has its
//! name without `bt_`. Answers are words as the library leaves them;
//! `refusal::answer` tells the answered from the refused.
//!
//! build.rs writes the functions from the source that declares them, the proved
//! crates NAME_calls: a parameter named `answer` is returned, every other is lent as
//! it is there. `Batch` has the same calls, for many of them at a time.
//!
//! libbisquetower.a is for x86-64. There the functions are called as they are (the
//! file raw/linked.rs); on another processor they run under the kit's emulator,
//! in a program beside this one (raw/emulated.rs). The functions here are the
//! same.

#[cfg_attr(linked, path = "raw/linked.rs")]
#[cfg_attr(not(linked), path = "raw/emulated.rs")]
mod batch;

// The library's own signatures are as long as they are.
#[allow(clippy::too_many_arguments)]
mod calls {
    #[cfg(not(linked))]
    use super::batch::Arg;
    use super::{Batch, UNWRITTEN};

    include!(concat!(env!("OUT_DIR"), "/calls.rs"));
}

pub use batch::{on_stack, Batch};
pub use calls::*;

/// Whether the library is linked into this program, so that the time a call
/// takes is its own and not an emulator's.
pub const LINKED: bool = cfg!(linked);

/// The functions' header for programs in C; `make install` puts it in place.
pub const HEADER: &str = include_str!(concat!(env!("OUT_DIR"), "/bisquetower.h"));

/// What every word of an answer holds before a call. Each call writes all of its
/// words, so one that still holds this was left out.
pub const UNWRITTEN: u64 = u64::from_be_bytes(*b"NOT SET!");

/// The four calls that read, by name.
#[derive(Clone, Copy, Debug, PartialEq, Eq)]
pub enum Reader {
    /// `read_number`
    Number,
    /// `read_filter_number`
    FilterNumber,
    /// `read_prefixed`
    Prefixed,
    /// `read_hashes`
    Hashes,
}

/// A call that reads the item at `at`, in `bytes` up to `end`.
#[derive(Clone, Copy, Debug, PartialEq, Eq)]
pub struct Read<'a> {
    /// Which call.
    pub reader: Reader,
    /// What it is lent.
    pub bytes: &'a [u8],
    /// Where it begins to read.
    pub at: usize,
    /// Where it ends at the latest.
    pub end: usize,
}

/// The answers of many reads, in their order.
pub fn read_many(reads: &[Read]) -> Vec<[u64; 4]> {
    let mut answers = vec![[UNWRITTEN; 4]; reads.len()];
    let mut batch = Batch::new();
    for (read, answer) in reads.iter().zip(&mut answers) {
        let (bytes, at, end) = (read.bytes, read.at, read.end);
        match read.reader {
            Reader::Number => batch.read_number(bytes, at, end, answer),
            Reader::FilterNumber => batch.read_filter_number(bytes, at, end, answer),
            Reader::Prefixed => batch.read_prefixed(bytes, at, end, answer),
            Reader::Hashes => batch.read_hashes(bytes, at, end, answer),
        }
    }
    batch.run();
    answers
}
