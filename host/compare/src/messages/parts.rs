//! A message as it is passed to be written.

use crate::model::message::{Parts, NO_FLAGS};
use bisquetower::message::View;
use bisquetower::raw::{self, Batch};

/// The chunks of a message that was read, one after the other, and their lengths.
pub struct Chunks {
    pub bytes: Vec<u8>,
    pub lengths: Vec<u64>,
}

impl Chunks {
    pub fn of(view: &View) -> Chunks {
        Chunks {
            bytes: view.chunks().flatten().copied().collect(),
            lengths: view.chunks().map(|chunk| chunk.len() as u64).collect(),
        }
    }
}

/// A message that was read; all but the chunks stands where it was read.
pub fn parts<'a>(view: &View<'a>, chunks: &'a Chunks) -> Parts<'a> {
    Parts {
        version: view.version(),
        heads: view.heads(),
        need: view.need(),
        s: view.bytes(),
        haves: view.have_words(),
        chunks: &chunks.bytes,
        lengths: &chunks.lengths,
        flags: view.flags().map_or(NO_FLAGS, u64::from),
    }
}

pub fn shown(parts: &Parts) -> String {
    let Parts {
        version,
        heads,
        need,
        s,
        haves,
        chunks,
        lengths,
        flags,
    } = parts;
    let [heads, need, chunks] = [heads, need, chunks].map(|bytes| bytes.len());
    let some = &lengths[..lengths.len().min(8)];
    let (bytes, lengths) = (s.len(), lengths.len());
    format!(
        "a message of version {version}, {heads} bytes of heads, {need} of need, haves {haves:?} \
         over {bytes} bytes, {lengths} chunks {some:?} of {chunks} bytes, flags {flags}"
    )
}

/// What the library writes.
pub fn write(p: &Parts, out: &mut [u8]) -> [u64; 4] {
    raw::write_message(
        p.version, p.heads, p.need, p.s, p.haves, p.chunks, p.lengths, p.flags, out,
    )
}

/// Writes these parts by one call of a batch.
pub fn ask<'m>(p: &Parts, batch: &mut Batch<'m>, out: &'m mut [u8], answer: &'m mut [u64; 4]) {
    batch.write_message(
        p.version, p.heads, p.need, p.s, p.haves, p.chunks, p.lengths, p.flags, out, answer,
    );
}
