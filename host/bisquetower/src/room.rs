//! Output buffers that are as long as a call wants them.

use crate::refusal::{answer, Refusal};

/// Refusal 7 tells how much room is wanted.
pub(crate) const TOO_SHORT: u64 = 7;

/// What a call wrote whose answer begins with the bytes written: it is lent so much
/// room, and more only if it asks for more.
pub(crate) fn written(
    room: usize,
    mut call: impl FnMut(&mut [u8]) -> [u64; 4],
) -> Result<Vec<u8>, Refusal> {
    let mut out = vec![0; room];
    loop {
        match answer(call(&mut out)) {
            Ok([length, ..]) => {
                out.truncate(length as usize);
                return Ok(out);
            }
            Err(refusal) if refusal.number == TOO_SHORT && refusal.value > out.len() as u64 => {
                out.resize(refusal.value as usize, 0);
            }
            Err(refusal) => return Err(refusal),
        }
    }
}
