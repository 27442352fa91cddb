//! Standard output.

use crate::failure::Failure;
use std::io::{ErrorKind, Write};

/// Writes what is shown to standard output; whether anybody reads it still. A reader that
/// stops reading has what it wanted.
pub fn print(shown: &str) -> Result<bool, Failure> {
    let mut out = std::io::stdout().lock();
    let written = out.write_all(shown.as_bytes()).and_then(|()| out.flush());
    match written {
        Ok(()) => Ok(true),
        Err(error) if error.kind() == ErrorKind::BrokenPipe => Ok(false),
        Err(error) => Err(Failure::file(
            format!("standard output can't be written: {error}"),
            "make room where it goes, or have it go elsewhere: what was shown isn't whole.",
        )),
    }
}
