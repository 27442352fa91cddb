//! What can go wrong between a session and its host.

use crate::refusal::Refusal;
use std::fmt;

/// Why a session's step wasn't taken. `H` is what the host's own calls fail with.
#[derive(Clone, Debug, PartialEq, Eq)]
pub enum Error<H> {
    /// The library refused, and the session is as it was. Of a message that came the
    /// changes may have been loaded by then, where they lead past a limit.
    Refused(Refusal),
    /// The host couldn't lend a change or its document, and the session is as it was.
    Lend(H),
    /// The host couldn't load a message's changes (refusal 8). The session has taken the
    /// message's flags and has nothing in flight; all else is as it was.
    Load(H),
}

impl<H> From<Refusal> for Error<H> {
    fn from(refusal: Refusal) -> Self {
        Error::Refused(refusal)
    }
}

impl<H: fmt::Display> fmt::Display for Error<H> {
    fn fmt(&self, f: &mut fmt::Formatter<'_>) -> fmt::Result {
        match self {
            Error::Refused(refusal) => refusal.fmt(f),
            Error::Lend(why) => write!(f, "the host couldn't lend what is to be sent: {why}"),
            Error::Load(why) => write!(f, "the host couldn't load what came: {why}"),
        }
    }
}

impl<H: std::error::Error> std::error::Error for Error<H> {
    /// What is behind the refusal or the host's error. These themselves are told by
    /// `Display`, and a report of the whole chain is to say each thing once.
    fn source(&self) -> Option<&(dyn std::error::Error + 'static)> {
        match self {
            Error::Refused(refusal) => refusal.source(),
            Error::Lend(why) | Error::Load(why) => why.source(),
        }
    }
}
