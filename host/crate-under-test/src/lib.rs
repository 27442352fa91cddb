//! The sync module of the crate automerge 0.11.0, compiled from its own files,
//! over stand-ins for what can't be had.
//!
//! ```text
//!   facade            plain calls for a comparison
//!     |
//!   sync, storage::parse        the published files, unchanged
//!     |
//!   document, change_graph, change, types, ..      stand-ins, by document 01
//! ```
//!
//! What a run shows is what the published files do. What the stand-ins do rests
//! on document 01 alone; each says so at its head.

pub mod facade;
pub mod record;

mod change;
mod change_graph;
mod document;
mod error;
mod patches;
mod types;

pub use change::Change;
pub use document::Automerge;
pub use error::AutomergeError;
pub use patches::PatchLog;
pub use published::sync;
pub use types::{ActorId, ChangeHash};

// A folder's path on the block, not a file's on the module: only so does
// `mod bloom;` in sync.rs find sync/bloom.rs.
#[path = "../automerge-0.11.0/src"]
mod published {
    #[rustfmt::skip] // as published, its missing test module too
    pub mod sync;
}

/// Stand-in for the crate's `storage`: the published parsers, and the two error
/// types of change reading that sync.rs converts from. No sync file makes one,
/// so nothing follows from them.
#[path = "../automerge-0.11.0/src/storage"]
mod storage {
    // The rest of `storage`, which isn't here, calls most of these parsers.
    #[allow(dead_code)]
    #[rustfmt::skip] // as published
    pub(crate) mod parse;

    pub use crate::error::ReadChangeOpError;

    pub(crate) mod change {
        pub(crate) use crate::error::ParseError;
    }
}
