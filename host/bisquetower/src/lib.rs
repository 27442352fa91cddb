//! The proved sync library, called from Rust: the `sync` module of automerge 0.11.0,
//! ported to a language in which every function is proved to meet its contract.
//!
//! A program keeps its document and implements [`Host`]; for each peer it keeps a
//! [`Session`], which says what to send and takes what comes. docs/MIGRATING.md has the
//! way from automerge's own module, side by side.
//!
//! ```text
//!   Session  next_message, receive   Host, Memory    the document's side
//!     |
//!   Message, Have, Filter, SavedState, Settings, Table, Waiting, Counts, hashes_to_send
//!     |
//!   message     a message that was read, part by part, without a copy
//!     |
//!   refusal     an answer as a result: numbers, or a refusal that can be read
//!     |
//!   raw         the exported functions, on slices and numbers; limits: their sizes
//!     |
//!   libbisquetower.a    proved; docs/ABI.md is its page
//! ```
//!
//! Nothing here decides what a filter, a message or a session is: every answer is the
//! library's. Whatever breaks a rule gets a numbered [`Refusal`] that says what is wrong
//! and where.
//!
//! ```
//! use bisquetower::{raw, refusal};
//!
//! // `ac 02` is the number 300, and the next place is 2.
//! let bytes = [0xac, 0x02, 0x80];
//! let [value, next, _] = refusal::answer(raw::read_number(&bytes, 0, 3)).unwrap();
//! assert_eq!((value, next), (300, 2));
//!
//! let cut = refusal::answer(raw::read_number(&bytes, 2, 3)).unwrap_err();
//! assert_eq!((cut.number, cut.value), (1, 2));
//! assert_eq!(cut.sentence(), "the input ends inside the item that starts at place 2");
//! ```

#![deny(missing_docs)]

mod cause;
mod counts;
mod error;
mod explain;
mod filter;
mod flags;
mod hash;
mod have;
mod host;
mod index;
pub mod limits;
mod memory;
pub mod message;
mod pick;
pub mod raw;
pub mod refusal;
mod room;
mod said;
mod salvage;
mod saved;
mod selection;
mod session;
mod settings;
mod table;

pub use cause::{Captured, Cause};
pub use counts::{Counts, Totals};
pub use error::Error;
pub use filter::Filter;
pub use flags::{MessageFlags, MessageVersion};
pub use hash::{ChangeHash, NotAHash};
pub use have::Have;
pub use host::Host;
pub use limits::Limits;
pub use memory::{Change, Memory, MemoryError};
pub use refusal::Refusal;
pub use said::Message;
pub use salvage::{Dropped, Rule, Salvaged};
pub use saved::SavedState;
pub use selection::hashes_to_send;
pub use session::{Offer, Plan, Session, SessionParts};
pub use settings::{Choice, Setting, Settings};
pub use table::{Table, Waiting};
