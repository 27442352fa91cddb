//! The models of messages and of hashes to send against the crate; the library has
//! no part in these. They are quick, and tell a slip in a model from one in the
//! library.

#[path = "model/messages.rs"]
mod messages;
#[path = "model/scenarios.rs"]
mod scenarios;
#[path = "model/selections.rs"]
mod selections;
#[path = "model/sessions.rs"]
mod sessions;
#[path = "model/talks.rs"]
mod talks;
