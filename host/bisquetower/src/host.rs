//! What a session asks of the program that keeps the document.

use crate::ChangeHash;
use std::borrow::Cow;

/// A unit's document, as far as syncing looks at it. The contents of changes are the
/// host's alone: sessions carry them as bytes.
///
/// [`Memory`](crate::Memory) is one that keeps changes and nothing else.
pub trait Host {
    /// What lending and loading fail with.
    type Error;

    /// The change table: a row for each change that is held, each after those that it
    /// depends on. [`Table::lay`](crate::Table::lay) makes its records.
    fn table(&self) -> Cow<'_, [u8]>;

    /// The waiting table: a row for each change that came before what it depends on.
    /// [`Waiting::lay`](crate::Waiting::lay) makes its records.
    fn waiting(&self) -> Cow<'_, [u8]>;

    /// The bytes of a change that is held, as `load` takes them.
    fn change(&self, hash: &ChangeHash) -> Result<Cow<'_, [u8]>, Self::Error>;

    /// How many bytes [`change`](Host::change) lends for a change that is held: asked of
    /// every change that is to be sent, where a message has a budget. A host that knows it
    /// without making the bytes says so here.
    fn change_size(&self, hash: &ChangeHash) -> Result<usize, Self::Error> {
        self.change(hash).map(|bytes| bytes.len())
    }

    /// The whole document, as `load` takes it.
    fn save(&self) -> Result<Vec<u8>, Self::Error>;

    /// Takes changes or a document, several of them one after the other. What is held
    /// already is left out, what can't be held yet waits. Rows come after those that
    /// were there before; on an error none came.
    fn load(&mut self, changes: &[u8]) -> Result<(), Self::Error>;
}
