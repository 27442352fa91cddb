//! What a message does.

use super::Session;
use crate::limits::{HAVES_SIZE, HAVES_WORDS, LIST_SIZE};
use crate::{raw, refusal, Error, Host, Message, Table};

/// The refusal of a failed load: the only one that changes a session.
const NOT_LOADED: u64 = 8;

impl Session {
    /// Takes a message from the peer. The host loads its changes, unless the session is
    /// read-only or the message is refused.
    ///
    /// Where the library is linked this takes up to 160 KiB of the thread's stack.
    pub fn receive<H: Host>(
        &mut self,
        host: &mut H,
        message: &[u8],
    ) -> Result<(), Error<H::Error>> {
        let before = host.table().len() / Table::ROW;
        // A message that isn't read brings nothing; the step below refuses it.
        let changes = Message::decode(message).map_or(Vec::new(), |message| message.changes);
        let loaded = match changes.is_empty() || self.is_read_only() {
            true => Ok(()),
            false => host.load(&changes.concat()),
        };
        let taken = self.take(&host.table(), before, message, loaded.is_ok());
        match (taken, loaded) {
            (Err(refusal), Err(why)) if refusal.number == NOT_LOADED => Err(Error::Load(why)),
            (taken, _) => taken.map_err(Error::Refused),
        }
    }

    /// Takes a message that was decoded, by the name that this has in automerge: what
    /// [`receive`](Session::receive) does with the bytes that [`Message::encode`] makes of
    /// it. If it can't be encoded it is refused, and the session is as it was.
    pub fn receive_sync_message<H: Host>(
        &mut self,
        host: &mut H,
        message: Message,
    ) -> Result<(), Error<H::Error>> {
        self.receive(host, &message.encode()?)
    }

    fn take(
        &mut self,
        table: &[u8],
        before: usize,
        message: &[u8],
        loaded: bool,
    ) -> Result<(), refusal::Refusal> {
        let (session, lists) = (&mut self.words, &mut self.lists);
        for list in [
            &mut lists.shared,
            &mut lists.last_sent,
            &mut lists.their_heads,
            &mut lists.their_need,
        ] {
            list.resize(LIST_SIZE, 0);
        }
        lists.haves.resize(HAVES_WORDS, 0);
        // What is kept of haves stands in the message, but for the numbers between, so a
        // short message wants no more room than it has bytes, and a long one no more than
        // the limits allow.
        let room = lists.bytes.len().max(message.len().min(HAVES_SIZE));
        lists.bytes.resize(room, 0);
        let words = self.index.beside(table, |index| {
            raw::receive(
                session,
                &mut lists.shared,
                &mut lists.last_sent,
                &mut lists.their_heads,
                &mut lists.their_need,
                &mut lists.haves,
                &mut lists.bytes,
                &mut lists.sent,
                table,
                index,
                before,
                message,
                loaded.into(),
            )
        });
        self.trim();
        let taken = refusal::answer(words).map(|_| ());
        taken.map_err(|why| crate::explain::receiving(table, message, why))
    }
}
