//! The crate's own unit.

use super::{Heard, Unit};
use crate::model::session::Value;
use crate::sessions::published::{state, value};
use crate_under_test::facade::{Automerge, Message, State, SyncDoc};

struct Published {
    document: Automerge,
    state: State,
}

/// A unit of the crate.
pub fn published(document: Automerge, session: Value) -> Box<dyn Unit> {
    let state = state(&session);
    Box::new(Published { document, state })
}

impl Unit for Published {
    fn speak(&mut self) -> Option<Vec<u8>> {
        let message = self.document.generate_sync_message(&mut self.state);
        message.map(Message::encode)
    }

    fn hear(&mut self, message: &[u8]) -> Heard {
        let Ok(message) = Message::decode(message) else {
            return Heard::NotRead;
        };
        match self.document.receive_sync_message(&mut self.state, message) {
            Ok(()) => Heard::Taken,
            Err(_) => Heard::NotLoaded,
        }
    }

    fn set_read_only(&mut self, on: bool) {
        self.state.set_read_only(on);
    }

    fn save(&self) -> Vec<u8> {
        self.state.encode()
    }

    fn restore(&mut self, state: &[u8]) {
        self.state = State::decode(state).expect("a saved state");
    }

    fn session(&self) -> Value {
        value(&self.state)
    }

    fn document(&mut self) -> &mut Automerge {
        &mut self.document
    }
}
