//! The steps of a session: the proved library against the model in every word and
//! byte, and against the crate's own steps. `compare::sessions` says what is held
//! against what.

#[path = "sessions/literal.rs"]
mod literal;
#[path = "sessions/numbers.rs"]
mod numbers;
#[path = "sessions/random.rs"]
mod random;
#[path = "sessions/refused_plans.rs"]
mod refused_plans;
#[path = "sessions/refused_receipts.rs"]
mod refused_receipts;
#[path = "sessions/rooms.rs"]
mod rooms;
#[path = "sessions/talks.rs"]
mod talks;

use compare::inputs::message::Draft;
use compare::inputs::table::{table_bytes, Row};
use compare::model::session::Value;
use compare::model::table::{Hash, ROW};
use compare::sessions::lent::Lent;
use compare::sessions::library::{Planning, Receiving};

/// A hash that is told from others by its first bytes.
fn hash(n: u16) -> Hash {
    let mut hash = [0x11; 32];
    hash[..2].copy_from_slice(&n.to_be_bytes());
    hash
}

fn hashes(numbers: impl IntoIterator<Item = u16>) -> Vec<Hash> {
    numbers.into_iter().map(hash).collect()
}

/// Rows with these hashes, each on the rows that are told.
fn table(rows: &[(u16, &[usize])]) -> Vec<u8> {
    let rows = rows.iter().map(|&(n, on)| Row {
        hash: hash(n),
        dependencies: on.to_vec(),
    });
    table_bytes(&rows.collect::<Vec<Row>>())
}

/// A call that plans, with room to spare.
fn planning(session: &Value, table: &[u8]) -> Planning {
    Planning::new(Lent::laid(session), table.to_vec(), Vec::new())
}

/// A call that receives, with room to spare; nothing was loaded.
fn receiving(session: &Value, table: &[u8], message: &Draft) -> Receiving {
    let rows = table.len() / ROW;
    Receiving::new(
        Lent::laid(session),
        table.to_vec(),
        rows,
        message.bytes(),
        1,
    )
}
