//! Saved states with a hash more than once, as older units left them: what the crate
//! writes of one that it read, and what it writes once it has heard a message.

use super::{bytes_column, bytes_of, list_column, list_of, row_item, row_of};
use crate::inputs::message::Draft;
use crate::inputs::session::Hearing;
use crate::inputs::table::{table_bytes, Row};
use crate::inputs::Random;
use crate::model::number_bytes;
use crate::model::table::Hash;
use crate::published;
use crate::sessions::publish;
use crate::sessions::published::value;

#[derive(Clone, Debug)]
pub struct Record {
    pub input: Vec<u8>,
    pub rows: Vec<Row>,
    pub message: Vec<u8>,
    /// The state written again.
    pub written: Vec<u8>,
    /// The state written after the message.
    pub after: Vec<u8>,
}

impl super::Record for Record {
    const FILE: &'static str = "host/compare/samples/repeats.txt";
    const COLUMNS: &'static str = "a saved state; rows (hash:row.row, with the rows it depends \
        on); a message; the state encoded again; the state encoded after the message";

    fn sample() -> Vec<Record> {
        let mut random = Random(0x7265_7065_6174_7321);
        let mut hash = || -> Hash { random.bytes(32).try_into().expect("32 bytes") };
        let [a, b, strange, unknown] = std::array::from_fn(|_| hash());
        let states = [
            vec![a, a],
            vec![b, a, b],
            vec![strange, a, strange, a],
            vec![a, b, strange],
        ];
        // A hash that is heard again, one that is new, none that is held; the same where
        // all are held: in any order, more than once, and no head at all.
        let heard = [
            vec![a, unknown],
            vec![unknown, b, unknown],
            vec![unknown],
            vec![a],
            vec![b, a, b],
            vec![],
        ];
        let rows: Vec<Row> = [a, b]
            .map(|hash| Row {
                hash,
                dependencies: Vec::new(),
            })
            .to_vec();
        let pairs = states
            .iter()
            .flat_map(|shared| heard.iter().map(move |heads| (shared, heads)));
        pairs
            .map(|(shared, heads)| record(shared, &rows, heads))
            .collect()
    }

    fn columns(&self) -> Vec<String> {
        vec![
            bytes_column(&self.input),
            list_column(&self.rows, row_item),
            bytes_column(&self.message),
            bytes_column(&self.written),
            bytes_column(&self.after),
        ]
    }

    fn of(columns: &[&str]) -> Option<Record> {
        let [input, rows, message, written, after] = columns else {
            return None;
        };
        Some(Record {
            input: bytes_of(input)?,
            rows: list_of(rows, row_of)?,
            message: bytes_of(message)?,
            written: bytes_of(written)?,
            after: bytes_of(after)?,
        })
    }
}

fn record(shared: &[Hash], rows: &[Row], heads: &[Hash]) -> Record {
    let count = number_bytes(shared.len() as u64);
    let input = [&[0x43][..], &count, &shared.concat()].concat();
    let message = Draft {
        heads: heads.to_vec(),
        ..Draft::new()
    };
    let state = published::read_state(&input).expect("a state");
    let hearing = Hearing {
        table: table_bytes(rows),
        session: value(&state),
        message: message.bytes(),
        loaded: true,
    };
    let heard = publish(&hearing).expect("a message");
    Record {
        input,
        rows: rows.to_vec(),
        message: hearing.message,
        written: state.encode(),
        after: heard.state.encode(),
    }
}
