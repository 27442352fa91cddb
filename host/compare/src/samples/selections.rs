//! Hashes to send: what the crate's `get_hashes_to_send` chooses from small
//! graphs, with filters so crowded that false yeses are frequent. The graph that
//! it is asked over is the stand-in's.

use super::{bytes_column, bytes_of, list_column, list_of, number_of};
use super::{row_item, row_of, rows_of};
use crate::inputs::selection::{lend, Case};
use crate::inputs::table::{table_bytes, Row};
use crate::inputs::Random;
use crate::selections::published;

#[derive(Clone, Debug)]
pub struct Record {
    pub rows: Vec<Row>,
    /// What the places of the haves count in.
    pub s: Vec<u8>,
    pub haves: Vec<u64>,
    pub need: Vec<u8>,
    pub chosen: Vec<u8>,
}

impl Record {
    pub fn table(&self) -> Vec<u8> {
        table_bytes(&self.rows)
    }
}

/// How many graphs, and fewer than how many rows and haves each.
const GRAPHS: usize = 60;
const ROWS: usize = 25;
const HAVES: usize = 4;

impl super::Record for Record {
    const FILE: &'static str = "host/compare/samples/selections.txt";
    const COLUMNS: &'static str = "rows (hash:row.row, with the rows it depends on); bytes; haves as words over them; need; the hashes to send";

    fn sample() -> Vec<Record> {
        let mut random = Random(0x7365_6e64);
        (0..GRAPHS).map(|_| record(&mut random)).collect()
    }

    fn columns(&self) -> Vec<String> {
        vec![
            list_column(&self.rows, row_item),
            bytes_column(&self.s),
            list_column(&self.haves, |word| format!("{word:x}")),
            bytes_column(&self.need),
            bytes_column(&self.chosen),
        ]
    }

    fn of(columns: &[&str]) -> Option<Record> {
        let [rows, s, haves, need, chosen] = columns else {
            return None;
        };
        Some(Record {
            rows: list_of(rows, row_of)?,
            s: bytes_of(s)?,
            haves: list_of(haves, number_of)?,
            need: bytes_of(need)?,
            chosen: bytes_of(chosen)?,
        })
    }
}

/// A graph without waiting rows, so that a record says all that the crate saw.
fn record(random: &mut Random) -> Record {
    let case = Case {
        waiting: Vec::new(),
        ..random.case(0..ROWS, 0..HAVES)
    };
    let (s, haves) = lend(&case.haves, random);
    Record {
        rows: rows_of(&case.table),
        s,
        haves,
        need: case.need.concat(),
        chosen: published(&case).concat(),
    }
}
