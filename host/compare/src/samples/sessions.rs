//! Steps of a session: what the crate says next and the session after it, and the
//! session after a message. The documents are the stand-in's.

use super::{bytes_column, bytes_of, list_column, list_of, number_of};
use super::{row_item, row_of, rows_of};
use crate::inputs::table::{table_bytes, Row, WaitingRow};
use crate::inputs::Random;
use crate::model::plan::{answer_words, Plan, ANSWER_WORDS, A_MESSAGE, A_RESET, NOTHING};
use crate::model::receive::Said;
use crate::model::session::laid;
use crate::model::state::WORDS;
use crate::model::table::{hashes_of, Hash, HASH, WAITING_ROW};
use crate::sessions::lent::Lent;
use crate::sessions::publish;
use crate::sessions::published::{plan_of, state, value};
use crate::tables::document;
use crate_under_test::facade::SyncDoc;

#[derive(Clone, Debug)]
pub struct Record {
    pub before: Lent,
    pub rows: Vec<Row>,
    pub step: Step,
    pub after: Lent,
}

#[derive(Clone, Debug)]
pub enum Step {
    Plan {
        waiting: Vec<WaitingRow>,
        answer: Vec<u64>,
        /// As `lists_of` has them.
        lists: [Vec<u8>; 4],
    },
    Receive {
        rows_before: usize,
        loaded: bool,
        message: Vec<u8>,
        /// The answer's first word: 0, or 8.
        answer: u64,
    },
}

impl Record {
    pub fn table(&self) -> Vec<u8> {
        table_bytes(&self.rows)
    }

    /// Nothing is said, a reset, a message without a body, with a list, with the
    /// document; a message is taken and brings rows or none, or can't be loaded.
    pub fn kind(&self) -> usize {
        match &self.step {
            Step::Plan { answer, .. } => match (answer[1], answer[4], answer[15]) {
                (NOTHING, ..) => 0,
                (A_RESET, ..) => 1,
                (_, 0, 0) => 2,
                (_, 0, _) => 3,
                _ => 4,
            },
            Step::Receive {
                rows_before,
                answer,
                ..
            } => match (answer, self.rows.len() > *rows_before) {
                (0, true) => 5,
                (0, false) => 6,
                _ => 7,
            },
        }
    }
}

pub const KINDS: usize = 8;

/// How many steps of each kind, over fewer than how many rows.
pub const OF_EACH: usize = 10;
const ROWS: usize = 6;

/// The refusal of a message whose changes couldn't be loaded.
const NOT_LOADED: u64 = 8;

const PLAN: &str = "plan";
const RECEIVE: &str = "receive";

impl super::Record for Record {
    const FILE: &'static str = "host/compare/samples/sessions.txt";
    const COLUMNS: &'static str = "session (words; shared; last sent; their heads; \
        their need; haves; bytes; sent); rows (hash:row.row, with the rows it depends on); \
        `plan`, waiting rows (hash:hash.hash), answer, heads, need, have, hashes; or \
        `receive`, rows before, loaded, message, answer; the session afterwards";

    fn sample() -> Vec<Record> {
        let mut random = Random(0x7365_7373_696f_6e73);
        let (mut records, mut seen) = (Vec::new(), [0; KINDS]);
        while seen.iter().any(|&count| count < OF_EACH) {
            let made = match random.one_in(2) {
                true => Some(planned(&mut random)),
                false => received(&mut random),
            };
            if let Some(record) = made.filter(|record| seen[record.kind()] < OF_EACH) {
                seen[record.kind()] += 1;
                records.push(record);
            }
        }
        records
    }

    fn columns(&self) -> Vec<String> {
        let mut columns = session_columns(&self.before);
        columns.push(list_column(&self.rows, row_item));
        columns.extend(match &self.step {
            Step::Plan {
                waiting,
                answer,
                lists,
            } => {
                let mut columns = vec![PLAN.to_string(), list_column(waiting, waiting_item)];
                columns.push(words_column(answer));
                columns.extend(lists.iter().map(|list| bytes_column(list)));
                columns
            }
            Step::Receive {
                rows_before,
                loaded,
                message,
                answer,
            } => vec![
                RECEIVE.to_string(),
                format!("{rows_before:x}"),
                u64::from(*loaded).to_string(),
                bytes_column(message),
                answer.to_string(),
            ],
        });
        columns.extend(session_columns(&self.after));
        columns
    }

    fn of(columns: &[&str]) -> Option<Record> {
        let (before, columns) = columns.split_at_checked(SESSION_COLUMNS)?;
        let (rows, columns) = columns.split_first()?;
        let end = columns.len().checked_sub(SESSION_COLUMNS)?;
        let (step, after) = columns.split_at_checked(end)?;
        Some(Record {
            before: session_of(before)?,
            rows: list_of(rows, row_of)?,
            step: step_of(step)?,
            after: session_of(after)?,
        })
    }
}

fn step_of(columns: &[&str]) -> Option<Step> {
    match *columns {
        [PLAN, waiting, answer, heads, need, have, hashes] => Some(Step::Plan {
            waiting: list_of(waiting, waiting_of)?,
            answer: list_of(answer, number_of)?,
            lists: [
                bytes_of(heads)?,
                bytes_of(need)?,
                bytes_of(have)?,
                bytes_of(hashes)?,
            ],
        }),
        [RECEIVE, rows_before, loaded, message, answer] => Some(Step::Receive {
            rows_before: number_of(rows_before)?.try_into().ok()?,
            loaded: number_of(loaded)? != 0,
            message: bytes_of(message)?,
            answer: number_of(answer)?,
        }),
        _ => None,
    }
}

const SESSION_COLUMNS: usize = 8;

fn session_columns(s: &Lent) -> Vec<String> {
    vec![
        words_column(&s.words),
        bytes_column(&s.shared),
        bytes_column(&s.last_sent),
        bytes_column(&s.their_heads),
        bytes_column(&s.their_need),
        words_column(&s.haves),
        bytes_column(&s.bytes),
        bytes_column(&s.sent),
    ]
}

fn session_of(columns: &[&str]) -> Option<Lent> {
    let [words, shared, last_sent, their_heads, their_need, haves, bytes, sent] = columns else {
        return None;
    };
    let words: [u64; WORDS] = list_of(words, number_of)?.try_into().ok()?;
    Some(Lent {
        words,
        shared: bytes_of(shared)?,
        last_sent: bytes_of(last_sent)?,
        their_heads: bytes_of(their_heads)?,
        their_need: bytes_of(their_need)?,
        haves: list_of(haves, number_of)?,
        bytes: bytes_of(bytes)?,
        sent: bytes_of(sent)?,
    })
}

fn words_column(words: &[u64]) -> String {
    list_column(words, |word| format!("{word:x}"))
}

fn waiting_item(row: &WaitingRow) -> String {
    let on = row.dependencies.iter().map(|hash| bytes_column(hash));
    let on: Vec<String> = on.collect();
    format!("{}:{}", bytes_column(&row.hash), on.join("."))
}

fn waiting_of(item: &str) -> Option<WaitingRow> {
    let (hash, on) = item.split_once(':')?;
    let hash_of = |column: &str| -> Option<Hash> { bytes_of(column)?.try_into().ok() };
    let on = on.split('.').filter(|hash| !hash.is_empty());
    Some(WaitingRow {
        hash: hash_of(hash)?,
        dependencies: on.map(hash_of).collect::<Option<_>>()?,
    })
}

/// A step in which the crate plans. Only a reset is said and leaves the session.
fn planned(random: &mut Random) -> Record {
    let saying = random.saying(0..ROWS);
    let mut after = state(&saying.session);
    let said = document(&saying.table, &saying.waiting).generate_sync_message(&mut after);
    let after = value(&after);
    let (answer, lists) = match said.as_ref().map(plan_of) {
        None => ([0; ANSWER_WORDS], Default::default()),
        Some(plan) => {
            let reset = after == saying.session;
            let what = if reset { A_RESET } else { A_MESSAGE };
            (answer_words(what, &plan), lists_of(&plan))
        }
    };
    Record {
        before: Lent::laid(&saying.session),
        rows: rows_of(&saying.table),
        step: Step::Plan {
            waiting: waiting_rows(&saying.waiting),
            answer: answer.to_vec(),
            lists,
        },
        after: Lent::laid(&after),
    }
}

/// Heads, need, the have's bytes and the hashes of the body.
pub fn lists_of(plan: &Plan) -> [Vec<u8>; 4] {
    let (_, have) = laid(&plan.haves);
    [
        plan.heads.concat(),
        plan.need.concat(),
        have,
        plan.hashes.concat(),
    ]
}

fn waiting_rows(lent: &[u8]) -> Vec<WaitingRow> {
    let row = |record: &[u8]| {
        let hashes = hashes_of(record);
        let used = usize::from(record[HASH]);
        WaitingRow {
            hash: hashes[0],
            dependencies: hashes[2..2 + used].to_vec(),
        }
    };
    lent.chunks(WAITING_ROW).map(row).collect()
}

/// A step in which the crate hears a message; none if it can't be read or passes a
/// limit.
fn received(random: &mut Random) -> Option<Record> {
    let hearing = random.hearing(0..ROWS);
    Said::of(&hearing.message).ok()?;
    let outcome = publish(&hearing)?;
    Some(Record {
        before: Lent::laid(&hearing.session),
        rows: rows_of(&outcome.table),
        step: Step::Receive {
            rows_before: outcome.before,
            loaded: outcome.loaded,
            message: hearing.message,
            answer: if outcome.taken { 0 } else { NOT_LOADED },
        },
        after: Lent::laid(&value(&outcome.state)),
    })
}
