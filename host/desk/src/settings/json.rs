//! Settings as JSON.

use super::{Answer, Shown};
use crate::json::{document, list, object, option};
use crate::rate::expected;
use bisquetower::{Choice, Setting};

type Fields = Vec<(&'static str, String)>;

pub fn records(shown: &Shown) -> String {
    let records = shown.records.iter().map(|one| setting(one, shown.rows));
    let records: Vec<String> = records.map(|fields| object(&fields)).collect();
    document(&[
        ("version", shown.list.version().to_string()),
        ("rows", shown.rows.to_string()),
        ("records", list(&records)),
    ])
}

/// `record` is the version of the record that says so.
pub fn answer(answer: &Answer) -> String {
    let mut fields = vec![
        ("station", answer.station.to_string()),
        ("version", answer.version.to_string()),
        ("record", option(answer.record)),
    ];
    fields.extend(choice(answer.choice, answer.rows));
    document(&fields)
}

pub fn appended(one: &Setting, rows: usize) -> String {
    document(&setting(one, rows))
}

fn setting(one: &Setting, rows: usize) -> Fields {
    let mut fields = vec![
        ("version", one.version.to_string()),
        ("station", one.station.to_string()),
    ];
    fields.extend(choice(one.choice, rows));
    fields
}

fn choice(choice: Choice, rows: usize) -> Fields {
    vec![
        ("bits", choice.bits.to_string()),
        ("probes", choice.probes.to_string()),
        ("read_only", choice.read_only.to_string()),
        ("false_yes", format!("{:.3e}", expected(choice, rows))),
    ]
}
