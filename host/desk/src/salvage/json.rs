//! What was salvaged, as JSON.

use super::Done;
use crate::json::{document, list, object, option, string};
use crate::rows::Rows;
use bisquetower::{Dropped, Rule};

pub fn report(done: &Done) -> String {
    let salvaged = &done.salvaged;
    let report: Vec<String> = salvaged.report.iter().map(|one| entry(done, one)).collect();
    let by_rule = Rule::ALL.map(|rule| (rule.name(), done.dropped_by(rule).to_string()));
    document(&[
        ("kept", salvaged.table.rows().to_string()),
        ("dropped", salvaged.report.len().to_string()),
        ("partial", salvaged.partial.to_string()),
        ("widened", (done.rows == Rows::Before).to_string()),
        ("rules", object(&by_rule)),
        ("report", list(&report)),
    ])
}

/// `bytes` are those of the field that broke the rule, in hexadecimal.
fn entry(done: &Done, dropped: &Dropped) -> String {
    let field = done.field(dropped);
    let hex = field.map(|(_, bytes)| {
        let hex: String = bytes.iter().map(|byte| format!("{byte:02x}")).collect();
        string(&hex)
    });
    object(&[
        ("row", dropped.row.to_string()),
        ("rule", dropped.rule.number().to_string()),
        ("broke", string(dropped.rule.name())),
        ("why", string(&dropped.to_string())),
        ("place", option(field.map(|(place, _)| place))),
        ("bytes", option(hex)),
    ])
}
