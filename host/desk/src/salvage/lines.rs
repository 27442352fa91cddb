//! What was salvaged, in lines.

use super::Done;
use crate::text::{number, short, Columns};
use bisquetower::{ChangeHash, Dropped, Rule};

/// A line for each dropped row: what broke, and the bytes that did.
pub fn report(done: &Done) -> String {
    let report = done.salvaged.report.iter();
    report.map(|dropped| line(done, dropped)).collect()
}

fn line(done: &Done, dropped: &Dropped) -> String {
    let Some((place, bytes)) = done.field(dropped) else {
        return format!("{dropped}\n");
    };
    let name = match dropped.rule {
        Rule::Count => "count",
        Rule::RepeatedHash => "hash",
        Rule::RowNumbers | Rule::Zeros | Rule::LostDependency => "number",
    };
    let place = number(place);
    format!("{dropped} ({name} {} at place {place})\n", hex(bytes))
}

/// A hash in short, and the bytes of a number one by one.
fn hex(bytes: &[u8]) -> String {
    if let Ok(hash) = ChangeHash::try_from(bytes) {
        return short(&hash);
    }
    let bytes: Vec<String> = bytes.iter().map(|byte| format!("{byte:02x}")).collect();
    bytes.join(" ")
}

/// How much was kept and dropped, and what to do next.
pub fn summary(done: &Done) -> String {
    let (from, to) = (done.from.display(), done.to.display());
    let title = format!(
        "{to}: what is kept of {from}{}\n",
        done.rows.told_of_widened()
    );
    title + &columns(done).to_string() + &next(done)
}

fn columns(done: &Done) -> Columns {
    let salvaged = &done.salvaged;
    let mut columns = Columns::default();
    columns.row("rows kept", &number(salvaged.table.rows()), "");
    columns.row("rows dropped", &number(salvaged.report.len()), "");
    for rule in Rule::ALL {
        let dropped = done.dropped_by(rule);
        if dropped > 0 {
            columns.row(rule.name(), &number(dropped), &rule.to_string());
        }
    }
    if salvaged.partial > 0 {
        let told = "bytes of a last row that isn't whole";
        columns.row("partial row", &number(salvaged.partial), told);
    }
    columns
}

fn next(done: &Done) -> String {
    let told = match done.salvaged.is_whole() {
        true => "Nothing was hurt: every row is kept as it is.",
        false => "Next: have the unit catch up with its station from these rows: it is sent what is missing.",
    };
    format!("{told}\n")
}
