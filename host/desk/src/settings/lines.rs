//! Settings in lines.

use super::{Answer, Shown};
use crate::paint::Paint;
use crate::rate::{expected, told};
use crate::text::{count, number};
use bisquetower::{Choice, Setting};

const HEADS: [&str; 6] = [
    "version",
    "station",
    "bits",
    "probes",
    "read-only",
    "false yes",
];

/// A list's records, with a title.
pub fn records(shown: &Shown) -> String {
    let title = match shown.station {
        None => "a settings list".to_string(),
        Some(station) => format!("a settings list, of station {}", shown_number(station)),
    };
    format!("{}{}", Paint::of_output().bold(&title), table(shown))
}

/// The records before the first bad one.
pub fn before_bad(shown: &Shown) -> String {
    let title = "a bad settings list; of its records before the first bad one";
    format!("{}{}", Paint::of_output().bad(title), table(shown))
}

fn table(shown: &Shown) -> String {
    let all = count(shown.list.records().len(), "record");
    let newest = shown_number(shown.list.version());
    let of = match shown.station {
        None => all,
        Some(_) => format!("{} of {all}", number(shown.records.len())),
    };
    if shown.records.is_empty() {
        let who = match shown.station {
            None => "every station".to_string(),
            Some(_) => "it".to_string(),
        };
        let choice = choice(Choice::default(), shown.rows);
        return format!(", {of}: {who} has the crate's {choice}\n");
    }
    let rows = count(shown.rows, "row");
    let lines = columns(&shown.records, shown.rows);
    format!(
        ", {of}, the newest version {newest}\n{lines}\
         False yes: expected of a filter over {rows}, for a change that isn't in it.\n"
    )
}

/// A line a record, in columns as wide as what stands in them.
fn columns(records: &[Setting], rows: usize) -> String {
    let heads = HEADS.map(str::to_string);
    let cells: Vec<[String; 6]> = records.iter().map(|one| cells(one, rows)).collect();
    let widths: [usize; 6] = std::array::from_fn(|k| {
        let lengths = cells.iter().map(|row| row[k].len());
        lengths.fold(heads[k].len(), usize::max)
    });
    let mut text = format!("{}\n", Paint::of_output().bold(&line(&heads, widths)));
    for row in &cells {
        text += &format!("{}\n", line(row, widths));
    }
    text
}

fn cells(setting: &Setting, rows: usize) -> [String; 6] {
    let Setting {
        version,
        station,
        choice,
    } = *setting;
    [
        shown_number(version),
        shown_number(station),
        shown_number(choice.bits),
        shown_number(choice.probes),
        switched(choice.read_only).to_string(),
        told(expected(choice, rows)),
    ]
}

fn line(cells: &[String; 6], widths: [usize; 6]) -> String {
    let cells = cells.iter().zip(widths);
    let cells: Vec<String> = cells
        .map(|(cell, width)| format!("{cell:>width$}"))
        .collect();
    cells.join("  ")
}

pub fn answer(answer: &Answer) -> String {
    let (station, version) = (shown_number(answer.station), shown_number(answer.version));
    let newest = if answer.newest { ", the newest" } else { "" };
    let choice = choice(answer.choice, answer.rows);
    let by = match answer.record {
        Some(record) => format!("as version {} has it", shown_number(record)),
        None => "as the crate has it, since no record of the station is there".to_string(),
    };
    format!("station {station} at version {version}{newest}: {choice}; {by}\n")
}

pub fn appended(setting: &Setting, rows: usize) -> String {
    let (version, station) = (shown_number(setting.version), shown_number(setting.station));
    let choice = choice(setting.choice, rows);
    format!("version {version}, from which on station {station} has {choice}\n")
}

fn choice(choice: Choice, rows: usize) -> String {
    let bits = count(choice.bits as usize, "bit");
    let probes = count(choice.probes as usize, "probe");
    let (read_only, rate) = (switched(choice.read_only), told(expected(choice, rows)));
    format!("{bits}, {probes} (false yes {rate}) and read-only {read_only}")
}

fn switched(on: bool) -> &'static str {
    if on {
        "on"
    } else {
        "off"
    }
}

fn shown_number(n: u32) -> String {
    number(n as usize)
}
