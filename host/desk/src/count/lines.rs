//! A night in lines: the captures that are refused as they come, and a table in the end.

use super::manifest::Line;
use super::night::{Night, Tally};
use super::Capture;
use crate::paint::Paint;
use bisquetower::refusal::grouped;
use bisquetower::Refusal;

const HEADS: [&str; 7] = [
    "station",
    "captures",
    "refused",
    "entries",
    "field bits",
    "set bits",
    "contained of tested",
];

/// A line of a capture that is refused; none of another.
pub fn capture(capture: &Capture) -> String {
    match &capture.counted {
        Ok(_) => String::new(),
        Err(refusal) => refused(capture, refusal),
    }
}

fn refused(capture: &Capture, refusal: &Refusal) -> String {
    let (number, file) = (grouped(capture.line.number as u64), &capture.line.file);
    let have = capture
        .have
        .map_or(String::new(), |have| format!(", have {have}"));
    let bad = capture.bad_file(refusal);
    let of = match bad == file {
        true => String::new(),
        false => format!(" ({bad})"),
    };
    let refusal = Paint::of_output().bad(&refusal.to_string());
    format!("line {number}, {file}{have}: {refusal}{of}\n")
}

pub fn unread(number: usize, why: &str) -> String {
    let why = Paint::of_output().bad(why);
    format!("line {}: {why}\n", grouped(number as u64))
}

pub fn without_haves(line: &Line) -> String {
    let (number, file) = (grouped(line.number as u64), &line.file);
    format!("line {number}, {file}: a message without haves, in which there is nothing to count\n")
}

/// A row a station, and one of all.
pub fn night(night: &Night) -> String {
    let stations = night.stations().map(|(name, tally)| cells(name, tally));
    let all = cells("in all", &night.all);
    let rows: Vec<[String; 7]> = [HEADS.map(str::to_string)]
        .into_iter()
        .chain(stations)
        .chain([all])
        .collect();
    let widths: [usize; 7] = std::array::from_fn(|k| {
        let lengths = rows.iter().map(|row| row[k].chars().count());
        lengths.max().unwrap_or(0)
    });
    let last = rows.len() - 1;
    let line = |(k, row): (usize, &[String; 7])| match k == 0 || k == last {
        true => format!("{}\n", Paint::of_output().bold(&aligned(row, widths))),
        false => format!("{}\n", aligned(row, widths)),
    };
    rows.iter().enumerate().map(line).collect()
}

fn cells(name: &str, tally: &Tally) -> [String; 7] {
    let counts = tally.counts();
    let (contained, tested) = counts.share();
    [
        name.to_string(),
        grouped(tally.captures),
        grouped(tally.refused),
        grouped(counts.entries),
        grouped(counts.field_bits),
        grouped(counts.set_bits),
        format!("{} of {}", grouped(contained), grouped(tested)),
    ]
}

/// Names from the left, numbers to the right.
fn aligned(row: &[String; 7], widths: [usize; 7]) -> String {
    let cells = row.iter().zip(widths).enumerate();
    let cells: Vec<String> = cells
        .map(|(k, (cell, width))| match k {
            0 => format!("{cell:width$}"),
            _ => format!("{cell:>width$}"),
        })
        .collect();
    cells.join("  ")
}
