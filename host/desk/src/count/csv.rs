//! A night as CSV: a row a capture, and of a line that can't be read, so that a spreadsheet
//! sums as it likes.

use super::Capture;

pub const HEADS: &str = "line,station,file,have,sender,listener,entries,field_bits,set_bits,tested,contained,refusal,value,why\n";

pub fn capture(capture: &Capture) -> String {
    let line = capture.line;
    let have = capture.have.map_or(String::new(), |have| have.to_string());
    let [station, file, sender, listener] =
        [&line.station, &line.file, &line.sender, &line.listener].map(|name| cell(name));
    let came = match &capture.counted {
        Ok(counts) => format!(
            "{},{},{},{},{},,,",
            counts.entries, counts.field_bits, counts.set_bits, counts.tested, counts.contained
        ),
        Err(refusal) => {
            let why = cell(&refusal.sentence());
            format!(",,,,,{},{},{why}", refusal.number, refusal.value)
        }
    };
    let number = line.number;
    format!("{number},{station},{file},{have},{sender},{listener},{came}\n")
}

pub fn unread(number: usize, why: &str) -> String {
    format!("{number},,,,,,,,,,,,,{}\n", cell(why))
}

/// A cell in quotes where what it holds would end it.
fn cell(text: &str) -> String {
    match text.contains([',', '"', '\n', '\r']) {
        true => format!("\"{}\"", text.replace('"', "\"\"")),
        false => text.to_string(),
    }
}
