//! A night as JSON: an object a line, of each capture, then of each station, then of all.

use super::night::{Night, Tally};
use super::Capture;
use crate::json::{object, option, string};
use bisquetower::Counts;

type Fields = Vec<(&'static str, String)>;

pub fn capture(capture: &Capture) -> String {
    let line = capture.line;
    let mut fields = vec![
        ("kind", string("capture")),
        ("line", line.number.to_string()),
        ("station", string(&line.station)),
        ("file", string(&line.file)),
        ("have", option(capture.have)),
        ("sender", string(&line.sender)),
        ("listener", string(&line.listener)),
    ];
    match &capture.counted {
        Ok(counted) => fields.extend(counts(*counted)),
        Err(refusal) => fields.extend([
            ("refusal", refusal.number.to_string()),
            ("value", refusal.value.to_string()),
            ("why", string(&refusal.sentence())),
            ("bad_file", string(capture.bad_file(refusal))),
        ]),
    }
    object(&fields) + "\n"
}

pub fn unread(number: usize, why: &str) -> String {
    let fields = [
        ("kind", string("unread")),
        ("line", number.to_string()),
        ("why", string(why)),
    ];
    object(&fields) + "\n"
}

pub fn night(night: &Night) -> String {
    let mut text = String::new();
    for (name, tally) in night.stations() {
        let mut fields = vec![("kind", string("station")), ("station", string(name))];
        fields.extend(totals(tally));
        text += &(object(&fields) + "\n");
    }
    let mut fields = vec![("kind", string("totals"))];
    fields.extend(totals(&night.all));
    fields.push(("unread", night.unread.to_string()));
    text + &object(&fields) + "\n"
}

fn totals(tally: &Tally) -> Fields {
    let mut fields = vec![
        ("captures", tally.captures.to_string()),
        ("refused", tally.refused.to_string()),
    ];
    fields.extend(counts(tally.counts()));
    fields
}

fn counts(counts: Counts) -> Fields {
    vec![
        ("entries", counts.entries.to_string()),
        ("field_bits", counts.field_bits.to_string()),
        ("set_bits", counts.set_bits.to_string()),
        ("tested", counts.tested.to_string()),
        ("contained", counts.contained.to_string()),
    ]
}
