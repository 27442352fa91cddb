//! A talk as JSON.

use super::premises::{Difference, How};
use super::talk::{Round, Talk};
use crate::json::{document, list, object, option};

pub fn text(talk: &Talk) -> String {
    let rounds: Vec<String> = talk.rounds.iter().map(round).collect();
    let differs = talk.differs.as_ref();
    let differs = differs.map_or("null".to_string(), difference);
    let fields = [
        ("station_rows", talk.station_rows.to_string()),
        ("validator_rows", talk.validator_rows.to_string()),
        ("missing", talk.missing.to_string()),
        ("foreign", talk.foreign.to_string()),
        ("bits", talk.choice.bits.to_string()),
        ("probes", talk.choice.probes.to_string()),
        ("read_only", talk.choice.read_only.to_string()),
        ("budget", option(talk.budget)),
        ("largest_change", talk.largest.to_string()),
        ("premises", talk.differs.is_none().to_string()),
        ("contradict", talk.contradiction().is_some().to_string()),
        ("differs", differs),
        ("bound", option(talk.bound())),
        ("by_list", talk.by_list().to_string()),
        ("silent", talk.silent.to_string()),
        ("station_holds", talk.held[0].to_string()),
        ("validator_holds", talk.held[1].to_string()),
        ("holds", talk.holds.to_string()),
        ("proved", talk.proved().to_string()),
        ("took", option(talk.took())),
        ("messages", talk.messages.len().to_string()),
        ("bytes", talk.bytes().to_string()),
        ("rounds", list(&rounds)),
    ];
    document(&fields)
}

/// The row of the validator's that isn't as the station has it: `lacks` a dependency of
/// the station's row, `adds` one, or is `unknown` there.
fn difference(differs: &Difference) -> String {
    let (how, station) = match differs.how {
        How::Unknown => ("unknown", None),
        How::Lacks {
            station_row,
            dependency,
        } => ("lacks", Some((station_row, dependency))),
        How::Adds {
            station_row,
            dependency,
        } => ("adds", Some((station_row, dependency))),
    };
    let dependency = station.map_or("null".to_string(), |(_, hash)| format!("\"{hash}\""));
    let fields = [
        ("row", differs.row.to_string()),
        ("hash", format!("\"{}\"", differs.hash)),
        ("how", format!("\"{how}\"")),
        ("station_row", option(station.map(|(row, _)| row))),
        ("dependency", dependency),
    ];
    object(&fields)
}

fn round(round: &Round) -> String {
    let body = if round.document { "document" } else { "list" };
    let fields = [
        ("held", round.held.to_string()),
        ("asked", round.need.to_string()),
        ("false_yes", option(round.false_yes)),
        ("sent", round.sent.to_string()),
        ("body", format!("\"{body}\"")),
        ("left", round.left.to_string()),
        ("waiting", round.waiting.to_string()),
        ("missing", round.missing.to_string()),
        ("bytes_to_station", round.asked_bytes.to_string()),
        ("bytes_to_validator", round.reply_bytes.to_string()),
    ];
    object(&fields)
}
