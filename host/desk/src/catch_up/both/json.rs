//! The talk of two ends as JSON.

use super::{Both, Exchange, Turn, STATION, VALIDATOR};
use crate::json::{document, list, object, option};

pub fn text(both: &Both) -> String {
    let exchanges: Vec<String> = both.exchanges.iter().map(exchange).collect();
    let fields = [
        ("station_rows", both.rows[STATION].to_string()),
        ("validator_rows", both.rows[VALIDATOR].to_string()),
        ("joint_rows", both.joint().to_string()),
        ("validator_lacked", both.lacked[VALIDATOR].to_string()),
        ("station_lacked", both.lacked[STATION].to_string()),
        ("bits", both.choice.bits.to_string()),
        ("probes", both.choice.probes.to_string()),
        ("budget", option(both.budget)),
        ("largest_change", both.largest.to_string()),
        ("bound", both.bound().to_string()),
        ("by_list", both.by_list().to_string()),
        ("silent", both.silent.to_string()),
        ("station_holds", both.held[STATION].to_string()),
        ("validator_holds", both.held[VALIDATOR].to_string()),
        ("proved", both.proved().to_string()),
        ("took", option(both.took())),
        ("messages", both.messages.to_string()),
        ("bytes", both.bytes.to_string()),
        ("exchanges", list(&exchanges)),
    ];
    document(&fields)
}

fn exchange(turns: &Exchange) -> String {
    let [validator, station] = turns.each_ref().map(turn);
    object(&[("validator", validator), ("station", station)])
}

fn turn(turn: &Turn) -> String {
    let body = if turn.document { "document" } else { "list" };
    let fields = [
        ("held", turn.held.to_string()),
        ("asked", turn.need.to_string()),
        ("false_yes", option(turn.false_yes)),
        ("sent", turn.sent.to_string()),
        ("body", format!("\"{body}\"")),
        ("left", turn.left.to_string()),
        ("waiting", turn.waiting.to_string()),
        ("missing", turn.missing.to_string()),
        ("bytes", turn.bytes.to_string()),
    ];
    object(&fields)
}
