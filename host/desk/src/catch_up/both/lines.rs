//! The talk of two ends in lines.

use super::{Both, Exchange, Turn, STATION, VALIDATOR};
use crate::catch_up::lines::{budget, chosen, line};
use crate::paint::Paint;
use crate::text::{count, number};

/// The columns of each end.
const HEADS: [&str; 6] = ["held", "asked", "sent", "left", "waiting", "bytes"];

/// The column of what is left, which is shown where there is a budget or something is left.
const LEFT: usize = 3;

/// How much further the columns of an end are apart from what stands before them.
const APART: usize = 2;

pub fn text(both: &Both) -> String {
    let paint = Paint::of_output();
    let [validator, station] = both.rows.map(|rows| count(rows, "row"));
    let [j, k] = both.lacked.map(number);
    let mut text = format!(
        "A validator of {validator} that lacks {j}, and a station of {station} that lacks {k}.\n{}\n",
        chosen(both.choice) + &budget(both.budget, both.largest),
    );
    if !both.exchanges.is_empty() {
        text += &format!("{}\n", exchanges(both, paint));
    }
    text += &outcome(both, paint);
    let messages = count(both.messages, "message");
    text + &format!("{messages}, {} in all.\n", count(both.bytes, "byte"))
}

fn outcome(both: &Both, paint: Paint) -> String {
    let Some(took) = both.took() else {
        return format!("{}.\n", paint.bad(&format!("It failed: {}", ended(both))));
    };
    let (took, joint) = (count(took, "exchange"), count(both.joint(), "row"));
    let done = paint.good(&format!("After {took} both ends hold {joint}"));
    format!("{done}; {}.\n", promise(both))
}

/// The bound, and whether it is proved of such a talk.
pub fn promise(both: &Both) -> String {
    let bound = number(both.bound());
    let promised = format!("max(j, k) + 1 is {bound}, promised");
    match both.proved() {
        true => format!("proved: at most {bound} (max(j, k) + 1)"),
        false if !both.by_list() => {
            format!("{promised} for lists of changes, and a document went here")
        }
        false => format!("{promised} where every change fits the budget"),
    }
}

/// How a talk ended and what each end holds.
pub fn ended(both: &Both) -> String {
    let exchanges = count(both.talked, "exchange");
    let how = match both.silent {
        true => format!("both were silent after {exchanges}"),
        false => format!("both were still talking after {exchanges}"),
    };
    let all = count(both.joint(), "row");
    let [validator, station] = both.held.map(number);
    format!("{how}, and of the {all} of both tables the validator holds {validator}, the station {station}")
}

/// A line for each exchange, or for several that are alike, below the names of the ends.
fn exchanges(both: &Both, paint: Paint) -> String {
    let heads = HEADS.map(str::to_string);
    let mut rows = vec![[vec!["exchange".to_string()], heads.to_vec(), heads.to_vec()]];
    let mut first = 1;
    for alike in both.exchanges.chunk_by(Exchange::eq) {
        let numbers = match alike.len() {
            1 => number(first),
            many => format!("{} to {}", number(first), number(first + many - 1)),
        };
        let [validator, station] = alike[0].each_ref().map(cells);
        rows.push([vec![numbers], validator, station]);
        first += alike.len();
    }
    let turns = || both.exchanges.iter().flatten();
    if both.budget.is_none() && turns().all(|turn| turn.left == 0) {
        let ends = rows.iter_mut().flat_map(|row| &mut row[1..]);
        ends.for_each(|end| drop(end.remove(LEFT)));
    }
    let start = |row: &[Vec<String>; 3], end: usize| row[..=end].concat().len();
    let starts = [VALIDATOR, STATION].map(|end| start(&rows[0], end));
    let rows: Vec<Vec<String>> = rows.into_iter().map(|row| row.concat()).collect();
    let width = |k: usize| rows.iter().map(|row| row[k].len()).max().unwrap_or(0);
    let mut widths: Vec<usize> = (0..rows[0].len()).map(width).collect();
    starts.iter().for_each(|&start| widths[start] += APART);
    // An end's name stands over its columns, where the first of them begins.
    let mut names = String::new();
    for (start, name) in starts.into_iter().zip(["validator", "station"]) {
        let place = widths[..start].iter().sum::<usize>() + 2 * start + APART;
        names = format!("{names:<place$}{name}");
    }
    let mut text = format!("{}\n", paint.bold(&names));
    text += &format!("{}\n", paint.bold(&line(&rows[0], &widths)));
    for row in &rows[1..] {
        text += &format!("{}\n", line(row, &widths));
    }
    text
}

fn cells(turn: &Turn) -> Vec<String> {
    let body = if turn.document { " document" } else { "" };
    vec![
        number(turn.held),
        number(turn.need),
        format!("{}{body}", number(turn.sent)),
        number(turn.left),
        number(turn.waiting),
        number(turn.bytes),
    ]
}
