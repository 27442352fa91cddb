//! A talk in lines.

use super::talk::{Round, Talk};
use crate::paint::Paint;
use crate::text::{count, number};
use bisquetower::refusal::grouped;
use bisquetower::Choice;

const HEADS: [&str; 9] = [
    "round",
    "held",
    "asked",
    "false yes",
    "sent",
    "left",
    "waiting",
    "to station",
    "to validator",
];

/// The column of what is left, which is shown where there is a budget or something is left.
const LEFT: usize = 5;

pub fn text(talk: &Talk) -> String {
    let paint = Paint::of_output();
    let station = count(talk.station_rows, "row");
    let own = match talk.foreign {
        0 => String::new(),
        rows => format!(" and with {} of its own", number(rows)),
    };
    let mut text = format!(
        "A station of {station} and a validator of {}, {} short{own}.\n{}\n",
        number(talk.validator_rows),
        number(talk.missing),
        chosen(talk.choice) + &budget(talk.budget, talk.largest),
    );
    if !talk.rounds.is_empty() {
        text += &format!("{}\n", rounds(talk, paint));
    }
    text += &outcome(talk, paint);
    let messages = count(talk.messages.len(), "message");
    text + &format!("{messages}, {} in all.\n", count(talk.bytes(), "byte"))
}

/// What the station chose, where it isn't as the crate has it.
pub fn chosen(choice: Choice) -> String {
    if choice == Choice::default() {
        return String::new();
    }
    let bits = count(choice.bits as usize, "bit");
    let probes = count(choice.probes as usize, "probe");
    let takes = match choice.read_only {
        true => "; the station is read-only and takes no changes",
        false => "",
    };
    format!("Filters have {bits} an entry and {probes}{takes}.\n")
}

/// The budget, if there is one, beside what the largest change takes.
pub fn budget(budget: Option<u64>, largest: usize) -> String {
    let Some(budget) = budget else {
        return String::new();
    };
    let (budget, largest) = (grouped(budget), number(largest));
    format!("Changes of a message take at most {budget} bytes; the largest takes {largest}.\n")
}

fn outcome(talk: &Talk, paint: Paint) -> String {
    if let Some(row) = talk.contradiction() {
        let what = paint.bad("The tables contradict each other");
        let ended = ended(talk);
        return format!("{what}: {row}.\nOf such tables nothing is proved; {ended}.\n");
    }
    if !talk.ended_well() {
        return format!("{}.\n", paint.bad(&format!("It failed: {}", ended(talk))));
    }
    let Some(bound) = talk.bound() else {
        let rounds = count(talk.rounds.len(), "round");
        let rows = count(talk.all_rows(), "row");
        let done = paint.good(&format!("After {rounds} both ends hold {rows}"));
        let foreign = count(talk.foreign, "row");
        let why = format!("the validator held {foreign} that the station lacked");
        return format!("{done}; m + 1 isn't promised here: {why}; see --both.\n");
    };
    let took = count(talk.took().unwrap_or_default(), "round");
    let all = "the validator holds the station's table";
    let done = paint.good(&format!("After {took} {all}"));
    let bound = number(bound);
    let promise = match talk.proved() {
        true => format!("proved: at most {bound} (m + 1)"),
        false if !talk.by_list() => {
            format!("m + 1 is {bound}, promised for replies by list, and the document went here")
        }
        false if !talk.all_fit() => {
            format!("m + 1 is {bound}, promised where every change fits the budget")
        }
        false => {
            format!("m + 1 is {bound}, promised where both take changes, and the station doesn't")
        }
    };
    format!("{done}; {promise}.\n")
}

/// How a talk ended and what each end holds.
pub fn ended(talk: &Talk) -> String {
    let rounds = count(talk.talked, "round");
    let how = match talk.silent {
        true => format!("both were silent after {rounds}"),
        false => format!("both were still talking after {rounds}"),
    };
    let all = count(talk.all_rows(), "row");
    let [station, validator] = talk.held.map(number);
    format!("{how}, and of the {all} of both tables the station holds {station}, the validator {validator}")
}

/// A line for each round, or for several that are alike, in columns as wide as what
/// stands in them.
fn rounds(talk: &Talk, paint: Paint) -> String {
    let mut rows = vec![HEADS.map(str::to_string).to_vec()];
    let mut first = 1;
    for alike in talk.rounds.chunk_by(Round::eq) {
        rows.push(cells(first, alike));
        first += alike.len();
    }
    if talk.budget.is_none() && talk.rounds.iter().all(|round| round.left == 0) {
        rows.iter_mut().for_each(|row| drop(row.remove(LEFT)));
    }
    let width = |k: usize| rows.iter().map(|row| row[k].len()).max().unwrap_or(0);
    let widths: Vec<usize> = (0..rows[0].len()).map(width).collect();
    let mut text = format!("{}\n", paint.bold(&line(&rows[0], &widths)));
    for row in &rows[1..] {
        text += &format!("{}\n", line(row, &widths));
    }
    text
}

fn cells(first: usize, alike: &[Round]) -> Vec<String> {
    let round = &alike[0];
    let numbers = match alike.len() {
        1 => number(first),
        rounds => format!("{} to {}", number(first), number(first + rounds - 1)),
    };
    let body = if round.document { " document" } else { "" };
    vec![
        numbers,
        number(round.held),
        number(round.need),
        round.false_yes.map_or("-".to_string(), number),
        format!("{}{body}", number(round.sent)),
        number(round.left),
        number(round.waiting),
        number(round.asked_bytes),
        number(round.reply_bytes),
    ]
}

pub fn line(cells: &[String], widths: &[usize]) -> String {
    let cells = cells.iter().zip(widths);
    let cells: Vec<String> = cells
        .map(|(cell, width)| format!("{cell:>width$}"))
        .collect();
    cells.join("  ")
}
