//! A talk as a drawing: a bar for each round, of the rows that the validator lacked at
//! first. Those that it held from the start would dwarf them.

use super::talk::{Round, Talk};
use crate::drawing::{begin, level, text};
use crate::text::{count, number};

/// Where the bars stand, in the drawing's units.
const LEFT: f64 = 64.0;
const TOP: f64 = 76.0;
const WIDTH: f64 = 640.0;
const HEIGHT: f64 = 260.0;

/// The widest bar, and its share of the room of a round.
pub const WIDEST: f64 = 72.0;
pub const SHARE: f64 = 0.7;

/// Names and colours of a bar's parts, from its foot.
pub type Parts = [(&'static str, &'static str); 4];
const PARTS: Parts = parts("sent in the round");

pub const fn parts(sent: &'static str) -> Parts {
    [
        ("taken before", "#2b6cb0"),
        ("waiting before", "#d69e2e"),
        (sent, "#38a169"),
        ("still missing", "#cbd5e0"),
    ]
}

/// The most rounds whose numbers are written under their bars.
pub const NUMBERED: usize = 40;

pub fn draw(talk: &Talk) -> String {
    let title = format!(
        "The {} that the validator lacked, of {}",
        count(talk.missing, "row"),
        number(talk.station_rows)
    );
    let told = told(talk);
    let (width, height) = (LEFT + WIDTH + 24.0, TOP + HEIGHT + 72.0);
    let mut svg = begin(width, height, &title);
    svg += &text(LEFT, 26.0, "start", 17, &title);
    svg += &text(LEFT, 46.0, "start", 13, &told);
    svg += &scale(talk.missing);
    for (k, round) in talk.rounds.iter().enumerate() {
        svg += &bar(k, round, talk);
    }
    svg + &legend(TOP + HEIGHT + 48.0, PARTS, [0.0, 0.25, 0.5, 0.75]) + "</svg>\n"
}

/// What came of the talk.
fn told(talk: &Talk) -> String {
    if let Some(row) = talk.contradiction() {
        let row = number(row.row);
        return format!("The tables contradict each other at row {row} of the validator's");
    }
    let Some(took) = talk.took() else {
        let rounds = count(talk.talked, "round");
        return format!("The validator doesn't hold all of them after {rounds}");
    };
    let rounds = count(took, "round");
    match talk.bound() {
        Some(bound) if talk.proved() => {
            format!("{rounds}; proved: at most {} (m + 1)", number(bound))
        }
        _ => rounds,
    }
}

/// Lines at none of the rows and at all of them.
fn scale(rows: usize) -> String {
    let mark = |(n, part): (usize, f64)| {
        let y = TOP + HEIGHT * (1.0 - part);
        level(LEFT, LEFT + WIDTH, y, &number(n))
    };
    [(0, 0.0), (rows, 1.0)].map(mark).concat()
}

fn bar(k: usize, round: &Round, talk: &Talk) -> String {
    let room = WIDTH / talk.rounds.len() as f64;
    let width = (room * SHARE).min(WIDEST);
    let x = LEFT + room * (k as f64 + 0.5) - width / 2.0;
    let rows = talk.missing;
    let taken = round.held - (talk.station_rows - talk.missing);
    let sent = rows - taken - round.waited - round.missing;
    let parts = [taken, round.waited, sent, round.missing];
    let mut y = TOP + HEIGHT;
    let mut svg = String::new();
    for (n, (name, colour)) in parts.into_iter().zip(PARTS) {
        let height = HEIGHT * n as f64 / rows as f64;
        y -= height;
        if n > 0 {
            svg += &format!(
                "<rect x=\"{x:.1}\" y=\"{y:.1}\" width=\"{width:.1}\" height=\"{height:.1}\" \
                 fill=\"{colour}\"><title>round {}: {} {name}</title></rect>\n",
                number(k + 1),
                number(n)
            );
        }
    }
    if talk.rounds.len() <= NUMBERED {
        let middle = x + width / 2.0;
        let foot = TOP + HEIGHT;
        svg += &text(middle, foot + 18.0, "middle", 13, &number(k + 1));
        svg += &text(
            middle,
            TOP - 6.0,
            "middle",
            12,
            &format!("+{}", number(sent)),
        );
    }
    svg
}

/// The parts of a bar and their colours, in a line, each at a share of its width.
pub fn legend(y: f64, parts: Parts, at: [f64; 4]) -> String {
    let mut svg = String::new();
    for ((name, colour), share) in parts.into_iter().zip(at) {
        let x = LEFT + WIDTH * share;
        let box_y = y - 11.0;
        svg += &format!(
            "<rect x=\"{x}\" y=\"{box_y}\" width=\"12\" height=\"12\" fill=\"{colour}\"/>\n"
        );
        svg += &text(x + 18.0, y, "start", 13, name);
    }
    svg
}
