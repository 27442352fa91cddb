//! The talk of two ends as a drawing: for each exchange a bar upward, of the rows that the
//! validator lacked at first, and one downward, of those that the station lacked.

use super::{lines, Both, Turn, STATION, VALIDATOR};
use crate::catch_up::svg::{legend, parts, Parts, NUMBERED, SHARE, WIDEST};
use crate::drawing::{begin, level, text};
use crate::text::{count, number};

/// Where the bars stand, in the drawing's units: below them is room for the numbers.
const LEFT: f64 = 64.0;
const TOP: f64 = 96.0;
const WIDTH: f64 = 640.0;
const HEIGHT: f64 = 300.0;

/// The room between the bars of the two ends, in which the exchanges are numbered.
const BETWEEN: f64 = 26.0;

/// The room that each end gets at the least, where it lacked a row.
const LEAST: f64 = 0.15;

const PARTS: Parts = parts("sent in the exchange");

pub fn draw(both: &Both) -> String {
    let (j, k) = (
        count(both.lacked[VALIDATOR], "row"),
        number(both.lacked[STATION]),
    );
    let title = format!("{j} that the validator lacked, {k} that the station did");
    let (width, height) = (LEFT + WIDTH + 24.0, TOP + HEIGHT + BETWEEN + 76.0);
    let mut svg = begin(width, height, &title);
    svg += &text(LEFT, 26.0, "start", 17, &title);
    svg += &text(LEFT, 46.0, "start", 13, &told(both));
    for end in [VALIDATOR, STATION] {
        let side = Side::of(both, end);
        svg += &side.scale();
        for (n, exchange) in both.exchanges.iter().enumerate() {
            svg += &side.bar(n, &exchange[end], both);
        }
    }
    if both.exchanges.len() <= NUMBERED {
        let y = Side::of(both, VALIDATOR).foot + BETWEEN / 2.0 + 5.0;
        for n in 0..both.exchanges.len() {
            svg += &text(middle(n, both), y, "middle", 13, &number(n + 1));
        }
    }
    let y = TOP + HEIGHT + BETWEEN + 56.0;
    svg + &legend(y, PARTS, [0.0, 0.22, 0.47, 0.79]) + "</svg>\n"
}

/// What came of the talk.
fn told(both: &Both) -> String {
    match both.took() {
        Some(took) => format!("{}; {}", count(took, "exchange"), lines::promise(both)),
        None => lines::ended(both),
    }
}

/// The middle of an exchange's bars.
fn middle(n: usize, both: &Both) -> f64 {
    let room = WIDTH / both.exchanges.len() as f64;
    LEFT + room * (n as f64 + 0.5)
}

/// The bars of one end.
struct Side {
    name: &'static str,
    /// Rows that it lacked at first, and those that it held.
    rows: usize,
    held: usize,
    /// Where its bars begin, how long they are, and which way they go.
    foot: f64,
    height: f64,
    way: f64,
}

impl Side {
    fn of(both: &Both, end: usize) -> Side {
        let [j, k] = both.lacked.map(|rows| rows as f64);
        let up = match (j > 0.0, k > 0.0) {
            (true, true) => (j / (j + k)).clamp(LEAST, 1.0 - LEAST),
            (true, false) => 1.0,
            (false, true) => 0.0,
            (false, false) => 0.5,
        };
        let (rows, held) = (both.lacked[end], both.rows[end]);
        let middle = TOP + HEIGHT * up;
        match end {
            VALIDATOR => Side {
                name: "validator",
                rows,
                held,
                foot: middle,
                height: HEIGHT * up,
                way: -1.0,
            },
            _ => Side {
                name: "station",
                rows,
                held,
                foot: middle + BETWEEN,
                height: HEIGHT * (1.0 - up),
                way: 1.0,
            },
        }
    }

    /// Lines at none of the rows and at all of them, and whose they are.
    fn scale(&self) -> String {
        let end = self.foot + self.way * self.height;
        let right = LEFT + WIDTH;
        let mut svg = level(LEFT, right, self.foot, &number(0));
        if self.rows > 0 {
            svg += &level(LEFT, right, end, &number(self.rows));
        }
        let name = if self.way < 0.0 {
            end - 24.0
        } else {
            end + 34.0
        };
        svg + &text(LEFT, name, "start", 13, &format!("at the {}", self.name))
    }

    fn bar(&self, n: usize, turn: &Turn, both: &Both) -> String {
        let room = WIDTH / both.exchanges.len() as f64;
        let width = (room * SHARE).min(WIDEST);
        let x = middle(n, both) - width / 2.0;
        let taken = turn.held - self.held;
        let came = self.rows - taken - turn.waited - turn.missing;
        let parts = [taken, turn.waited, came, turn.missing];
        let (mut svg, mut y) = (String::new(), self.foot);
        for (rows, (name, colour)) in parts.into_iter().zip(PARTS) {
            if rows == 0 {
                continue;
            }
            let height = self.height * rows as f64 / self.rows as f64;
            let top = if self.way < 0.0 { y - height } else { y };
            y += self.way * height;
            svg += &format!(
                "<rect x=\"{x:.1}\" y=\"{top:.1}\" width=\"{width:.1}\" height=\"{height:.1}\" \
                 fill=\"{colour}\"><title>exchange {}, {}: {} {name}</title></rect>\n",
                number(n + 1),
                self.name,
                number(rows)
            );
        }
        if both.exchanges.len() <= NUMBERED && self.rows > 0 {
            let end = self.foot + self.way * self.height;
            let y = if self.way < 0.0 {
                end - 6.0
            } else {
                end + 15.0
            };
            let gained = format!("+{}", number(came));
            svg += &text(x + width / 2.0, y, "middle", 12, &gained);
        }
        svg
    }
}
