//! A night as a drawing: a bar a station, as long as its share of false yeses on a scale of
//! tens, and a mark where its bits and probes would have it.

use super::night::{Night, Pairs, Tally};
use crate::drawing::{begin, escaped, text};
use crate::rate::told;
use crate::text::{count, number};
use bisquetower::refusal::grouped;

/// Where the bars stand, in the drawing's units: from the left, and their rows from the top.
const LEFT: f64 = 190.0;
const WIDTH: f64 = 400.0;
const RIGHT: f64 = LEFT + WIDTH;
const TOP: f64 = 118.0;
const ROW: f64 = 46.0;
const BAR: f64 = 22.0;

/// Room for what is written behind the bars, and below them.
const BEHIND: f64 = 190.0;
const BELOW: f64 = 56.0;

const SHARE: &str = "#2b6cb0";
const EXPECTED: &str = "#c05621";
const FAINT: &str = "#4a5568";

/// The most letters of a station's name.
const LETTERS: usize = 14;

/// The fewest tens of the scale, and the most: what is less stands at its end.
const TENS: (f64, f64) = (2.0, 6.0);

/// The most tens that all have room for their numbers; of more every second has.
const NUMBERED: f64 = 4.0;

pub fn draw(night: &Night) -> String {
    let stations: Vec<(&str, &Tally)> = night.stations().collect();
    let foot = TOP + ROW * stations.len() as f64;
    let title = "The night's false yeses";
    let scale = Scale::of(&stations, foot);
    let mut svg = begin(RIGHT + BEHIND, foot + BELOW, title);
    svg += &text(24.0, 28.0, "start", 17, title);
    for (k, line) in summed(night, stations.len()).iter().enumerate() {
        svg += &text(24.0, 50.0 + 20.0 * k as f64, "start", 13, line);
    }
    svg += &scale.levels();
    for (k, (name, tally)) in stations.into_iter().enumerate() {
        svg += &scale.station(TOP + ROW * k as f64, name, tally);
    }
    svg + &legend(foot + 34.0) + "</svg>\n"
}

/// What there was in all, in two lines.
fn summed(night: &Night, stations: usize) -> [String; 2] {
    let all = &night.all;
    let (contained, tested) = all.counts().share();
    let captures = count(all.captures as usize, "capture");
    let stations = count(stations, "station");
    let refused = grouped(all.refused);
    let (contained, tested) = (grouped(contained), grouped(tested));
    [
        format!("{captures} at {stations}, {refused} refused"),
        format!("{contained} of {tested} rows that the sender lacked were taken for held"),
    ]
}

/// The share of rows that are contained; none where none are tested.
fn share(tally: &Tally, contained: f64) -> f64 {
    match tally.counts().tested {
        0 => 0.0,
        tested => contained / tested as f64,
    }
}

struct Scale {
    tens: f64,
    foot: f64,
}

impl Scale {
    /// Reaches down to the least share of a station, or to what is expected of it.
    fn of(stations: &[(&str, &Tally)], foot: f64) -> Scale {
        let shares = stations.iter().flat_map(|(_, tally)| {
            let contained = tally.counts().contained as f64;
            [share(tally, contained), share(tally, tally.expected)]
        });
        let least = shares.filter(|share| *share > 0.0).fold(1.0, f64::min);
        let tens = (-least.log10()).ceil().clamp(TENS.0, TENS.1);
        Scale { tens, foot }
    }

    /// Where a share stands, from the left.
    fn x(&self, share: f64) -> f64 {
        let tens = (-share.log10()).clamp(0.0, self.tens);
        RIGHT - WIDTH * tens / self.tens
    }

    /// A faint line for each of the tens, with its number above it.
    fn levels(&self) -> String {
        let level = |tens: u32| {
            let x = RIGHT - WIDTH * f64::from(tens) / self.tens;
            let (top, foot) = (TOP - 8.0, self.foot);
            let line = format!(
                "<line x1=\"{x:.1}\" y1=\"{top}\" x2=\"{x:.1}\" y2=\"{foot}\" stroke=\"#e2e8f0\"/>\n"
            );
            if self.tens > NUMBERED && tens % 2 == 1 {
                return line;
            }
            let one_in = format!("1 in {}", number(10_usize.pow(tens)));
            line + &text(x, top - 6.0, "middle", 12, &one_in)
        };
        (0..=self.tens as u32).map(level).collect()
    }

    fn station(&self, top: f64, name: &str, tally: &Tally) -> String {
        let counts = tally.counts();
        let middle = top + BAR / 2.0;
        let mut svg = text(LEFT - 14.0, middle - 1.0, "end", 13, &short(name));
        svg += &faint(LEFT - 14.0, middle + 14.0, "end", &shown(tally.pairs));
        let of = format!(
            "{} of {}",
            grouped(counts.contained),
            grouped(counts.tested)
        );
        let own = share(tally, counts.contained as f64);
        if own > 0.0 {
            let (y, width) = (top, self.x(own) - LEFT);
            svg += &format!(
                "<rect x=\"{LEFT}\" y=\"{y:.1}\" width=\"{width:.1}\" height=\"{BAR}\" \
                 fill=\"{SHARE}\"><title>{}: {of}</title></rect>\n",
                escaped(name)
            );
        }
        svg += &text(RIGHT + 14.0, middle - 1.0, "start", 13, &of);
        let expected = share(tally, tally.expected);
        if expected > 0.0 {
            svg += &mark(self.x(expected), top);
            let told = format!("expected {}", told(expected));
            svg += &faint(RIGHT + 14.0, middle + 14.0, "start", &told);
        }
        svg
    }
}

/// A mark across a bar.
fn mark(x: f64, top: f64) -> String {
    let (top, foot) = (top - 4.0, top + BAR + 4.0);
    format!(
        "<line x1=\"{x:.1}\" y1=\"{top:.1}\" x2=\"{x:.1}\" y2=\"{foot:.1}\" \
         stroke=\"{EXPECTED}\" stroke-width=\"3\"/>\n"
    )
}

fn faint(x: f64, y: f64, anchor: &str, words: &str) -> String {
    format!(
        "<text x=\"{x:.1}\" y=\"{y:.1}\" text-anchor=\"{anchor}\" font-size=\"11\" \
         fill=\"{FAINT}\">{words}</text>\n"
    )
}

/// A station's name, cut where it would leave its room.
fn short(name: &str) -> String {
    let name = match name.chars().count() > LETTERS {
        true => name.chars().take(LETTERS - 1).chain(['…']).collect(),
        false => name.to_string(),
    };
    escaped(&format!("station {name}"))
}

fn shown(pairs: Pairs) -> String {
    match pairs {
        Pairs::None => "no entries".to_string(),
        Pairs::One(bits, probes) => {
            let (bits, probes) = (count(bits as usize, "bit"), count(probes as usize, "probe"));
            format!("{bits}, {probes}")
        }
        Pairs::Several => "several settings".to_string(),
    }
}

fn legend(y: f64) -> String {
    let share = format!(
        "<rect x=\"{LEFT}\" y=\"{:.1}\" width=\"18\" height=\"12\" fill=\"{SHARE}\"/>\n",
        y - 10.0
    );
    let expected = "expected of its bits and probes";
    share
        + &text(
            LEFT + 26.0,
            y,
            "start",
            13,
            "rows contained, of those tested",
        )
        + &mark(LEFT + 262.0, y - 4.0 - BAR / 2.0)
        + &text(LEFT + 276.0, y, "start", 13, expected)
}
