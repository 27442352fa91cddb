//! The choice as a drawing: false yeses by bits per entry and probes, and below it the bytes
//! that the bits cost. Bits per entry go from left to right in both.

use crate::drawing::{begin, level, text};
use crate::rate::{expected, told};
use crate::text::{count, number};
use bisquetower::limits::BITS;
use bisquetower::{ChangeHash, Choice, Filter, Settings};
use std::collections::BTreeMap;

/// Where false yeses stand, in the drawing's units, and below them the bytes.
const LEFT: f64 = 120.0;
const WIDTH: f64 = 540.0;
const TOP: f64 = 82.0;
const HEIGHT: f64 = 270.0;
const BYTES_TOP: f64 = TOP + HEIGHT + 62.0;
const BYTES_HEIGHT: f64 = 104.0;
const FOOT: f64 = BYTES_TOP + BYTES_HEIGHT;

/// The probes that have a line, and its colour.
const LINES: [(u32, &str); 5] = [
    (1, "#718096"),
    (3, "#2f855a"),
    (5, "#b7791f"),
    (7, "#2b6cb0"),
    (10, "#9b2c2c"),
];

/// The colour of the bytes' line.
const BYTES: &str = "#4a5568";

/// Bits per entry that have their number under them.
const NUMBERED: [u32; 9] = [1, 4, 8, 12, 16, 20, 24, 28, 32];

/// Draws it for filters over so many rows. What stations of a list have is marked.
pub fn draw(list: Option<&Settings>, rows: usize) -> String {
    let title = format!("What a filter over {} costs", count(rows, "row"));
    let plot = Plot::of(rows);
    let mut svg = begin(LEFT + WIDTH + 84.0, FOOT + 52.0, &title);
    svg += &text(LEFT, 28.0, "start", 17, &title);
    let above = "False yeses: how often it is expected to take a change for held that isn't in it";
    svg += &text(LEFT, TOP - 16.0, "start", 13, above);
    let below = "Bytes of the filter in a message, whatever the probes";
    svg += &text(LEFT, BYTES_TOP - 16.0, "start", 13, below);
    svg += &plot.scales();
    for (probes, colour) in LINES {
        svg += &plot.rates(probes, colour);
    }
    svg += &plot.bytes();
    svg += &plot.crates();
    for (pair, stations) in list.map(stations).unwrap_or_default() {
        svg += &plot.mark(pair, &stations);
    }
    svg + "</svg>\n"
}

/// The stations of a list by the bits and probes that they have in the end.
fn stations(list: &Settings) -> BTreeMap<(u32, u32), Vec<u32>> {
    let newest: BTreeMap<u32, Choice> = list
        .records()
        .map(|record| (record.station, record.choice))
        .collect();
    let mut stations: BTreeMap<(u32, u32), Vec<u32>> = BTreeMap::new();
    for (station, choice) in newest {
        let pair = (choice.bits, choice.probes);
        stations.entry(pair).or_default().push(station);
    }
    stations
}

struct Plot {
    rows: usize,
    /// How many tens a false yes is 1 in, where they are fewest.
    tens: f64,
    /// Bytes of a filter, by its bits per entry from 1 on.
    sizes: Vec<usize>,
}

impl Plot {
    fn of(rows: usize) -> Plot {
        let hash = |row: usize| {
            let mut hash = ChangeHash([0; 32]);
            hash.0[..8].copy_from_slice(&(row as u64).to_le_bytes());
            hash
        };
        let hashes: Vec<ChangeHash> = (0..rows).map(hash).collect();
        let size = |bits: u32| {
            let filter = Filter::with(bits, 1, &hashes).expect("no limit is passed");
            filter.to_bytes().len()
        };
        let rates = LINES.map(|(probes, _)| expected(pair(most_bits(), probes), rows));
        let least = rates.into_iter().fold(1.0, f64::min);
        Plot {
            rows,
            tens: (-least.log10()).ceil().max(1.0),
            sizes: (1..=most_bits()).map(size).collect(),
        }
    }

    fn rate_y(&self, bits: u32, probes: u32) -> f64 {
        let rate = expected(pair(bits, probes), self.rows);
        let tens = (-rate.log10()).min(self.tens);
        TOP + HEIGHT * tens / self.tens
    }

    fn size(&self, bits: u32) -> usize {
        self.sizes[bits as usize - 1]
    }

    fn bytes_y(&self, bits: u32) -> f64 {
        let share = self.size(bits) as f64 / self.size(most_bits()) as f64;
        FOOT - BYTES_HEIGHT * share
    }

    fn scales(&self) -> String {
        let right = LEFT + WIDTH;
        let mut svg = String::new();
        for tens in 0..=self.tens as u32 {
            let y = TOP + HEIGHT * f64::from(tens) / self.tens;
            let one_in = number(10_usize.pow(tens));
            svg += &level(LEFT, right, y, &format!("1 in {one_in}"));
        }
        svg += &level(LEFT, right, FOOT, "0");
        svg += &level(LEFT, right, BYTES_TOP, &number(self.size(most_bits())));
        for bits in NUMBERED {
            for foot in [TOP + HEIGHT, FOOT] {
                svg += &text(x(bits), foot + 18.0, "middle", 13, &bits.to_string());
            }
        }
        svg + &text(right, FOOT + 40.0, "end", 13, "bits per entry")
    }

    /// The line of some probes, with its name behind it.
    fn rates(&self, probes: u32, colour: &str) -> String {
        let name = count(probes as usize, "probe");
        let width = match probes == Choice::default().probes {
            true => 3,
            false => 2,
        };
        let line = polyline(|bits| self.rate_y(bits, probes), colour, width, &name);
        let (x, y) = (LEFT + WIDTH + 8.0, self.rate_y(most_bits(), probes) + 4.0);
        line + &format!("<text x=\"{x:.1}\" y=\"{y:.1}\" fill=\"{colour}\">{name}</text>\n")
    }

    fn bytes(&self) -> String {
        polyline(|bits| self.bytes_y(bits), BYTES, 2, "bytes of the filter")
    }

    /// The crate's own choice, in both parts.
    fn crates(&self) -> String {
        let Choice { bits, probes, .. } = Choice::default();
        let (x, rate_y, bytes_y) = (x(bits), self.rate_y(bits, probes), self.bytes_y(bits));
        let rate = told(expected(Choice::default(), self.rows));
        let pair = format!("{bits} bits, {probes} probes,");
        let bytes = count(self.size(bits), "byte");
        let mut svg = String::new();
        for (y, foot) in [(rate_y, TOP + HEIGHT), (bytes_y, FOOT)] {
            svg += &format!(
                "<line x1=\"{x:.1}\" y1=\"{y:.1}\" x2=\"{x:.1}\" y2=\"{foot:.1}\" \
                 stroke=\"{BYTES}\" stroke-dasharray=\"3 3\"/>\n\
                 <circle cx=\"{x:.1}\" cy=\"{y:.1}\" r=\"5\" fill=\"#2b6cb0\"/>\n"
            );
        }
        let beside = x - 10.0;
        let foot = TOP + HEIGHT - 12.0;
        svg += &text(beside, foot - 36.0, "end", 13, "the crate's");
        svg += &text(beside, foot - 18.0, "end", 13, &pair);
        svg += &text(beside, foot, "end", 13, &rate);
        svg + &text(x + 10.0, bytes_y + 16.0, "start", 13, &bytes)
    }

    /// What some stations have.
    fn mark(&self, (bits, probes): (u32, u32), stations: &[u32]) -> String {
        let (x, y) = (x(bits), self.rate_y(bits, probes));
        let rate = told(expected(pair(bits, probes), self.rows));
        let numbers: Vec<String> = stations.iter().map(u32::to_string).collect();
        let who = match stations.len() {
            1 => "station",
            _ => "stations",
        };
        let stations = numbers.join(", ");
        format!(
            "<circle cx=\"{x:.1}\" cy=\"{y:.1}\" r=\"4\" fill=\"#ffffff\" stroke=\"#1a202c\" \
             stroke-width=\"2\"><title>{who} {stations}: {bits} bits, {probes} probes, \
             {rate}</title></circle>\n"
        )
    }
}

fn pair(bits: u32, probes: u32) -> Choice {
    Choice {
        bits,
        probes,
        ..Choice::default()
    }
}

fn most_bits() -> u32 {
    BITS as u32
}

fn x(bits: u32) -> f64 {
    LEFT + WIDTH * f64::from(bits - 1) / f64::from(most_bits() - 1)
}

/// A line over all bits per entry.
fn polyline(y: impl Fn(u32) -> f64, colour: &str, width: u32, name: &str) -> String {
    let points = (1..=most_bits()).map(|bits| format!("{:.1},{:.1}", x(bits), y(bits)));
    let points: Vec<String> = points.collect();
    format!(
        "<polyline points=\"{}\" fill=\"none\" stroke=\"{colour}\" stroke-width=\"{width}\">\
         <title>{name}</title></polyline>\n",
        points.join(" ")
    )
}
