//! The totals of a night, by station and in all.

use super::capture::Counted;
use bisquetower::{Counts, Refusal, Totals};
use std::collections::BTreeMap;

#[derive(Default)]
pub struct Night {
    stations: BTreeMap<(u64, String), Tally>,
    pub all: Tally,
    /// Lines of the manifest that can't be read, or whose files can't.
    pub unread: usize,
}

/// Captures of a station, or of all.
#[derive(Clone, Copy, Default)]
pub struct Tally {
    pub captures: u64,
    /// How many of them are refused; these add to nothing else.
    pub refused: u64,
    totals: Totals,
    pub pairs: Pairs,
    /// How many rows would be contained if bits were set by chance.
    pub expected: f64,
}

/// Bits per entry and probes of filters.
#[derive(Clone, Copy, Debug, Default, PartialEq, Eq)]
pub enum Pairs {
    #[default]
    None,
    /// Of all of them.
    One(u64, u64),
    Several,
}

impl Night {
    /// Adds a capture; what it counts, or why it adds to no total.
    pub fn add(
        &mut self,
        station: &str,
        counted: &Result<Counted, Refusal>,
    ) -> Result<Counts, Refusal> {
        let own = self.stations.entry(key(station)).or_default();
        // No total of a station is above the one in all: where that takes the counts, the
        // station's does too.
        let added = counted.and_then(|counted| {
            self.all.add(&counted)?;
            own.add(&counted)?;
            Ok(counted.counts)
        });
        for tally in [own, &mut self.all] {
            tally.captures += 1;
            tally.refused += u64::from(added.is_err());
        }
        added
    }

    /// The stations, those with numbers for names first.
    pub fn stations(&self) -> impl Iterator<Item = (&str, &Tally)> {
        let stations = self.stations.iter();
        stations.map(|((_, name), tally)| (&name[..], tally))
    }
}

/// By which stations stand in order.
fn key(station: &str) -> (u64, String) {
    let number = station.parse().unwrap_or(u64::MAX);
    (number, station.to_string())
}

impl Tally {
    fn add(&mut self, counted: &Counted) -> Result<(), Refusal> {
        self.totals.add(&counted.counts)?;
        self.expected += counted.expected;
        self.pairs = match (self.pairs, counted.pair) {
            (same, None) => same,
            (Pairs::None, Some((bits, probes))) => Pairs::One(bits, probes),
            (Pairs::One(bits, probes), Some(pair)) if (bits, probes) == pair => self.pairs,
            _ => Pairs::Several,
        };
        Ok(())
    }

    pub fn counts(&self) -> Counts {
        self.totals.counts()
    }
}

#[cfg(test)]
mod tests {
    use super::*;

    fn counted(entries: u64, tested: u64) -> Counted {
        let counts = Counts {
            entries,
            tested,
            ..Counts::default()
        };
        Counted {
            counts,
            pair: Some((10, 7)),
            expected: 0.5,
        }
    }

    /// A total that would pass 64 bits refuses the capture, which adds to nothing, and later
    /// ones go on.
    #[test]
    fn a_total_that_would_pass() {
        let mut night = Night::default();
        let most = counted(u64::MAX - 1, 3);
        assert_eq!(night.add("7", &Ok(most)), Ok(most.counts));
        let refused = night.add("9", &Ok(counted(2, 5))).unwrap_err();
        assert_eq!((refused.number, refused.value), (16, 0));
        night.add("9", &Ok(counted(1, 4))).unwrap();
        let told: Vec<_> = night
            .stations()
            .map(|(name, own)| (name, own.captures, own.refused, own.counts().tested))
            .collect();
        assert_eq!(told, [("7", 1, 0, 3), ("9", 2, 1, 4)]);
        let all = night.all;
        assert_eq!((all.captures, all.refused, all.expected), (3, 1, 1.0));
        assert_eq!((all.counts().entries, all.counts().tested), (u64::MAX, 7));
    }

    #[test]
    fn stations_in_order() {
        let mut night = Night::default();
        for station in ["tram", "10", "9", "Depot", "9"] {
            night.add(station, &Err(Refusal::new(5, 0))).unwrap_err();
        }
        let names: Vec<&str> = night.stations().map(|(name, _)| name).collect();
        assert_eq!(names, ["9", "10", "Depot", "tram"]);
        assert_eq!(night.all.refused, 5);
    }
}
