//! What the bound asks of two tables: every row of the validator's is a row of the
//! station's, on the same changes. Then the validator holds all that its rows depend on,
//! since a table has no row without the rows below it.

use crate::text::{number, short};
use bisquetower::{ChangeHash, Table};
use std::collections::HashMap;
use std::fmt;

/// A row of the validator's table that isn't as the station has it.
#[derive(Clone, Copy, Debug, PartialEq, Eq)]
pub struct Difference {
    pub row: usize,
    pub hash: ChangeHash,
    pub how: How,
}

/// In which way a row differs.
#[derive(Clone, Copy, Debug, PartialEq, Eq)]
pub enum How {
    /// The station has no row of that hash: the validator has news.
    Unknown,
    /// The station's row of that hash depends on a change, and the validator's doesn't.
    Lacks {
        station_row: usize,
        dependency: ChangeHash,
    },
    /// The validator's row depends on a change, and the station's of that hash doesn't.
    Adds {
        station_row: usize,
        dependency: ChangeHash,
    },
}

impl Difference {
    /// The first row that both tables have on other changes, else the first that the
    /// station has not; none where the validator's table is a part of the station's.
    pub fn first(station: &Table, validator: &Table) -> Option<Difference> {
        let (theirs, ours) = (station.hashes(), validator.hashes());
        let rows: HashMap<&ChangeHash, usize> = theirs.iter().zip(0..).collect();
        let mut unknown = None;
        for (row, &hash) in ours.iter().enumerate() {
            let how = match rows.get(&hash) {
                None => Some(How::Unknown),
                Some(&station_row) => compared(
                    station_row,
                    &on(station, &theirs, station_row),
                    &on(validator, &ours, row),
                ),
            };
            let Some(how) = how else { continue };
            let found = Difference { row, hash, how };
            if found.contradicts() {
                return Some(found);
            }
            unknown.get_or_insert(found);
        }
        unknown
    }

    /// Whether the tables say of one change that it depends on others. A row that the
    /// station hasn't got is no contradiction.
    pub fn contradicts(&self) -> bool {
        self.how != How::Unknown
    }
}

/// The hashes of what a row depends on.
fn on(table: &Table, hashes: &[ChangeHash], row: usize) -> Vec<ChangeHash> {
    let rows = table.dependencies(row).into_iter();
    rows.map(|row| hashes[row]).collect()
}

/// How the dependencies of one change differ, as sets.
fn compared(station_row: usize, theirs: &[ChangeHash], ours: &[ChangeHash]) -> Option<How> {
    let missing = |from: &[ChangeHash], of: &[ChangeHash]| {
        let mut of = of.iter();
        of.find(|hash| !from.contains(hash)).copied()
    };
    if let Some(dependency) = missing(ours, theirs) {
        return Some(How::Lacks {
            station_row,
            dependency,
        });
    }
    let dependency = missing(theirs, ours)?;
    Some(How::Adds {
        station_row,
        dependency,
    })
}

impl fmt::Display for Difference {
    fn fmt(&self, f: &mut fmt::Formatter<'_>) -> fmt::Result {
        let (row, hash) = (number(self.row), short(&self.hash));
        write!(f, "row {row} of the validator's, {hash}, ")?;
        let (ours, station_row, theirs, dependency) = match self.how {
            How::Unknown => return f.write_str("is unknown to the station"),
            How::Lacks {
                station_row,
                dependency,
            } => ("doesn't depend", station_row, "does", dependency),
            How::Adds {
                station_row,
                dependency,
            } => ("depends", station_row, "doesn't", dependency),
        };
        let (station_row, dependency) = (number(station_row), short(&dependency));
        write!(
            f,
            "{ours} on {dependency}, and row {station_row} of the station's, the same change, {theirs}"
        )
    }
}

#[cfg(test)]
mod tests {
    use super::*;

    fn hash(name: u8) -> ChangeHash {
        ChangeHash([name; 32])
    }

    /// The table of rows that are written as a name and the names of what it depends on.
    fn table(rows: &[&[u8]]) -> Table {
        let rows = rows.iter().map(|row| {
            let on: Vec<ChangeHash> = row[1..].iter().copied().map(hash).collect();
            (hash(row[0]), on)
        });
        Table::from_changes(rows).expect("a good table")
    }

    fn first(station: &[&[u8]], validator: &[&[u8]]) -> Option<Difference> {
        Difference::first(&table(station), &table(validator))
    }

    /// The order of the rows, and with it their numbers, is of no account.
    #[test]
    fn a_part_of_the_station_doesnt_differ() {
        let station: [&[u8]; 4] = [b"a", b"b", b"cab", b"dc"];
        assert_eq!(first(&station, &station), None);
        assert_eq!(first(&station, &[]), None);
        assert_eq!(first(&station, &[b"b", b"a", b"cab"]), None);
    }

    /// Each table is good by itself.
    #[test]
    fn a_row_past_a_gap_is_a_contradiction() {
        let found = first(&[b"a", b"ba", b"cb"], &[b"a", b"ca"]).expect("a difference");
        let how = How::Lacks {
            station_row: 2,
            dependency: hash(b'b'),
        };
        assert_eq!((found.row, found.hash, found.how), (1, hash(b'c'), how));
        assert!(found.contradicts());
        assert_eq!(
            found.to_string(),
            "row 1 of the validator's, 6363636363636363, doesn't depend on 6262626262626262, \
             and row 2 of the station's, the same change, does"
        );
    }

    #[test]
    fn a_dependency_more_is_a_contradiction() {
        let found = first(&[b"a", b"b", b"ca"], &[b"a", b"b", b"cab"]).expect("a difference");
        let how = How::Adds {
            station_row: 2,
            dependency: hash(b'b'),
        };
        assert_eq!((found.row, found.how), (2, how));
        assert!(found.to_string().contains("depends on 6262626262626262"));
    }

    /// A contradiction is told before news, wherever it stands.
    #[test]
    fn news_is_no_contradiction() {
        let news = first(&[b"a", b"ba"], &[b"a", b"x", b"yx"]).expect("a difference");
        assert_eq!((news.row, news.how), (1, How::Unknown));
        assert!(!news.contradicts());
        let both = first(&[b"a", b"ba"], &[b"x", b"a", b"b"]).expect("a difference");
        assert_eq!((both.row, both.contradicts()), (2, true));
    }
}
