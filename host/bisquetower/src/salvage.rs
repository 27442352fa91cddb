//! Change tables that were hurt, and what can be kept of them.

use crate::cause::Cause;
use crate::refusal::{answer, Refusal};
use crate::{explain, raw, Table};
use std::fmt;

/// Words of an entry of the report: a row's number and its rule.
const ENTRY: usize = 2;

impl Table {
    /// Keeps what is good of a change table, hurt or not: a row whose count, row numbers and
    /// zeros are right, whose hash no earlier kept row has, and which depends on kept rows
    /// alone. Kept rows stay in their order, and their row numbers are those of the table that
    /// they are then. Refusal 4 for more bytes than the most rows have; nothing else is
    /// refused.
    ///
    /// What is kept is a part of what the unit held, with all that it depends on. So a unit
    /// goes on with it, and its station sends what is missing.
    ///
    /// ```
    /// use bisquetower::{ChangeHash, Rule, Table};
    ///
    /// let [a, b, c, d] = [b'a', b'b', b'c', b'd'].map(|name| ChangeHash([name; 32]));
    /// let changes = [(a, vec![]), (b, vec![a]), (c, vec![b]), (d, vec![a])];
    /// let mut bytes = Table::lay(changes);
    /// // Row 1 names row 9, which isn't before it; and the last bytes are of no whole row.
    /// bytes[Table::ROW + 34] = 9;
    /// bytes.extend([7; 20]);
    ///
    /// let salvaged = Table::salvage(&bytes)?;
    /// assert_eq!(salvaged.table, Table::from_changes([(a, vec![]), (d, vec![a])])?);
    /// assert_eq!(salvaged.partial, 20);
    /// let told: Vec<(usize, Rule)> = salvaged.report.iter().map(|one| (one.row, one.rule)).collect();
    /// assert_eq!(told, [(1, Rule::RowNumbers), (2, Rule::LostDependency)]);
    /// let whys: Vec<String> = salvaged.report.iter().map(|one| one.to_string()).collect();
    /// assert_eq!(whys, [
    ///     "row 1 depends on row 9, which doesn't stand before it",
    ///     "row 2 depends on row 1, which is dropped",
    /// ]);
    ///
    /// // Of what was kept nothing more is dropped.
    /// assert!(Table::salvage(salvaged.table.as_bytes())?.is_whole());
    /// # Ok::<(), bisquetower::Refusal>(())
    /// ```
    pub fn salvage(bytes: &[u8]) -> Result<Salvaged, Refusal> {
        // Every row may be kept and every row may be dropped, so that there is always room.
        let mut rows = vec![0; bytes.len()];
        let mut words = vec![0; ENTRY * (bytes.len() / Table::ROW)];
        let [kept, dropped, partial] = answer(raw::salvage(bytes, &mut rows, &mut words))
            .map_err(|refusal| explain::table(bytes, refusal))?;
        rows.truncate(kept as usize);
        let entries = words.chunks_exact(ENTRY).take(dropped as usize);
        let entries: Vec<(usize, Rule)> = entries
            .map(|entry| (entry[0] as usize, Rule::of_number(entry[1])))
            .collect();
        Ok(Salvaged {
            table: Table::new(rows).expect("kept rows are a good table"),
            report: explain::dropped(bytes, &entries),
            partial: partial as usize,
        })
    }
}

/// What [`Table::salvage`] has kept of a table, and what it hasn't.
#[derive(Clone, Debug, PartialEq, Eq)]
pub struct Salvaged {
    /// The rows that were kept.
    pub table: Table,
    /// The rows that were dropped, in their order.
    pub report: Vec<Dropped>,
    /// How many bytes of a last row that isn't whole were left out; 0 if there is none.
    pub partial: usize,
}

impl Salvaged {
    /// Whether the table was good: then what was kept is all of it, byte for byte.
    pub fn is_whole(&self) -> bool {
        self.report.is_empty() && self.partial == 0
    }
}

/// A row that was dropped. Two are the same if row and rule are; what broke in particular
/// ([`cause`](Dropped::cause)) is told beside them.
#[derive(Clone, Copy, Debug)]
pub struct Dropped {
    /// Its number in the table that was hurt.
    pub row: usize,
    /// The first rule that it broke.
    pub rule: Rule,
    cause: Option<Cause>,
}

impl Dropped {
    pub(crate) fn new(row: usize, rule: Rule, cause: Option<Cause>) -> Dropped {
        Dropped { row, rule, cause }
    }

    /// What broke in particular: its place is that of the field in the table that was hurt,
    /// of two bytes for a count or a row number, and of a hash for a repeated one.
    pub fn cause(&self) -> Option<Cause> {
        self.cause
    }
}

impl PartialEq for Dropped {
    fn eq(&self, other: &Dropped) -> bool {
        (self.row, self.rule) == (other.row, other.rule)
    }
}

impl Eq for Dropped {}

impl fmt::Display for Dropped {
    /// The row and what broke, in plain words.
    fn fmt(&self, f: &mut fmt::Formatter<'_>) -> fmt::Result {
        match self.cause {
            Some(cause) => cause.fmt(f),
            None => write!(f, "row {}: {}", self.row, self.rule),
        }
    }
}

/// The rules of a kept row, in the order in which they are tested.
#[derive(Clone, Copy, Debug, PartialEq, Eq, PartialOrd, Ord, Hash)]
pub enum Rule {
    /// It counts no more dependencies than a row has room for.
    Count,
    /// Its row numbers in use ascend, and are less than its own.
    RowNumbers,
    /// Its row numbers that aren't in use are 0.
    Zeros,
    /// No earlier kept row has its hash.
    RepeatedHash,
    /// Every row that it depends on is kept.
    LostDependency,
}

impl Rule {
    /// All of them, in their order.
    pub const ALL: [Rule; 5] = [
        Rule::Count,
        Rule::RowNumbers,
        Rule::Zeros,
        Rule::RepeatedHash,
        Rule::LostDependency,
    ];

    /// Its number in the report, from 1.
    pub fn number(self) -> u64 {
        self as u64 + 1
    }

    /// 02's word for it.
    pub fn name(self) -> &'static str {
        match self {
            Rule::Count => "count",
            Rule::RowNumbers => "row numbers",
            Rule::Zeros => "zeros",
            Rule::RepeatedHash => "repeated hash",
            Rule::LostDependency => "lost dependency",
        }
    }

    fn of_number(number: u64) -> Rule {
        let mut all = Rule::ALL.into_iter();
        let own = all.find(|rule| rule.number() == number);
        own.expect("the report has numbers of rules")
    }
}

impl fmt::Display for Rule {
    /// What breaks it.
    fn fmt(&self, f: &mut fmt::Formatter<'_>) -> fmt::Result {
        f.write_str(match self {
            Rule::Count => "more dependencies are counted than a row has room for",
            Rule::RowNumbers => "its row numbers don't ascend, or one isn't less than its own",
            Rule::Zeros => "what isn't in use isn't zero",
            Rule::RepeatedHash => "an earlier kept row has its hash",
            Rule::LostDependency => "it depends on a row that is dropped",
        })
    }
}
