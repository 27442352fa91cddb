//! The rows that a table's file has: those of now, or those of before, which had room for
//! fewer dependencies.

use bisquetower::limits::OLD_ROW_SIZE;
use bisquetower::{Refusal, Table, Waiting};

/// The refusal that names the first bad row of a change table.
const BAD_TABLE: u64 = 6;

/// Which rows a file has.
#[derive(Clone, Copy, Debug, PartialEq, Eq)]
pub enum Rows {
    Now,
    Before,
}

impl Rows {
    /// The rows by which the bytes are a change table; of a bad one those by which more of
    /// it is good. Those of now are assumed unless three rows of before are good beyond
    /// that: a row of now can be read as two of before, and its third is a repeated one. A
    /// hurt row of now may be more of them; but of rows of before nothing is kept as one of now.
    pub fn of(bytes: &[u8]) -> Rows {
        let (now, before) = (Rows::Now.good(bytes), Rows::Before.good(bytes));
        let whole = before == bytes.len() && now < bytes.len();
        let more = before > now + 2 * OLD_ROW_SIZE;
        match whole || (more && keeps_none(bytes)) {
            true => Rows::Before,
            false => Rows::Now,
        }
    }

    /// Bytes of a row.
    pub fn size(self) -> usize {
        match self {
            Rows::Now => Table::ROW,
            Rows::Before => OLD_ROW_SIZE,
        }
    }

    /// The change table that the bytes are, in these rows.
    pub fn table(self, bytes: &[u8]) -> Result<Table, Refusal> {
        match self {
            Rows::Now => Table::new(bytes),
            Rows::Before => Table::from_old(bytes),
        }
    }

    /// The bytes of a table, good or hurt, as rows of now: each whole row of before gets the
    /// bytes that it lacks as zeros.
    pub fn laid(self, bytes: &[u8]) -> Vec<u8> {
        if self == Rows::Now {
            return bytes.to_vec();
        }
        let rows = bytes.chunks_exact(OLD_ROW_SIZE);
        let rest = rows.remainder();
        let mut laid = Vec::with_capacity(Table::ROW * (rows.len() + 1));
        for row in rows {
            laid.extend(row);
            laid.resize(laid.len() + Table::ROW - OLD_ROW_SIZE, 0);
        }
        laid.extend(rest);
        laid
    }

    /// Where in the file a byte stands whose place is counted in rows of now.
    pub fn place(self, laid: usize) -> usize {
        laid / Table::ROW * self.size() + laid % Table::ROW
    }

    /// Bytes of the rows before the first bad one.
    fn good(self, bytes: &[u8]) -> usize {
        match self.table(bytes) {
            Ok(_) => bytes.len(),
            Err(refusal) if refusal.number == BAD_TABLE => self.size() * refusal.value as usize,
            Err(_) => 0,
        }
    }

    /// What is said of a table that was read so and is written in rows of now.
    pub fn told_of_widened(self) -> String {
        match self {
            Rows::Now => String::new(),
            Rows::Before => {
                format!(", whose rows of {OLD_ROW_SIZE} bytes, as they were before, are widened")
            }
        }
    }

    /// What is said of a table's title.
    pub fn told(self) -> String {
        match self {
            Rows::Now => String::new(),
            Rows::Before => format!(
                ", with rows of {OLD_ROW_SIZE} bytes as they were before; `bisquetower convert` makes rows of {}",
                Table::ROW
            ),
        }
    }
}

/// Whether nothing of a table can be salvaged as rows of now.
fn keeps_none(bytes: &[u8]) -> bool {
    Table::salvage(bytes).is_ok_and(|salvaged| salvaged.table.rows() == 0)
}

/// A waiting table, beside a change table without rows: in rows of now, or else of before.
pub fn waiting(bytes: &[u8]) -> Result<(Waiting, Rows), Refusal> {
    let beside = Table::default();
    let now = Waiting::new(bytes, &beside).map(|waiting| (waiting, Rows::Now));
    now.or_else(|refusal| match Waiting::from_old(bytes, &beside) {
        Ok(waiting) => Ok((waiting, Rows::Before)),
        Err(_) => Err(refusal),
    })
}
