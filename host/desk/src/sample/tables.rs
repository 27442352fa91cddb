//! A station's table of `ROWS` rows and that of a validator who is `LACKING` rows short.
//!
//! The rows that the validator holds are eight lines that meet now and then. It lacks 30
//! branches of 4 rows. The three lower rows of the first branch have hashes that the
//! validator's filter takes for held: their false yeses hide each other, so that they
//! come one a round.

use crate::failure::Failure;
use bisquetower::{ChangeHash, Filter, Refusal, Table};

const HELD: usize = 904;
const BRANCHES: usize = 30;
const LENGTH: usize = 4;
const LINES: usize = 8;

pub const LACKING: usize = BRANCHES * LENGTH;
pub const ROWS: usize = HELD + LACKING;

/// Branches that a validator with news has, and the rows that its station lacks then.
const OWN: usize = 12;
pub const NEWS: usize = OWN * LENGTH;

/// The numbers from which on hashes are tried that a filter takes for held, and those of a
/// validator's own rows.
const MISTAKEN: u64 = 1 << 32;
const OWN_MISTAKEN: u64 = 1 << 33;
const OWN_HASHES: u64 = 1 << 34;

/// How many rows there are from one row that meets others of the lines to the next.
const MEETING: usize = 32;

/// How many hashes are tried at a time for one that a filter takes for held.
const TRIES: u64 = 200;

type Rows = Vec<(ChangeHash, Vec<ChangeHash>)>;

pub fn sample() -> Result<(Table, Table), Failure> {
    let mut rows = held();
    let validator = Table::from_changes(rows.clone()).map_err(refused)?;
    let filter = Filter::from_hashes(validator.hashes()).map_err(refused)?;
    branch(
        &mut rows,
        BRANCHES,
        HELD as u64,
        &mistaken(&filter, MISTAKEN),
    );
    let station = Table::from_changes(rows).map_err(refused)?;
    Ok((station, validator))
}

/// A station with as many branches, and a validator with `OWN` branches of its own. The lower
/// rows of the first branch at either end are such that the other's filter takes them for held.
pub fn both() -> Result<(Table, Table), Failure> {
    // The validator's hidden rows go by the station's filter, which isn't known yet. They only
    // add to the bits of its own, so what that takes for held without them it still does.
    let mut named = held();
    branch(&mut named, OWN, OWN_HASHES, &[held()[0].0; LENGTH - 1]);
    let filter = Filter::from_hashes(named.iter().map(|row| row.0)).map_err(refused)?;
    let mut rows = held();
    branch(
        &mut rows,
        BRANCHES,
        HELD as u64,
        &mistaken(&filter, MISTAKEN),
    );
    let station = Table::from_changes(rows).map_err(refused)?;
    let filter = Filter::from_hashes(station.hashes()).map_err(refused)?;
    let mut rows = held();
    branch(&mut rows, OWN, OWN_HASHES, &mistaken(&filter, OWN_MISTAKEN));
    let validator = Table::from_changes(rows).map_err(refused)?;
    Ok((station, validator))
}

/// Puts branches on the rows that both hold. Those of the first one have these hashes, as
/// far as they go, and the others their own, by numbers from `first` on.
fn branch(rows: &mut Rows, branches: usize, first: u64, hashes: &[ChangeHash]) {
    for level in 0..LENGTH {
        for branch in 0..branches {
            let own = rows.len();
            let below = match level {
                0 => rows[HELD - 1 - branch].0,
                _ => rows[own - branches].0,
            };
            let name = match (branch, hashes.get(level)) {
                (0, Some(hash)) => *hash,
                _ => hash(first + (own - HELD) as u64),
            };
            rows.push((name, vec![below]));
        }
    }
}

fn held() -> Rows {
    let mut rows = Rows::new();
    for row in 0..HELD {
        let mut below = match row {
            0 => vec![],
            1..=LINES => vec![0],
            _ => vec![row - LINES],
        };
        if row > MEETING && row % MEETING == 0 {
            below.extend([row - 5, row - 3]);
        }
        let below = below.into_iter().map(|row| rows[row].0).collect();
        rows.push((hash(row as u64), below));
    }
    rows
}

/// The first hashes, by numbers from `first` on, that a filter takes for held: one for
/// each row of a branch but the last.
fn mistaken(filter: &Filter, mut first: u64) -> Vec<ChangeHash> {
    let mut found = Vec::new();
    while found.len() < LENGTH - 1 {
        let tried: Vec<ChangeHash> = (first..first + TRIES).map(hash).collect();
        let yes = filter.contains_hashes(&tried);
        let mistaken = tried.into_iter().zip(yes).filter(|(_, yes)| *yes);
        found.extend(mistaken.map(|(hash, _)| hash));
        first += TRIES;
    }
    found.truncate(LENGTH - 1);
    found
}

/// A hash whose words are spread; other numbers have others.
pub fn hash(n: u64) -> ChangeHash {
    let mut hash = [0; 32];
    let mut word = n;
    for part in hash.chunks_mut(8) {
        word = word.wrapping_add(0x9e37_79b9_7f4a_7c15);
        let mut mixed = (word ^ (word >> 30)).wrapping_mul(0xbf58_476d_1ce4_e5b9);
        mixed = (mixed ^ (mixed >> 27)).wrapping_mul(0x94d0_49bb_1331_11eb);
        part.copy_from_slice(&(mixed ^ (mixed >> 31)).to_le_bytes());
    }
    ChangeHash(hash)
}

/// The samples keep every rule, so the library takes them.
pub fn refused(refusal: Refusal) -> Failure {
    Failure::refused(
        format!("the samples weren't made: {refusal}"),
        "build the command and the library anew: they don't fit each other.",
    )
}
