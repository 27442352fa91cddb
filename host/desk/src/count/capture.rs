//! The captures of a line: its files read, and counted by the library.

use super::manifest::{Line, Numbered};
use crate::files;
use crate::rate::expected;
use bisquetower::{Captured, Choice, Counts, Filter, Message, Refusal, Table};
use std::path::Path;
use std::sync::atomic::{AtomicUsize, Ordering};

/// What a capture came to.
#[derive(Clone, Copy, Debug, PartialEq)]
pub struct Counted {
    pub counts: Counts,
    /// Bits per entry and probes of its filter; none of one without entries.
    pub pair: Option<(u64, u64)>,
    /// How many of the rows that are tested would be contained if the filter's bits were set
    /// by chance.
    pub expected: f64,
}

/// A message's have, by its number from 1, and what it came to.
pub type Found = (Option<usize>, Result<Counted, Refusal>);

/// What was found in a line, or why it can't be read.
pub struct Looked {
    pub number: usize,
    pub found: Result<(Line, Vec<Found>), String>,
}

/// Looks at lines, so many at a time, and tells what came of them in their own order.
pub fn look_at(folder: &Path, lines: Vec<Numbered>, threads: usize) -> Vec<Looked> {
    let next = AtomicUsize::new(0);
    let work = || {
        let mut looked = Vec::new();
        while let Some(line) = lines.get(next.fetch_add(1, Ordering::Relaxed)) {
            looked.push(look(folder, line));
        }
        looked
    };
    let mut looked = std::thread::scope(|scope| {
        let others: Vec<_> = (1..threads).map(|_| scope.spawn(work)).collect();
        let mut looked = work();
        for other in others {
            let theirs = other.join();
            looked.extend(theirs.unwrap_or_else(|panic| std::panic::resume_unwind(panic)));
        }
        looked
    });
    looked.sort_by_key(|one| one.number);
    looked
}

fn look(folder: &Path, (number, line): &Numbered) -> Looked {
    let found = line.clone().and_then(|line| {
        let captures = captures(folder, &line)?;
        Ok((line, captures))
    });
    Looked {
        number: *number,
        found,
    }
}

fn captures(folder: &Path, line: &Line) -> Result<Vec<Found>, String> {
    let read = |name: &str| {
        let bytes = files::first_bytes(&folder.join(name));
        bytes.map_err(|error| format!("{name} can't be read: {error}"))
    };
    let said = read(&line.file)?;
    let mut tables = Tables {
        sender: read(&line.sender)?,
        listener: read(&line.listener)?,
    };
    if !is_message(&line.file, &said) {
        return Ok(vec![(None, tables.counted(&said))]);
    }
    let message = match Message::decode(&said) {
        Ok(message) => message,
        // The tables come first, as they do beside a filter.
        Err(refusal) => {
            let refused = tables.counted(&[]).and(Err(refusal));
            return Ok(vec![(None, refused)]);
        }
    };
    let haves = message.have.iter().enumerate();
    let counted = |(k, have): (usize, &bisquetower::Have)| {
        let counted = tables.counted(&have.bloom.to_bytes());
        (Some(k + 1), counted)
    };
    Ok(haves.map(counted).collect())
}

/// As the end of the file's name says, else a message is what can be read as one.
fn is_message(name: &str, bytes: &[u8]) -> bool {
    let end = Path::new(name).extension().and_then(|end| end.to_str());
    match end {
        Some("message") => true,
        Some("filter") => false,
        _ => Message::decode(bytes).is_ok(),
    }
}

/// The tables of a capture.
struct Tables {
    sender: Vec<u8>,
    listener: Vec<u8>,
}

impl Tables {
    fn counted(&mut self, filter: &[u8]) -> Result<Counted, Refusal> {
        let counts = self.counts(filter)?;
        let filter = Filter::parse(filter)?;
        let (bits, probes) = (filter.num_bits_per_entry(), filter.num_probes());
        if counts.entries == 0 {
            return Ok(Counted {
                counts,
                pair: None,
                expected: 0.0,
            });
        }
        let choice = Choice {
            bits: bits as u32,
            // With 0 probes a filter looks at one bit all the same.
            probes: probes.max(1) as u32,
            read_only: false,
        };
        let rate = expected(choice, counts.entries as usize);
        Ok(Counted {
            counts,
            pair: Some((bits, probes)),
            expected: rate * counts.tested as f64,
        })
    }

    /// What the library counts. A table that it refuses may have rows of before.
    fn counts(&mut self, filter: &[u8]) -> Result<Counts, Refusal> {
        loop {
            let refusal = match Counts::of_capture(&self.sender, &self.listener, filter) {
                Err(refusal) => refusal,
                counted => return counted,
            };
            let table = match refusal.cause().and_then(|cause| cause.captured()) {
                Some(Captured::Sender) => &mut self.sender,
                Some(Captured::Listener) => &mut self.listener,
                Some(Captured::Filter) | None => return Err(refusal),
            };
            match Table::from_old(table) {
                Ok(wide) => *table = wide.as_bytes().to_vec(),
                Err(_) => return Err(refusal),
            }
        }
    }
}
