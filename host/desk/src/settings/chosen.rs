//! What is to be chosen, as it is written behind `--set`.

use bisquetower::Choice;
use std::ffi::OsStr;

/// What a choice is to have; what isn't told stays.
#[derive(Debug, Default)]
pub struct Change {
    bits: Option<u32>,
    probes: Option<u32>,
    read_only: Option<bool>,
}

impl Change {
    /// Of `bits=12,probes=8,read-only=on`, or what is wrong with it.
    pub fn read(words: &OsStr) -> Result<Change, String> {
        let wrong = |word: &str| {
            format!("--set wants bits=N, probes=N and read-only=on or off with commas between, not {word:?}")
        };
        let mut change = Change::default();
        for word in words.to_string_lossy().split(',') {
            let number = |value: &str| value.parse().map(Some).map_err(|_| wrong(word));
            match word.split_once('=') {
                Some(("bits", value)) => change.bits = number(value)?,
                Some(("probes", value)) => change.probes = number(value)?,
                Some(("read-only", "on")) => change.read_only = Some(true),
                Some(("read-only", "off")) => change.read_only = Some(false),
                _ => return Err(wrong(word)),
            }
        }
        Ok(change)
    }

    /// The choice that it makes of the one before.
    pub fn of(&self, before: Choice) -> Choice {
        Choice {
            bits: self.bits.unwrap_or(before.bits),
            probes: self.probes.unwrap_or(before.probes),
            read_only: self.read_only.unwrap_or(before.read_only),
        }
    }
}
