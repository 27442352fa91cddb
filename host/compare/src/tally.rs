//! How often things of each kind happened, by name. A test asks this, so that none
//! passes by having tried too little.

use std::collections::BTreeMap;

#[derive(Clone, Debug, Default, PartialEq, Eq)]
pub struct Tally(BTreeMap<&'static str, u64>);

impl Tally {
    pub fn count(&mut self, kind: &'static str) {
        *self.0.entry(kind).or_default() += 1;
    }

    pub fn count_if(&mut self, so: bool, kind: &'static str) {
        if so {
            self.count(kind);
        }
    }

    pub fn of(&self, kind: &str) -> u64 {
        self.0.get(kind).copied().unwrap_or_default()
    }

    pub fn add(&mut self, other: &Tally) {
        for (kind, count) in &other.0 {
            *self.0.entry(kind).or_default() += count;
        }
    }

    /// That each of these kinds was seen so often.
    pub fn has(&self, least: u64, kinds: &[&str]) {
        for kind in kinds {
            assert!(self.of(kind) >= least, "few of {kind}: {self:?}");
        }
    }
}
