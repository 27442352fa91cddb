//! Settings lists, good and damaged, and the ways in which a plan knows its numbers.

use super::Random;
use crate::model::plan::{By, Numbers, OF_THE_CRATE};
use crate::model::settings::{Choice, Setting, MOST, RECORD};

/// The bytes of a list.
pub fn settings_bytes(settings: &[Setting]) -> Vec<u8> {
    settings.iter().flat_map(Setting::bytes).collect()
}

/// The least that are allowed, and the most.
pub const LEAST: Numbers = Numbers { bits: 1, probes: 1 };
pub const LARGEST: Numbers = Numbers {
    bits: 32,
    probes: 64,
};

impl Random {
    /// Numbers that a setting may have: at a bound, the crate's, or any.
    pub fn numbers(&mut self) -> Numbers {
        match self.below(8) {
            0 => LEAST,
            1 => LARGEST,
            2 => OF_THE_CRATE,
            _ => Numbers {
                bits: 1 + self.below(32) as u64,
                probes: 1 + self.below(64) as u64,
            },
        }
    }

    /// A choice that is allowed.
    pub fn choice(&mut self) -> Choice {
        let Numbers { bits, probes } = self.numbers();
        Choice {
            bits,
            probes,
            read_only: self.below(2) as u64,
        }
    }

    /// A number of four bytes: small, at either side of a byte's, the last ones, or any.
    pub fn four_bytes(&mut self) -> u64 {
        match self.below(6) {
            0 | 1 => self.below(4) as u64,
            2 => (1 << (8 * self.below(4))) - 1 + self.below(3) as u64,
            3 => MOST - self.below(3) as u64,
            _ => self.number() & MOST,
        }
    }

    /// A good list of less than `most` records, of few stations. Its versions follow each
    /// other or lie anywhere, and now and then the last one is the last that there is.
    pub fn settings(&mut self, most: usize) -> Vec<Setting> {
        let count = self.below(most);
        let stations: Vec<u64> = (0..=self.below(4)).map(|_| self.four_bytes()).collect();
        let (near, ends) = (self.one_in(2), self.one_in(4));
        let mut version = 0;
        let mut settings = Vec::new();
        for left in (0..count).rev() {
            // As many versions are left as there are records.
            let room = MOST - version - left as u64;
            version += match (near, ends && left == 0) {
                (_, true) => room,
                (true, _) => 1 + u64::from(self.one_in(4)).min(room - 1),
                (false, _) => 1 + self.word() % (room / 2).max(1),
            };
            settings.push(Setting {
                version,
                station: self.of(&stations),
                choice: self.choice(),
            });
        }
        settings
    }

    /// One change of a list: of a number or a byte of a record, or of the list's length.
    pub fn damage_settings(&mut self, list: &mut Vec<u8>) {
        let records = list.len() / RECORD;
        if records == 0 || self.one_in(6) {
            return self.damage(list);
        }
        let start = RECORD * self.below(records);
        let place = start + 4 * self.below(4);
        match self.below(4) {
            0 => list[start + self.below(RECORD)] ^= 1 << self.below(8),
            1 => {
                let bounds = [0, 1, 2, 32, 33, 64, 65, 256, MOST];
                let number = self.of(&bounds) as u32;
                list[place..place + 4].copy_from_slice(&number.to_le_bytes());
            }
            // The number of another record.
            2 => {
                let other = RECORD * self.below(records) + place - start;
                list.copy_within(other..other + 4, place);
            }
            _ => list[start + 16 + self.below(16)] = self.below(3) as u8,
        }
    }

    /// A station and a version to ask a list for: mostly of one of its records, or near.
    pub fn asked_of(&mut self, settings: &[Setting]) -> (u64, u64) {
        if settings.is_empty() || self.one_in(6) {
            return (self.four_bytes(), self.number());
        }
        let mut station = self.of(settings).station;
        if self.one_in(16) {
            // Its lower four bytes are a station's.
            station += (1 + self.number() / 2) << 32;
        }
        let version = match self.below(8) {
            0 => 0,
            1 => MOST,
            2 => MOST + 1 + self.number() / 2,
            _ => (self.of(settings).version + self.below(3) as u64) - 1,
        };
        (station, version)
    }

    /// Numbers that are passed, one in four of them bad, or a settings list, as many of
    /// them damaged.
    pub fn by(&mut self) -> By {
        let bad = self.one_in(4);
        self.by_bad(bad)
    }

    /// Good numbers that are passed, or a good settings list.
    pub fn by_good(&mut self) -> By {
        self.by_bad(false)
    }

    fn by_bad(&mut self, bad: bool) -> By {
        if self.one_in(2) {
            let mut numbers = self.numbers();
            match (bad, self.one_in(2)) {
                (true, true) => numbers.bits = self.of(&[0, 33, 1 << 32, u64::MAX]),
                (true, false) => numbers.probes = self.of(&[65, 255, 1 << 32, u64::MAX]),
                // A setting's probes are at least 1; those that are passed needn't be.
                (false, _) if self.one_in(8) => numbers.probes = 0,
                _ => {}
            }
            return By::Passed(numbers);
        }
        let settings = self.settings(8);
        let (station, version) = self.asked_of(&settings);
        let mut list = settings_bytes(&settings);
        if bad {
            self.damage_settings(&mut list);
        }
        By::Settings {
            list,
            station,
            version,
        }
    }
}
