//! Settings lists, new settings, and choices that filters are to be built with: what is
//! wrong with the record that a refusal names, or with the choice.

use super::{BAD_NUMBERS, BAD_SETTING, BAD_SETTINGS};
use crate::cause::{Cause, Chosen, Rule, Setting};
use crate::limits::BITS;
use crate::refusal::Refusal;
use crate::settings::{u32_at, READ_ONLY, RECORD};
use crate::{Choice, Limits};
use std::ops::Range;

/// The refusal of a settings list.
pub(crate) fn list(settings: &[u8], refusal: Refusal) -> Refusal {
    if refusal.number != BAD_SETTINGS {
        return refusal;
    }
    let number = refusal.value as usize;
    let cause = wrong_record(settings, number).map(|(rule, place)| {
        let start = RECORD * number;
        let place = start + place.start..start + place.end;
        let of = Chosen::Record(number);
        Cause::new(Rule::Setting { of, rule }, Some(place))
    });
    cause.map_or(refusal, |cause| refusal.because(cause))
}

/// The refusal of a choice that was to be appended behind this version.
pub(crate) fn setting(newest: u32, choice: Choice, refusal: Refusal) -> Refusal {
    if refusal.number != BAD_SETTING {
        return refusal;
    }
    let used = (newest == u32::MAX).then_some(Setting::Used(newest.into()));
    let wrong = bits(choice.bits).or(probes(choice.probes, 1)).or(used);
    wrong.map_or(refusal, |rule| because(refusal, Chosen::New, rule))
}

/// The refusal of a plan whose filter was to be built with this choice. The session is one
/// of this crate's, so that the bad numbers are the choice's. A filter may have 0 probes,
/// though no setting does: it looks at one bit.
pub(super) fn pair(choice: Choice, refusal: Refusal) -> Refusal {
    match refusal.number {
        BAD_NUMBERS => wrong_pair(choice, refusal),
        _ => refusal,
    }
}

/// The same where the choice was lent as a settings list.
pub(super) fn lent_pair(choice: Choice, refusal: Refusal) -> Refusal {
    match refusal.number {
        BAD_SETTINGS => wrong_pair(choice, refusal),
        _ => refusal,
    }
}

fn wrong_pair(choice: Choice, refusal: Refusal) -> Refusal {
    let wrong = bits(choice.bits).or(probes(choice.probes, 0));
    wrong.map_or(refusal, |rule| because(refusal, Chosen::Filter, rule))
}

fn because(refusal: Refusal, of: Chosen, rule: Setting) -> Refusal {
    refusal.because(Cause::new(Rule::Setting { of, rule }, None))
}

/// What is wrong with a record, and which of its bytes are.
type Wrong = (Setting, Range<usize>);

fn wrong_record(settings: &[u8], number: usize) -> Option<Wrong> {
    let own = settings.chunks(RECORD).nth(number)?;
    let bytes = own.len();
    if bytes < RECORD {
        let whole = RECORD;
        return Some((Setting::Cut { bytes, whole }, 0..bytes));
    }
    let before = number.checked_sub(1);
    let before = before.map(|before| u32_at(settings, RECORD * before));
    version(u32_at(own, 0), before)
        .map(|wrong| (wrong, 0..4))
        .or_else(|| Some((bits(u32_at(own, 8))?, 8..12)))
        .or_else(|| Some((probes(u32_at(own, 12), 1)?, 12..16)))
        .or_else(|| {
            let byte = own[READ_ONLY];
            (byte > 1).then_some((Setting::ReadOnly(byte), READ_ONLY..READ_ONLY + 1))
        })
        .or_else(|| {
            let behind = &own[READ_ONLY + 1..];
            let place = READ_ONLY + 1 + behind.iter().position(|&byte| byte != 0)?;
            Some((Setting::BehindReadOnly, place..place + 1))
        })
}

fn version(version: u32, before: Option<u32>) -> Option<Setting> {
    let number = u64::from(version);
    match before {
        None => (version == 0).then_some(Setting::NoVersion),
        Some(before) => (version <= before).then_some(Setting::NotAbove {
            version: number,
            after: before.into(),
        }),
    }
}

fn bits(bits: u32) -> Option<Setting> {
    let (bits, most) = (bits.into(), BITS as u64);
    (!(1..=most).contains(&bits)).then_some(Setting::Bits { bits, most })
}

fn probes(probes: u32, least: u64) -> Option<Setting> {
    let (probes, most) = (probes.into(), Limits::told().probes);
    let rule = Setting::Probes {
        probes,
        least,
        most,
    };
    (!(least..=most).contains(&probes)).then_some(rule)
}
