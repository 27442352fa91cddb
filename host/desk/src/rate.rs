//! How often a filter is expected to say yes to a change that isn't in it. This is reckoned
//! here, as if the bits of a filter were set by chance; the library makes no such claim.

use crate::text::number;
use bisquetower::Choice;

/// The share of changes that a filter over so many rows takes for held, of those that it
/// doesn't have: each of its probes has to find a bit that is set.
pub fn expected(choice: Choice, rows: usize) -> f64 {
    let (bits, probes) = (choice.bits as usize, f64::from(choice.probes));
    let field = 8 * (rows * bits).div_ceil(8);
    let unset = (1.0 - 1.0 / field as f64).powf(probes * rows as f64);
    (1.0 - unset).powf(probes)
}

/// A share in words.
pub fn told(share: f64) -> String {
    let one_in = 1.0 / share;
    match one_in < 10.0 {
        true => format!("1 in {one_in:.1}"),
        false => format!("1 in {}", number(one_in.round() as usize)),
    }
}
