//! What is printed of a run.

use super::case::Kind;
use super::Count;
use bisquetower::refusal::grouped;
use std::fmt::Write as _;
use std::time::Duration;

fn total(counts: &[Count], of: fn(&Count) -> u64) -> u64 {
    counts.iter().map(of).sum()
}

/// One line that says how far a run is.
pub fn progress(counts: &[Count], since: Duration) -> String {
    let inputs = total(counts, |count| count.inputs);
    let differences = total(counts, |count| count.differences);
    let seconds = since.as_secs_f64();
    let rate = grouped(rate(inputs, since));
    let (inputs, differences) = (grouped(inputs), grouped(differences));
    format!("{seconds:.0} s: {inputs} inputs, {rate} a second, {differences} differences")
}

/// Inputs a second.
fn rate(inputs: u64, took: Duration) -> u64 {
    (inputs as f64 / took.as_secs_f64().max(0.001)).round() as u64
}

/// A row for each kind, and one for all.
pub fn table(kinds: &[Kind], counts: &[Count]) -> String {
    let mut text = format!(
        "{:<24} {:>13} {:>13} {:>12} {:>11}\n",
        "kind", "inputs", "apart", "differences", "a second"
    );
    let mut row = |name: &str, inputs: u64, apart: u64, differences: u64, took: Duration| {
        let numbers = [inputs, apart, differences, rate(inputs, took)];
        let [inputs, apart, differences, rate] = numbers.map(grouped);
        let _ = writeln!(
            text,
            "{name:<24} {inputs:>13} {apart:>13} {differences:>12} {rate:>11}"
        );
    };
    for (kind, count) in kinds.iter().zip(counts) {
        let Count {
            inputs,
            apart,
            differences,
            took,
            ..
        } = count;
        row(kind.name, *inputs, *apart, *differences, *took);
    }
    row(
        "all",
        total(counts, |count| count.inputs),
        total(counts, |count| count.apart),
        total(counts, |count| count.differences),
        counts.iter().map(|count| count.took).sum(),
    );
    text
}

/// The smallest differing input of each kind that has one, and how it is run again.
pub fn told(kinds: &[Kind], counts: &[Count], seed: u64) -> String {
    let mut text = String::new();
    for (kind, count) in kinds.iter().zip(counts) {
        let Some(worst) = &count.worst else {
            continue;
        };
        let (name, rounds) = (kind.name, worst.round + 1);
        let shown = kind.shown(&worst.case);
        let _ = writeln!(text, "\n{name}, the smallest that differs:\n{shown}");
        let _ = writeln!(text, "  {}", worst.why);
        let again = format!("make compare SEED={seed} ROUNDS={rounds} KIND='{name}'");
        let _ = writeln!(text, "  to run it again: {again}");
    }
    text
}
