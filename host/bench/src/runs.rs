//! Many runs of the program, and the table of their best times.
//!
//! Where the system puts a program in memory differs from run to run, and a call
//! of a few nanoseconds takes up to twice as long in some places; so no one run
//! tells its time.

use crate::measure::{Times, BATCHES, REST};
use std::process::Command;

/// The word that asks for one run: its lines, unadorned.
pub const ONCE: &str = "once";

const RUNS: usize = 8;

pub fn print_best() -> Result<(), String> {
    let mut best = run()?;
    for _ in 1..RUNS {
        for (best, times) in best.iter_mut().zip(run()?) {
            best.library = best.library.min(times.library);
            best.published = best.published.min(times.published);
        }
    }
    println!("Nanoseconds a call, the best of {BATCHES} batches in each of {RUNS} runs; ratio: crate / library;");
    println!(
        "growth: the library's time over that of the line above, where that has the same name;"
    );
    println!("own: a line without its rest, where that is more than a twenty-fifth of the line.\n");
    print_columns(
        ["name", "size", "library", "crate", "ratio", "growth"],
        "note",
    );
    best.extend(differences(&best));
    for (k, times) in best.iter().enumerate() {
        let above = k.checked_sub(1).map(|k| &best[k]);
        let smaller = above.filter(|above| above.name == times.name);
        let growth = smaller.map(|smaller| times.library / smaller.library);
        let [library, published, ratio, growth] = [
            Some(times.library),
            Some(times.published),
            Some(times.published / times.library),
            growth,
        ]
        .map(|number| number.map_or(String::new(), |number| format!("{number:.2}")));
        let columns = [
            &times.name[..],
            &times.size,
            &library,
            &published,
            &ratio,
            &growth,
        ];
        print_columns(columns, &times.note);
    }
    Ok(())
}

/// Less than this part of a line is lost in how its time differs from run to run.
const LOST: f64 = 0.04;

/// Of every two lines of which one is the other's rest: the other without it, where
/// that is enough to be told.
fn differences(lines: &[Times]) -> Vec<Times> {
    let pairs = lines.iter().filter_map(|whole| {
        let rest = format!("{}{REST}", whole.name);
        let is_rest = |line: &&Times| line.name == rest && line.size == whole.size;
        let rest = lines.iter().find(is_rest)?;
        let enough = whole.library - rest.library > LOST * whole.library;
        enough.then_some((whole, rest))
    });
    pairs
        .map(|(whole, rest)| Times {
            name: format!("{}: own", whole.name),
            size: whole.size.clone(),
            library: whole.library - rest.library,
            published: whole.published - rest.published,
            note: "the difference of two lines above".to_string(),
        })
        .collect()
}

fn print_columns([name, size, library, published, ratio, growth]: [&str; 6], note: &str) {
    let line = format!(
        "{name:<28} {size:<16} {library:>12} {published:>12} {ratio:>8} {growth:>8}  {note}"
    );
    println!("{}", line.trim_end());
}

fn run() -> Result<Vec<Times>, String> {
    let told = |error: std::io::Error| format!("the program can't run itself: {error}");
    let program = std::env::current_exe().map_err(told)?;
    let done = Command::new(program).arg(ONCE).output().map_err(told)?;
    if !done.status.success() {
        let said = String::from_utf8_lossy(&done.stderr);
        return Err(format!("a run failed: {said}"));
    }
    let lines = String::from_utf8_lossy(&done.stdout);
    let times = lines.lines().map(Times::read);
    times
        .collect::<Option<_>>()
        .ok_or("a run's lines are no times".to_string())
}
