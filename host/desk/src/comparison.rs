//! `compare`: the library beside the crate's own code and the rules in plain Rust, every
//! kind of comparison in turn.

use crate::args::{Args, Options};
use crate::failure::Failure;
use crate::progress::Line;
use compare::scale::case::Kind;
use compare::scale::{progress, run as run_kinds, table, told, Until, KINDS};
use std::ffi::OsString;
use std::time::{Duration, Instant};

const OPTIONS: Options = Options {
    command: "compare",
    switches: &[],
    valued: &["--seconds", "--rounds", "--seed"],
};

/// How long it takes if that isn't told.
const SECONDS: u64 = 120;

pub fn run(words: &[OsString]) -> Result<String, Failure> {
    let args = OPTIONS.read(words)?;
    let seed = OPTIONS.number(&args, "--seed")?.unwrap_or_else(clock);
    let until = until(&args)?;
    let kinds = named(&args)?;
    let began = Instant::now();
    let mut line = Line::often_or_seldom();
    let counts = quietly(|| {
        run_kinds(&kinds, seed, until, |counts| {
            line.show(&progress(counts, began.elapsed()))
        })
    });
    line.clear();
    let shown = format!(
        "seed {seed}\n{}{}\n",
        table(&kinds, &counts),
        progress(&counts, began.elapsed())
    );
    if counts.iter().all(|count| count.differences == 0) {
        return Ok(shown);
    }
    let told = told(&kinds, &counts, seed);
    Err(Failure::refused(
        format!("answers differ:\n{told}"),
        "Keep the seed and the input: docs/DIFFERENCES.md lists all that may differ.",
    )
    .showing(shown))
}

/// How long it takes, one way or the other. Nothing would be compared in no time.
fn until(args: &Args) -> Result<Until, Failure> {
    let [rounds, seconds] =
        ["--rounds", "--seconds"].map(|option| match OPTIONS.number(args, option)? {
            Some(0) => Err(OPTIONS.wrong(format!("{option} wants 1 or more"))),
            told => Ok(told),
        });
    match (rounds?, seconds?) {
        (Some(_), Some(_)) => Err(OPTIONS.wrong("--rounds and --seconds don't go together")),
        (Some(rounds), None) => Ok(Until::Rounds(rounds)),
        (None, seconds) => Ok(Until::Time(Duration::from_secs(seconds.unwrap_or(SECONDS)))),
    }
}

/// The kinds that are named, or all.
fn named(args: &Args) -> Result<Vec<Kind>, Failure> {
    if args.names.is_empty() {
        return Ok(KINDS.to_vec());
    }
    let find = |name: &OsString| {
        let found = KINDS.iter().find(|kind| name == kind.name);
        let all: Vec<&str> = KINDS.iter().map(|kind| kind.name).collect();
        let (name, all) = (name.display(), all.join("; "));
        found
            .cloned()
            .ok_or_else(|| OPTIONS.wrong(format!("{name} is none of: {all}")))
    };
    args.names.iter().map(find).collect()
}

/// A seed that is another each time.
fn clock() -> u64 {
    let since = std::time::UNIX_EPOCH.elapsed();
    since.map_or(0, |time| u64::from(time.subsec_nanos()))
}

/// What panics in a comparison is counted and told with its input.
fn quietly<T>(run: impl FnOnce() -> T) -> T {
    let before = std::panic::take_hook();
    std::panic::set_hook(Box::new(|_| {}));
    let done = run();
    std::panic::set_hook(before);
    done
}
