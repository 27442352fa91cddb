//! The desk command: what a message, a state, a filter, a table or a settings list holds,
//! how a validator catches up, what is good of a hurt table, and what the filters of a night
//! did. Every answer is the proved library's.

mod args;
mod catch_up;
mod comparison;
mod convert;
mod count;
mod drawing;
mod failure;
mod files;
mod help;
mod hex;
mod inspect;
mod json;
mod output;
mod paint;
mod progress;
mod rate;
mod rows;
mod salvage;
mod sample;
mod settings;
mod table;
mod text;

use failure::Failure;
use std::ffi::OsString;
use std::io::Write;
use std::process::ExitCode;

fn main() -> ExitCode {
    let words: Vec<OsString> = std::env::args_os().skip(1).collect();
    let (shown, failed) = match run(&words) {
        Ok(shown) => (shown, None),
        Err(failure) => (failure.shown.clone(), Some(failure)),
    };
    let unwritten = output::print(&shown).err();
    let failures = failed.into_iter().chain(unwritten);
    failures.fold(ExitCode::SUCCESS, |_, failure| {
        // Where standard error can't be written either, the status is all that is left.
        let _ = write!(std::io::stderr(), "{failure}");
        failure.status()
    })
}

/// What is to be shown.
fn run(words: &[OsString]) -> Result<String, Failure> {
    let Some((first, rest)) = words.split_first() else {
        return Err(Failure::usage("no command is named", ""));
    };
    let first = first.to_string_lossy();
    let command: fn(&[OsString]) -> Result<String, Failure> = match &*first {
        "inspect" => inspect::run,
        "table" => table::run,
        "catch-up" => catch_up::run,
        "convert" => convert::run,
        "salvage" => salvage::run,
        "settings" => settings::run,
        "count" => count::run,
        "sample" => sample::run,
        "compare" => comparison::run,
        "help" | "--help" | "-h" => help::run,
        other => return Err(Failure::usage(format!("there is no command {other}"), "")),
    };
    match args::wants_help(rest) {
        true => help::run(&words[..1]),
        false => command(rest),
    }
}
