//! Prints how long the library takes beside the crate, on the same inputs in the
//! same run. `make bench` at the repository's root runs it.
//!
//! ```text
//!   runs       this program again and again, the best times as a table
//!     |
//!   wire, ..   what is measured: a line each
//!     |
//!   measure    the times of one line
//! ```

mod counts;
mod filter;
mod measure;
mod message;
mod picks;
mod pool;
mod runs;
mod salvage;
mod selection;
mod session;
mod settings;
mod steep;
mod tables;
mod wire;

use bisquetower::raw;
use std::process::ExitCode;

/// What is measured, in this order.
const SUBJECTS: [(&str, fn()); 11] = [
    ("wire", wire::measure_all),
    ("filter", filter::measure_all),
    ("tables", tables::measure_all),
    ("message", message::measure_all),
    ("selection", selection::measure_all),
    ("session", session::measure_all),
    ("settings", settings::measure_all),
    ("counts", counts::measure_all),
    ("salvage", salvage::measure_all),
    ("picks", picks::measure_all),
    ("steep", steep::measure_all),
];

/// One run over the subjects that are named, or over all of them.
fn run_once(named: &[String]) {
    for (name, measure_all) in SUBJECTS {
        if named.is_empty() || named.iter().any(|one| one == name) {
            measure_all();
        }
    }
}

fn main() -> ExitCode {
    if !raw::LINKED {
        eprintln!("An emulator's times say nothing of the library's: use `make bench` at the repository's root.");
        return ExitCode::FAILURE;
    }
    let words: Vec<String> = std::env::args().skip(1).collect();
    if let Some((runs::ONCE, named)) = words.split_first().map(|(word, rest)| (&word[..], rest)) {
        run_once(named);
        return ExitCode::SUCCESS;
    }
    let processor = std::env::consts::ARCH;
    if processor == "x86_64" {
        println!("Library: libbisquetower.a as `make lib` builds it, for x86-64.");
    } else {
        println!("Library: the same module compiled for this processor, {processor}; libbisquetower.a itself is for x86-64.");
    }
    match runs::print_best() {
        Ok(()) => ExitCode::SUCCESS,
        Err(why) => {
            eprintln!("{why}");
            ExitCode::FAILURE
        }
    }
}
