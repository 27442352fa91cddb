//! The proved library against two others that answer the same calls.
//!
//! ```text
//!   bisquetower::raw    libbisquetower.a, proved
//!     |       |
//!     |     published   the crate's own code: values and kinds of errors
//!     |
//!   model               document 01 in plain Rust: every word
//! ```
//!
//! The library and the model must agree in every word, and in every item of a lent
//! buffer and around it (`guarded`). The library and the crate must agree in values,
//! places and kinds of refusals, but for the differences that are intended
//! (`wire::Difference`, and `filters::Difference` for filters), and there they must
//! differ.
//!
//! A module for each subject: `wire`, `filters`, `tables`, `settings`, `states`, `messages`,
//! `counts`, `salvage`, `selections` (the hashes to send) and `picks` make the comparisons, and
//! `writes` those of every call that writes one buffer and that the crate has. `inputs` and `model` have
//! a module for each of them too. The models of messages, of hashes to send and of sessions are also held against
//! the crate alone; the crate's graph can't be had, and its stand-in takes the crate's
//! place there. `samples` is what is stored of the crate's answers.
//!
//! `sessions` has the steps of a session. `units` are whole units of the crate, of the
//! model and of the library, `talks` pairs of them that talk at random, and `scenarios`
//! what two units go through by name; there every step of every pair is the same.
//! `walk` has two units of the library catch up beside the model of 01's walk, which
//! knows nothing of sessions, and two ends that both have news beside that of 02's exchange.
//! `scale` runs all of these comparisons for as long as is asked.

pub mod counts;
pub mod filters;
pub mod guarded;
pub mod inputs;
pub mod messages;
pub mod model;
pub mod picks;
pub mod published;
pub mod salvage;
pub mod samples;
pub mod scale;
pub mod scenarios;
pub mod selections;
pub mod sessions;
pub mod settings;
pub mod stack;
pub mod states;
pub mod tables;
pub mod talks;
pub mod tally;
pub mod units;
pub mod walk;
pub mod wire;
pub mod writes;

/// How much a test of the library does: where that is emulated, and where it is linked
/// and takes its own time alone.
pub const fn scaled(emulated: usize, linked: usize) -> usize {
    match bisquetower::raw::LINKED {
        true => linked,
        false => emulated,
    }
}

/// That the library's words are the model's.
fn same_answer<const WORDS: usize>(
    answer: [u64; WORDS],
    expected: [u64; WORDS],
) -> Result<(), String> {
    match answer == expected {
        true => Ok(()),
        false => Err(format!(
            "the library's answer is {answer:?}, the model's {expected:?}"
        )),
    }
}
