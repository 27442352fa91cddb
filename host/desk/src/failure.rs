//! How the command fails: what went wrong, and what to do next.

use crate::paint::Paint;
use std::fmt;
use std::process::ExitCode;

/// The exit status of what is refused or found wrong; that of wrong words and of files and
/// output that can't be had.
const REFUSED: u8 = 1;
const USAGE: u8 = 2;

#[derive(Debug)]
pub struct Failure {
    status: u8,
    what: String,
    next: String,
    /// What can be shown in spite of it.
    pub shown: String,
}

impl Failure {
    /// The words don't fit the command.
    pub fn usage(what: impl Into<String>, command: &str) -> Failure {
        let command = match command {
            "" => "--help".to_string(),
            command => format!("{command} --help"),
        };
        Failure {
            status: USAGE,
            what: what.into(),
            next: format!("`bisquetower {command}` says how it is used."),
            shown: String::new(),
        }
    }

    /// A file, or standard output, can't be read or written.
    pub fn file(what: impl Into<String>, next: impl Into<String>) -> Failure {
        Failure {
            status: USAGE,
            what: what.into(),
            next: next.into(),
            shown: String::new(),
        }
    }

    /// The library refused, or what was looked at is found wrong.
    pub fn refused(what: impl Into<String>, next: impl Into<String>) -> Failure {
        Failure {
            status: REFUSED,
            what: what.into(),
            next: next.into(),
            shown: String::new(),
        }
    }

    pub fn showing(self, shown: String) -> Failure {
        Failure { shown, ..self }
    }

    /// The same with another thing to do next.
    pub fn advising(self, next: impl Into<String>) -> Failure {
        let next = next.into();
        Failure { next, ..self }
    }

    pub fn status(&self) -> ExitCode {
        self.status.into()
    }
}

impl fmt::Display for Failure {
    fn fmt(&self, f: &mut fmt::Formatter<'_>) -> fmt::Result {
        let paint = Paint::of_errors();
        writeln!(f, "{} {}", paint.bad("bisquetower:"), self.what)?;
        writeln!(f, "{} {}", paint.faint("next:"), self.next)
    }
}
