//! Colours, on a terminal and unless NO_COLOR is set.

use std::io::IsTerminal;

#[derive(Clone, Copy, Debug)]
pub struct Paint(bool);

impl Paint {
    /// For what goes to standard output.
    pub fn of_output() -> Paint {
        Paint(std::io::stdout().is_terminal() && wanted())
    }

    /// For what goes to standard error.
    pub fn of_errors() -> Paint {
        Paint(std::io::stderr().is_terminal() && wanted())
    }

    pub fn bold(self, text: &str) -> String {
        self.with("1", text)
    }

    pub fn faint(self, text: &str) -> String {
        self.with("2", text)
    }

    pub fn good(self, text: &str) -> String {
        self.with("32", text)
    }

    pub fn bad(self, text: &str) -> String {
        self.with("31", text)
    }

    fn with(self, code: &str, text: &str) -> String {
        match self.0 {
            true => format!("\x1b[{code}m{text}\x1b[0m"),
            false => text.to_string(),
        }
    }
}

/// NO_COLOR counts where it holds something.
fn wanted() -> bool {
    std::env::var_os("NO_COLOR").is_none_or(|value| value.is_empty())
}
