//! How far a command is, on standard error.

use std::io::{IsTerminal, Write};
use std::time::{Duration, Instant};

/// Between two lines on a terminal, and elsewhere.
const OFTEN: Duration = Duration::from_millis(200);
const SELDOM: Duration = Duration::from_secs(30);

/// On a terminal one line that changes.
pub struct Line {
    terminal: bool,
    pause: Duration,
    last: Instant,
}

impl Line {
    /// Elsewhere a new line now and then.
    pub fn often_or_seldom() -> Line {
        Line::with_pause_elsewhere(SELDOM)
    }

    /// Elsewhere none.
    pub fn on_terminals() -> Line {
        Line::with_pause_elsewhere(Duration::MAX)
    }

    fn with_pause_elsewhere(elsewhere: Duration) -> Line {
        let terminal = std::io::stderr().is_terminal();
        Line {
            terminal,
            pause: if terminal { OFTEN } else { elsewhere },
            last: Instant::now(),
        }
    }

    pub fn show(&mut self, text: &str) {
        if self.last.elapsed() < self.pause {
            return;
        }
        self.last = Instant::now();
        let mut out = std::io::stderr();
        let _ = match self.terminal {
            true => write!(out, "\r{text}\x1b[K"),
            false => writeln!(out, "{text}"),
        };
    }

    pub fn clear(&self) {
        if self.terminal {
            let _ = write!(std::io::stderr(), "\r\x1b[K");
        }
    }
}
