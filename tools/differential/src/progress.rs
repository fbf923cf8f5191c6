//! How far a run is: a line on standard error, written again and again on a terminal, else from time to time.

use std::io::{self, IsTerminal, Write};
use std::time::{Duration, Instant};

pub struct Progress {
    subject: &'static str,
    terminal: bool,
    start: Instant,
    told: Instant,
}

impl Progress {
    pub fn new(subject: &'static str) -> Progress {
        let now = Instant::now();
        Progress { subject, terminal: io::stderr().is_terminal(), start: now, told: now }
    }

    /// Tells it with the seconds so far, unless something was told a moment ago.
    pub fn tell(&mut self, what: impl FnOnce() -> String) {
        let now = Instant::now();
        let pause = if self.terminal { Duration::from_millis(250) } else { Duration::from_secs(30) };
        if now - self.told < pause {
            return;
        }
        self.told = now;
        let line = format!("{}: {}, {} s", self.subject, what(), (now - self.start).as_secs());
        // A line that cannot be written is not missed.
        let _ = match self.terminal {
            true => write!(io::stderr(), "\r{line}{CLEAR}"),
            false => writeln!(io::stderr(), "{line}"),
        };
    }
}

/// Clears the rest of a terminal's line.
const CLEAR: &str = "\x1b[K";

impl Drop for Progress {
    fn drop(&mut self) {
        if self.terminal {
            let _ = write!(io::stderr(), "\r{CLEAR}");
        }
    }
}
