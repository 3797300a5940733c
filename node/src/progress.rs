//! A line that says how far something is, on standard error, once it has taken a second: written over itself on a terminal, else now and then.

use std::io::{IsTerminal, Write};
use std::time::{Duration, Instant};

const FIRST: Duration = Duration::from_secs(1);
const ON_TERMINAL: Duration = Duration::from_millis(200);
const ELSEWHERE: Duration = Duration::from_secs(5);

pub struct Progress {
    next: Instant,
    terminal: bool,
    shown: bool,
}

impl Progress {
    pub fn new() -> Progress {
        Progress { next: Instant::now() + FIRST, terminal: std::io::stderr().is_terminal(), shown: false }
    }

    /// Shows the line if it is time to.
    pub fn tell(&mut self, line: impl FnOnce() -> String) {
        let now = Instant::now();
        if now < self.next {
            return;
        }
        self.next = now + if self.terminal { ON_TERMINAL } else { ELSEWHERE };
        self.shown = true;
        let mut err = std::io::stderr();
        let _ = if self.terminal { write!(err, "\r\x1b[K{}", line()) } else { writeln!(err, "{}", line()) };
        let _ = err.flush();
    }
}

impl Drop for Progress {
    fn drop(&mut self) {
        if self.shown && self.terminal {
            let _ = write!(std::io::stderr(), "\r\x1b[K");
        }
    }
}
