//! Lines for the operator, to standard error: with a level that the journal reads where it listens, else with a word.

use semduoli::events::Level;
use std::io::Write;

pub fn note(level: Level, line: &str) {
    let by_journal = std::env::var_os("JOURNAL_STREAM").is_some();
    let (number, word) = match level {
        Level::Error => (3, "error: "),
        Level::Warning => (4, "warning: "),
        Level::Notice => (5, ""),
        Level::Info => (6, ""),
    };
    let mark = if by_journal { format!("<{number}>") } else { word.to_string() };
    // a line that nobody takes must not end the node
    let _ = writeln!(std::io::stderr(), "{mark}{line}");
}

/// Says that links and asks are taken now.
pub fn ready() {
    note(Level::Notice, "ready");
}
