//! How far a long comparison is, and its figures in words.

use register::playback::Closing;
use register::{accession, Refusal};
use std::time::{Duration, Instant};

/// Says every few seconds, on standard error, how many of the whole are done.
pub struct Progress {
    what: String,
    whole: u64,
    begun: Instant,
    said: Instant,
}

impl Progress {
    const PAUSE: Duration = Duration::from_secs(5);

    pub fn new(what: &str, whole: u64) -> Progress {
        let begun = Instant::now();
        Progress { what: what.to_string(), whole, begun, said: begun }
    }

    /// So many are done.
    pub fn at(&mut self, done: u64) {
        if self.said.elapsed() >= Progress::PAUSE {
            self.said = Instant::now();
            eprintln!("{}: {done} of {} so far, {:.0} s", self.what, self.whole, self.seconds());
        }
    }

    pub fn seconds(&self) -> f64 {
        self.begun.elapsed().as_secs_f64()
    }
}

/// A line for each refusal that came: its number, how often, and what it says.
pub fn refusal_lines(counts: &[u64]) -> String {
    let line = |number: u8| {
        let count = counts[number as usize];
        let words = match number {
            n if n == Closing::Malformed.number() => "a trace's entry malformed",
            n if n == Closing::Cut.number() => "a trace ends inside an entry",
            n if n == accession::Refusal::Full as u8 => "the index of accession numbers is full",
            n if n == accession::Refusal::Short as u8 => "a value under 8 bytes",
            _ => Refusal::of_number(number).map_or("", Refusal::words),
        };
        (count > 0).then(|| format!("{number:>4} {count:>10}  {words}\n"))
    };
    let lines: String = (1..counts.len() as u8).filter_map(line).collect();
    if lines.is_empty() {
        return "no refusal\n".to_string();
    }
    format!("refusals by number, how often, and what each says:\n{lines}")
}
