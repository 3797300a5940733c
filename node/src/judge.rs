//! Histories of any length, judged by the proved judge, which takes 64 lines. There is an order exactly if no pair of lines offends, and whether a pair
//! offends depends on the two lines alone; so all pairs of runs of 16 lines are judged, each with the writes whose stamps its reads have.

use crate::events::Stamp;
use crate::sem::{self, Judged};
use std::collections::BTreeMap;

/// Lines of a run: two runs and the writes that they name are at most the judge's 64 lines.
const RUN: usize = 16;
/// Stands for an end that is not known.
pub const NO_END: u32 = u32::MAX;
const STAMP_OF_INITIAL: Stamp = Stamp { time: 0, writer: 0, sequence: 0 };

/// One operation: a line of a history.
#[derive(Clone, Copy, Debug, PartialEq, Eq)]
pub struct Line {
    pub write: bool,
    pub start: u32,
    pub end: u32,
    pub stamp: Stamp,
    pub caller: u8,
}

/// What was judged of a whole history.
#[derive(Clone, Debug, PartialEq, Eq)]
pub enum Verdict {
    /// It has an order; so many windows were judged.
    Order { windows: u64 },
    /// The first line precedes the second, and would have to stand behind it. Places in the history, from 0.
    Offending { earlier: usize, later: usize },
    /// The judge turned a window down with this number; a line of that window, by its place.
    Refused { number: u8, near: usize },
}

impl Line {
    /// A line of text: kind, start, end, time, writer, sequence, caller.
    pub fn parse(text: &str) -> Option<Line> {
        let mut fields = text.split(' ');
        let write = match fields.next()? {
            "W" => true,
            "R" => false,
            _ => return None,
        };
        let (start, end) = (number(fields.next()?)?, number(fields.next()?)?);
        let stamp = Stamp { time: number(fields.next()?)?, writer: number(fields.next()?)?, sequence: number(fields.next()?)? };
        let caller = number(fields.next()?)?;
        fields.next().is_none().then_some(Line { write, start, end, stamp, caller })
    }
}

/// Decimal digits without a leading zero.
fn number<N: std::str::FromStr>(digits: &str) -> Option<N> {
    let plain = digits.bytes().all(|b| b.is_ascii_digit()) && (digits == "0" || !digits.starts_with('0'));
    plain.then(|| digits.parse().ok()).flatten()
}

impl std::fmt::Display for Line {
    fn fmt(&self, f: &mut std::fmt::Formatter<'_>) -> std::fmt::Result {
        let Line { write, start, end, stamp, caller } = self;
        let kind = if *write { 'W' } else { 'R' };
        write!(f, "{kind} {start} {end} {} {} {} {caller}", stamp.time, stamp.writer, stamp.sequence)
    }
}

/// Adds the writes that reads name and no line has: those of others, or whose end was not seen.
pub fn add_writes(lines: &mut Vec<Line>) {
    let written: std::collections::BTreeSet<Stamp> = lines.iter().filter(|l| l.write).map(|l| l.stamp).collect();
    let read: std::collections::BTreeSet<Stamp> = lines.iter().filter(|l| !l.write).map(|l| l.stamp).collect();
    let missing = read.difference(&written).filter(|s| **s != STAMP_OF_INITIAL);
    lines.extend(missing.map(|stamp| Line { write: true, start: 0, end: NO_END, stamp: *stamp, caller: 0 }));
}

/// Judges a history. `progress` is told how many windows of how many are done.
pub fn history(lines: &[Line], progress: &mut dyn FnMut(u64, u64)) -> Verdict {
    let writes: BTreeMap<Stamp, usize> = lines.iter().enumerate().filter(|(_, l)| l.write).map(|(at, l)| (l.stamp, at)).collect();
    let texts: Vec<String> = lines.iter().map(|l| format!("{l}\n")).collect();
    let runs: Vec<Vec<usize>> = (0..lines.len()).collect::<Vec<_>>().chunks(RUN).map(|c| c.to_vec()).collect();
    let all = (runs.len() * (runs.len() + 1) / 2) as u64;
    let mut windows = 0;
    let mut text = String::new();
    for (i, first) in runs.iter().enumerate() {
        for second in &runs[i..] {
            let window = window(lines, &writes, first, second);
            text.clear();
            window.iter().for_each(|at| text.push_str(&texts[*at]));
            windows += 1;
            // line numbers count from 1
            let place = |line: u8| window.get((line as usize).wrapping_sub(1)).copied().unwrap_or(first[0]);
            match sem::judge(text.as_bytes()) {
                Ok(Judged::Ordered(_)) => progress(windows, all),
                Ok(Judged::Offending { earlier, later }) => return Verdict::Offending { earlier: place(earlier), later: place(later) },
                Err(number) => return Verdict::Refused { number, near: first[0] },
            }
        }
    }
    Verdict::Order { windows }
}

/// The lines of two runs (or of one twice) and of the writes that they name, each once, in the history's order.
fn window(lines: &[Line], writes: &BTreeMap<Stamp, usize>, first: &[usize], second: &[usize]) -> Vec<usize> {
    let mut window: Vec<usize> = first.iter().chain(second).copied().collect();
    for at in 0..window.len() {
        window.extend(writes.get(&lines[window[at]].stamp));
    }
    window.sort_unstable();
    window.dedup();
    window
}

#[cfg(test)]
mod tests {
    use super::*;

    fn written(at: u32) -> Line {
        let stamp = Stamp { time: at as u64, writer: 1, sequence: at };
        Line { write: true, start: 4 * at, end: 4 * at + 1, stamp, caller: 1 }
    }

    fn read(after: u32, of: u32) -> Line {
        Line { write: false, start: 4 * after + 2, end: 4 * after + 3, ..written(of) }
    }

    fn long() -> Vec<Line> {
        (1..=100).flat_map(|i| [written(i), read(i, i)]).collect()
    }

    #[test]
    fn a_long_history_has_an_order() {
        let mut told = 0;
        let runs = 200u64.div_ceil(RUN as u64);
        let windows = runs * (runs + 1) / 2;
        assert_eq!(history(&long(), &mut |_, all| told = all), Verdict::Order { windows });
        assert_eq!(told, windows);
        assert_eq!(history(&[], &mut |_, _| {}), Verdict::Order { windows: 0 });
    }

    #[test]
    fn an_old_value_read_late_is_found_however_far_apart() {
        for at in [1, 50, 99] {
            let mut lines = long();
            lines.push(read(100, at));
            let Verdict::Offending { earlier, later } = history(&lines, &mut |_, _| {}) else { panic!("an order") };
            assert_eq!(later, lines.len() - 1);
            assert!(lines[earlier].stamp > lines[later].stamp);
        }
    }

    #[test]
    fn a_stamp_written_twice_is_refused() {
        let mut lines = long();
        lines.push(Line { start: 9000, end: 9001, ..written(1) });
        assert!(matches!(history(&lines, &mut |_, _| {}), Verdict::Refused { number: 18, .. }));
    }

    #[test]
    fn writes_that_no_line_has_are_added() {
        let mut lines = vec![read(5, 3), read(6, 3), Line { stamp: STAMP_OF_INITIAL, ..read(1, 1) }];
        assert!(matches!(history(&lines, &mut |_, _| {}), Verdict::Refused { number: 19, .. }));
        add_writes(&mut lines);
        assert_eq!(lines[3].to_string(), "W 0 4294967295 3 1 3 0");
        assert_eq!(history(&lines, &mut |_, _| {}), Verdict::Order { windows: 1 });
    }

    #[test]
    fn lines_are_read_as_they_are_written() {
        let line = read(7, 3);
        assert_eq!(Line::parse(&line.to_string()), Some(line));
        for wrong in [
            "",
            "R",
            "X 1 2 3 4 5 6",
            "R 01 2 3 4 5 6",
            "R 1 2 3 4 5",
            "R 1 2 3 4 5 6 7",
            "R 1 2 3 4 5 +6",
            "R  1 2 3 4 5 6",
            "R 4294967296 2 3 4 5 6",
        ] {
            assert_eq!(Line::parse(wrong), None, "{wrong}");
        }
    }
}
