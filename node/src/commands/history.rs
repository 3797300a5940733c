//! Histories: what a node's desks did, whether it has an order, and the season sheet.

use super::files::read_log;
use super::folder::read_own;
use super::{use_error, Clock, ClockKind, NodeFolder};
use crate::failure::{code, Failure};
use crate::out;
use crate::progress::Progress;
use semduoli::events::Stamp;
use semduoli::judge::{self, Line, Verdict, NO_END};
use semduoli::records::{self, outcome, Record};
use semduoli::sem;
use serde_json::json;
use std::collections::{BTreeMap, BTreeSet};
use std::path::PathBuf;

/// The sheet takes 64 lines, of which half may be writes that reads name.
pub const SHEET_MOST: usize = 32;
const MS: u64 = 1000;

/// A point of a desk's operation on both clocks.
#[derive(Clone, Copy)]
struct Point {
    tick: u32,
    wall: u64,
}

struct Operation {
    write: bool,
    client: u8,
    register: u8,
    begin: Point,
    end: Point,
    stamp: Stamp,
}

/// The ended operations of the node's desks in the order of their ends, and how many are open.
fn operations(node: &NodeFolder) -> Result<(Vec<Operation>, usize), Failure> {
    let (cluster, _) = read_own(&node.folder, node.cluster.as_deref())?;
    let mut open: BTreeMap<(u8, u8), (bool, Point)> = BTreeMap::new();
    let mut ended = vec![];
    read_log(&node.folder, cluster.register_digest(), &mut |batch| {
        for record in records::read(batch.payload) {
            match record.map_err(|_| "the batch has bytes that are no record")? {
                Record::Begin { client, register, tick, wall, value, .. } => {
                    open.insert((client, register), (value.is_some(), Point { tick, wall }));
                }
                Record::Ended { client, register, tick, wall, outcome, stamp } => {
                    let begun = open.remove(&(client, register));
                    let told = matches!(outcome, outcome::WRITTEN | outcome::VALUE);
                    if let Some((write, begin)) = begun.filter(|_| told) {
                        let end = Point { tick, wall };
                        ended.push(Operation { write, client, register, begin, end, stamp: sem::stamp_of(&stamp) });
                    }
                }
                _ => {}
            }
        }
        Ok(())
    })?;
    Ok((ended, open.len()))
}

/// An operation on a clock. Widening moves its ends apart, which can hide that one precedes another and never invent it.
fn line(o: &Operation, clock: ClockKind, widen: u32) -> Line {
    let seconds = |ms: u64| (ms / MS).min((NO_END - 1).into()) as u32;
    let (start, end) = match clock {
        ClockKind::Local => (o.begin.tick, o.end.tick),
        ClockKind::Wall => (seconds(o.begin.wall).saturating_sub(widen), seconds(o.end.wall).saturating_add(1).saturating_add(widen)),
    };
    Line { write: o.write, start, end: end.max(start.saturating_add(1)), stamp: o.stamp, caller: o.client }
}

pub fn history(node: &NodeFolder, clock: &Clock, as_json: bool) -> Result<(), Failure> {
    let (ended, open) = operations(node)?;
    let mut text = String::new();
    for o in &ended {
        let l = line(o, clock.clock, clock.widen);
        let stamp = crate::local::stamp_json(&l.stamp);
        text += &match as_json {
            true => json!({ "kind": if l.write { "W" } else { "R" }, "register": o.register, "start": l.start, "end": l.end, "stamp": stamp,
                "caller": l.caller })
            .to_string(),
            false => l.to_string(),
        };
        text += "\n";
    }
    if open > 0 {
        eprintln!("{open} operations are open, and have no line yet");
    }
    out::bytes(text.as_bytes())
}

fn lines_of(files: &[PathBuf]) -> Result<(Vec<Line>, Vec<String>), Failure> {
    let (mut lines, mut places) = (vec![], vec![]);
    for file in files {
        let text = std::fs::read_to_string(file).map_err(|e| use_error(format!("{}: {e}", file.display())))?;
        for (at, text) in text.lines().enumerate() {
            let place = format!("{}, line {}", file.display(), at + 1);
            let line = Line::parse(text).ok_or_else(|| {
                Failure::new(code::REFUSED, format!("refused 18: {place}: no line of a history: kind, start, end, time, writer, sequence, caller"))
            })?;
            lines.push(line);
            places.push(place);
        }
    }
    // a write that one file only adds for its reads may be another file's own
    let own: BTreeSet<Stamp> = lines.iter().filter(|l| l.write && l.caller != 0).map(|l| l.stamp).collect();
    let added = |l: &Line| l.write && l.caller == 0 && l.start == 0 && l.end == NO_END && own.contains(&l.stamp);
    let kept: Vec<bool> = lines.iter().map(|l| !added(l)).collect();
    let keep = |at: &usize| kept[*at];
    places = (0..places.len()).filter(keep).map(|at| std::mem::take(&mut places[at])).collect();
    lines = (0..lines.len()).filter(keep).map(|at| lines[at]).collect();
    Ok((lines, places))
}

pub fn judge(files: &[PathBuf], as_json: bool) -> Result<(), Failure> {
    let (mut lines, mut places) = lines_of(files)?;
    let operations = lines.len();
    judge::add_writes(&mut lines);
    places.resize(lines.len(), "a write that only reads tell of".into());
    let mut progress = Progress::new();
    let verdict = judge::history(&lines, &mut |done, all| progress.tell(|| format!("judged {done} of {all} windows")));
    drop(progress);
    match verdict {
        Verdict::Order { windows } if as_json => out::line(json!({ "order": true, "operations": operations, "windows": windows })),
        Verdict::Order { windows } => out::line(format!("{operations} operations have an order ({windows} windows judged)")),
        Verdict::Offending { earlier, later } => {
            let shown = |at: usize| format!("`{}` ({})", lines[at], places[at]);
            Err(Failure::new(code::NO_ORDER, format!("no order: {} precedes {}", shown(earlier), shown(later))))
        }
        Verdict::Refused { number, near } => {
            let why = if number == 18 { "a stamp is written twice, or a line is out of bounds" } else { "the judge refuses it" };
            Err(Failure::new(code::REFUSED, format!("refused {number}: {why}, among the lines that go with {}", places[near])))
        }
    }
}

pub fn sheet(node: &NodeFolder, last: usize, as_json: bool) -> Result<(), Failure> {
    if last > SHEET_MOST {
        return Err(use_error(format!("--last {last}: a sheet has at most {SHEET_MOST} operations")));
    }
    let (ended, _) = operations(node)?;
    let mut lines: Vec<Line> = ended[ended.len().saturating_sub(last)..].iter().map(|o| line(o, ClockKind::Local, 0)).collect();
    judge::add_writes(&mut lines);
    let text: String = lines.iter().map(|l| format!("{l}\n")).collect();
    match sem::sheet(text.as_bytes()) {
        Ok(Ok(pages)) if as_json => out::line(json!({ "sheet": String::from_utf8_lossy(&pages) })),
        Ok(Ok(pages)) => out::bytes(&pages),
        Ok(Err(pair)) => Err(no_order(&lines, pair)),
        Err(number) => Err(Failure::new(code::REFUSED, format!("refused {number}: these operations are no history"))),
    }
}

fn no_order(lines: &[Line], (earlier, later): (u8, u8)) -> Failure {
    let shown = |at: u8| lines.get((at as usize).wrapping_sub(1)).map_or_else(String::new, |l| format!("`{l}`"));
    Failure::new(code::NO_ORDER, format!("no order: {} precedes {}", shown(earlier), shown(later)))
}

#[cfg(test)]
mod tests {
    use super::*;

    fn operation() -> Operation {
        let (begin, end) = (Point { tick: 4, wall: 1_700_000_001_999 }, Point { tick: 7, wall: 1_700_000_002_001 });
        Operation { write: true, client: 3, register: 0, begin, end, stamp: Stamp { time: 5, writer: 3, sequence: 2 } }
    }

    #[test]
    fn an_operation_has_a_line_on_each_clock() {
        assert_eq!(line(&operation(), ClockKind::Local, 9).to_string(), "W 4 7 5 3 2 3");
        assert_eq!(line(&operation(), ClockKind::Wall, 0).to_string(), "W 1700000001 1700000003 5 3 2 3");
        assert_eq!(line(&operation(), ClockKind::Wall, 10).to_string(), "W 1699999991 1700000013 5 3 2 3");
        let mut late = operation();
        late.end.wall = u64::MAX;
        assert_eq!(line(&late, ClockKind::Wall, 10).end, NO_END);
    }

    /// The wall clock steps back by an hour while the operation is open: its local line is the same, its other one is a point, and a widening by the step
    /// has what either reading of the clock says.
    #[test]
    fn a_clock_that_steps_back_makes_no_line_that_ends_before_it_starts() {
        let mut back = operation();
        back.end.wall -= 3_600_000;
        assert_eq!(line(&back, ClockKind::Local, 0), line(&operation(), ClockKind::Local, 0));
        assert_eq!(line(&back, ClockKind::Wall, 0).to_string(), "W 1700000001 1700000002 5 3 2 3");
        assert_eq!(line(&back, ClockKind::Wall, 3600).to_string(), "W 1699996401 1700000003 5 3 2 3");
    }
}
