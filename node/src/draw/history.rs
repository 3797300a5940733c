//! A history, read from text and judged by the proved judge: which operations are drawn, and what is found of them.

use super::Wrong;
use crate::events::Stamp;
use crate::judge::{self, Line, Verdict};
use crate::sem::{self, Judged};
use std::collections::{BTreeMap, BTreeSet};

/// The judge takes so many lines at once, and a page has room for so many bars.
pub const ROWS_MOST: usize = 64;
const FIELDS: [&str; 6] = ["start", "end", "time", "writer", "sequence", "caller"];
const INITIAL: Stamp = Stamp { time: 0, writer: 0, sequence: 0 };
const REFUSED_RECORD: u8 = 18;
/// Clients and writers are numbered up to this.
const PARTY_MOST: u8 = sem::CLIENTS;

/// An operation that is drawn.
#[derive(Clone, Debug, PartialEq, Eq)]
pub struct Row {
    /// Its line in the file, from 1; none for a write that only reads tell of.
    pub at: Option<usize>,
    pub line: Line,
}

#[derive(Clone, Debug, PartialEq, Eq)]
pub enum Found {
    /// The rows are in an order.
    Order,
    /// The first row precedes the second, and would have to be after it.
    Pair { earlier: usize, later: usize },
}

#[derive(Clone, Debug, PartialEq, Eq)]
pub struct History {
    /// In the order found; where there is none, by start.
    pub rows: Vec<Row>,
    pub found: Found,
    /// Whose history it is, in words; empty where a file says all.
    pub of: String,
    /// Lines of the file, and how many of them are not drawn.
    pub all: usize,
    pub left_out: usize,
}

/// What is wrong with the form of a line.
fn fault_of_form(text: &str) -> String {
    let fields: Vec<&str> = text.split(' ').collect();
    let wanted = FIELDS.len() + 1;
    if !matches!(fields[0], "R" | "W") {
        return "the first field is neither R nor W".into();
    }
    if fields.len() != wanted {
        return format!("{} fields with one space between them, not {wanted} (kind, {})", fields.len(), FIELDS.join(", "));
    }
    let wrong =
        FIELDS.iter().zip(&fields[1..]).find(|(_, f)| f.is_empty() || !f.bytes().all(|b| b.is_ascii_digit()) || f.len() > 1 && f.starts_with('0'));
    match wrong {
        Some((name, _)) => format!("the {name} is no decimal number without leading zeros"),
        None => "a number is too large for its field".into(),
    }
}

/// What is wrong with a line that has the form of one and is refused.
fn fault_of_line(l: &Line) -> &'static str {
    if l.start >= l.end {
        "its start is not below its end"
    } else if l.stamp.writer > PARTY_MOST || l.caller > PARTY_MOST {
        "its writer or caller is above 8"
    } else if l.write && (l.stamp.time == 0 || l.stamp.writer == 0 || l.stamp.sequence == 0) {
        "the stamp of a write has a part that is 0"
    } else {
        "no record of a history"
    }
}

fn judge_lines<'a>(lines: impl Iterator<Item = &'a Line>) -> Result<Judged, u8> {
    let text: String = lines.map(|l| format!("{l}\n")).collect();
    sem::judge(text.as_bytes())
}

/// The lines of a text, each refused for itself by the judge or not.
fn parse(text: &[u8]) -> Result<Vec<Line>, Wrong> {
    let mut lines = vec![];
    let text = text.strip_suffix(b"\n").unwrap_or(text);
    if text.is_empty() {
        return Ok(lines);
    }
    for (at, bytes) in text.split(|b| *b == b'\n').enumerate() {
        let bytes = bytes.strip_suffix(b"\r").unwrap_or(bytes);
        let wrong = |what: String| Wrong::refused(REFUSED_RECORD, at + 1, what);
        let text = std::str::from_utf8(bytes).map_err(|_| wrong("bytes that are no text".into()))?;
        let line = Line::parse(text).ok_or_else(|| wrong(fault_of_form(text)))?;
        if let Err(REFUSED_RECORD) = judge_lines([line].iter()) {
            return Err(wrong(fault_of_line(&line).into()));
        }
        lines.push(line);
    }
    Ok(lines)
}

/// A stamp that two lines write is refused, by the judge's own word on the two.
fn written_once(lines: &[Line]) -> Result<(), Wrong> {
    let mut writes: BTreeMap<Stamp, usize> = BTreeMap::new();
    for (at, line) in lines.iter().enumerate().filter(|(_, l)| l.write) {
        if let Some(first) = writes.insert(line.stamp, at) {
            if let Err(number) = judge_lines([lines[first], *line].iter()) {
                return Err(Wrong::refused(number, at + 1, format!("its stamp is written by line {} already", first + 1)));
            }
        }
    }
    Ok(())
}

/// Adds the writes that only reads tell of. A read's stamp that no write can have is refused, as the judge refuses the read without its write.
fn with_writes(lines: &mut Vec<Line>) -> Result<(), Wrong> {
    let own = lines.len();
    judge::add_writes(lines);
    for added in &lines[own..] {
        if judge_lines([*added].iter()).is_err() {
            let at = lines.iter().position(|l| l.stamp == added.stamp).unwrap_or(0);
            let number = judge_lines([lines[at]].iter()).err().unwrap_or(REFUSED_RECORD);
            return Err(Wrong::refused(number, at + 1, "its stamp is partly zero, and no write can have it"));
        }
    }
    Ok(())
}

/// Which lines are drawn, by their places: all, or those near an offending pair, or the last; always with the writes that they name.
fn chosen(lines: &[Line], pair: Option<(usize, usize)>) -> BTreeSet<usize> {
    if lines.len() <= ROWS_MOST {
        return (0..lines.len()).collect();
    }
    let writes: BTreeMap<Stamp, usize> = lines.iter().enumerate().filter(|(_, l)| l.write).map(|(at, l)| (l.stamp, at)).collect();
    let mut ranked: Vec<usize> = (0..lines.len()).rev().collect();
    if let Some((earlier, later)) = pair {
        ranked.sort_by_key(|at| at.abs_diff(earlier).min(at.abs_diff(later)));
    }
    let mut kept = BTreeSet::new();
    for at in ranked {
        let named = writes.get(&lines[at].stamp).copied().unwrap_or(at);
        let more = usize::from(!kept.contains(&at)) + usize::from(named != at && !kept.contains(&named));
        if kept.len() + more > ROWS_MOST {
            break;
        }
        kept.extend([at, named]);
    }
    kept
}

/// Reads and judges a history. `progress` is told how many windows of a long one are judged.
pub fn read(text: &[u8], progress: &mut dyn FnMut(u64, u64)) -> Result<History, Wrong> {
    of_lines(parse(text)?, progress)
}

pub fn of_lines(mut lines: Vec<Line>, progress: &mut dyn FnMut(u64, u64)) -> Result<History, Wrong> {
    let all = lines.len();
    written_once(&lines)?;
    with_writes(&mut lines)?;
    let mut pair = None;
    if lines.len() > ROWS_MOST {
        match judge::history(&lines, progress) {
            Verdict::Order { .. } => {}
            Verdict::Offending { earlier, later } => pair = Some((earlier, later)),
            Verdict::Refused { number, near } => return Err(Wrong::refused(number, near + 1, "among the lines from here on one is refused")),
        }
    }
    let kept = chosen(&lines, pair);
    let left_out = (0..all).filter(|at| !kept.contains(at)).count();
    let rows: Vec<Row> = kept.iter().map(|at| Row { at: (*at < all).then_some(at + 1), line: lines[*at] }).collect();
    let (rows, found) = judged(rows)?;
    Ok(History { rows, found, of: String::new(), all, left_out })
}

/// The rows in the order that the judge finds; where it finds a pair, by start, with the pair's places.
fn judged(rows: Vec<Row>) -> Result<(Vec<Row>, Found), Wrong> {
    let place = |line: u8| usize::from(line).wrapping_sub(1);
    match judge_lines(rows.iter().map(|r| &r.line)).map_err(|number| Wrong::refused(number, 0, "the judge refuses these lines"))? {
        Judged::Ordered(order) => Ok((order.iter().filter_map(|l| rows.get(place(*l)).cloned()).collect(), Found::Order)),
        Judged::Offending { earlier, later } => {
            let mut by_start: Vec<usize> = (0..rows.len()).collect();
            by_start.sort_by_key(|at| (rows[*at].line.start, *at));
            let now = |line: u8| by_start.iter().position(|at| *at == place(line)).unwrap_or(0);
            let found = Found::Pair { earlier: now(earlier), later: now(later) };
            Ok((by_start.iter().map(|at| rows[*at].clone()).collect(), found))
        }
    }
}

/// Whether a stamp is the initial value's.
pub fn is_initial(stamp: &Stamp) -> bool {
    *stamp == INITIAL
}

#[cfg(test)]
mod tests {
    use super::*;

    fn read_text(text: &str) -> Result<History, Wrong> {
        read(text.as_bytes(), &mut |_, _| {})
    }

    fn places(h: &History) -> Vec<Option<usize>> {
        h.rows.iter().map(|r| r.at).collect()
    }

    #[test]
    fn rows_are_in_the_order_that_the_judge_finds() {
        let h = read_text("W 1 4 1 2 1 0\nR 2 6 0 0 0 0\nR 5 8 1 2 1 0\n").unwrap();
        assert_eq!((places(&h), h.found), (vec![Some(2), Some(1), Some(3)], Found::Order));
        assert_eq!(read_text("").unwrap().rows, []);
    }

    #[test]
    fn an_offending_pair_is_found_among_rows_by_start() {
        let h = read_text("R 9 10 0 0 0 0\nW 1 2 2 1 1 0\nR 5 6 0 0 0 0").unwrap();
        assert_eq!((places(&h), h.found), (vec![Some(2), Some(3), Some(1)], Found::Pair { earlier: 0, later: 2 }));
    }

    #[test]
    fn a_write_that_only_a_read_tells_of_is_drawn_too() {
        let h = read_text("R 1 2 7 1 1 0\n").unwrap();
        assert_eq!((places(&h), h.all, h.left_out), (vec![None, Some(1)], 1, 0));
    }

    #[test]
    fn of_a_long_history_the_last_are_drawn_or_those_at_the_pair() {
        let text: String = (1..=100).map(|i| format!("W {} {} {i} 1 {i} 1\nR {} {} {i} 1 {i} 2\n", 4 * i, 4 * i + 1, 4 * i + 2, 4 * i + 3)).collect();
        let h = read_text(&text).unwrap();
        assert_eq!((h.rows.len(), h.all, h.left_out, h.rows[63].at), (64, 200, 136, Some(200)));
        let h = read_text(&(text + "R 500 501 3 1 3 1\n")).unwrap();
        let Found::Pair { earlier, later } = h.found else { panic!("an order") };
        assert_eq!(h.rows[later].at, Some(201));
        assert!(h.rows[earlier].line.stamp > h.rows[later].line.stamp && h.rows.len() <= ROWS_MOST);
    }

    #[test]
    fn what_is_wrong_is_named_with_its_line() {
        let good = "W 1 4 1 2 1 0\n";
        for (line, number, says) in [
            ("", 18, "neither R nor W"),
            ("X 1 2 3 4 5 6", 18, "neither R nor W"),
            ("R 1 2 3", 18, "4 fields"),
            ("R 1 2 0 0 0 0 0", 18, "8 fields"),
            ("R 01 2 0 0 0 0", 18, "the start is no decimal"),
            ("R 1 2 0 0 0 x", 18, "the caller is no decimal"),
            ("R 1 99999999999 0 0 0 0", 18, "too large"),
            ("R 6 6 0 0 0 0", 18, "not below its end"),
            ("R 1 2 0 0 0 9", 18, "above 8"),
            ("W 1 2 1 0 1 0", 18, "a part that is 0"),
            ("W 5 6 1 2 1 0", 18, "line 1 already"),
            ("R 5 6 1 0 1 0", 19, "partly zero"),
        ] {
            let wrong = read_text(&format!("{good}{line}\n{}", "R 7 8 0 0 0 0")).unwrap_err();
            assert_eq!((wrong.line, wrong.refused), (2, Some(number)), "{line}: {wrong:?}");
            assert!(wrong.what.contains(says), "{line}: {wrong:?}");
        }
        assert_eq!(read(b"W 1 4 1 2 1 0\nR \xff", &mut |_, _| {}).unwrap_err().line, 2);
    }
}
