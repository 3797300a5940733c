//! A judged history laid out: a bar for each operation over time, in the order found, or with the offending pair marked.

use super::history::{is_initial, Found, History, Row};
use super::svg::{fitted, width, Anchor, Length, Stroke, Svg, WIDTH};
use super::Picture;
use crate::events::Stamp;
use crate::judge::NO_END;

const TITLE: Length = 40;
const TEXT: Length = 26;
const SMALL: Length = 21;
const MARGIN: Length = 20;
/// The columns of a row, from the left: place, what, line; then the bars; then the stamp.
const PLACE_END: Length = 95;
const WHAT: Length = 110;
const LINE_END: Length = 470;
const BARS: Length = 500;
const BARS_END: Length = 1560;
const STAMP: Length = 1590;
/// Room at both sides of the bars, for the numbers of their starts and ends, and for bars that go on.
const SIDE: Length = 140;
const ROW: Length = 36;
const BAR: Length = 22;
const GOES_ON: Length = 60;
const TICKS_MOST: u64 = 6;
const DARK: &str = "#444";
const BAND: &str = "#efefef";
const WHITE: &str = "#fff";

/// The time that bars are drawn over: from the first known start to the last known end.
#[derive(Clone, Copy)]
struct Axis {
    first: u64,
    last: u64,
}

impl Axis {
    fn new(rows: &[Row]) -> Axis {
        let starts = rows.iter().filter(|r| !is_early(r)).map(|r| r.line.start);
        let known = starts.chain(rows.iter().map(|r| r.line.end)).filter(|point| *point != NO_END);
        let (first, last) = known.fold((u64::MAX, 0), |(first, last), point| (first.min(point.into()), last.max(point.into())));
        if first > last {
            return Axis { first: 0, last: 1 };
        }
        Axis { first, last: last.max(first + 1) }
    }

    fn x(&self, point: u64) -> Length {
        let wide = (BARS_END - BARS - 2 * SIDE) as u64;
        let into = point.clamp(self.first, self.last) - self.first;
        BARS + SIDE + (into * wide / (self.last - self.first)) as Length
    }

    /// Round numbers within the axis, a few of them.
    fn ticks(&self) -> Vec<u64> {
        let span = self.last - self.first;
        let label = width(&self.last.to_string(), SMALL, false) + 40;
        let most = ((BARS_END - BARS - 2 * SIDE) / label) as u64;
        let steps = (0..10).flat_map(|power| [1, 2, 5].map(|digit| digit * 10u64.pow(power)));
        let step = steps.into_iter().find(|step| span / step <= most.min(TICKS_MOST)).unwrap_or(span.max(1));
        (self.first.div_ceil(step)..=self.last / step).map(|i| i * step).collect()
    }
}

/// Whether the start is not known: it is written as 0 where the caller is not known either.
fn is_early(row: &Row) -> bool {
    row.line.start == 0 && row.line.caller == 0
}

pub fn stamp_text(stamp: &Stamp) -> String {
    format!("{}.{}.{}", stamp.time, stamp.writer, stamp.sequence)
}

/// How an operation is named where there is no room for its row.
fn name(row: &Row) -> String {
    row.at.map_or_else(|| "a write that only reads tell of".into(), |at| format!("line {at}"))
}

/// What is found, in a few lines of text; the first is the shortest.
fn verdict(h: &History) -> Vec<String> {
    let drawn = h.all - h.left_out;
    let mut lines = match h.found {
        Found::Order if h.all == 0 => vec!["No operations.".to_string()],
        Found::Order => vec![
            format!("{} operations have an order, found by the proved judge.", h.all),
            "From the top down: what had ended when another began is above it; a read is below the write of its stamp and above the next write."
                .into(),
        ],
        Found::Pair { earlier, later } => {
            let (a, b) = (&h.rows[earlier], &h.rows[later]);
            let why = match a.line.stamp == b.line.stamp {
                true => format!("but A read stamp {}, which only B wrote.", stamp_text(&a.line.stamp)),
                false => format!(
                    "but A's stamp {} is larger than B's {}: an older result after a newer one.",
                    stamp_text(&a.line.stamp),
                    stamp_text(&b.line.stamp)
                ),
            };
            vec![format!("NO ORDER: {} (A) had ended when {} (B) began,", name(a), name(b)), why]
        }
    };
    if !h.of.is_empty() {
        lines.push(h.of.clone());
    }
    if h.left_out > 0 {
        let (which, places) = match h.found {
            Found::Order => ("the last ones", " Places are counted among those drawn."),
            Found::Pair { .. } => ("those nearest to the pair", ""),
        };
        lines.push(format!(
            "{drawn} of {} operations are drawn, {which} and their writes; {} are left out; all were judged.{places}",
            h.all, h.left_out
        ));
    }
    lines
}

/// Draws a history.
pub fn draw(h: &History) -> Picture {
    let (mut svg, axis) = (Svg::new(), Axis::new(&h.rows));
    let verdict = verdict(h);
    svg.text((MARGIN, 50), Anchor::Start, TITLE, true, "History: reads and writes over time");
    let mut y = 60;
    for (at, line) in verdict.iter().enumerate() {
        y += 40;
        svg.text((MARGIN, y), Anchor::Start, TEXT, at == 0 || matches!(h.found, Found::Pair { .. }) && at == 1, line);
    }
    let top = y + 80;
    let bottom = top + ROW * h.rows.len() as Length;
    bands(&mut svg, h, top);
    grid(&mut svg, &axis, h.found == Found::Order, top, bottom);
    for (at, row) in h.rows.iter().enumerate() {
        draw_row(&mut svg, &axis, row, mark(h, at), top + ROW * at as Length);
    }
    pair(&mut svg, h, &axis, top);
    legend(&mut svg, bottom + 70);
    let said = verdict.join(" ");
    Picture {
        svg: svg.finish(bottom + 140, "History: reads and writes over time", &said),
        line: verdict.join(" "),
        all: h.all,
        drawn: h.all - h.left_out,
    }
}

/// The first column of a row: its place in the order, or a letter for the pair.
fn mark(h: &History, at: usize) -> String {
    match h.found {
        Found::Order => format!("{}.", at + 1),
        Found::Pair { earlier, .. } if at == earlier => "A".into(),
        Found::Pair { later, .. } if at == later => "B".into(),
        Found::Pair { .. } => String::new(),
    }
}

/// In an order the rows of one stamp are together: every second such group has a shade.
fn bands(svg: &mut Svg, h: &History, top: Length) {
    let mut shaded = false;
    for (at, row) in h.rows.iter().enumerate() {
        shaded ^= at > 0 && h.rows[at - 1].line.stamp != row.line.stamp;
        if shaded && h.found == Found::Order {
            svg.rect((MARGIN, top + ROW * at as Length), (WIDTH - 2 * MARGIN, ROW), BAND, None);
        }
    }
}

fn grid(svg: &mut Svg, axis: &Axis, ordered: bool, top: Length, bottom: Length) {
    let header = top - 14;
    let place = if ordered { "place" } else { "" };
    for (x, anchor, text) in [
        (PLACE_END, Anchor::End, place),
        (WHAT, Anchor::Start, "operation"),
        (LINE_END, Anchor::End, "line"),
        (BARS, Anchor::Start, "time →"),
        (STAMP, Anchor::Start, "stamp"),
    ] {
        svg.text((x, header), anchor, SMALL, true, text);
    }
    for tick in axis.ticks() {
        let x = axis.x(tick);
        svg.path(Stroke::Faint, &format!("M{x} {}V{bottom}", top - 8));
        svg.text((x, header), Anchor::Middle, SMALL, false, &tick.to_string());
        svg.text((x, bottom + 26), Anchor::Middle, SMALL, false, &tick.to_string());
    }
}

fn draw_row(svg: &mut Svg, axis: &Axis, row: &Row, mark: String, top: Length) {
    let (l, y) = (&row.line, top + ROW / 2 + TEXT / 3);
    let letter = mark == "A" || mark == "B";
    svg.text((PLACE_END, y), Anchor::End, TEXT, letter, &mark);
    let who = match (row.at, l.caller) {
        (None, _) => ", told by reads".to_string(),
        (_, 0) => String::new(),
        (_, caller) => format!(", client {caller}"),
    };
    svg.text((WHAT, y), Anchor::Start, TEXT, letter, &format!("{}{who}", if l.write { "write" } else { "read" }));
    svg.text((LINE_END, y), Anchor::End, TEXT, false, &row.at.map_or_else(|| "–".into(), |at| at.to_string()));
    let mut stamp = stamp_text(&l.stamp);
    if is_initial(&l.stamp) {
        stamp += " (initial)";
    }
    let (size, stamp) = fitted(&stamp, WIDTH - MARGIN - STAMP, TEXT, letter);
    svg.text((STAMP, y), Anchor::Start, size, letter, &stamp);
    bar(svg, axis, row, letter, top);
}

fn bar(svg: &mut Svg, axis: &Axis, row: &Row, marked: bool, top: Length) {
    let (start, end) = (row.line.start, row.line.end);
    let (from, to) = (axis.x(start.into()), axis.x(end.into()));
    let (y, middle) = (top + (ROW - BAR) / 2, top + ROW / 2);
    let (early, late) = (is_early(row), end == NO_END);
    if early {
        svg.path(Stroke::Dotted, &format!("M{from} {middle}h-{GOES_ON}"));
    }
    if late {
        svg.path(Stroke::Dotted, &format!("M{to} {middle}h{GOES_ON}"));
    }
    let stroke = match (marked, early && late) {
        (true, _) => Stroke::Bold,
        (false, true) => Stroke::Dotted,
        (false, false) => Stroke::Plain,
    };
    // of an operation that has neither end, all that is drawn is where it may be
    let dark = row.line.write && !(early && late);
    svg.rect((from, y), ((to - from).max(6), BAR), if dark { DARK } else { WHITE }, Some(stroke));
    let left = if early { from - GOES_ON } else { from } - 8;
    svg.text((left, middle + SMALL / 3), Anchor::End, SMALL, false, &start.to_string());
    let (right, label) = if late { (to + GOES_ON, "open".to_string()) } else { (to.max(from + 6), end.to_string()) };
    svg.text((right + 8, middle + SMALL / 3), Anchor::Start, SMALL, false, &label);
}

/// The pair: a line from the end of the one to the start of the other.
fn pair(svg: &mut Svg, h: &History, axis: &Axis, top: Length) {
    let Found::Pair { earlier, later } = h.found else { return };
    let end = (axis.x(h.rows[earlier].line.end.into()), top + ROW * earlier as Length + (ROW + BAR) / 2);
    let start = (axis.x(h.rows[later].line.start.into()) + 10, top + ROW * later as Length + (ROW - BAR) / 2);
    svg.path(Stroke::Bold, &format!("M{} {}L{} {}", end.0, end.1, start.0, start.1));
    svg.solid("#a00", &head(end, start));
}

/// A filled arrow head at the end of a line.
fn head(from: (Length, Length), to: (Length, Length)) -> String {
    let (dx, dy) = ((to.0 - from.0) as f64, (to.1 - from.1) as f64);
    let long = dx.hypot(dy).max(1.0);
    let (ux, uy) = (dx / long * 26.0, dy / long * 26.0);
    let (bx, by) = (to.0 as f64 - ux, to.1 as f64 - uy);
    let corner = |side: f64| format!("{} {}", (bx - side * uy / 2.0).round() as Length, (by + side * ux / 2.0).round() as Length);
    format!("M{} {}L{}L{}z", to.0, to.1, corner(1.0), corner(-1.0))
}

fn legend(svg: &mut Svg, y: Length) {
    svg.rect((MARGIN, y - 20), (70, BAR), DARK, Some(Stroke::Plain));
    svg.text((MARGIN + 85, y), Anchor::Start, SMALL, false, "write");
    svg.rect((MARGIN + 190, y - 20), (70, BAR), WHITE, Some(Stroke::Plain));
    svg.text((MARGIN + 275, y), Anchor::Start, SMALL, false, "read");
    let rest = "numbers at a bar: start and end; what is dotted is not known; stamp: time.client.write, which says what was written or read";
    svg.text((MARGIN + 370, y), Anchor::Start, SMALL, false, rest);
}

#[cfg(test)]
mod tests {
    use super::super::history::read;
    use super::super::svg::{height, PAGE};
    use super::*;

    fn picture(text: &str) -> Picture {
        draw(&read(text.as_bytes(), &mut |_, _| {}).unwrap())
    }

    #[test]
    fn what_is_found_is_said() {
        assert!(picture("W 1 4 1 2 1 0\nR 2 6 0 0 0 0\nR 5 8 1 2 1 0\n").line.starts_with("3 operations have an order"));
        let older = picture("W 1 4 1 2 1 0\nR 5 6 0 0 0 0\n");
        assert!(older.line.starts_with("NO ORDER: line 1 (A) had ended when line 2 (B) began, but A's stamp 1.2.1 is larger"), "{}", older.line);
        let early = picture("R 1 2 1 2 1 0\nW 3 4 1 2 1 0\n");
        assert!(early.line.contains("A read stamp 1.2.1, which only B wrote"), "{}", early.line);
        assert!(older.svg.contains(">A</text>") && older.svg.contains(">B</text>") && older.svg.contains(">0.0.0 (initial)</text>"));
        assert_eq!(picture("").line, "No operations.");
    }

    #[test]
    fn bars_of_every_length_are_within_the_picture() {
        let most = u32::MAX;
        for text in [
            format!("R 0 {most} 0 0 0 0\n"),
            format!("W 1 {most} {} 8 {most} 8\nR {} {most} 0 0 0 1\n", u64::MAX, most - 1),
            "R 0 1 0 0 0 0\nR 4294967293 4294967294 0 0 0 0\n".into(),
        ] {
            let svg = picture(&text).svg;
            for number in svg.split(" x=\"").skip(1).map(|part| part.split('"').next().unwrap().parse::<Length>().unwrap()) {
                assert!((0..WIDTH).contains(&number), "{number} in {text}");
            }
        }
    }

    #[test]
    fn left_out_operations_are_counted() {
        let text: String = (1..=100).map(|i| format!("W {} {} {i} 1 {i} 1\n", 4 * i, 4 * i + 1)).collect();
        let p = picture(&text);
        assert_eq!((p.all, p.drawn), (100, 64));
        assert!(p.line.contains("64 of 100 operations are drawn, the last ones and their writes; 36 are left out; all were judged"), "{}", p.line);
        assert!(p.svg.len() < 64_000 && height(&p.svg) <= PAGE, "{} bytes, {} high", p.svg.len(), height(&p.svg));
    }
}
