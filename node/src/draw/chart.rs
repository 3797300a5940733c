//! A run laid out: a column for each party, time downwards, an arrow for each frame that is handed in, with what became of it beside.

use super::run::{Answer, Asked, Call, Choice, Compared, End, Run, Who};
use super::svg::{cut, fitted, width, Anchor, Length, Stroke, Svg, WIDTH};
use super::{words, Picture};
use crate::sem;

/// Calls that a picture has room for, unless it is asked for more.
pub const ROWS: usize = 64;
pub const ROWS_MOST: usize = 200;
const TITLE: Length = 40;
const TEXT: Length = 26;
const SMALL: Length = 21;
const MARGIN: Length = 20;
const LINE_END: Length = 90;
const COLUMNS: Length = 110;
const BESIDE: Length = 1240;
const ROW: Length = 36;
const LOOP: Length = 44;
/// A column that is narrower has a short name.
const NARROW: Length = 130;
const VALUE_MOST: usize = 17;
const BAND: &str = "#efefef";
const DARK: &str = "#222";

struct Columns {
    clients: Vec<u16>,
    servers: u16,
    strangers: bool,
}

impl Columns {
    fn count(&self) -> usize {
        self.clients.len() + usize::from(self.servers) + usize::from(self.strangers)
    }

    fn wide(&self) -> Length {
        (BESIDE - COLUMNS) / self.count().max(1) as Length
    }

    /// The column of a party; whoever is none has the last.
    fn x(&self, who: Who) -> Length {
        let at = match who.server {
            true => (1..=self.servers).contains(&who.number).then(|| self.clients.len() + usize::from(who.number) - 1),
            false => self.clients.iter().position(|c| *c == who.number),
        };
        COLUMNS + self.wide() / 2 + self.wide() * at.unwrap_or(self.count().saturating_sub(1)) as Length
    }

    fn names(&self) -> Vec<(Length, String)> {
        let name = |who: Who| {
            let word = match (who.server, self.wide() < NARROW) {
                (true, false) => "server ",
                (false, false) => "client ",
                (true, true) => "s",
                (false, true) => "c",
            };
            (self.x(who), format!("{word}{}", who.number))
        };
        let mut names: Vec<(Length, String)> = self.clients.iter().map(|c| name(Who { server: false, number: *c })).collect();
        names.extend((1..=self.servers).map(|s| name(Who { server: true, number: s })));
        if self.strangers {
            names.push((self.x(Who { server: true, number: 0 }), if self.wide() < NARROW { "?" } else { "nobody" }.to_string()));
        }
        names
    }
}

fn chosen<'a>(run: &'a Run, choice: &Choice) -> (usize, &'a [Call]) {
    let rows = choice.rows.clamp(1, ROWS_MOST);
    let first = match choice.from {
        Some(at) => run.calls.partition_point(|c| c.at < at),
        None => run.calls.len().saturating_sub(rows),
    };
    (first, &run.calls[first..(first + rows).min(run.calls.len())])
}

/// What the picture says of itself, a line each.
fn said(run: &Run, drawn: &[Call], compared: &Compared) -> Vec<String> {
    let all = run.all;
    let mut lines = vec![run.of.clone()];
    if let Some(refused) = run.refused {
        let never = if run.whole { format!(" {} frames were sent and never handed in.", compared.not_handed_in) } else { String::new() };
        lines.push(format!("{all} calls; {refused} of them refused.{never}"));
    }
    lines.extend(run.closed.clone());
    if drawn.len() < all {
        let which = match (drawn.first(), drawn.last()) {
            (Some(a), Some(b)) => format!("{} {} to {}", run.counted, a.at, b.at),
            _ => "none".into(),
        };
        lines.push(format!("{} are drawn, {which}; {} are left out.", drawn.len(), all - drawn.len()));
    }
    lines
}

/// Draws a run.
pub fn draw(run: &Run, choice: &Choice) -> Picture {
    let (first, calls) = chosen(run, choice);
    let compared = run.compared();
    let columns = Columns { clients: run.clients(), servers: run.servers.min(10), strangers: run.has_strangers() };
    let said = said(run, calls, &compared);
    let mut svg = Svg::new();
    svg.text((MARGIN, 50), Anchor::Start, TITLE, true, "Run: frames between parties, from the top down");
    let mut y = 58;
    for line in &said {
        y += 36;
        svg.text((MARGIN, y), Anchor::Start, TEXT, false, line);
    }
    let top = y + 80;
    let bottom = top + ROW * calls.len() as Length;
    bands(&mut svg, calls, top);
    frame(&mut svg, run, &columns, top, bottom);
    for (at, call) in calls.iter().enumerate() {
        let sent = compared.sent.get(first + at).copied().unwrap_or(true) || !run.whole;
        draw_call(&mut svg, &columns, call, sent, top + ROW * at as Length + ROW / 2);
    }
    legend(&mut svg, run.whole, bottom + 90);
    let line = said.join(" ");
    let svg = svg.finish(bottom + 150, "Run: frames between parties", &line);
    Picture { svg, line, all: run.all, drawn: calls.len() }
}

/// A shade where an operation begins.
fn bands(svg: &mut Svg, calls: &[Call], top: Length) {
    for (at, _) in calls.iter().enumerate().filter(|(_, c)| matches!(c.asked, Asked::Read | Asked::Write(_))) {
        svg.rect((MARGIN, top + ROW * at as Length), (WIDTH - 2 * MARGIN, ROW), BAND, None);
    }
}

fn frame(svg: &mut Svg, run: &Run, columns: &Columns, top: Length, bottom: Length) {
    for y in [top - 14, bottom + 32] {
        svg.text((LINE_END, y), Anchor::End, SMALL, true, run.counted);
        svg.text((BESIDE + 20, y), Anchor::Start, SMALL, true, "what became of it");
        for (x, name) in columns.names() {
            svg.text((x, y), Anchor::Middle, SMALL, true, &name);
        }
    }
    for (x, _) in columns.names() {
        svg.path(Stroke::Faint, &format!("M{x} {}V{}", top - 6, bottom + 8));
    }
}

fn draw_call(svg: &mut Svg, columns: &Columns, call: &Call, sent: bool, y: Length) {
    let base = y + SMALL / 3;
    svg.text((LINE_END, base), Anchor::End, SMALL, false, &call.at.to_string());
    let ended = matches!(&call.answer, Answer::Refused(_) | Answer::Step { end: Some(_), .. });
    let (size, text) = fitted(&beside(columns, call), WIDTH - BESIDE - 20, SMALL, ended);
    svg.text((BESIDE + 20, base), Anchor::Start, size, ended, &text);
    match &call.asked {
        Asked::Frame { from, frame } => arrow(svg, columns, call, *from, frame, sent, y),
        Asked::Read => begin(svg, columns.x(call.to), "begins a read", y),
        Asked::Write(value) => begin(svg, columns.x(call.to), &format!("begins to write {}", cut(value, VALUE_MOST)), y),
        Asked::Other(line) => svg.text((COLUMNS, base), Anchor::Start, SMALL, false, &format!("`{line}`")),
    }
}

fn begin(svg: &mut Svg, x: Length, text: &str, y: Length) {
    svg.rect((x - 11, y - 11), (22, 22), DARK, None);
    svg.text((x + 22, y + SMALL / 3), Anchor::Start, SMALL, true, text);
}

/// A frame that is handed in: an arrow from its sender's column, with the kind's name.
fn arrow(svg: &mut Svg, columns: &Columns, call: &Call, from: Who, frame: &[u8], sent: bool, y: Length) {
    let (x0, x1) = (columns.x(from), columns.x(call.to));
    let kind = sem::head(frame).map_or_else(|| "no frame".to_string(), |(kind, _, _)| words::kind(kind));
    let refused = match call.answer {
        Answer::Refused(number) => Some(number),
        _ => None,
    };
    let stroke = if refused.is_some() { Stroke::Dashed } else { Stroke::Plain };
    // which way it comes in: a frame to oneself goes round on the right
    let side = if x0 == x1 { 1 } else { (x0 - x1).signum() };
    match x0 == x1 {
        true => svg.path(stroke, &format!("M{x0} {}h{LOOP}v18h-{LOOP}", y - 9)),
        false => svg.path(stroke, &format!("M{x0} {y}H{x1}")),
    }
    let tip = if x0 == x1 { y + 9 } else { y };
    match refused {
        Some(_) => svg.path(Stroke::Bold, &format!("M{} {}l18 18m0 -18l-18 18", x1 - 9 + 14 * side, tip - 9)),
        None => svg.solid(DARK, &format!("M{x1} {tip}l{0} -9v18z", 22 * side)),
    }
    if !sent {
        ring(svg, x0, if x0 == x1 { y - 9 } else { y });
    }
    let text = refused.map_or_else(|| kind.clone(), |number| format!("{kind} ×{number}"));
    label(svg, (x0, x1), y, refused.is_some(), &text);
}

/// Marks a frame that no step of the run sent.
fn ring(svg: &mut Svg, x: Length, y: Length) {
    svg.solid("#fff", &format!("M{} {y}l11 -11l11 11l-11 11z", x - 11));
    svg.path(Stroke::Plain, &format!("M{} {y}l11 -11l11 11l-11 11z", x - 11));
}

/// The name on the arrow, or beside it where the arrow is too short.
fn label(svg: &mut Svg, (x0, x1): (Length, Length), y: Length, bold: bool, text: &str) {
    let (wide, base) = (width(text, SMALL, bold), y + SMALL / 3);
    let (left, right) = (x0.min(x1), x0.max(x1));
    let room = 80;
    if right - left > wide + room {
        return svg.label(((left + right) / 2, base), Anchor::Middle, SMALL, bold, text);
    }
    let after = right + if x0 == x1 { LOOP } else { 0 } + 18;
    if after + wide < BESIDE {
        svg.label((after, base), Anchor::Start, SMALL, bold, text);
    } else {
        svg.label((left - 18, base), Anchor::End, SMALL, bold, text);
    }
}

/// Receivers in few words.
fn receivers(columns: &Columns, to: &[Who]) -> String {
    let mut all: Vec<Who> = (1..=columns.servers).map(|number| Who { server: true, number }).collect();
    if to == all {
        return "all".into();
    }
    all.extend((1..=u16::from(sem::CLIENTS)).map(|number| Who { server: false, number }));
    if to == all {
        return "everybody".into();
    }
    let one = |who: &Who| format!("{} {}", if who.server { "server" } else { "client" }, who.number);
    to.iter().map(one).collect::<Vec<_>>().join(", ")
}

/// What a step sends: each kind with its receivers.
fn sends(columns: &Columns, sent: &[(Who, Vec<u8>)]) -> String {
    let mut groups: Vec<(String, Vec<Who>)> = vec![];
    for (to, frame) in sent {
        let kind = sem::head(frame).map_or_else(|| "no frame".to_string(), |(kind, _, _)| words::kind(kind));
        match groups.last_mut().filter(|(last, _)| *last == kind) {
            Some((_, receivers)) => receivers.push(*to),
            None => groups.push((kind, vec![*to])),
        }
    }
    groups.iter().map(|(kind, to)| format!("{kind} to {}", receivers(columns, to))).collect::<Vec<_>>().join("; ")
}

/// What became of a call, in words.
fn beside(columns: &Columns, call: &Call) -> String {
    match &call.answer {
        Answer::What => "no line of a script: what?".into(),
        Answer::Refused(number) => format!("refused {number}: {}", words::refusal(*number)),
        Answer::Step { sent, end } => {
            let ended = end.as_ref().map(|end| match end {
                End::Written => "the write has ended".to_string(),
                End::OutOfStamps => "the write closed: out of stamps".to_string(),
                End::Disagreement => "the read has ended: the blocks disagree".to_string(),
                End::Value(value, stamp) if value.is_empty() => format!("read ended, stamp {stamp}"),
                End::Value(value, stamp) => format!("read {}, stamp {stamp}", cut(value, VALUE_MOST)),
            });
            let sends = sends(columns, sent);
            match (ended, sends.is_empty()) {
                (None, true) => "taken".into(),
                (None, false) => format!("→ {sends}"),
                (Some(ended), true) => ended,
                (Some(ended), false) => format!("{ended} → {sends}"),
            }
        }
    }
}

fn legend(svg: &mut Svg, whole: bool, y: Length) {
    svg.path(Stroke::Plain, &format!("M{MARGIN} {}h80", y - 7));
    svg.solid(DARK, &format!("M{} {}l-22 -9v18z", MARGIN + 80, y - 7));
    svg.text((MARGIN + 95, y), Anchor::Start, SMALL, false, "handed in: a step");
    svg.path(Stroke::Dashed, &format!("M{} {}h80", MARGIN + 340, y - 7));
    svg.path(Stroke::Bold, &format!("M{} {}l18 18m0 -18l-18 18", MARGIN + 405, y - 16));
    svg.text((MARGIN + 440, y), Anchor::Start, SMALL, false, "refused, × and the number");
    svg.rect((MARGIN + 790, y - 18), (22, 22), DARK, None);
    svg.text((MARGIN + 825, y), Anchor::Start, SMALL, false, "an operation begins");
    if whole {
        ring(svg, MARGIN + 1111, y - 7);
        svg.text((MARGIN + 1135, y), Anchor::Start, SMALL, false, "a frame that no step before sent: false, or altered");
    }
    svg.text(
        (MARGIN, y + 32),
        Anchor::Start,
        SMALL,
        false,
        "An arrow is drawn when its frame is handed in, not when it was sent. What a step sends is after →; all: each server; everybody: clients too.",
    );
}

#[cfg(test)]
mod tests {
    use super::super::script;
    use super::super::svg::{height, PAGE};
    use super::*;

    const LAST: Choice = Choice { from: None, rows: ROWS };

    fn run(calls: &[(&str, &str)]) -> Run {
        let script: String = calls.iter().map(|(line, answer)| format!("{line}\n{answer}\n")).collect();
        script::read(format!("hall 4 1 2 3 000000\nready\n{script}").as_bytes(), None).unwrap()
    }

    #[test]
    fn arrows_have_kinds_and_refusals_their_numbers() {
        let get = "000701010100000001";
        let sent = format!("step\n> s 1 {get}\n> s 2 {get}\n> s 3 {get}\n> s 4 {get}");
        let line = format!("S 1 c 1 {get}");
        let p = draw(
            &run(&[
                ("C 1 write c0ffee", &sent),
                (&line, "step\n> c 1 000f010201000000010000000000000000"),
                ("S 2 s 4 00", "refused 4"),
                ("hello", "what?"),
            ]),
            &LAST,
        );
        for part in ["begins to write c0ffee", ">get-stamp<", ">→ stamp to client 1<", ">no frame ×4<", ">refused 4: not a whole frame<", "what?"]
        {
            assert!(p.svg.contains(part), "{part}: {}", p.svg);
        }
        assert!(p.line.contains("4 calls; 1 of them refused. 4 frames were sent and never handed in"), "{}", p.line);
    }

    /// A report goes to all servers and clients; who is only told of a time has no column.
    #[test]
    fn reports_go_to_everybody_and_make_no_columns() {
        let report = "000f010d01000000010000000000000001";
        let servers: String = (1..=4).map(|s| format!("\n> s {s} {report}")).collect();
        let clients: String = (1..=8).map(|c| format!("\n> c {c} {report}")).collect();
        let handed_in = format!("C 2 s 1 {report}");
        let p = draw(&run(&[("S 1 s 2 00", &format!("step{servers}{clients}")), (&handed_in, "step")]), &LAST);
        assert!(p.svg.contains(">→ report to everybody<") && p.svg.contains(">report<"), "{}", p.svg);
        assert!(p.svg.contains(">client 2<") && !p.svg.contains(">client 1<"), "{}", p.svg);
        let p = draw(&run(&[("S 1 s 2 00", &format!("step{clients}"))]), &LAST);
        assert!(p.svg.contains("report to client 1, client 2,"), "{}", p.svg);
    }

    #[test]
    fn a_long_run_is_cut_and_says_so() {
        let calls = vec![("S 1 c 1 000701010100000001", "step"); 300];
        let p = draw(&run(&calls), &LAST);
        assert_eq!((p.all, p.drawn), (300, ROWS));
        assert!(height(&p.svg) <= PAGE, "{}", height(&p.svg));
        assert!(p.line.contains("236 are left out"), "{}", p.line);
        let p = draw(&run(&calls), &Choice { from: Some(1), rows: 1000 });
        assert_eq!(p.drawn, ROWS_MOST);
        let p = draw(&run(&calls), &Choice { from: Some(usize::MAX), rows: 0 });
        assert_eq!(p.drawn, 0);
    }

    #[test]
    fn strangers_and_all_clients_have_columns() {
        let lines: Vec<String> = (1..=8).map(|c| format!("S 1 c {c} 00")).chain(["S 77 c 900 00".to_string()]).collect();
        let calls: Vec<(&str, &str)> = lines.iter().map(|l| (l.as_str(), "refused 4")).collect();
        let p = draw(&run(&calls), &LAST);
        assert!(p.svg.contains(">?<") && p.svg.contains(">c8<") && p.svg.contains(">s4<"), "{}", p.svg);
    }
}
