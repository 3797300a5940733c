//! A script of the program `hall` together with its answers, in two files or, line by line, in one.

use super::run::{Answer, Asked, Call, End, Run, Who};
use super::{Source, Wrong};
use crate::bytes::unhex;

/// A number above this is nobody's; `hall` keeps it as this too.
const NUMBER_MOST: u16 = 1000;
const SHOWN: usize = 40;

/// Lines that are read one after another.
struct Lines<'a> {
    file: Source,
    lines: Vec<&'a str>,
    at: usize,
}

impl<'a> Lines<'a> {
    fn new(file: Source, text: &'a str) -> Lines<'a> {
        let text = text.strip_suffix('\n').unwrap_or(text);
        let lines = if text.is_empty() { vec![] } else { text.split('\n').collect() };
        Lines { file, lines, at: 0 }
    }

    fn peek(&self) -> Option<&'a str> {
        self.lines.get(self.at).copied()
    }

    fn next(&mut self) -> Option<&'a str> {
        let line = self.peek()?;
        self.at += 1;
        Some(line)
    }

    /// What is wrong at the line that was read last.
    fn wrong(&self, what: impl Into<String>) -> Wrong {
        Wrong { file: self.file, ..Wrong::at(self.at.max(1), what) }
    }
}

/// Decimal digits without a leading zero, of any length.
fn number(text: &str) -> Option<u16> {
    let plain = !text.is_empty() && text.bytes().all(|b| b.is_ascii_digit()) && (text == "0" || !text.starts_with('0'));
    plain.then(|| text.parse().map_or(NUMBER_MOST, |n: u16| n.min(NUMBER_MOST)))
}

/// Bytes as lower case digits, `-` for none.
fn bytes(text: &str) -> Option<Vec<u8>> {
    match text {
        "-" => Some(vec![]),
        "" => None,
        _ if text.bytes().any(|b| b.is_ascii_uppercase()) => None,
        _ => unhex(text),
    }
}

fn who(class: &str, number_text: &str) -> Option<Who> {
    let server = match class {
        "s" | "S" => true,
        "c" | "C" => false,
        _ => return None,
    };
    Some(Who { server, number: number(number_text)? })
}

/// A line's party and what is asked of it; none for a line of another form.
fn asked(line: &str) -> Option<(Who, Asked)> {
    let fields: Vec<&str> = line.split(' ').collect();
    match fields[..] {
        [class @ ("S" | "C"), to, from_class @ ("s" | "c"), from, frame] => {
            Some((who(class, to)?, Asked::Frame { from: who(from_class, from)?, frame: bytes(frame)? }))
        }
        ["C", to, "read"] => Some((who("C", to)?, Asked::Read)),
        ["C", to, "write", value] => bytes(value).and(Some((who("C", to)?, Asked::Write(value.to_string())))),
        _ => None,
    }
}

/// The five numbers of a line that opens the register, as far as they are numbers.
fn opening(line: &str) -> Option<[u16; 4]> {
    match line.split(' ').collect::<Vec<_>>()[..] {
        ["hall", n, t, k, size, initial] => bytes(initial).and(Some([number(n)?, number(t)?, number(k)?, number(size)?])),
        _ => None,
    }
}

enum Said {
    Ready,
    Call(Answer),
}

/// The answer to a line: all its lines.
fn answer(lines: &mut Lines, to: usize) -> Result<Said, Wrong> {
    let Some(line) = lines.next() else { return Err(lines.wrong(format!("the answers end before that to line {to} of the script"))) };
    match line {
        "ready" => return Ok(Said::Ready),
        "what?" => return Ok(Said::Call(Answer::What)),
        "step" => {}
        _ => {
            let number = line.strip_prefix("refused ").and_then(|n| n.parse().ok().filter(|v: &u8| v.to_string() == n));
            let wrong = || format!("`{}` is no answer of hall, and one to line {to} of the script is wanted here", super::svg::cut(line, SHOWN));
            return number.map(|n| Said::Call(Answer::Refused(n))).ok_or_else(|| lines.wrong(wrong()));
        }
    }
    let mut sent = vec![];
    while let Some(frame) = lines.peek().and_then(|l| l.strip_prefix("> ")) {
        lines.next();
        let read = match frame.split(' ').collect::<Vec<_>>()[..] {
            [class @ ("s" | "c"), number, frame] => who(class, number).zip(bytes(frame)),
            _ => None,
        };
        sent.push(read.ok_or_else(|| lines.wrong("a sent frame is `> s J HEX` or `> c I HEX`"))?);
    }
    let end = lines.peek().and_then(end);
    if end.is_some() {
        lines.next();
    }
    Ok(Said::Call(Answer::Step { sent, end }))
}

fn end(line: &str) -> Option<End> {
    match line {
        "written" => return Some(End::Written),
        "disagreement" => return Some(End::Disagreement),
        "out of stamps" => return Some(End::OutOfStamps),
        _ => {}
    }
    match line.split(' ').collect::<Vec<_>>()[..] {
        ["value", value, time, writer, sequence] => {
            let digits = |t: &str| t.len() <= 20 && number(t).is_some();
            (bytes(value).is_some() && [time, writer, sequence].iter().all(|t| digits(t)))
                .then(|| End::Value(value.to_string(), format!("{time}.{writer}.{sequence}")))
        }
        _ => None,
    }
}

/// The run of a script with its answers, which are in a text of their own or in the same, each after its line.
pub fn read(script: &[u8], answers: Option<&[u8]>) -> Result<Run, Wrong> {
    let text = String::from_utf8_lossy(script);
    let answers = answers.map(String::from_utf8_lossy);
    let mut script = Lines::new(Source::File, &text);
    let mut apart = answers.as_ref().map(|text| Lines::new(Source::Answers, text));
    let mut run = Run { of: String::new(), counted: "line", servers: 0, calls: vec![], all: 0, refused: None, whole: true, closed: None };
    let mut opened = false;
    let mut lines = 0;
    while let Some(line) = script.next() {
        lines += 1;
        let at = if apart.is_some() { lines } else { script.at };
        let said = answer(apart.as_mut().unwrap_or(&mut script), at).map_err(|wrong| alone(wrong, apart.is_none(), lines))?;
        match (said, opening(line)) {
            (Said::Ready, Some([n, t, k, size])) if !opened => {
                opened = true;
                run.servers = n;
                run.of = format!("{n} servers, of which {t} may be false; any {k} blocks rebuild a value of {size} bytes.");
            }
            (Said::Ready, _) => return Err(Wrong::at(at, "answered `ready`, and it does not open the register")),
            (Said::Call(answer), _) => run.calls.push(call(at, line, answer)?),
        }
    }
    if let Some(left) = apart.as_mut().filter(|a| a.peek().is_some()) {
        left.next();
        return Err(left.wrong("no line of the script is left that this would answer"));
    }
    run.all = run.calls.len();
    run.refused = Some(run.calls.iter().filter(|c| matches!(c.answer, Answer::Refused(_))).count());
    match opened {
        true => Ok(run),
        false => Err(Wrong::at(1, "no line `hall N T K L INITIAL` is answered `ready`, so no register is open")),
    }
}

/// A script without answers is told how they are given.
fn alone(wrong: Wrong, in_one: bool, lines: usize) -> Wrong {
    match in_one && lines == 1 {
        true => Wrong { what: format!("{}; answers in a file of their own are named by --answers", wrong.what), ..wrong },
        false => wrong,
    }
}

fn call(at: usize, line: &str, answer: Answer) -> Result<Call, Wrong> {
    let nobody = Who { server: false, number: 0 };
    let other = || Asked::Other(super::svg::cut(line, SHOWN));
    match (asked(line), &answer) {
        (_, Answer::What) => Ok(Call { at, to: nobody, asked: other(), answer }),
        // a line that opens the register with numbers out of bounds is refused like a call
        (None, Answer::Refused(_)) if opening(line).is_some() => Ok(Call { at, to: nobody, asked: other(), answer }),
        (Some((to, asked)), _) => Ok(Call { at, to, asked, answer }),
        (None, _) => Err(Wrong::at(at, "it has no form of a script's line, and is answered as if it had")),
    }
}

#[cfg(test)]
mod tests {
    use super::*;

    const SCRIPT: &str = "hall 4 1 2 3 000000\nC 1 write c0ffee\nS 1 c 1 000701010100000001\nS 1 s 9 -\nhello\nC 1 read";
    const ANSWERS: &str = "ready\nstep\n> s 1 000701010100000001\nstep\n> c 1 000f01\nvalue c0ffee 1 1 1\nrefused 4\nwhat?\nrefused 15\n";

    #[test]
    fn a_script_and_its_answers_in_two_texts_or_in_one() {
        let run = read(SCRIPT.as_bytes(), Some(ANSWERS.as_bytes())).unwrap();
        assert_eq!((run.servers, run.calls.len(), run.clients(), run.has_strangers()), (4, 5, vec![1], true));
        assert_eq!(run.calls[1].at, 3);
        let Answer::Step { sent, end } = &run.calls[1].answer else { panic!() };
        assert_eq!((sent.len(), end.clone()), (1, Some(End::Value("c0ffee".into(), "1.1.1".into()))));
        assert_eq!((&run.calls[2].answer, &run.calls[3].answer), (&Answer::Refused(4), &Answer::What));
        let compared = run.compared();
        assert_eq!((compared.sent, compared.not_handed_in), (vec![true, true, false, true, true], 1));

        let groups = ["ready", "step\n> s 1 000701010100000001", "step\n> c 1 000f01\nvalue c0ffee 1 1 1", "refused 4", "what?", "refused 15"];
        let in_one: Vec<String> = SCRIPT.lines().zip(groups).map(|(l, a)| format!("{l}\n{a}")).collect();
        let one = read(in_one.join("\n").as_bytes(), None).unwrap();
        assert_eq!(one.calls.iter().map(|c| &c.answer).collect::<Vec<_>>(), run.calls.iter().map(|c| &c.answer).collect::<Vec<_>>());
    }

    #[test]
    fn what_is_wrong_is_named_with_its_line() {
        for (script, answers, file, line, says) in [
            ("", Some(""), Source::File, 1, "no register is open"),
            ("hall 4 1 2 3 000000", Some("what?"), Source::File, 1, "no register is open"),
            (SCRIPT, None, Source::File, 2, "--answers"),
            (SCRIPT, Some("ready\nstep\n"), Source::Answers, 2, "the answers end before that to line 3"),
            ("hall 4 1 2 3 000000", Some("ready\nstep\n"), Source::Answers, 2, "no line of the script is left"),
            (SCRIPT, Some("ready\nstep\n> x 1 00\n"), Source::Answers, 3, "a sent frame is"),
            (SCRIPT, Some("ready\nstop\n"), Source::Answers, 2, "`stop` is no answer of hall"),
            (SCRIPT, Some("ready\nrefused 04\n"), Source::Answers, 2, "no answer of hall"),
            ("hall 4 1 2 3 000000\nhello", Some("ready\nstep\n"), Source::File, 2, "no form of a script's line"),
            ("hall 4 1 2 3 000000\nC 1 read", Some("ready\nready\n"), Source::File, 2, "does not open the register"),
        ] {
            let wrong = read(script.as_bytes(), answers.map(str::as_bytes)).unwrap_err();
            assert_eq!((wrong.file, wrong.line), (file, line), "{wrong:?}");
            assert!(wrong.what.contains(says), "{wrong:?}");
        }
    }

    #[test]
    fn numbers_of_any_length_are_numbers() {
        assert_eq!((number("0"), number("01"), number(""), number("+1")), (Some(0), None, None, None));
        assert_eq!(number("99999999999999999999999999"), Some(NUMBER_MOST));
    }
}
