//! Pictures: the pages' examples byte for byte, wrong input, and input that was altered at random.
mod common;

use common::{code, printed, said, semduoli, temporary, Nodes};
use semduoli::draw::run::Choice;
use semduoli::draw::{bars, chart, history, script, trace, words};
use semduoli::random::Random;
use semduoli::sem::Parameters;
use std::fs;
use std::path::PathBuf;

const SCRIPT: &str = "crates/hall/stdin";
const ANSWERS: &str = "crates/hall/stdout";
const HISTORY: &str = "examples/bank.history";
const TRACE: &str = "examples/playback.hex";
/// What every picture is smaller than.
const PICTURE_MOST: usize = 200_000;
/// Altered inputs of each sort.
const ALTERED: u64 = 2000;

fn at(path: &str) -> PathBuf {
    PathBuf::from(env!("CARGO_MANIFEST_DIR")).join("..").join(path)
}

fn path(path: &str) -> String {
    at(path).to_str().expect("text").to_string()
}

fn bytes(path: &str) -> Vec<u8> {
    fs::read(at(path)).expect("a file of the repository")
}

/// Whether it is well-formed XML, as far as pictures use it: elements nested and closed, attributes quoted, no bare `&` or `<`.
fn check_xml(text: &str) {
    let mut open: Vec<&str> = vec![];
    let mut rest = text.trim_end();
    while let Some(start) = rest.find('<') {
        check_text(&rest[..start]);
        let end = start + rest[start..].find('>').expect("a tag ends");
        let tag = &rest[start + 1..end];
        rest = &rest[end + 1..];
        match (tag.strip_prefix('/'), tag.strip_suffix('/')) {
            (Some(name), _) => assert_eq!(open.pop(), Some(name), "{tag}"),
            (_, whole) => {
                let inner = whole.unwrap_or(tag);
                let name = inner.split(' ').next().expect("a name");
                assert!(name.bytes().all(|b| b.is_ascii_lowercase()) && !name.is_empty(), "{tag}");
                assert_eq!(inner.matches('"').count() % 2, 0, "{tag}");
                if whole.is_none() {
                    open.push(name);
                }
            }
        }
    }
    assert!(open.is_empty() && rest.is_empty(), "{open:?} {rest}");
}

fn check_text(text: &str) {
    assert!(!text.contains('>') && text.chars().all(|c| c == '\n' || !c.is_control()), "{text:?}");
    for after in text.split('&').skip(1) {
        assert!(["amp;", "lt;", "gt;", "quot;", "#39;"].iter().any(|name| after.starts_with(name)), "{text}");
    }
}

/// A picture is well-formed and bounded, and says how much it leaves out.
fn check_picture(p: &semduoli::draw::Picture) {
    check_xml(&p.svg);
    assert!(p.svg.len() < PICTURE_MOST, "{}", p.svg.len());
    assert!(p.drawn <= p.all && (p.drawn == p.all || p.line.contains("left out")), "{}", p.line);
}

#[test]
fn the_pictures_of_the_pages_are_what_the_command_makes() {
    let from_bank: String = String::from_utf8(bytes("examples/bank.out"))
        .unwrap()
        .lines()
        .filter(|l| l.starts_with("R ") || l.starts_with("W "))
        .fold(String::new(), |all, line| all + line + "\n");
    assert_eq!(String::from_utf8(bytes(HISTORY)).unwrap(), from_bank, "{HISTORY} has the history that examples/bank.c prints");
    for (words, kept) in [
        (vec!["draw", "history", &path(HISTORY)], "docs/pictures/history.svg"),
        (vec!["draw", "run", &path(SCRIPT), "--answers", &path(ANSWERS)], "docs/pictures/run.svg"),
    ] {
        let made = semduoli(&words);
        assert_eq!(code(&made), 0, "{}", said(&made));
        check_xml(&printed(&made));
        assert!(made.stdout == bytes(kept), "{kept} is not what {words:?} makes");
        assert!(made.stdout.len() < 30_000);
    }
}

#[test]
fn a_picture_goes_to_a_file_that_is_not_there_yet() {
    let folder = temporary("draw");
    let file = folder.join("history.svg").to_str().unwrap().to_string();
    let words = ["draw", "history", &path(HISTORY), "--out", &file];
    let made = semduoli(&words);
    assert_eq!((code(&made), printed(&made).lines().count()), (0, 1), "{}", said(&made));
    assert!(printed(&made).starts_with("18 operations have an order"));
    assert_eq!(fs::read(&file).unwrap(), bytes("docs/pictures/history.svg"));
    let again = semduoli(&words);
    assert!(code(&again) == 1 && said(&again).contains("is there already"), "{}", said(&again));
    let object: serde_json::Value = serde_json::from_str(&printed(&semduoli(&["draw", "history", &path(HISTORY), "--json"]))).unwrap();
    assert_eq!(object["svg"].as_str().unwrap().as_bytes(), bytes("docs/pictures/history.svg"));
    assert_eq!((object["all"].as_u64(), object["drawn"].as_u64()), (Some(18), Some(18)));
    fs::remove_dir_all(&folder).unwrap();
}

#[test]
fn wrong_files_get_one_line_with_the_place() {
    let folder = temporary("draw-wrong");
    let file = |name: &str, text: &str| {
        fs::write(folder.join(name), text).unwrap();
        folder.join(name).to_str().unwrap().to_string()
    };
    let (line, twice) = (file("line", "W 1 4 1 2 1 0\nR 1 2 x 0 0 0\n"), file("twice", "W 1 4 1 2 1 0\nW 5 6 1 2 1 0\n"));
    let (ready, script) = (file("ready", "ready\n"), path(SCRIPT));
    let missing = "/nonexistent/file".to_string();
    for (words, wanted, says) in [
        (vec!["history", &line], 4, "refused 18: "),
        (vec!["history", &line], 4, "line 2: the time is no decimal number"),
        (vec!["history", &twice], 4, "line 2: its stamp is written by line 1 already"),
        (vec!["history", &missing], 1, "No such file"),
        (vec!["run", &missing], 1, "No such file"),
        (vec!["run", &script], 1, "line 2: `C 1 write c0ffee` is no answer of hall"),
        (vec!["run", &script, "--answers", &ready], 1, "ready, line 1: the answers end before that to line 2"),
        (vec!["run", &script, "--rows", "201"], 1, "--rows 201: from 1 to 200"),
        (vec!["run", &script, "--server", "1", "--cluster", &missing], 2, "No such file"),
        (vec!["history", &script, "--out", "/nonexistent/file"], 4, "line 1: the first field is neither R nor W"),
    ] {
        let output = semduoli(&[&["draw"], &words[..]].concat());
        assert_eq!(code(&output), wanted, "{words:?}: {}", said(&output));
        assert!(said(&output).contains(says) && said(&output).lines().count() == 1, "{words:?}: {}", said(&output));
        assert!(output.stdout.is_empty());
    }
    for words in [&["draw"][..], &["draw", "circle"], &["draw", "run", "x", "--server", "1"]] {
        assert_eq!(code(&semduoli(words)), 1, "{words:?}");
    }
    fs::remove_dir_all(&folder).unwrap();
}

/// The staff's example of a trace: it closes by 22, which the picture says.
#[test]
fn a_trace_is_drawn_with_the_library_s_answers() {
    let nodes = Nodes::new("draw-trace", (4, 1, 2, 3));
    let (file, cut) = (nodes.folder.join("trace"), nodes.folder.join("cut"));
    fs::write(&file, trace_bytes()).unwrap();
    fs::write(&cut, [0]).unwrap();
    let cluster = nodes.at("s1").join("cluster.toml").to_str().unwrap().to_string();
    let words = |file: &PathBuf, server: &str| semduoli(&["draw", "run", file.to_str().unwrap(), "--cluster", &cluster, "--server", server]);
    let made = words(&file, "3");
    assert_eq!(code(&made), 0, "{}", said(&made));
    let svg = printed(&made);
    check_xml(&svg);
    let played = String::from_utf8(bytes("examples/playback.out")).unwrap();
    let numbers = |text: &str, before: &str| -> Vec<String> {
        text.split(before).skip(1).map(|after| after.chars().take_while(char::is_ascii_digit).collect()).collect()
    };
    let (wanted, drawn) = (numbers(&played, ": refused "), numbers(&svg, ">refused "));
    assert!(wanted == drawn && wanted.len() == 8, "{wanted:?}, {drawn:?}");
    assert!(svg.contains("The trace closes at entry ") && svg.contains(" by 22: "), "{svg}");
    let wrong = words(&cut, "3");
    assert!(code(&wrong) == 4 && said(&wrong).contains("closes at entry 1 by 23"), "{}", said(&wrong));
    assert_eq!((code(&words(&file, "9")), said(&words(&file, "9")).contains("refused 1")), (4, true));
}

fn trace_bytes() -> Vec<u8> {
    let text: String = String::from_utf8(bytes(TRACE)).unwrap().split_whitespace().collect();
    semduoli::bytes::unhex(&text).expect("digits")
}

/// Rows of a table of docs/PROTOCOL.md that begin with a number: the number and the next cell.
fn numbered(page: &str, from: &str, to: &str) -> Vec<(u8, String)> {
    let part = page.split(from).nth(1).and_then(|rest| rest.split(to).next()).expect("a section");
    let cells = |line: &str| -> Option<(u8, String)> {
        let mut cells = line.strip_prefix('|')?.split('|').map(str::trim);
        Some((cells.next()?.parse().ok()?, cells.next()?.to_string()))
    };
    part.lines().filter_map(cells).collect()
}

/// A number that the protocol gets, or loses, is missed here.
#[test]
fn kinds_and_refusals_have_the_words_of_the_protocol() {
    let page = String::from_utf8(bytes("docs/PROTOCOL.md")).unwrap();
    let kinds = numbered(&page, "\n| kind | name |", "\n## 4.");
    let refusals = numbered(&page, "\n## 4. Answers and refusals", "\n## 5.");
    assert!(kinds.len() >= 10 && refusals.len() >= 20, "{kinds:?} {refusals:?}");
    for number in 0..=u8::MAX {
        let named = kinds.iter().find(|(n, _)| *n == number).map_or_else(|| format!("kind {number}"), |(_, name)| name.clone());
        assert_eq!(words::kind(number), named);
        assert_eq!(words::refusal(number) != words::UNKNOWN, refusals.iter().any(|(n, _)| *n == number), "{number}");
    }
}

/// Alters bytes at one place, or at up to six: other bytes, digits, cuts, repeated pieces.
fn altered(random: &mut Random, input: &[u8]) -> Vec<u8> {
    let mut bytes = input.to_vec();
    let places = if random.one_in(2) { 1 } else { 1 + random.below(6) };
    for _ in 0..places {
        let at = random.below(bytes.len() as u64 + 1) as usize;
        let end = (at + random.below(40) as usize).min(bytes.len());
        match random.below(6) {
            0 => drop(bytes.drain(at..end)),
            1 => drop(bytes.splice(at..at, random.bytes(3))),
            2 => drop(bytes.splice(at..at, bytes[at..end].to_vec())),
            3 if at < end => bytes[at] = b"0123456789 \n<&>\"'-\r"[random.below(19) as usize],
            4 if at < end => bytes[at] ^= 1 << random.below(8),
            _ => drop(bytes.splice(at..end, b"4294967295".to_vec())),
        }
    }
    bytes
}

#[test]
fn no_input_makes_a_panic_or_a_broken_picture() {
    let (script, answers, history, trace) = (bytes(SCRIPT), bytes(ANSWERS), bytes(HISTORY), trace_bytes());
    let p = Parameters { n: 4, t: 1, k: 2, size: 3 };
    let (mut random, mut drawn) = (Random::new(42), [0; 4]);
    let quiet: &mut dyn FnMut(u64, u64) = &mut |_, _| {};
    for _ in 0..ALTERED {
        let choice = Choice { from: random.one_in(2).then(|| random.below(60) as usize), rows: random.below(300) as usize };
        let mut check = |which: usize, picture: Option<semduoli::draw::Picture>| {
            if let Some(picture) = picture {
                check_picture(&picture);
                drawn[which] += 1;
            }
        };
        check(0, history::read(&altered(&mut random, &history), quiet).ok().map(|h| bars::draw(&h)));
        check(1, script::read(&altered(&mut random, &script), Some(&answers)).ok().map(|r| chart::draw(&r, &choice)));
        check(2, script::read(&script, Some(&altered(&mut random, &answers))).ok().map(|r| chart::draw(&r, &choice)));
        check(3, trace::read(&p, 3, &[0; 3], &altered(&mut random, &trace), &choice).ok().map(|r| chart::draw(&r, &choice)));
    }
    // some of each are still drawn, so that layout is tried too
    assert!(drawn.iter().all(|count| *count > ALTERED / 50), "{drawn:?}");
}
