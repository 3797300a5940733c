//! Random lines, many of them damaged, through the proved programs and through the second implementation. Each program is taken as
//! crates/NAME/out/NAME, where `rt run` in crates/NAME puts it. A failure prints the line and the seed; SEMDUOLI_SEED=SEED tries that input alone, and
//! SEMDUOLI_FACTOR=N tries N times as many from SEMDUOLI_SEED on.

use register::blocks::encoded;
use register::random::Random;
use register::Params;
use std::collections::BTreeSet;
use std::io::{ErrorKind, Write};
use std::path::{Path, PathBuf};
use std::process::{Command, Stdio};

/// Inputs of a program that answers each line, and lines of one of them; inputs of a program that answers the whole of them.
const INPUTS: u64 = 12;
const LINES: usize = 150;
const HISTORIES: u64 = 200;

fn at(path: &str) -> PathBuf {
    Path::new(env!("CARGO_MANIFEST_DIR")).join("../..").join(path)
}

fn variable(name: &str) -> Option<u64> {
    std::env::var(name).ok().map(|text| text.parse().unwrap_or_else(|_| panic!("{name} is no number")))
}

/// What the proved program answers; the input is written beside the reading, since it may be longer than a pipe holds.
fn proved(name: &str, input: &[u8]) -> Vec<u8> {
    let path = at(&format!("crates/{name}/out/{name}"));
    assert!(path.exists(), "{} is not built: rt run in crates/{name}", path.display());
    let mut child = Command::new(path).stdin(Stdio::piped()).stdout(Stdio::piped()).spawn().unwrap();
    let mut to = child.stdin.take().unwrap();
    std::thread::scope(|scope| {
        // A program may answer without reading on.
        scope.spawn(move || match to.write_all(input) {
            Err(error) if error.kind() == ErrorKind::BrokenPipe => (),
            written => written.unwrap(),
        });
        child.wait_with_output().unwrap().stdout
    })
}

fn hex(bytes: &[u8]) -> Vec<u8> {
    match bytes {
        [] => b"-".to_vec(),
        _ => bytes.iter().flat_map(|byte| format!("{byte:02x}").into_bytes()).collect(),
    }
}

/// A line of fields with one space between.
fn joined(fields: &[Vec<u8>]) -> Vec<u8> {
    fields.join(&b' ')
}

/// A number that a program may take for another, or for none.
fn some_number(random: &mut Random) -> Vec<u8> {
    match random.below(8) {
        0 => format!("0{}", random.below(12)).into_bytes(),
        1 => random.pick(&["18446744073709551615", "18446744073709551616", "18446744073709551620"]).into(),
        2 => random.pick(&["6148914691236517206", "4294967300", "65540", "260", "257", "256"]).into(),
        3 => random.pick(&["999", "1000", "1001", "1024"]).into(),
        4 => [b"1".to_vec(), vec![b'0'; random.pick(&[19, 20, 100, 9000])]].concat(),
        5 => vec![b'0'; random.range(1, 3)],
        6 => random.pick(&["", "-", "+4", "4x", "x", "0x4", "4.0", "-1"]).into(),
        _ => random.below(300).to_string().into_bytes(),
    }
}

/// Digits that are none, or not those that were meant.
fn some_digits(random: &mut Random, field: &[u8]) -> Vec<u8> {
    let mut digits = field.to_vec();
    let place = random.below(digits.len() + 1);
    match random.below(8) {
        0 => digits.insert(place, random.pick(b"0a9f")),
        1 => digits.insert(place, random.pick(b"AgG:/`-x\0\xff")),
        2 => digits.truncate(place),
        3 => digits.make_ascii_uppercase(),
        4 => digits = digits.repeat(random.range(2, 3)),
        5 => digits = random.pick(&["-", "--", "", "0", "00"]).into(),
        6 => digits = b"0102".repeat(random.pick(&[3, 639, 640, 641, 2100, 20_000])),
        _ => {
            if let Some(digit) = digits.get_mut(place) {
                *digit = random.pick(b"0123456789abcdef");
            }
        }
    }
    digits
}

/// The line, damaged in one place.
fn damaged(random: &mut Random, line: &[u8]) -> Vec<u8> {
    let mut fields: Vec<Vec<u8>> = line.split(|&c| c == b' ').map(<[u8]>::to_vec).collect();
    let place = random.below(fields.len());
    match random.below(10) {
        0..=2 => fields[place] = some_number(random),
        3..=5 => fields[place] = some_digits(random, &fields[place]),
        6 => fields.insert(place, fields[random.below(fields.len())].clone()),
        7 => drop(fields.remove(place)),
        8 => fields.insert(random.pick(&[0, place, fields.len()]), Vec::new()),
        _ => {
            let mut line = line.to_vec();
            let place = random.below(line.len() + 1);
            match random.below(3) {
                0 => line.insert(place, random.pick(b"\r\t 0-\0\xff")),
                1 => line.truncate(place),
                _ => line.extend(random.pick(&[" ", "\r", "  ", "\t"]).bytes()),
            }
            return line;
        }
    }
    joined(&fields)
}

/// A line of the decode program: blocks of one value, or some that are not.
fn decode_line(random: &mut Random) -> Vec<u8> {
    let l = random.pick(&[1, 2, 3, 16, 255, 256]);
    let p = random.pick(&Params::all(l));
    let all = encoded(&p, &random.bytes(l));
    let mut numbers: Vec<u8> = (1..=p.n as u8).collect();
    for i in (1..numbers.len()).rev() {
        numbers.swap(i, random.below(i + 1));
    }
    let count = if random.chance(1, 8) { random.range(0, p.n) } else { random.range(p.k, p.n) };
    numbers.truncate(count);
    let mut blocks: Vec<u8> = numbers.iter().flat_map(|&j| all[j as usize - 1].clone()).collect();
    if !blocks.is_empty() && random.chance(1, 4) {
        let place = random.below(blocks.len());
        blocks[place] ^= 1 << random.below(8);
    }
    if !numbers.is_empty() && random.chance(1, 8) {
        let place = random.below(numbers.len());
        numbers[place] = random.pick(&[0, 1, p.n as u8, p.n as u8 + 1, 255]);
    }
    let room = random.pick(&[l, l, l, l + 1, l - 1, 0, 256, 1000, 100_000]);
    let number = |x: usize| x.to_string().into_bytes();
    let sizes = [number(p.n), number(p.t), number(p.k), number(l), number(room)];
    joined(&[&[b"decode".to_vec()][..], &sizes, &[hex(&numbers), hex(&blocks)]].concat())
}

/// A line of the accession program.
fn accession_line(random: &mut Random) -> Vec<u8> {
    let number = random.pick(&[0, 1, 7, 10, 255, 256, u64::MAX, u64::MAX - 1, u64::MAX / 10]);
    match random.below(8) {
        0..=4 => {
            let mut value = number.to_be_bytes().to_vec();
            let more = random.below(20);
            value.extend(random.bytes(more));
            value.truncate(if random.chance(1, 8) { random.below(9) } else { value.len() });
            [b"insert ".to_vec(), hex(&value)].concat()
        }
        5..=6 => format!("search {number}").into_bytes(),
        _ => b"index".to_vec(),
    }
}

/// A line of a history: of few clients, times and stamps, so that lines are about the same ones.
fn history_line(random: &mut Random, i: usize) -> Vec<u8> {
    let start = random.range(3 * i, 3 * i + 6);
    let end = start + random.range(1, 9);
    let time = if random.chance(1, 16) { random.below(5) } else { i / 2 + 1 };
    let (kind, caller) = (if i.is_multiple_of(2) { 'W' } else { 'R' }, random.below(9));
    format!("{kind} {start} {end} {time} 1 1 {caller}").into_bytes()
}

type Run = fn(&[u8]) -> Vec<u8>;

/// How a program is compared: how many inputs, of which one line in so many is damaged, and answers that must be given.
struct Plan<'a> {
    name: &'a str,
    run: Run,
    inputs: u64,
    damaged: usize,
    answers: &'a [&'a str],
}

/// The lines as one input, some of them damaged, the last one now and then without its newline.
fn some_input(random: &mut Random, damaged_in: usize, lines: Vec<Vec<u8>>) -> Vec<u8> {
    let mut input = Vec::new();
    for line in lines {
        let line = if random.chance(1, damaged_in) { damaged(random, &line) } else { line };
        input.extend(line.into_iter().filter(|&c| c != b'\n'));
        input.push(b'\n');
    }
    if random.chance(1, 8) {
        input.pop();
    }
    input
}

/// Both answer every input the same, and from the seeds that are always the same every answer of the plan's list is given.
fn compare(plan: &Plan, lines: &dyn Fn(&mut Random) -> Vec<Vec<u8>>) {
    let seed = variable("SEMDUOLI_SEED");
    let usual = if seed.is_some() { 1 } else { plan.inputs };
    let count = variable("SEMDUOLI_FACTOR").map_or(usual, |factor| factor * plan.inputs);
    let (first, fixed) = (seed.unwrap_or(1), seed.is_none());
    let mut seen = BTreeSet::new();
    for seed in first..first + count {
        let random = &mut Random::new(seed);
        let drawn = lines(random);
        let input = some_input(random, plan.damaged, drawn);
        let (expected, given) = ((plan.run)(&input), proved(plan.name, &input));
        if expected != given {
            differ(plan, seed, &input, &expected, &given);
        }
        let text = String::from_utf8_lossy(&given).into_owned();
        seen.extend(text.lines().map(|line| match line.strip_prefix("refused ") {
            Some(_) => line.to_string(),
            None => line.split_whitespace().next().unwrap_or("").to_string(),
        }));
    }
    for answer in plan.answers.iter().filter(|_| fixed) {
        assert!(seen.contains(*answer), "nothing of {} was answered {answer}", plan.name);
    }
}

/// Says at which line the answers begin to differ.
fn differ(plan: &Plan, seed: u64, input: &[u8], expected: &[u8], given: &[u8]) {
    let (name, run) = (plan.name, plan.run);
    let same = expected.iter().zip(given).take_while(|(a, b)| a == b).count();
    let mut start = 0;
    let line = input.split_inclusive(|&c| c == b'\n').find(|line| {
        let found = run(&input[..start + line.len()]).len() > same;
        start += line.len();
        found
    });
    let shown = |bytes: &[u8]| String::from_utf8_lossy(&bytes[..bytes.len().min(300)]).into_owned();
    let (line, expected, given) =
        (shown(line.unwrap_or(&[])), shown(&expected[same..]), shown(&given[same..]));
    panic!("{name} differs, SEMDUOLI_SEED={seed}, line {line:?}: expected {expected:?} from there on, given {given:?}");
}

fn answered(run: impl Fn(&mut &[u8], &mut Vec<u8>) -> std::io::Result<()>, input: &[u8]) -> Vec<u8> {
    let mut out = Vec::new();
    run(&mut &input[..], &mut out).unwrap();
    out
}

#[test]
fn decode() {
    let refused = ["refused 1", "refused 2", "refused 3", "refused 9", "refused 10", "refused 21"];
    let plan = Plan {
        name: "decode",
        run: |input| answered(|from, to| hall::decode::run(from, to), input),
        inputs: INPUTS,
        damaged: 3,
        answers: &[&["value", "what?"][..], &refused].concat(),
    };
    compare(&plan, &|random| (0..LINES).map(|_| decode_line(random)).collect());
}

#[test]
fn accession() {
    let plan = Plan {
        name: "accession",
        run: |input| answered(|from, to| hall::accession::run(from, to), input),
        inputs: INPUTS,
        damaged: 3,
        answers: &["place", "none", "index", "what?", "refused 25", "refused 26"],
    };
    compare(&plan, &|random| (0..LINES).map(|_| accession_line(random)).collect());
}

/// The lines of the script that README shows, some of them left out.
#[test]
fn hall_script() {
    let script = std::fs::read(at("crates/hall/stdin")).unwrap();
    let lines: Vec<Vec<u8>> = script.split(|&c| c == b'\n').map(<[u8]>::to_vec).collect();
    let plan = Plan {
        name: "hall",
        run: |input| answered(|from, to| hall::run(from, to), input),
        inputs: INPUTS,
        damaged: 3,
        answers: &["ready", "step", ">", "what?", "refused 4", "refused 6", "refused 12"],
    };
    compare(&plan, &|random| lines.iter().filter(|_| random.chance(15, 16)).cloned().collect());
}

fn history_lines(random: &mut Random) -> Vec<Vec<u8>> {
    let count = random.pick(&[1, 2, 3, 5, 8, 20, 64, 65]);
    (0..count).map(|i| history_line(random, i)).collect()
}

#[test]
fn history() {
    let plan = Plan {
        name: "history",
        run: |input| register::history::report(input).into_bytes(),
        inputs: HISTORIES,
        damaged: 32,
        answers: &["order", "no", "refused 18", "refused 19"],
    };
    compare(&plan, &history_lines);
}

#[test]
fn sheet() {
    let plan = Plan {
        name: "sheet",
        run: register::sheet::report,
        inputs: HISTORIES,
        damaged: 32,
        answers: &["1", "2", "no", "refused 18", "refused 19"],
    };
    compare(&plan, &history_lines);
}
