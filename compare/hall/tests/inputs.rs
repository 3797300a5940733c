//! The proved programs on inputs that cannot be read and outputs that cannot be written: they say so and answer nothing; and on such as make them wait, which
//! takes next to no processor time. Each is taken as crates/NAME/out/NAME, where `rt run` in crates/NAME puts it.

use std::fs::{read, File};
use std::io::{Read, Write};
use std::os::fd::AsRawFd;
use std::path::{Path, PathBuf};
use std::process::{Child, Command, Output, Stdio};
use std::thread::sleep;
use std::time::Duration;

fn at(path: &str) -> PathBuf {
    Path::new(env!("CARGO_MANIFEST_DIR")).join("../..").join(path)
}

const PROGRAMS: [&str; 5] = ["history", "sheet", "hall", "accession", "decode"];

fn example(name: &str, file: &str) -> PathBuf {
    at(&format!("crates/{name}/{file}"))
}

fn built(name: &str) -> PathBuf {
    at(&format!("crates/{name}/out/{name}"))
}

fn program(name: &str) -> Command {
    let path = built(name);
    assert!(path.exists(), "{} is not built: rt run in crates/{name}", path.display());
    Command::new(path)
}

fn run(command: &mut Command) -> Output {
    command.output().expect("the program starts")
}

/// Nothing is answered, and one line on standard error begins so.
fn fails(command: &mut Command, why: &str) {
    let child = command.stderr(Stdio::piped()).spawn().expect("the program starts");
    let output = child.wait_with_output().unwrap();
    let said = String::from_utf8_lossy(&output.stderr).into_owned();
    assert_eq!(output.stdout, b"", "{command:?}");
    assert!(said.starts_with(why) && said.lines().count() == 1, "{command:?} said {said:?}");
}

#[test]
fn unreadable() {
    for name in PROGRAMS {
        let piped = || {
            let mut command = program(name);
            command.stdin(Stdio::null()).stdout(Stdio::piped());
            command
        };
        fails(piped().stdin(File::open(at("crates")).unwrap()), "the input could not be read: ");
        fails(piped().arg(at("crates")), "the input could not be read: ");
        fails(piped().arg("no such file"), "no such file: ");
        fails(piped().args(["one", "two"]), "one file at most can be named");
        let closed = format!("exec '{}' <&-", built(name).display());
        fails(
            Command::new("sh").args(["-c", &closed]).stdout(Stdio::piped()),
            "the input could not be read: ",
        );
    }
}

#[test]
fn unwritable() {
    for name in PROGRAMS {
        let full = File::options().write(true).open("/dev/full").unwrap();
        let input = File::open(example(name, "stdin")).unwrap();
        fails(program(name).stdin(input).stdout(full), "the output could not be written: ");
    }
}

#[test]
fn named() {
    for name in PROGRAMS {
        let output = run(program(name).arg(example(name, "stdin")).stdin(Stdio::null()));
        assert_eq!(output.stdout, read(example(name, "stdout")).unwrap(), "{name}");
        assert_eq!(output.stderr, b"");
    }
}

extern "C" {
    fn fcntl(fd: i32, command: i32, ...) -> i32;
}

/// Reads and writes of it do not wait.
fn set_nonblocking(end: &impl AsRawFd) {
    const F_SETFL: i32 = 4;
    const O_NONBLOCK: i32 = 2048;
    assert_eq!(unsafe { fcntl(end.as_raw_fd(), F_SETFL, O_NONBLOCK) }, 0);
}

/// The processor time that a process has taken, in the kernel's ticks, of which a second has 100.
fn ticks(child: &Child) -> u64 {
    let stat = std::fs::read_to_string(format!("/proc/{}/stat", child.id())).unwrap();
    // the fields after the name, which is in parentheses: the 12th and 13th are the time in the program and in the kernel
    let fields: Vec<&str> = stat[stat.rfind(')').unwrap() + 1..].split_whitespace().collect();
    fields[11].parse::<u64>().unwrap() + fields[12].parse::<u64>().unwrap()
}

/// Of a second of waiting a program takes at most three hundredths.
fn waits(children: &[Child]) {
    let before: Vec<u64> = children.iter().map(ticks).collect();
    sleep(Duration::from_secs(1));
    for ((name, child), before) in PROGRAMS.iter().zip(children).zip(before) {
        let taken = ticks(child) - before;
        assert!(taken <= 3, "{name} took {taken} hundredths of a second of waiting");
    }
}

/// An empty pipe that does not wait.
#[test]
fn idle_input() {
    let (mut ends, mut children) = (Vec::new(), Vec::new());
    for name in PROGRAMS {
        let (from, to) = std::io::pipe().unwrap();
        set_nonblocking(&from);
        children.push(program(name).stdin(from).stdout(Stdio::null()).spawn().unwrap());
        ends.push(to);
    }
    waits(&children);
    drop(ends);
    for mut child in children {
        child.wait().unwrap();
    }
}

/// A full pipe that does not wait and is read late: nothing is lost of more answers than it holds.
#[test]
fn late_reader() {
    const LINES: usize = 50_000;
    let folder = Path::new(env!("CARGO_TARGET_TMPDIR"));
    for name in ["hall", "accession", "decode"] {
        let input = folder.join(format!("{name}.in"));
        std::fs::write(&input, "x\n".repeat(LINES)).unwrap();
        let (mut from, to) = std::io::pipe().unwrap();
        set_nonblocking(&to);
        let child = program(name).stdin(File::open(input).unwrap()).stdout(to).spawn().unwrap();
        sleep(Duration::from_millis(100));
        let mut children = [child];
        waits(&children);
        let mut given = String::new();
        from.read_to_string(&mut given).unwrap();
        children[0].wait().unwrap();
        assert_eq!(given, "what?\n".repeat(LINES), "{name}");
    }
}

/// A pipe that does not wait, filled slowly: the program waits for all of it.
#[test]
fn slow() {
    for name in PROGRAMS {
        let (from, mut to) = std::io::pipe().unwrap();
        set_nonblocking(&from);
        let mut child = program(name).stdin(from).stdout(Stdio::piped()).spawn().unwrap();
        for piece in read(example(name, "stdin")).unwrap().chunks(7).take(20) {
            to.write_all(piece).unwrap();
            sleep(Duration::from_millis(3));
        }
        let rest: Vec<u8> = read(example(name, "stdin")).unwrap().into_iter().skip(140).collect();
        to.write_all(&rest).unwrap();
        drop(to);
        let mut given = Vec::new();
        child.stdout.take().unwrap().read_to_end(&mut given).unwrap();
        child.wait().unwrap();
        assert_eq!(given, read(example(name, "stdout")).unwrap(), "{name}");
    }
}
