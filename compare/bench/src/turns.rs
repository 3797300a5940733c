//! Two states of the library beside each other: a program for each, linked with it, that does whole operations when it is told to. A third tells them, in
//! turns.

use crate::rows::{counted, whole_read, whole_write, Row};
use crate::side::Library;
use crate::{measure, median, Plan};
use register::Params;
use std::collections::BTreeMap;
use std::io::{BufRead, BufReader, Write};
use std::process::{Child, Command, Stdio};
use std::time::Duration;

/// Does what each line of standard input says, `KIND N T K L TIMES`: a write or a read so many times, answered with the nanoseconds that it took; or
/// with TIMES 0 once, answered with the frames handed in and their bytes.
pub fn work() {
    let mut rows: BTreeMap<String, Row> = BTreeMap::new();
    for line in std::io::stdin().lines() {
        let line = line.expect("a line");
        let (what, times) = line.rsplit_once(' ').expect("a count");
        let words: Vec<&str> = what.split(' ').collect();
        let number = |i: usize| words[i].parse().expect("a number");
        let (write, p) = (words[0] == "write", Params::new(number(1), number(2), number(3), number(4)));
        match times.parse().expect("a count") {
            0 => {
                let (frames, bytes) = counted::<Library>(p, write);
                println!("{frames} {bytes}");
            }
            times => {
                let make = || if write { whole_write::<Library>(p) } else { whole_read::<Library>(p) };
                let row = rows.entry(what.to_string()).or_insert_with(make);
                println!("{}", (row.work)(times).as_nanos());
            }
        }
    }
}

/// A program of `work`.
struct Worker {
    child: Child,
    answers: BufReader<std::process::ChildStdout>,
}

impl Worker {
    fn new(program: &str) -> Worker {
        let command = &mut Command::new(program);
        let mut child =
            command.arg("--work").stdin(Stdio::piped()).stdout(Stdio::piped()).spawn().expect(program);
        let answers = BufReader::new(child.stdout.take().expect("its output"));
        Worker { child, answers }
    }

    fn ask(&mut self, what: &str, times: u64) -> Vec<u64> {
        writeln!(self.child.stdin.as_ref().expect("its input"), "{what} {times}").expect("a worker");
        let mut answer = String::new();
        self.answers.read_line(&mut answer).expect("a worker");
        answer.split_whitespace().map(|word| word.parse().expect("a number")).collect()
    }
}

/// A row that a program works at.
fn row(program: &str, what: &str) -> Row {
    let (mut worker, what) = (Worker::new(program), what.to_string());
    Row { name: what.clone(), work: Box::new(move |times| Duration::from_nanos(worker.ask(&what, times)[0])) }
}

/// The table of whole operations of two programs: frames, their bytes, times, and the ratio of the earlier one to the later.
pub fn compare(earlier: &str, later: &str, plan: &Plan) {
    println!("\n### Whole operations, an earlier library and a later one\n");
    let note = format!("of {} runs not above 1", plan.runs);
    println!("| what | frames, earlier | later | bytes, earlier | later | ns, earlier | later | earlier to later | smallest | {note} |");
    println!("|---|---|---|---|---|---|---|---|---|---|");
    for kind in ["write", "read"] {
        for (n, t, k, l) in [(4, 1, 2, 64), (10, 3, 4, 64), (4, 1, 2, 256), (10, 3, 4, 256)] {
            let what = format!("{kind} {n} {t} {k} {l}");
            let [a, b] = [earlier, later].map(|program| Worker::new(program).ask(&what, 0));
            let runs = measure(&mut [row(earlier, &what), row(later, &what)], plan);
            let ratio = |run: &Vec<f64>| run[0] / run[1];
            let [x, y] = [0, 1].map(|side| median(runs.iter().map(|run: &Vec<f64>| run[side])));
            let (middle, smallest) =
                (median(runs.iter().map(ratio)), runs.iter().map(ratio).fold(f64::MAX, f64::min));
            let slower = runs.iter().filter(|run| ratio(run) <= 1.0).count();
            print!(
                "| whole {kind}, n = {n}, t = {t}, k = {k}, L = {l} | {} | {} | {} | {} |",
                a[0], b[0], a[1], b[1]
            );
            println!(" {x:.0} | {y:.0} | {middle:.2} | {smallest:.2} | {slower} |");
        }
    }
}

impl Drop for Worker {
    /// Without input it ends.
    fn drop(&mut self) {
        drop(self.child.stdin.take());
        let _ = self.child.wait();
    }
}
