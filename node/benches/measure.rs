//! Measures a register of real processes on this machine: operations a second, latencies, bytes on the wire and in the log, batches, processor time,
//! memory, and recovery against the log's length. Every row is measured several times, in turns with the others: the median is printed, and the
//! smallest and the largest. `node/measure` runs it.
#[path = "../tests/common/mod.rs"]
mod common;

use common::{Desk, Nodes};
use serde_json::{json, Value};
use std::time::{Duration, Instant};

const LENGTH: usize = 256;
const SIZES: [(usize, usize, usize); 2] = [(4, 1, 2), (10, 3, 4)];
/// Whether it writes, and by how many clients.
const ROWS: [(bool, u8); 4] = [(true, 1), (true, 8), (false, 1), (false, 8)];
const RUNS: usize = 5;
const SPAN: Duration = Duration::from_secs(2);
/// More frames a second than there can be: what is measured is not the limit.
const NO_LIMIT: [&str; 2] = ["--rate", "1000000"];
/// Lengths of the log, in MiB, at which a start is timed.
const LOGS: [u64; 3] = [16, 48, 144];
const STARTS: usize = 3;
/// Ticks a second of the processor times that the system tells.
const TICKS: f64 = 100.0;

/// What all nodes have sent by links, put into their logs and spent since their start.
#[derive(Clone, Copy, Default)]
struct Sums {
    wire: f64,
    log: f64,
    batches: f64,
    cpu: f64,
}

fn cpu(nodes: &Nodes, name: &str) -> f64 {
    let stat = std::fs::read_to_string(format!("/proc/{}/stat", nodes.pid(name))).unwrap_or_default();
    let behind = stat.rsplit(')').next().unwrap_or_default();
    behind.split_whitespace().skip(11).take(2).filter_map(|t| t.parse::<f64>().ok()).sum::<f64>() / TICKS
}

fn sums(nodes: &Nodes) -> Sums {
    let mut sums = Sums::default();
    for name in nodes.names() {
        let answer = Desk::new(&nodes.at(&name)).ok().and_then(|mut d| d.ask(&json!({ "ask": "status" }))).unwrap_or(Value::Null);
        let links = answer["program"]["links"].as_array().cloned().unwrap_or_default();
        sums.wire += links.iter().filter_map(|l| l["sent"].as_f64()).sum::<f64>();
        sums.log += answer["status"]["log"]["bytes"].as_f64().unwrap_or(0.0);
        sums.batches += answer["status"]["log"]["batch"].as_f64().unwrap_or(0.0);
        sums.cpu += cpu(nodes, &name);
    }
    sums
}

fn memory(nodes: &Nodes, name: &str) -> f64 {
    let status = std::fs::read_to_string(format!("/proc/{}/status", nodes.pid(name))).unwrap_or_default();
    let kb = status.lines().find_map(|l| l.strip_prefix("VmRSS:")?.trim().strip_suffix(" kB")?.trim().parse::<f64>().ok());
    kb.unwrap_or(0.0) / 1024.0
}

fn load() -> String {
    std::fs::read_to_string("/proc/loadavg").unwrap_or_default().split(' ').next().unwrap_or("?").to_string()
}

/// Operations of so many clients side by side, for a while: how long each took.
fn operate(nodes: &Nodes, clients: u8, write: bool) -> (Vec<Duration>, f64) {
    let start = Instant::now();
    let threads: Vec<_> = (1..=clients)
        .map(|client| {
            let folder = nodes.at("desk");
            std::thread::spawn(move || {
                let mut desk = Desk::new(&folder).expect("the desk's socket");
                let (mut times, mut count) = (vec![], 0u32);
                while start.elapsed() < SPAN {
                    count += 1;
                    let mut value = [client; LENGTH];
                    value[..4].copy_from_slice(&count.to_be_bytes());
                    let began = Instant::now();
                    let answer = if write { desk.write(client, &value) } else { desk.read(client) };
                    assert_eq!(answer["answer"], "ended", "{answer}");
                    times.push(began.elapsed());
                }
                times
            })
        })
        .collect();
    let mut times: Vec<Duration> = threads.into_iter().flat_map(|t| t.join().expect("a client")).collect();
    times.sort();
    (times, start.elapsed().as_secs_f64())
}

/// What one run of a row came to: by name, in the order in which it is printed.
fn run(nodes: &Nodes, write: bool, clients: u8) -> Vec<(&'static str, f64)> {
    let before = sums(nodes);
    let (times, span) = operate(nodes, clients, write);
    nodes.wait_for_rest();
    let after = sums(nodes);
    let ms = |part: f64| times[((times.len() as f64 * part) as usize).min(times.len() - 1)].as_secs_f64() * 1e3;
    let count = times.len() as f64;
    vec![
        ("a second", count / span),
        ("ms p50", ms(0.5)),
        ("p90", ms(0.9)),
        ("p99", ms(0.99)),
        ("bytes on links", (after.wire - before.wire) / count),
        ("bytes of log", (after.log - before.log) / count),
        ("batches", (after.batches - before.batches) / count),
        ("ms of processor", (after.cpu - before.cpu) * 1e3 / count),
    ]
}

/// The median, the smallest and the largest.
fn spread(figures: &mut [f64]) -> String {
    figures.sort_by(f64::total_cmp);
    let digits = if figures[0] < 100.0 { 2 } else { 0 };
    format!("{:.digits$} ({:.digits$} to {:.digits$})", figures[figures.len() / 2], figures[0], figures[figures.len() - 1])
}

fn measure(n: usize, t: usize, k: usize, runs: usize) {
    let mut nodes = Nodes::new("measure", (n, t, k, LENGTH));
    nodes.words = NO_LIMIT.map(str::to_string).into();
    nodes.start_all();
    let mut rows: Vec<Vec<Vec<(&str, f64)>>> = ROWS.map(|_| vec![]).into();
    for _ in 0..runs {
        for (row, (write, clients)) in rows.iter_mut().zip(ROWS) {
            row.push(run(&nodes, write, clients));
        }
    }
    for (row, (write, clients)) in rows.iter().zip(ROWS) {
        let kind = if write { "writes" } else { "reads" };
        println!("n {n} t {t} k {k}, {kind} of {LENGTH} bytes, {clients} clients, {runs} runs of {} s; load {}", SPAN.as_secs(), load());
        for (at, (what, _)) in row[0].iter().enumerate() {
            let mut figures: Vec<f64> = row.iter().map(|r| r[at].1).collect();
            println!("    {what}: {}", spread(&mut figures));
        }
    }
    println!("n {n}: memory of server 1: {:.1} MB, of the desk: {:.1} MB", memory(&nodes, "s1"), memory(&nodes, "desk"));
}

/// How long a server takes from its start to its answer, with logs of several lengths and no snapshot.
fn recovery() {
    let mut nodes = Nodes::new("measure", (4, 1, 2, LENGTH));
    nodes.words = NO_LIMIT.map(str::to_string).into();
    nodes.start_all();
    for mib in LOGS {
        while nodes.status("s1").is_some_and(|s| s["log"]["bytes"].as_u64() < Some(mib << 20)) {
            operate(&nodes, 8, true);
        }
        nodes.wait_for_rest();
        let (mut times, mut status) = (vec![], Value::Null);
        for _ in 0..STARTS {
            nodes.kill("s1");
            let began = Instant::now();
            nodes.start("s1");
            status = nodes.wait_until("s1", "is back", |_| true);
            times.push(began.elapsed().as_secs_f64() * 1e3);
        }
        let (records, bytes, spread) = (&status["log"]["replayed"], &status["log"]["bytes"], spread(&mut times));
        println!("recovery of a server, n 4: {spread} ms for {records} records, {bytes} bytes of log, {STARTS} starts; load {}", load());
    }
}

fn main() {
    // cargo passes --bench; a first number chooses one size, a second the runs
    let numbers: Vec<usize> = std::env::args().filter_map(|a| a.parse().ok()).collect();
    let runs = numbers.get(1).copied().unwrap_or(RUNS).max(1);
    for (n, t, k) in SIZES.into_iter().filter(|s| numbers.first().is_none_or(|n| *n == s.0)) {
        measure(n, t, k, runs);
    }
    if numbers.is_empty() {
        recovery();
    }
}
