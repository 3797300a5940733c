//! Chaos with real processes: nodes are killed, stopped, cut off, and end at the hooks of the disk thread, while eight clients read and write. Then all run
//! undisturbed: everything that was begun must end, nothing be owed or held, all servers be equal, and the whole history have an order.
//!
//! `CHAOS_SECONDS` makes the runs longer, `CHAOS_SEED` draws others.
mod common;
mod relay;

use common::{Desk, Nodes, CLIENTS};
use relay::Relay;
use semduoli::events::Stamp;
use semduoli::judge::{self, Line, Verdict};
use semduoli::random::Random;
use serde_json::{json, Value};
use std::collections::BTreeMap;
use std::path::PathBuf;
use std::sync::atomic::{AtomicBool, AtomicUsize, Ordering};
use std::sync::Arc;
use std::time::{Duration, Instant};

const LENGTH: usize = 32;
/// Torn tails are the rarest by themselves, since a write takes the least time.
const HOOKS: [&str; 8] = ["torn", "torn", "torn", "torn", "torn", "lost", "written", "synced"];
/// What a run of a minute or more must reach. On a machine with much other work it goes on for it, up to so many times as long.
const LONG: u64 = 60;
const CUT_LEAST: usize = 20;
const LONGER: u32 = 4;
/// Operations of a run, at least; and those that end between two disturbances, or so much time goes by: how fast the machine is does not matter.
const OPERATIONS_LEAST: usize = 100;
const OPERATIONS_BETWEEN: usize = 10;
const PATIENCE: Duration = Duration::from_secs(5);

fn setting(name: &str, usual: u64) -> u64 {
    std::env::var(name).ok().and_then(|v| v.parse().ok()).unwrap_or(usual)
}

/// What one client saw.
#[derive(Default)]
struct Seen {
    lines: Vec<Line>,
    /// Values by stamp, as written and as read.
    values: Vec<(Stamp, String)>,
    refused: Vec<Value>,
}

struct Client {
    number: u8,
    folder: PathBuf,
    start: Instant,
    desk: Option<Desk>,
    /// An operation that was begun and whose end is not known: its number, start and, of a write, its value.
    open: Option<(u64, u32, Option<String>)>,
    seen: Seen,
}

impl Client {
    fn tick(&self) -> u32 {
        (self.start.elapsed().as_micros() / 10) as u32
    }

    /// Goes on with the open operation, or begins the next; whether the node answered.
    fn go_on(&mut self, value: Option<String>) -> bool {
        if self.desk.is_none() {
            self.desk = Desk::new(&self.folder).ok();
        }
        let Some(mut desk) = self.desk.take() else { return false };
        let (client, start) = (self.number, self.tick());
        let request = match (&self.open, &value) {
            (Some((operation, ..)), _) => json!({ "ask": "wait", "client": client, "register": 0, "operation": operation }),
            (None, Some(value)) => json!({ "ask": "write", "client": client, "register": 0, "value": value }),
            (None, None) => json!({ "ask": "read", "client": client, "register": 0 }),
        };
        if desk.tell(&request).is_none() {
            return false;
        }
        loop {
            let Some(answer) = desk.line() else { return false };
            match answer["answer"].as_str() {
                Some("begun") => {
                    let operation = answer["operation"].as_u64().expect("a number");
                    self.open.get_or_insert((operation, start, value.clone()));
                }
                Some("ended") => {
                    self.ended(&answer);
                    break;
                }
                // 0: the operation never reached the disk
                _ => {
                    let unknown = self.open.take().is_some() && answer["number"] == 0;
                    if !unknown {
                        self.seen.refused.push(answer);
                    }
                    break;
                }
            }
        }
        self.desk = Some(desk);
        true
    }

    fn ended(&mut self, answer: &Value) {
        let (_, start, written) = self.open.take().expect("an operation that was begun");
        let part = |name: &str| answer["stamp"][name].as_u64().expect("a stamp");
        let stamp = Stamp { time: part("time"), writer: part("writer") as u8, sequence: part("sequence") as u32 };
        let end = self.tick().max(start + 1);
        self.seen.lines.push(Line { write: written.is_some(), start, end, stamp, caller: self.number });
        let read = answer["value"].as_str().map(str::to_string);
        self.seen.values.push((stamp, written.or(read).expect("a value")));
    }

    fn work(mut self, seed: u64, stop: &AtomicBool, ended: &AtomicUsize) -> Seen {
        let mut random = Random::new(seed + u64::from(self.number));
        let mut count = 0u32;
        while !stop.load(Ordering::Relaxed) || self.open.is_some() {
            count += 1;
            let mut value = [self.number; LENGTH];
            value[..4].copy_from_slice(&count.to_be_bytes());
            let value: String = value.iter().map(|b| format!("{b:02x}")).collect();
            let before = self.seen.lines.len();
            if !self.go_on((random.below(3) == 0).then_some(value)) {
                std::thread::sleep(Duration::from_millis(20));
            }
            ended.fetch_add(self.seen.lines.len() - before, Ordering::Relaxed);
        }
        self.seen
    }
}

#[derive(Default, Debug)]
struct Count {
    starts: u32,
    kills: u32,
    stops: u32,
    cuts: u32,
    hooks: BTreeMap<&'static str, u32>,
}

struct Chaos {
    nodes: Nodes,
    relays: Vec<Relay>,
    random: Random,
    hooks: BTreeMap<String, &'static str>,
    count: Count,
}

impl Chaos {
    fn start(&mut self, name: &str) {
        let mut environment = vec![("SEMDUOLI_TEST_SNAPSHOT", (100_000 << self.random.below(6)).to_string())];
        self.hooks.remove(name);
        if self.random.below(2) == 0 {
            let hook = HOOKS[self.random.below(HOOKS.len() as u64) as usize];
            environment.push(("SEMDUOLI_TEST_FAULT", format!("{hook}:{}", 3 + self.random.below(60))));
            self.hooks.insert(name.into(), hook);
        }
        self.nodes.start_with(name, &environment);
        self.count.starts += 1;
    }

    /// Those that ended at a hook start again; nobody may end otherwise.
    fn raise(&mut self) {
        for name in self.nodes.names() {
            if self.nodes.has_ended(&name) {
                let hook = self.hooks.get(&name).copied();
                let code = self.nodes.exit_code(&name);
                let hook = hook.filter(|_| code == -1).unwrap_or_else(|| panic!("{name} ended with {code}:\n{}", self.nodes.notes(&name)));
                *self.count.hooks.entry(hook).or_default() += 1;
                self.start(&name);
            }
        }
    }

    /// Ends in the midst of a batch; each leaves a tail to cut off.
    fn torn(&self) -> u32 {
        self.count.hooks.get("torn").copied().unwrap_or(0)
    }

    /// Time in which enough servers are there for operations to end.
    fn pause(&mut self, ended: &AtomicUsize) {
        let (before, since) = (ended.load(Ordering::Relaxed), Instant::now());
        std::thread::sleep(Duration::from_millis(self.random.below(250)));
        while ended.load(Ordering::Relaxed) < before + OPERATIONS_BETWEEN && since.elapsed() < PATIENCE {
            std::thread::sleep(Duration::from_millis(20));
            self.raise();
        }
    }

    fn disturb(&mut self) {
        let names = self.nodes.names();
        // the desk less often than a server
        let among = if self.random.one_in(4) { names.len() } else { names.len() - 1 };
        let any = self.random.below(among as u64) as usize;
        let pause = Duration::from_millis(self.random.below(400));
        match self.random.below(10) {
            0 => {
                self.nodes.signal(&names[any], "STOP");
                std::thread::sleep(pause * 3);
                self.nodes.signal(&names[any], "CONT");
                self.count.stops += 1;
            }
            1 => {
                let relay = self.random.below(self.relays.len() as u64) as usize;
                let delay = Duration::from_millis(self.random.below(30));
                self.relays[relay].disturb(pause * 3, delay);
                self.count.cuts += 1;
            }
            2..=6 => {
                self.nodes.kill(&names[any]);
                std::thread::sleep(pause);
                self.start(&names[any]);
                self.count.kills += 1;
            }
            _ => std::thread::sleep(pause),
        }
    }
}

fn chaos(name: &str, (n, t, k): (usize, usize, usize), seconds: u64) {
    let (seconds, seed) = (setting("CHAOS_SECONDS", seconds), setting("CHAOS_SEED", 1));
    let mut nodes = Nodes::new(name, (n, t, k, LENGTH));
    let relays: Vec<Relay> = nodes.ports.iter().map(|port| Relay::new(*port)).collect();
    nodes.write_clusters((n, t, k, LENGTH), &relays.iter().map(|r| r.port).collect::<Vec<_>>());
    let mut chaos = Chaos { nodes, relays, random: Random::new(seed), hooks: BTreeMap::new(), count: Count::default() };
    for name in chaos.nodes.names() {
        chaos.start(&name);
    }
    let (stop, start) = (Arc::new(AtomicBool::new(false)), Instant::now());
    let ended = Arc::new(AtomicUsize::new(0));
    let clients: Vec<_> = (1..=CLIENTS)
        .map(|number| {
            let client = Client { number, folder: chaos.nodes.at("desk"), start, desk: None, open: None, seen: Seen::default() };
            let (stop, ended) = (stop.clone(), ended.clone());
            std::thread::spawn(move || client.work(seed, &stop, &ended))
        })
        .collect();
    let least = if seconds < LONG { 0 } else { CUT_LEAST as u32 };
    let span = Duration::from_secs(seconds);
    let too_little = |chaos: &Chaos| chaos.torn() < least || ended.load(Ordering::Relaxed) <= OPERATIONS_LEAST;
    while start.elapsed() < span || (too_little(&chaos) && start.elapsed() < span * LONGER) {
        chaos.raise();
        chaos.disturb();
        chaos.pause(&ended);
    }
    // now all run undisturbed
    for name in chaos.nodes.names() {
        chaos.nodes.kill(&name);
        chaos.nodes.start(&name);
    }
    stop.store(true, Ordering::Relaxed);
    let seen: Vec<Seen> = clients.into_iter().map(|c| c.join().expect("a client")).collect();
    let served = start.elapsed();
    chaos.nodes.wait_for_rest();
    check(&seen);
    let operations: usize = seen.iter().map(|s| s.lines.len()).sum();
    // a batch that was not whole and was cut off at a start
    let cut: usize = chaos.nodes.names().iter().map(|name| chaos.nodes.notes(name).matches("was cut off at byte").count()).sum();
    println!("{name}: {operations} operations, {:?}, {cut} torn tails cut off, served {} s after the start", chaos.count, served.as_secs());
    assert!(cut >= least as usize, "{cut} torn tails in {seconds} s");
    assert!(operations > OPERATIONS_LEAST && chaos.count.starts as usize > chaos.nodes.names().len(), "too little happened: {operations}");
    verify(&chaos.nodes);
}

fn check(seen: &[Seen]) {
    let refused: Vec<&Value> = seen.iter().flat_map(|s| &s.refused).collect();
    assert!(refused.is_empty(), "refused: {refused:?}");
    let mut values: BTreeMap<Stamp, &String> = BTreeMap::new();
    for (stamp, value) in seen.iter().flat_map(|s| &s.values) {
        let first = values.entry(*stamp).or_insert(value);
        assert_eq!(*first, value, "two values of {stamp:?}");
    }
    let mut lines: Vec<Line> = seen.iter().flat_map(|s| s.lines.clone()).collect();
    lines.sort_by_key(|l| l.start);
    judge::add_writes(&mut lines);
    match judge::history(&lines, &mut |_, _| {}) {
        Verdict::Order { .. } => {}
        Verdict::Offending { earlier, later } => panic!("no order: {} precedes {}", lines[earlier], lines[later]),
        other => panic!("{other:?}"),
    }
}

/// Every node's log is whole, and the proved playback of it ends in the running server's state.
fn verify(nodes: &Nodes) {
    for name in nodes.names() {
        let output = common::semduoli(&["verify", "--json", "--folder", &nodes.path(&name)]);
        assert_eq!(common::code(&output), 0, "{name}: {}", common::said(&output));
        let object: Value = serde_json::from_str(&common::printed(&output)).expect("an object");
        if name != "desk" {
            assert_eq!(object["state"], "the running node's state is the same", "{name}: {object}");
            assert!(object["played"].as_u64() > Some(0), "{name}: {object}");
        }
    }
}

#[test]
fn four_servers_one_of_which_may_fail() {
    chaos("chaos4", (4, 1, 2), 10);
}

#[test]
fn seven_servers_two_of_which_may_fail() {
    chaos("chaos7", (7, 2, 3), 10);
}
