//! Recovery by the node's own core and disk, from the files of real nodes: the last batch torn at every byte, and a bit turned in every earlier one.
mod common;

#[allow(dead_code)]
#[path = "../src/disk.rs"]
mod disk;
#[allow(dead_code)]
#[path = "../src/wake.rs"]
mod wake;

use common::Nodes;
use disk::Worker;
use semduoli::cluster::Cluster;
use semduoli::core::Core;
use semduoli::events::{exit, Action, Event, Now, Start};
use semduoli::log::{batch_at, segment_read, BATCH_HEAD};
use semduoli::records::{self, Record};
use semduoli::settings::{Settings, BLOCK};
use semduoli::status::Status;
use std::collections::VecDeque;
use std::fs;
use std::path::{Path, PathBuf};

const SEGMENT: u64 = 1 << 20;
const LOG: &str = "log-00000001";
const ME: usize = 1;

/// What a start came to: the exit code, or the state; and what was noted.
struct Started {
    end: Result<Status, u8>,
    notes: Vec<String>,
}

/// Starts a node from its folder, as the program does, up to where it would open its sockets.
fn start(cluster: &Cluster, folder: &Path) -> Started {
    let settings = Settings { segment: SEGMENT, ..Settings::default() };
    let (mut core, mut worker) = (Core::new(cluster.clone(), ME, settings), Worker::new(folder, None));
    let begin = Start { random: [1; 16], boot_id: "test".into(), pid: 1, version: "test".into() };
    let (mut events, mut notes): (VecDeque<Event>, Vec<String>) = ([Event::Start(begin)].into(), vec![]);
    let now = Now { boot: 1, wall: 1 };
    while let Some(event) = events.pop_front() {
        let mut actions = vec![];
        core.on(now, event, &mut actions);
        for action in actions {
            match action {
                Action::Disk { id, op, .. } => events.push_back(Event::Disk { id, result: worker.carry_out(op) }),
                Action::Note { line, .. } => notes.push(line),
                Action::Exit { code, .. } => return Started { end: Err(code), notes },
                Action::Ready => return Started { end: Ok(core.status(now)), notes },
                _ => {}
            }
        }
    }
    panic!("recovery stands still: {notes:?}")
}

/// A folder as the node left it, with another log.
struct Folder {
    cluster: Cluster,
    path: PathBuf,
}

impl Folder {
    fn start(&self, log: &[u8]) -> Started {
        let _ = fs::remove_file(self.path.join("last"));
        fs::write(self.path.join(LOG), log).expect("written");
        start(&self.cluster, &self.path)
    }
}

/// A batch of the log: where it begins, its bytes without the zeros behind it, and whether a party took a step in it.
struct Span {
    at: usize,
    length: usize,
    steps: bool,
}

fn batches(log: &[u8]) -> Vec<Span> {
    let id = segment_read(log, 1).expect("a segment").id;
    let (mut found, mut at) = (vec![], BLOCK as usize);
    while let Some(batch) = batch_at(&id, log, at) {
        let steps = records::read(batch.payload).any(|r| matches!(r, Ok(Record::Step { .. })));
        found.push(Span { at, length: BATCH_HEAD + batch.payload.len(), steps });
        at += batch.bytes.len();
    }
    found
}

#[test]
fn a_torn_batch_is_cut_at_every_byte_and_a_bit_turned_in_an_earlier_one_is_seen() {
    let mut nodes = Nodes::new("every", (4, 1, 2, 32));
    nodes.environment = vec![("SEMDUOLI_TEST_SEGMENT", SEGMENT.to_string())];
    nodes.start_all();
    for i in 0..12 {
        assert_eq!(nodes.desk().write(1 + i % 8, &[i; 32])["outcome"], "written");
    }
    nodes.wait_for_rest();
    nodes.names().iter().for_each(|name| nodes.kill(name));
    let path = nodes.at("s2");
    let text = fs::read_to_string(path.join("cluster.toml")).expect("a cluster file");
    let folder = Folder { cluster: Cluster::parse(&text).expect("a good one"), path };
    let mut log = fs::read(folder.path.join(LOG)).expect("a log");
    // the log up to its last batch with a step: places and signs alone may follow
    let found = batches(&log);
    let last = found.iter().rposition(|batch| batch.steps).expect("a batch with a step");
    let Span { at, length, .. } = found[last];
    log[at + length..].fill(0);
    assert!(last > 20, "{last} batches");
    torn(&folder, &log, at, length);
    turned(&folder, &log, &found[..last]);
}

fn torn(folder: &Folder, log: &[u8], at: usize, length: usize) {
    let state = |cut: usize| {
        let mut torn = log.to_vec();
        torn[at + cut..].fill(0);
        folder.start(&torn)
    };
    let (before, after) = (state(0), state(length));
    let (before, after) = (before.end.expect("a start without it"), after.end.expect("a start with it"));
    assert_eq!(before.log.batch + 1, after.log.batch);
    assert_ne!(before.log.steps, after.log.steps);
    let (mut cuts, mut tried) = (0, 0);
    for cut in 1..length {
        let whole = log[at + cut..at + length].iter().all(|b| *b == 0);
        tried += usize::from(!whole);
        let started = state(cut);
        let found = started.end.unwrap_or_else(|code| panic!("cut at {cut}: exit {code}"));
        let wanted = if whole { &after } else { &before };
        assert_eq!((&found.servers, found.log.batch, found.log.steps), (&wanted.servers, wanted.log.batch, wanted.log.steps), "cut at {cut}");
        cuts += usize::from(started.notes.iter().any(|n| n.contains("cut off at byte")));
    }
    println!("the last batch, of {length} bytes, torn at every byte: {cuts} cut off");
    assert!(cuts + 8 > tried, "{cuts} of {tried}");
}

fn turned(folder: &Folder, log: &[u8], earlier: &[Span]) {
    for (i, Span { at, length, .. }) in earlier.iter().enumerate() {
        let mut damaged = log.to_vec();
        damaged[at + (i * 37) % length] ^= 1 << (i % 8);
        assert_eq!(folder.start(&damaged).end.err(), Some(exit::DAMAGED), "batch {i}");
    }
    println!("a bit turned in each of {} earlier batches: each seen", earlier.len());
}
