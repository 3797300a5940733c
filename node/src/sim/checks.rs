//! What must hold of every run, looked at when it is over: of the logs as they are on the disks, of the nodes, and of what the desks saw.
use super::disk::{micros, Disk};
use super::world::{Slot, World};
use crate::cluster::Cluster;
use crate::core::Core;
use crate::events::{exit, Action, Event, Now, Stamp, Start};
use crate::judge::{self, Line, Verdict};
use crate::log::{segment_number, segment_read, LogId, Place, Scan};
use crate::records::{self, outcome, Record};
use crate::sem::{self, Party, Played, Room, Server, SERVER};
use crate::settings::Settings;
use crate::snapshot;
use crate::streams::StreamId;
use std::collections::{BTreeMap, BTreeSet, VecDeque};
use std::hash::{DefaultHasher, Hash, Hasher};

/// An operation as a log tells it: whether it is a write, and its outcome and stamp if it has ended.
type Operation = (bool, Option<(u8, Stamp)>);

/// What a surviving log says.
#[derive(Default)]
struct Told {
    /// Frames that the node's parties sent, by stream and number.
    sent: BTreeMap<(StreamId, u64), Vec<u8>>,
    /// Frames that were steps.
    taken: Vec<(StreamId, u64, Vec<u8>)>,
    /// Traces of the node's servers, and how many entries each has.
    traces: BTreeMap<u8, (Vec<u8>, usize)>,
    /// Operations of the node's desks, by client and number.
    operations: BTreeMap<(u8, u64), Operation>,
    /// Their begins and ends in the log's order.
    points: Vec<Point>,
}

/// When an operation began or ended, by the count of begins and ends and by the wall clock.
#[derive(Clone, Copy, Debug, PartialEq)]
pub struct Point {
    pub client: u8,
    pub tick: u32,
    pub wall: u64,
}

/// The begins and ends of the operations of a node's desks, as its log has them.
pub fn points(w: &World, node: usize) -> Result<Vec<Point>, String> {
    Ok(read_log(&w.slots[node], w.plan.cluster.register_digest())?.points)
}

/// The whole log of a node, with the segments that it has removed.
fn read_log(slot: &Slot, register: [u8; 32]) -> Result<Told, String> {
    let mut files = slot.archive.clone();
    files.extend(slot.disk.read_all());
    let mut told = Told::default();
    let mut scan: Option<Scan> = None;
    for (name, bytes) in &files {
        let Some(number) = segment_number(name) else { continue };
        let s = match &mut scan {
            Some(s) => s,
            none => {
                let LogId { id, .. } = segment_read(bytes, number).map_err(|f| f.to_string())?;
                none.insert(Scan::new(LogId { id, register }, Place::first()))
            }
        };
        s.segment(number, bytes, &mut |_, batch| records::read(batch.payload).try_for_each(|r| tell(&mut told, &r.map_err(|_| "no record")?)))
            .map_err(|f| f.to_string())?;
    }
    Ok(told)
}

fn tell(told: &mut Told, record: &Record) -> Result<(), &'static str> {
    match record {
        Record::Step { stream, number, entry, frame, sent } => {
            told.taken.push((*stream, *number, frame.to_vec()));
            if stream.to.class == SERVER {
                let trace = told.traces.entry(stream.to.number).or_default();
                trace.0.extend_from_slice(entry);
                trace.1 += 1;
            }
            tell_sent(told, stream.to, sent)
        }
        Record::Begin { client, tick, wall, value, sent, .. } => {
            told.points.push(Point { client: *client, tick: *tick, wall: *wall });
            let count = told.operations.keys().filter(|k| k.0 == *client).count() as u64;
            told.operations.insert((*client, count + 1), (value.is_some(), None));
            tell_sent(told, Party::client(*client), sent)
        }
        Record::Ended { client, tick, wall, outcome, stamp, .. } => {
            told.points.push(Point { client: *client, tick: *tick, wall: *wall });
            let count = told.operations.keys().filter(|k| k.0 == *client).count() as u64;
            let open = told.operations.get_mut(&(*client, count)).ok_or("an end without a begin")?;
            open.1 = Some((*outcome, sem::stamp_of(stamp)));
            Ok(())
        }
        _ => Ok(()),
    }
}

fn tell_sent(told: &mut Told, from: Party, sent: &[u8]) -> Result<(), &'static str> {
    for (to, number, frame) in records::sent_read(sent).ok_or("what was sent can't be read")? {
        let stream = StreamId { from, to, register: 0, owner: sem::owner(frame) };
        told.sent.insert((stream, number), frame.to_vec());
    }
    Ok(())
}

pub fn all(w: &mut World) {
    let mut failures = vec![];
    let mut logs = BTreeMap::new();
    for node in w.honest().into_iter().filter(|n| !w.slots[*n].lied) {
        match read_log(&w.slots[node], w.plan.cluster.register_digest()) {
            Ok(told) => drop(logs.insert(node, told)),
            Err(e) => failures.push(format!("4: the log of n{node} can't be read: {e}")),
        }
    }
    frames(w, &logs, &mut failures);
    served(w, &mut failures);
    order(w, &logs, &mut failures);
    bounds(w, &mut failures);
    for node in w.healthy() {
        recovery_twice(w, node, &mut failures);
        rot(w, node, &mut failures);
        if let Some(told) = logs.get(&node) {
            played(w, node, told, &mut failures);
        }
    }
    w.failures.extend(failures);
}

/// Checks 1 and 3: what an honest party took from an honest one stands in the sender's log, and nothing was taken twice.
fn frames(w: &World, logs: &BTreeMap<usize, Told>, failures: &mut Vec<String>) {
    // a node that was put back from an old copy has lost its log: it counts among the false
    let healthy = w.healthy();
    for (node, told) in logs {
        let mut seen = BTreeSet::new();
        for (stream, number, frame) in &told.taken {
            if !seen.insert((*stream, *number)) {
                failures.push(format!("3: n{node} took number {number} of {stream:?} twice"));
            }
            let Some(sender) = w.plan.cluster.node_of(stream.from).filter(|s| healthy.contains(s)) else { continue };
            let sent = logs.get(&sender).and_then(|l| l.sent.iter().find(|(k, _)| k.1 == *number && same(&k.0, stream)));
            if sent.is_none_or(|s| s.1 != frame) {
                failures.push(format!("1: n{node} took number {number} of {stream:?}, which the sender's log does not have"));
            }
        }
    }
}

/// Whether two streams are one; the owner of a wrong node's streams is told by the stream alone.
fn same(a: &StreamId, b: &StreamId) -> bool {
    a.from == b.from && a.to == b.to && (a.owner == b.owner || b.owner == 0)
}

/// Checks 6 and 12: nothing is open, owed or held, and the servers are equal; of whom was given up nothing is asked, and only one that is away for long is.
fn served(w: &World, failures: &mut Vec<String>) {
    if let Some(why) = w.unquiet() {
        failures.push(format!("6: {why}"));
    }
    let mut held: BTreeMap<(Stamp, Vec<u8>), Vec<usize>> = BTreeMap::new();
    let given_up = w.given_up();
    for node in w.healthy() {
        let servers = w.slots[node].core.iter().flat_map(|c| c.state.servers.values());
        for s in servers.filter(|s| !given_up.contains(&Party::server(s.me))) {
            let list = s.digests(&w.plan.cluster.parameters).to_vec();
            held.entry((s.stamp(), list)).or_default().push(node);
        }
    }
    let away = w.plan.away.and_then(|a| w.plan.cluster.nodes[a.node].server).map(Party::server);
    if let Some(party) = given_up.iter().find(|party| Some(**party) != away) {
        failures.push(format!("12: {party} is given up, and was never away for long"));
    }
    if held.len() > 1 {
        let stamps: Vec<_> = held.iter().map(|(k, nodes)| (k.0, nodes)).collect();
        failures.push(format!("6: servers differ: {stamps:?}"));
    }
}

/// Check 7: the operations of honest desks have an order, by the world's clock.
fn order(w: &World, logs: &BTreeMap<usize, Told>, failures: &mut Vec<String>) {
    let mut lines = vec![];
    let healthy = w.healthy();
    for ((client, operation), (write, ended)) in logs.iter().filter(|l| healthy.contains(l.0)).flat_map(|l| &l.1.operations) {
        let Some((outcome::WRITTEN | outcome::VALUE, stamp)) = ended else { continue };
        let seen = w.operations.get(&(*client, *operation)).cloned().unwrap_or_default();
        let (start, end) = (seen.asked as u32, seen.ended.unwrap_or(w.now_events()) as u32);
        lines.push(Line { write: *write, start, end, stamp: *stamp, caller: *client });
    }
    judge::add_writes(&mut lines);
    match judge::history(&lines, &mut |_, _| ()) {
        Verdict::Order { .. } => {}
        other => failures.push(format!("7: {other:?} of {lines:?}")),
    }
}

/// Check 8: what is held and owed is within its bounds.
fn bounds(w: &World, failures: &mut Vec<String>) {
    for node in w.healthy() {
        let Some(core) = &w.slots[node].core else { continue };
        for (stream, i) in &core.state.streams.ins {
            let most = if stream.owner == 0 { w.plan.settings.window } else { w.plan.settings.window_owner };
            if i.held.len() > most {
                failures.push(format!("8: n{node} holds {} frames of {stream:?}", i.held.len()));
            }
        }
        for (stream, o) in &core.state.streams.outs {
            if stream.to.class != SERVER && stream.from.class == SERVER && o.near.len() > 7 {
                failures.push(format!("8: n{node} owes a client {} frames by {stream:?}", o.near.len()));
            }
            let own = core.state.is_own(stream.to);
            if stream.to.class == SERVER && !own && o.near.len() > w.plan.settings.limits.near {
                failures.push(format!("8: n{node} has {} frames of {stream:?} in memory", o.near.len()));
            }
        }
    }
}

/// What a start came to.
pub struct Started {
    /// The exit code, if it ended.
    pub code: Option<u8>,
    state: Vec<u8>,
    essence: u64,
    disk: Disk,
}

/// A start from a disk, with nothing around it.
pub fn start_alone(cluster: &Cluster, settings: &Settings, node: usize, mut disk: Disk) -> Started {
    let mut core = Core::new(cluster.clone(), node, settings.clone());
    let start = Start { random: [1; 16], boot_id: "alone".into(), pid: 1, version: "sim".into() };
    let mut events: VecDeque<Event> = [Event::Start(start)].into();
    let now = Now { boot: 1, wall: 1 };
    while let Some(event) = events.pop_front() {
        let mut out = vec![];
        core.on(now, event, &mut out);
        for action in out {
            match action {
                Action::Disk { id, op, .. } => {
                    let mut result = Ok(crate::events::DiskAnswer::Done);
                    for micro in micros(&op) {
                        result = disk.step(&micro);
                        if result.is_err() {
                            break;
                        }
                    }
                    events.push_back(Event::Disk { id, result });
                }
                Action::Exit { code, .. } => return Started { code: Some(code), state: vec![], essence: 0, disk },
                Action::Ready => return Started { code: None, state: state_bytes(cluster, &core), essence: essence(&core), disk },
                _ => {}
            }
        }
    }
    Started { code: Some(0), state: vec![], essence: 0, disk }
}

/// A hash of the state without what may be missing in the log: acknowledgements that came, and what was seen of partners' logs.
fn essence(core: &Core) -> u64 {
    let mut h = DefaultHasher::new();
    let s = &core.state;
    s.servers.values().for_each(|s| (&s.state, &s.area, &s.initial).hash(&mut h));
    s.clients.values().for_each(|c| (&c.state, &c.rows, &c.value).hash(&mut h));
    format!("{:?} {}", s.desks, s.tick).hash(&mut h);
    s.streams.ins.iter().filter(|(_, i)| i.next > 0).for_each(|(k, i)| (k.bytes(), i.next).hash(&mut h));
    s.streams.outs.iter().filter(|(_, o)| o.next > 0).for_each(|(k, o)| (k.bytes(), o.next).hash(&mut h));
    h.finish()
}

fn state_bytes(cluster: &Cluster, core: &Core) -> Vec<u8> {
    let log = LogId { id: [0; 16], register: cluster.register_digest() };
    snapshot::write(&core.state, &log, &Place::default())
}

/// Check 9: recovery of the same disk gives the same state and the same files.
fn recovery_twice(w: &World, node: usize, failures: &mut Vec<String>) {
    let start = || start_alone(&w.plan.cluster, &w.plan.settings, node, w.slots[node].disk.clone());
    let (a, b) = (start(), start());
    if let Some(code) = a.code {
        failures.push(format!("9: n{node} does not start from its own disk: exit {code}"));
    }
    if a.state != b.state || a.disk.read_all() != b.disk.read_all() {
        failures.push(format!("9: n{node} recovers in two ways"));
    }
}

/// Check 5: a bit turned anywhere in the log is seen, or makes no difference; one in the newest snapshot makes none.
fn rot(w: &mut World, node: usize, failures: &mut Vec<String>) {
    let (cluster, settings) = (w.plan.cluster.clone(), w.plan.settings.clone());
    let good = start_alone(&cluster, &settings, node, w.slots[node].disk.clone());
    let files = w.slots[node].disk.read_all();
    let used = |name: &String| files.get(name).and_then(|b| b.iter().rposition(|b| *b != 0)).unwrap_or(0) as u64;
    let segments: Vec<&String> = files.keys().filter(|name| segment_number(name).is_some()).collect();
    let snapshot = files.keys().rfind(|name| snapshot::Name::read(name).is_some());
    for turn in 0..3 {
        let (name, in_log) = match snapshot {
            Some(name) if turn == 2 => (name, false),
            _ => (segments[w.r.below(segments.len() as u64) as usize], true),
        };
        let (at, bit) = (w.r.below(used(name) + 1) as usize, w.r.below(8));
        let mut disk = w.slots[node].disk.clone();
        disk.rot(name, at, bit);
        let found = start_alone(&cluster, &settings, node, disk);
        let seen = in_log && matches!(found.code, Some(exit::DAMAGED | exit::OTHER_LOG));
        if !seen && (found.code.is_some() || found.essence != good.essence) {
            let code = found.code;
            failures.push(format!("5: bit {bit} of byte {at} of {name} of n{node} was turned, and nobody saw it: {code:?}"));
        }
    }
}

/// Check 10: the proved playback of a server's trace ends in the live server's record and areas.
fn played(w: &World, node: usize, told: &Told, failures: &mut Vec<String>) {
    let (p, initial) = (&w.plan.cluster.parameters, &w.plan.cluster.initial);
    for live in w.slots[node].core.iter().flat_map(|c| c.state.servers.values()) {
        let empty = (vec![], 0);
        let (trace, entries) = told.traces.get(&live.me).unwrap_or(&empty);
        let played = Server::fresh(p, live.me, initial).and_then(|mut s| Ok((s.resume(p, &mut Room::new(p), trace)?, s)));
        match played {
            Ok((played, server)) if played == Played { closed: 0, entries: *entries as u64 } && server == *live => {}
            Ok((played, _)) => failures.push(format!("10: the playback of server {} ends elsewhere: {played:?}", live.me)),
            Err(refusal) => failures.push(format!("10: the playback of server {} is refused {refusal}", live.me)),
        }
    }
}
