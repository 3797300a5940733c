//! The world of a run: nodes with their disks, links as pipes of bytes that arrive in order, cut anywhere, and one clock. Everything that will happen
//! stands in one row by its time.
use super::disk::{micros, Disk, Micro};
use super::evil::Evil;
use super::plan::{Away, Plan};
use super::Report;
use crate::core::Core;
use crate::events::{exit, Action, Ask, DiskId, DiskOp, Ended, Event, Lane, Level, Now, Response, Start};
use crate::log::segment_number;
use crate::messages::{self, Front, Message, MESSAGE_MOST};
use crate::random::Random;
use crate::sem::Party;
use crate::streams::StreamId;
use std::collections::{BTreeMap, BTreeSet, VecDeque};

const MS: u64 = 1000;
/// Faults fall until here, in microseconds; then all is mended, and this long is left.
const CHAOS: u64 = 12_000 * MS;
const MENDED: u64 = 120_000 * MS;
/// The wall clocks when a run begins, in milliseconds.
pub const WALL: u64 = 1_700_000_000_000;
/// A run with more events than this goes round in a circle.
const EVENTS_MOST: u64 = 600_000;

#[derive(Clone, Debug)]
pub enum Will {
    Disk { node: usize, epoch: u64, lane: Lane },
    Arrive { pipe: u64, upward: bool },
    Up { pipe: u64, upper: bool },
    Down { pipe: u64, upper: bool },
    Refuse { from: usize, to: usize, epoch: u64 },
    Tick { node: usize, epoch: u64 },
    Start { node: usize },
    Ask { node: usize, client: u8 },
    Cut,
    Fault,
    Evil { node: usize },
    Away { node: usize },
    Back { node: usize },
    Mend,
}

struct Job {
    id: DiskId,
    steps: VecDeque<Micro>,
}

pub struct Slot {
    pub core: Option<Core>,
    pub disk: Disk,
    /// Segments of its log that it has removed, by name: for the checks.
    pub archive: BTreeMap<String, Vec<u8>>,
    /// Counts the starts; what was meant for an earlier one is dropped.
    pub epoch: u64,
    boots: u64,
    lanes: BTreeMap<Lane, VecDeque<Job>>,
    tick_at: Option<u64>,
    backlog: VecDeque<Event>,
    pub ready: bool,
    /// How the program ended, if it did by itself.
    pub exited: Option<(u8, String)>,
    pub evil: Option<Evil>,
    /// An exit that the faults of this run explain.
    pub excused: bool,
    /// It was put back from an older copy of its folder: if nobody notices, it counts among the false.
    pub rolled: bool,
    /// Its disk lied: it may end in any way, and counts among the false.
    pub lied: bool,
    /// Frames that it let out since: none, if it notices.
    let_out: u64,
    /// Signs of lost state that it was given since its start: by whom, and a batch of its log by which the log must have it.
    signs: Vec<(usize, u64)>,
    /// Who gave signs that its log must have.
    signs_kept: BTreeSet<usize>,
    /// Servers that it gave up since its start, with a batch of its log by which the log must have it; and those that its log must have.
    given: Vec<(Party, u64)>,
    given_kept: BTreeSet<Party>,
    /// Its machine is off for long.
    away: bool,
    old_disk: Option<Disk>,
}

/// A link. The upper end is the node that called.
struct Pipe {
    lower: usize,
    upper: usize,
    /// Bytes on the way up and down, with their times.
    up: VecDeque<(u64, Vec<u8>)>,
    down: VecDeque<(u64, Vec<u8>)>,
    lower_there: bool,
    upper_there: bool,
    dead: bool,
}

/// An operation of an honest desk as the world saw it.
#[derive(Clone, Default, Debug)]
pub struct Seen {
    pub asked: u64,
    pub ended: Option<u64>,
}

pub struct World {
    pub plan: Plan,
    pub r: Random,
    pub now: u64,
    row: BTreeMap<(u64, u64), Will>,
    order: u64,
    pub slots: Vec<Slot>,
    pipes: BTreeMap<u64, Pipe>,
    cuts: Vec<(usize, usize)>,
    pub mended: bool,
    hash: u64,
    events: u64,
    crashes: u64,
    torn: u64,
    fetches: u64,
    removed: u64,
    rolled: u64,
    caught: u64,
    given_up: u64,
    asks: BTreeMap<u64, (u8, u64, u64)>,
    pub operations: BTreeMap<(u8, u64), Seen>,
    left: BTreeMap<u8, u64>,
    asking: BTreeMap<u8, u64>,
    /// Every frame that an honest node put on a link, by its stream and number.
    pub wire: BTreeMap<(StreamId, u64), Vec<u8>>,
    pub failures: Vec<String>,
    /// A node's wall clock, by its number and the clock that never steps; both in milliseconds.
    pub wall: fn(usize, u64) -> u64,
    wall_jump: u64,
    pub verbose: bool,
}

impl Slot {
    /// A node that has not run yet.
    fn new(evil: Option<Evil>) -> Slot {
        Slot {
            core: None,
            disk: Disk::default(),
            archive: BTreeMap::new(),
            epoch: 0,
            boots: 1,
            lanes: BTreeMap::new(),
            tick_at: None,
            backlog: VecDeque::new(),
            ready: false,
            exited: None,
            evil,
            excused: false,
            rolled: false,
            lied: false,
            let_out: 0,
            signs: vec![],
            signs_kept: BTreeSet::new(),
            given: vec![],
            given_kept: BTreeSet::new(),
            away: false,
            old_disk: None,
        }
    }
}

impl World {
    pub fn new(plan: Plan) -> World {
        let evil = |node: usize| plan.evil.contains(&node).then(|| Evil::new(&plan.cluster, node, plan.floods));
        let mut w = World {
            r: plan.random.clone(),
            now: 0,
            row: BTreeMap::new(),
            order: 0,
            slots: (0..plan.cluster.nodes.len()).map(|node| Slot::new(evil(node))).collect(),
            pipes: BTreeMap::new(),
            cuts: vec![],
            mended: false,
            hash: 0xcbf2_9ce4_8422_2325,
            events: 0,
            crashes: 0,
            torn: 0,
            fetches: 0,
            removed: 0,
            rolled: 0,
            caught: 0,
            given_up: 0,
            asks: BTreeMap::new(),
            operations: BTreeMap::new(),
            left: BTreeMap::new(),
            asking: BTreeMap::new(),
            wire: BTreeMap::new(),
            failures: vec![],
            wall: |_, boot| WALL + boot,
            wall_jump: 0,
            verbose: std::env::var_os("SIM_VERBOSE").is_some(),
            plan,
        };
        w.set_going();
        w
    }

    /// What happens by itself: nodes start, desks ask, faults fall, and in the end all is mended.
    fn set_going(&mut self) {
        for node in 0..self.slots.len() {
            let evil = self.slots[node].evil.is_some();
            let wait = self.r.below(500 * MS);
            self.later(wait, if evil { Will::Evil { node } } else { Will::Start { node } });
            for client in self.plan.cluster.nodes[node].clients.clone() {
                if !evil {
                    self.left.insert(client, self.plan.operations);
                    let at = 500 * MS + self.r.below(3000) * MS;
                    self.later(at, Will::Ask { node, client });
                }
            }
        }
        self.later(200 * MS, Will::Cut);
        self.later(300 * MS, Will::Fault);
        if let Some(Away { node, begins, ends }) = self.plan.away {
            self.later(begins * MS, Will::Away { node });
            self.later(ends * MS, Will::Back { node });
        }
        self.later(CHAOS, Will::Mend);
    }

    fn later(&mut self, wait: u64, will: Will) {
        self.order += 1;
        self.row.insert((self.now + wait, self.order), will);
    }

    fn mix(&mut self, bytes: &[u8]) {
        for b in bytes {
            self.hash = (self.hash ^ u64::from(*b)).wrapping_mul(0x0100_0000_01b3);
        }
    }

    fn clock(&self, node: usize) -> Now {
        let boot = self.now / MS;
        Now { boot, wall: (self.wall)(node, boot).saturating_add(self.wall_jump) }
    }

    pub fn run(&mut self) {
        while let Some(((at, _), will)) = self.row.pop_first() {
            self.now = at;
            self.events += 1;
            let text = format!("{at} {will:?}");
            if self.verbose && self.events > EVENTS_MOST - 60 {
                eprintln!("{text}");
            }
            self.mix(text.as_bytes());
            self.happen(will);
            if self.mended && (self.events.is_multiple_of(64) && self.is_quiet() || at > CHAOS + MENDED) {
                break;
            }
            if self.failures.len() > 4 || self.events > EVENTS_MOST {
                break;
            }
        }
    }

    pub fn honest(&self) -> Vec<usize> {
        (0..self.slots.len()).filter(|n| self.slots[*n].evil.is_none()).collect()
    }

    /// Nodes that must be served in the end: honest, and not stopped by a fault that explains it.
    pub fn healthy(&self) -> Vec<usize> {
        self.honest().into_iter().filter(|n| self.slots[*n].exited.is_none() && !self.slots[*n].rolled).collect()
    }

    /// Servers that an honest node has given up: they count among the false.
    pub fn given_up(&self) -> BTreeSet<Party> {
        self.slots.iter().filter_map(|s| s.core.as_ref()).flat_map(|c| c.state.given_up.iter().copied()).collect()
    }

    /// Nothing is open, owed to a healthy node, or held; but for servers that were given up.
    pub fn is_quiet(&self) -> bool {
        self.unquiet().is_none()
    }

    pub fn unquiet(&self) -> Option<String> {
        let (healthy, given_up) = (self.healthy(), self.given_up());
        for node in &healthy {
            let Some(core) = self.slots[*node].core.as_ref().filter(|_| self.slots[*node].ready) else {
                return Some(format!("n{node} is not up"));
            };
            if !core.writer.fenced || core.writer.in_flight.is_some() || core.writer.fx.stepped {
                return Some(format!("n{node} has not rested"));
            }
            for (client, desk) in &core.state.desks {
                if desk.open.is_some() || self.left.get(client).is_some_and(|l| *l > 0) || self.asking.contains_key(client) {
                    return Some(format!("client {client} has an operation open"));
                }
            }
            for (stream, o) in core.state.streams.outs.iter().filter(|(s, _)| !given_up.contains(&s.to)) {
                let to = self.plan.cluster.node_of(stream.to);
                if o.owed(stream.to) > 0 && to.is_some_and(|to| healthy.contains(&to)) {
                    let (next, durable, acked, sent) = (o.next, o.durable, o.acked, o.sent);
                    return Some(format!(
                        "n{node} owes n{to:?} {} frames by {stream:?}: next {next}, durable {durable}, acked {acked}, sent {sent}",
                        o.owed(stream.to)
                    ));
                }
            }
            for (stream, i) in core.state.streams.ins.iter().filter(|(s, _)| !given_up.contains(&s.to)) {
                let from = self.plan.cluster.node_of(stream.from);
                if !i.held.is_empty() && from.is_some_and(|from| healthy.contains(&from)) {
                    return Some(format!("n{node} holds {} frames of {stream:?}", i.held.len()));
                }
            }
        }
        None
    }

    fn happen(&mut self, will: Will) {
        match will {
            Will::Start { node } => self.start(node),
            Will::Disk { node, epoch, lane } => self.disk_step(node, epoch, lane),
            Will::Tick { node, epoch } if self.slots[node].epoch == epoch && self.slots[node].tick_at == Some(self.now) => {
                self.slots[node].tick_at = None;
                self.hand(node, Event::Tick);
            }
            Will::Tick { .. } => {}
            Will::Arrive { pipe, upward } => self.arrive(pipe, upward),
            Will::Up { pipe, upper } => self.up(pipe, upper),
            Will::Down { pipe, upper } => self.down(pipe, upper),
            Will::Refuse { from, to, epoch } => {
                if self.slots[from].epoch == epoch {
                    self.hand(from, Event::LinkDown { link: None, node: to, why: "no answer".into() });
                }
            }
            Will::Ask { node, client } => self.ask(node, client),
            Will::Cut => self.cut(),
            Will::Fault => self.fault(),
            Will::Evil { node } => self.evil(node),
            Will::Away { node } => {
                self.stop(node);
                self.slots[node].away = true;
            }
            Will::Back { node } => {
                self.slots[node].away = false;
                self.start(node);
            }
            Will::Mend => self.mend(),
        }
    }

    // ---- nodes

    fn start(&mut self, node: usize) {
        if self.slots[node].core.is_some() || self.slots[node].exited.is_some() || self.slots[node].away {
            return;
        }
        let slot = &mut self.slots[node];
        slot.epoch += 1;
        slot.core = Some(Core::new(self.plan.cluster.clone(), node, self.plan.settings.clone()));
        let mut random = [0; 16];
        random.copy_from_slice(&self.r.bytes(16));
        let start = Start { random, boot_id: format!("boot-{}", slot.boots), pid: slot.epoch as u32, version: "sim".into() };
        self.hand(node, Event::Start(start));
    }

    /// Hands an event to a node and carries its actions out.
    fn hand(&mut self, node: usize, event: Event) {
        let now = self.clock(node);
        let wants_room = matches!(event, Event::Bytes { .. } | Event::Ask { .. });
        let slot = &mut self.slots[node];
        let Some(core) = slot.core.as_mut() else { return };
        if wants_room && (!slot.backlog.is_empty() || !core.taking()) {
            slot.backlog.push_back(event);
            return;
        }
        let mut out = vec![];
        core.on(now, event, &mut out);
        self.act_all(node, out);
        while let Some(core) = self.slots[node].core.as_mut() {
            if !core.taking() {
                break;
            }
            let Some(event) = self.slots[node].backlog.pop_front() else { break };
            let mut out = vec![];
            if let Some(core) = self.slots[node].core.as_mut() {
                core.on(now, event, &mut out);
            }
            self.act_all(node, out);
        }
        self.schedule_tick(node);
    }

    fn schedule_tick(&mut self, node: usize) {
        let slot = &self.slots[node];
        let Some(at) = slot.core.as_ref().and_then(Core::wake).map(|ms| (ms * MS).max(self.now + 1)) else { return };
        // what comes meanwhile is worked off by the same tick
        let at = if at == self.now + 1 { at + self.r.below(100) } else { at };
        let slot = &self.slots[node];
        if slot.tick_at.is_none_or(|t| at < t) {
            let epoch = slot.epoch;
            self.slots[node].tick_at = Some(at);
            self.later(at - self.now, Will::Tick { node, epoch });
        }
    }

    fn act_all(&mut self, node: usize, actions: Vec<Action>) {
        for action in actions {
            let crash = self.plan.crash > 0 && !self.mended && self.r.one_in(self.plan.crash);
            if crash {
                self.crash(node);
                return;
            }
            self.act(node, action);
            if self.slots[node].core.is_none() {
                return;
            }
        }
    }

    fn act(&mut self, node: usize, action: Action) {
        match action {
            Action::Ready => {
                self.slots[node].ready = true;
                self.signs_remembered(node);
                self.given_up_remembered(node);
                if self.slots[node].rolled {
                    self.ask_at_once(node);
                }
            }
            Action::Send { link, bytes } => {
                self.watch(node, &bytes);
                self.send(node, link, bytes);
            }
            Action::Close { link, .. } => self.close(node, link),
            Action::Dial { node: to } => self.dial(node, to),
            Action::Disk { id, lane, op } => self.disk(node, id, lane, &op),
            Action::Answer { id, response } => self.answer(id, response),
            Action::Note { level, line } => {
                if line.contains("cut off at byte") {
                    self.torn += 1;
                }
                self.sign_given(node, &line);
                self.note_given_up(node);
                if self.verbose && level <= Level::Notice {
                    eprintln!("{:>9} n{node}: {line}", self.now / MS);
                }
            }
            Action::Exit { code, line } => self.exited(node, code, line),
        }
    }

    fn exited(&mut self, node: usize, code: u8, line: String) {
        if self.verbose {
            eprintln!("{:>9} n{node} exits {code}: {line}", self.now / MS);
        }
        let excused = self.slots[node].excused;
        self.stop(node);
        if code == exit::DISK && self.slots[node].disk.full {
            // a start with no space left: the staff make room
            self.slots[node].disk.full = false;
            return self.later(500 * MS, Will::Start { node });
        }
        if code == exit::DISK && excused {
            // the staff restart the machine
            self.slots[node].excused = false;
            self.slots[node].boots += 1;
            let mut r = self.r.clone();
            self.slots[node].disk.power_cut(&mut r);
            self.r = r;
            self.later(50 * MS, Will::Start { node });
            return;
        }
        if self.slots[node].lied {
            // whatever it says, it does not go on
        } else if !(code == exit::LOST && self.slots[node].rolled) {
            self.failures.push(format!("4: n{node} exits {code}: {line}"));
        } else if self.slots[node].let_out > 0 {
            self.failures.push(format!("2: n{node} lets frames out before it sees that its state was lost"));
        } else {
            self.caught += 1;
        }
        self.slots[node].exited = Some((code, line));
    }

    /// The process ends: its links break, what it had not given to the disk is gone.
    fn stop(&mut self, node: usize) {
        let slot = &mut self.slots[node];
        let durable = slot.core.as_ref().map_or(0, |c| c.writer.durable.batch);
        slot.signs_kept.extend(slot.signs.drain(..).filter(|(_, batch)| *batch <= durable).map(|(by, _)| by));
        slot.given_kept.extend(slot.given.drain(..).filter(|(_, batch)| *batch <= durable).map(|(party, _)| party));
        (slot.core, slot.ready, slot.tick_at) = (None, false, None);
        slot.epoch += 1;
        slot.backlog.clear();
        slot.lanes.clear();
        let pipes: Vec<u64> = self.pipes.iter().filter(|(_, p)| p.lower == node || p.upper == node).map(|(id, _)| *id).collect();
        pipes.into_iter().for_each(|p| self.break_pipe(p));
        let clients = self.plan.cluster.nodes[node].clients.clone();
        for client in clients {
            // who asked sees the socket close; the operation may or may not have been begun
            if let Some(ask) = self.asking.remove(&client) {
                self.asks.remove(&ask);
                let wait = 100 * MS + self.r.below(1000) * MS;
                self.later(wait, Will::Ask { node, client });
            }
        }
    }

    fn crash(&mut self, node: usize) {
        self.crashes += 1;
        let machine = self.plan.power && self.r.one_in(2);
        let mut r = self.r.clone();
        // a write on its way may be there in part
        let parts: Vec<Micro> = self.slots[node].lanes.values().filter_map(|l| l.front()?.steps.front().cloned()).collect();
        for micro in parts {
            if r.one_in(2) {
                self.slots[node].disk.part(&micro, &mut r);
            }
        }
        if machine {
            self.slots[node].disk.power_cut(&mut r);
            self.slots[node].boots += 1;
        }
        self.r = r;
        self.stop(node);
        let wait = 10 * MS + self.r.below(self.plan.down_most) * MS;
        self.later(wait, Will::Start { node });
    }

    // ---- disks

    fn disk(&mut self, node: usize, id: DiskId, lane: Lane, op: &DiskOp) {
        self.fetches += u64::from(lane == Lane::Side && matches!(op, DiskOp::Read { .. }));
        self.removed += u64::from(matches!(op, DiskOp::Unlink { file } if segment_number(file).is_some()));
        let slot = &mut self.slots[node];
        let epoch = slot.epoch;
        let queue = slot.lanes.entry(lane).or_default();
        queue.push_back(Job { id, steps: micros(op) });
        if queue.len() == 1 {
            let wait = 20 + self.r.below(400);
            self.later(wait, Will::Disk { node, epoch, lane });
        }
    }

    fn disk_step(&mut self, node: usize, epoch: u64, lane: Lane) {
        if self.slots[node].epoch != epoch {
            return;
        }
        if self.plan.crash > 0 && !self.mended && self.slots[node].evil.is_none() && self.r.one_in(self.plan.crash) {
            return self.crash(node);
        }
        let slot = &mut self.slots[node];
        let Some(job) = slot.lanes.get_mut(&lane).and_then(|l| l.front_mut()) else { return };
        let Some(micro) = job.steps.pop_front() else { return };
        let id = job.id;
        if let Micro::Unlink { file } = &micro {
            slot.archive.extend(slot.disk.read_all().remove_entry(file).filter(|(name, _)| segment_number(name).is_some()));
        }
        let result = slot.disk.step(&micro);
        let done = result.is_err() || job.steps.is_empty();
        if done {
            slot.lanes.get_mut(&lane).map(VecDeque::pop_front);
        }
        if slot.lanes.get(&lane).is_some_and(|l| !l.is_empty()) {
            let wait = 20 + self.r.below(300);
            self.later(wait, Will::Disk { node, epoch, lane });
        }
        if done {
            self.hand(node, Event::Disk { id, result });
        }
    }

    // ---- links

    fn is_cut(&self, a: usize, b: usize) -> bool {
        self.cuts.contains(&(a.min(b), a.max(b)))
    }

    fn delay(&mut self) -> u64 {
        let most = if self.plan.slow { 60 * MS } else { 2 * MS };
        50 + self.r.below(most)
    }

    fn dial(&mut self, from: usize, to: usize) {
        let wait = self.delay();
        let there = self.slots[to].ready || self.slots[to].evil.is_some() && !self.mended;
        if !there || self.is_cut(from, to) || from == to {
            let epoch = self.slots[from].epoch;
            return self.later(wait, Will::Refuse { from, to, epoch });
        }
        self.order += 1;
        let id = self.order;
        let pipe = Pipe { lower: to, upper: from, up: VecDeque::new(), down: VecDeque::new(), lower_there: false, upper_there: false, dead: false };
        self.pipes.insert(id, pipe);
        self.later(wait, Will::Up { pipe: id, upper: true });
        let further = self.delay();
        self.later(wait + further, Will::Up { pipe: id, upper: false });
    }

    fn up(&mut self, id: u64, upper: bool) {
        let Some(p) = self.pipes.get_mut(&id).filter(|p| !p.dead) else { return };
        let (node, other) = if upper { (p.upper, p.lower) } else { (p.lower, p.upper) };
        if upper {
            p.upper_there = true;
        } else {
            p.lower_there = true;
        }
        if self.slots[node].evil.is_some() {
            return self.evil_up(node, id, other);
        }
        self.hand(node, Event::LinkUp { link: id, node: other, dialed: upper });
        // what came before the handshake was through
        self.arrive(id, upper);
    }

    pub fn send(&mut self, node: usize, id: u64, bytes: Vec<u8>) {
        let mut rest = &bytes[..];
        while !rest.is_empty() {
            let count = 1 + self.r.below(rest.len() as u64 + 200).min(rest.len() as u64 - 1) as usize;
            let (front, behind) = rest.split_at(count);
            rest = behind;
            let wait = self.delay();
            let now = self.now;
            let Some(p) = self.pipes.get_mut(&id).filter(|p| !p.dead) else { return };
            let upward = node == p.lower;
            let queue = if upward { &mut p.up } else { &mut p.down };
            let at = queue.back().map_or(0, |q| q.0).max(now + wait);
            queue.push_back((at, front.to_vec()));
            self.later(at - now, Will::Arrive { pipe: id, upward });
        }
    }

    fn arrive(&mut self, id: u64, upward: bool) {
        let now = self.now;
        let Some(p) = self.pipes.get_mut(&id).filter(|p| !p.dead) else { return };
        let (node, other, there) = if upward { (p.upper, p.lower, p.upper_there) } else { (p.lower, p.upper, p.lower_there) };
        if !there {
            return;
        }
        let queue = if upward { &mut p.up } else { &mut p.down };
        let mut bytes = vec![];
        while queue.front().is_some_and(|q| q.0 <= now) {
            bytes.extend(queue.pop_front().map(|q| q.1).unwrap_or_default());
        }
        if bytes.is_empty() {
            return;
        }
        if self.slots[node].evil.is_some() {
            return self.evil_bytes(node, id, other, &bytes);
        }
        self.hand(node, Event::Bytes { link: id, bytes });
    }

    /// One end closes the link: the other sees it later, behind what was sent.
    pub fn close(&mut self, node: usize, id: u64) {
        let wait = self.delay();
        let Some(p) = self.pipes.get_mut(&id) else { return };
        let upper = node == p.lower;
        if upper {
            p.lower_there = false;
        } else {
            p.upper_there = false;
        }
        let last = if upper { &p.up } else { &p.down }.back().map_or(0, |q| q.0);
        let at = last.max(self.now + wait);
        self.later(at - self.now, Will::Down { pipe: id, upper });
    }

    fn break_pipe(&mut self, id: u64) {
        let Some(p) = self.pipes.get_mut(&id) else { return };
        p.dead = true;
        let wait = self.delay();
        self.later(wait, Will::Down { pipe: id, upper: true });
        self.later(wait, Will::Down { pipe: id, upper: false });
    }

    fn down(&mut self, id: u64, upper: bool) {
        let Some(p) = self.pipes.get_mut(&id) else { return };
        let (node, other) = if upper { (p.upper, p.lower) } else { (p.lower, p.upper) };
        let there = if upper { std::mem::take(&mut p.upper_there) } else { std::mem::take(&mut p.lower_there) };
        if !p.upper_there && !p.lower_there {
            self.pipes.remove(&id);
        }
        if self.slots[node].evil.is_some() {
            return self.evil_down(node, id);
        }
        if there {
            self.hand(node, Event::LinkDown { link: Some(id), node: other, why: "the link broke".into() });
        } else if upper {
            // it broke before it was through: the call failed
            self.hand(node, Event::LinkDown { link: None, node: other, why: "the call broke".into() });
        }
    }

    /// Check 2: a stream's number means one frame for ever.
    fn watch(&mut self, node: usize, bytes: &[u8]) {
        let mut rest = bytes;
        while let Front::Whole(message, length) = messages::read(rest, MESSAGE_MOST) {
            if let Message::Data { stream, number, frame } = message {
                self.slots[node].let_out += u64::from(self.slots[node].rolled);
                self.nothing_to_given_up(node, &stream);
                let first = self.wire.entry((stream, number)).or_insert_with(|| frame.to_vec());
                if *first != frame {
                    let what = format!("2: n{node} sends another frame as number {number} of {stream:?}");
                    if !self.slots[node].rolled {
                        self.failures.push(what);
                    }
                }
            }
            rest = &rest[length..];
        }
    }

    /// A partner's greeting told a node that it has lost state, as the node itself says.
    fn sign_given(&mut self, node: usize, line: &str) {
        let Some((name, _)) = line.split_once(" has seen more of this node") else { return };
        let by = self.plan.cluster.nodes.iter().position(|n| n.name == name && n.server.is_some());
        let slot = &mut self.slots[node];
        let next = slot.core.as_ref().map(|c| c.writer.place.number);
        slot.signs.extend(by.zip(next));
    }

    /// Check 11: signs of lost state are remembered over a start, once a batch that was closed after them is on the disk.
    fn signs_remembered(&mut self, node: usize) {
        let slot = &self.slots[node];
        let known = slot.core.as_ref().map_or(vec![], |c| c.status(self.clock(node)).signs);
        let names = &self.plan.cluster.nodes;
        let gone = slot.signs_kept.iter().find(|by| !known.contains(&names[**by].name));
        if let Some(by) = gone.filter(|_| !slot.lied) {
            self.failures.push(format!("11: n{node} has forgotten that n{by} gave a sign of lost state"));
        }
    }

    /// A node has given servers up, if any are new.
    fn note_given_up(&mut self, node: usize) {
        let slot = &mut self.slots[node];
        let Some(core) = &slot.core else { return };
        let next = core.writer.place.number;
        for party in &core.state.given_up {
            if !slot.given_kept.contains(party) && slot.given.iter().all(|(p, _)| p != party) {
                slot.given.push((*party, next));
                self.given_up += 1;
            }
        }
    }

    /// Check 12: who was given up is so after every later start, once a batch that was closed after it is on the disk.
    fn given_up_remembered(&mut self, node: usize) {
        let slot = &self.slots[node];
        let known = slot.core.as_ref().map(|c| &c.state.given_up);
        let gone = slot.given_kept.iter().find(|party| known.is_none_or(|known| !known.contains(party)));
        if let Some(party) = gone.filter(|_| !slot.lied) {
            self.failures.push(format!("12: n{node} has forgotten that {party} was given up"));
        }
    }

    /// Check 12: nothing is sent to whom a node has given up.
    fn nothing_to_given_up(&mut self, node: usize, stream: &StreamId) {
        let slot = &self.slots[node];
        if slot.given_kept.contains(&stream.to) || slot.given.iter().any(|(party, _)| *party == stream.to) {
            self.failures.push(format!("12: n{node} sends a frame to {}, which it has given up", stream.to));
        }
    }

    // ---- faults

    fn cut(&mut self) {
        if self.mended {
            return;
        }
        if self.plan.cuts {
            let nodes = self.slots.len() as u64;
            let (a, b) = (self.r.below(nodes) as usize, self.r.below(nodes) as usize);
            let pair = (a.min(b), a.max(b));
            match self.cuts.iter().position(|c| *c == pair) {
                Some(at) => drop(self.cuts.remove(at)),
                None if a != b => self.cuts.push(pair),
                None => {}
            }
        }
        // a link breaks, or a second one is made beside it
        let ids: Vec<u64> = self.pipes.keys().copied().collect();
        if let Some(id) = ids.get(self.r.below(ids.len().max(1) as u64) as usize).copied() {
            let (upper, lower) = self.pipes.get(&id).map_or((0, 0), |p| (p.upper, p.lower));
            if self.is_cut(upper, lower) || self.r.one_in(4) {
                self.break_pipe(id);
            }
        }
        let wait = 50 * MS + self.r.below(400) * MS;
        self.later(wait, Will::Cut);
    }

    fn fault(&mut self) {
        if self.mended {
            return;
        }
        let honest = self.honest();
        let node = honest[self.r.below(honest.len() as u64) as usize];
        if self.plan.clock && self.r.one_in(3) {
            self.wall_jump = self.r.below(100_000);
        }
        if self.plan.full {
            self.slots[node].disk.full = self.r.one_in(2);
        }
        let one_excused = self.slots.iter().any(|s| s.excused || s.exited.is_some());
        if self.plan.fail_sync && !one_excused && self.slots[node].ready && self.r.one_in(4) {
            self.slots[node].disk.fail_sync = true;
            self.slots[node].excused = true;
        }
        let none_rolled = self.plan.evil.is_empty() && self.slots.iter().all(|s| !s.excused && !s.rolled);
        if self.plan.lying && !self.plan.rollback && none_rolled && self.slots[node].ready && self.r.one_in(3) {
            let slot = &mut self.slots[node];
            (slot.disk.lying, slot.lied, slot.rolled, slot.excused) = (true, true, true, true);
        }
        if self.plan.rollback && self.plan.evil.is_empty() {
            let desks = self.r.one_in(2);
            self.roll_back(if desks { self.plan.cluster.parameters.n } else { node });
        }
        let wait = 100 * MS + self.r.below(800) * MS;
        self.later(wait, Will::Fault);
    }

    /// Once a run a node is stopped and put back from an older copy of its folder.
    fn roll_back(&mut self, node: usize) {
        if self.slots.iter().any(|s| s.excused) || !self.slots[node].ready {
            return;
        }
        match self.slots[node].old_disk.take() {
            None if self.now < 4_000 * MS => self.slots[node].old_disk = Some(self.slots[node].disk.clone()),
            None => {}
            Some(old) => {
                (self.slots[node].excused, self.slots[node].rolled) = (true, true);
                let written = |d: &Disk| d.read_all().values().flatten().filter(|b| **b != 0).count();
                self.rolled += u64::from(written(&old) < written(&self.slots[node].disk));
                self.stop(node);
                self.slots[node].disk = old;
                self.slots[node].signs_kept.clear();
                self.slots[node].given_kept.clear();
                self.slots[node].archive.clear();
                self.later(100 * MS, Will::Start { node });
            }
        }
    }

    /// A node that was put back is asked at once: what it begins then must not leave before its partners have greeted it.
    fn ask_at_once(&mut self, node: usize) {
        for client in self.plan.cluster.nodes[node].clients.clone() {
            *self.left.entry(client).or_default() += 1;
            self.later(1, Will::Ask { node, client });
        }
    }

    fn mend(&mut self) {
        self.mended = true;
        self.cuts.clear();
        self.slots.iter_mut().for_each(|s| s.away = false);
        for node in 0..self.slots.len() {
            let disk = &mut self.slots[node].disk;
            (disk.full, disk.fail_sync, disk.lying) = (false, false, false);
            if self.slots[node].evil.is_some() {
                // false nodes fall silent: while they make others send there is no rest
                self.stop(node);
            } else if self.slots[node].core.is_none() {
                self.later(10 * MS, Will::Start { node });
            }
        }
    }

    // ---- desks

    fn ask(&mut self, node: usize, client: u8) {
        let left = self.left.get(&client).copied().unwrap_or(0);
        if self.slots[node].exited.is_some() {
            self.left.insert(client, 0);
            return;
        }
        if left == 0 || self.asking.contains_key(&client) {
            return;
        }
        if !self.slots[node].ready {
            return self.later(300 * MS, Will::Ask { node, client });
        }
        self.left.insert(client, left - 1);
        self.order += 1;
        let id = self.order;
        self.asks.insert(id, (client, node as u64, self.events));
        self.asking.insert(client, id);
        let ask = if self.r.one_in(2) {
            Ask::Read { client, register: 0 }
        } else {
            let mut value = self.r.bytes(self.plan.cluster.parameters.size);
            value[0] = id as u8;
            Ask::Write { client, register: 0, value }
        };
        self.hand(node, Event::Ask { id, ask });
    }

    fn answer(&mut self, id: u64, response: Response) {
        let Some((client, node, asked)) = self.asks.get(&id).copied() else { return };
        match response {
            Response::Begun { operation } => {
                self.operations.insert((client, operation), Seen { asked, ended: None });
            }
            Response::Ended(Ended { operation, .. }) => {
                let events = self.events;
                if let Some(seen) = self.operations.get_mut(&(client, operation)) {
                    seen.ended = Some(events);
                }
                self.asks.remove(&id);
                self.asking.remove(&client);
                let wait = self.r.below(800) * MS;
                self.later(wait, Will::Ask { node: node as usize, client });
            }
            Response::Refused { number, why } => {
                self.failures.push(format!("an ask of client {client} was refused {number}: {why}"));
                self.asks.remove(&id);
                self.asking.remove(&client);
                self.later(MS, Will::Ask { node: node as usize, client });
            }
            Response::Status(_) | Response::SnapshotDone { .. } => {}
        }
    }

    // ---- false nodes

    fn with_evil(&mut self, node: usize, act: impl FnOnce(&mut Evil, &mut Random) -> Vec<(u64, Vec<u8>)>) {
        let Some(mut evil) = self.slots[node].evil.take() else { return };
        let mut r = self.r.clone();
        let sends = act(&mut evil, &mut r);
        self.r = r;
        self.slots[node].evil = Some(evil);
        for (link, bytes) in sends {
            self.send(node, link, bytes);
        }
    }

    fn evil(&mut self, node: usize) {
        if self.mended {
            return;
        }
        for other in self.honest() {
            let linked = self.pipes.values().any(|p| !p.dead && (p.lower, p.upper) == (other.min(node), other.max(node)));
            if other < node && !linked && self.slots[other].ready {
                self.dial(node, other);
            }
        }
        self.with_evil(node, Evil::mischief);
        let wait = 5 * MS + self.r.below(60) * MS;
        self.later(wait, Will::Evil { node });
    }

    fn evil_up(&mut self, node: usize, link: u64, other: usize) {
        self.with_evil(node, |e, r| e.up(link, other, r));
    }

    fn evil_bytes(&mut self, node: usize, link: u64, other: usize, bytes: &[u8]) {
        self.with_evil(node, |e, r| e.bytes(link, other, bytes, r));
    }

    fn evil_down(&mut self, node: usize, link: u64) {
        self.with_evil(node, |e, _| {
            e.down(link);
            vec![]
        });
    }

    pub fn report(self) -> Report {
        Report {
            hash: self.hash,
            events: self.events,
            operations: self.operations.len(),
            crashes: self.crashes,
            torn: self.torn,
            fetches: self.fetches,
            removed: self.removed,
            rolled: self.rolled,
            caught: self.caught,
            given_up: self.given_up,
            failures: self.failures,
        }
    }

    pub fn now_events(&self) -> u64 {
        self.events
    }
}
