//! The core: one event in, actions out. Take what came, make the steps, put the batch on the disk, and only then let anything out.
use crate::cluster::Cluster;
use crate::desk::Queue;
use crate::events::{exit, Action, AskId, DiskAnswer, DiskError, DiskId, DiskOp, Event, Lane, Level, LinkId, NodeId, Now, Response, Start};
use crate::links::{Link, Partner};
use crate::log::{self, segment_name, LogId, Place};
use crate::owed::Fetch;
use crate::records::{self, Record};
use crate::recovery::{Next, Recovered, Recovery, FAILED, LOST};
use crate::settings::{Mutant, Settings};
use crate::snapshot;
use crate::state::State;
use crate::streams::{Spot, StreamId};
use crate::writer::{InFlight, Writer};
use std::collections::{BTreeMap, BTreeSet};

/// A link's bytes that may wait to be worked off: more than the longest message.
const INPUT_MOST: usize = 256 << 10;
/// Snapshots that are kept.
pub(crate) const SNAPSHOTS: usize = 2;

/// What a disk operation is for.
pub(crate) enum Purpose {
    Recovery,
    Batch,
    Segment(u32),
    Snapshot(snapshot::Name),
    Remove,
    /// Frames that are owed are read from the log.
    Fetch,
    /// The last act: a file that says why, then the end.
    Last {
        code: u8,
        line: String,
    },
}

enum Phase {
    Waiting,
    /// Recovery, with answers that have come and how many are awaited.
    Recovering(Box<Recovery>, Vec<DiskAnswer>, usize),
    /// The batch with the start's record is on its way.
    Starting,
    Running,
    Ended,
}

pub struct Core {
    pub(crate) cluster: Cluster,
    pub(crate) me: NodeId,
    pub(crate) settings: Settings,
    phase: Phase,
    start: Start,
    pub state: State,
    pub(crate) writer: Writer,
    pub(crate) links: BTreeMap<LinkId, Link>,
    pub(crate) partners: Vec<Partner>,
    /// What is to be sent by each link at the end of the event.
    pub(crate) outgoing: BTreeMap<LinkId, Vec<u8>>,
    pub(crate) queues: BTreeMap<u8, Queue>,
    /// Nodes with servers that have greeted since the start and never gave a sign of lost state.
    pub(crate) greetings: BTreeSet<NodeId>,
    /// Whether frames may leave.
    pub(crate) open: bool,
    pub(crate) alarm: Option<String>,
    pub(crate) snapshot_askers: Vec<AskId>,
    pub(crate) replayed: u64,
    /// Frames that are being read from the log, and streams that wait for theirs.
    pub(crate) fetching: Option<Fetch>,
    pub(crate) to_fetch: BTreeSet<StreamId>,
    /// Something came since the last tick.
    gathers: bool,
    snapshotting: bool,
    making_segment: bool,
    retry_at: Option<u64>,
    purposes: BTreeMap<DiskId, Purpose>,
    disk_next: DiskId,
}

impl Core {
    /// A node of the cluster, by its place in the file.
    pub fn new(cluster: Cluster, me: NodeId, settings: Settings) -> Core {
        let state = State::new(cluster.parameters, &cluster.initial);
        let blank = Recovered {
            state: State::new(cluster.parameters, &cluster.initial),
            log: LogId { id: [0; 16], register: cluster.register_digest() },
            place: Place::first(),
            marks: vec![],
            first_segment: 1,
            last_segment: 1,
            snapshots: vec![],
            replayed: 0,
            since_snapshot: 0,
            notes: vec![],
        };
        Core {
            me,
            phase: Phase::Waiting,
            start: Start::default(),
            state,
            writer: Writer::new(&blank, 0),
            links: BTreeMap::new(),
            partners: cluster.nodes.iter().map(|_| Partner::default()).collect(),
            outgoing: BTreeMap::new(),
            queues: BTreeMap::new(),
            greetings: BTreeSet::new(),
            open: false,
            alarm: None,
            snapshot_askers: vec![],
            replayed: 0,
            fetching: None,
            to_fetch: BTreeSet::new(),
            gathers: false,
            snapshotting: false,
            making_segment: false,
            retry_at: None,
            purposes: BTreeMap::new(),
            disk_next: 0,
            cluster,
            settings,
        }
    }

    /// One event. Actions are put behind those that are there. What came is worked off at the next tick, all at once: so what comes together is in one
    /// batch, and leaves together.
    pub fn on(&mut self, now: Now, event: Event, out: &mut Vec<Action>) {
        if matches!(self.phase, Phase::Ended) {
            return;
        }
        let tick = matches!(event, Event::Tick);
        match event {
            Event::Start(start) => self.begin(start, out),
            Event::Disk { id, result } => self.disk_done(id, result, now, out),
            _ if !matches!(self.phase, Phase::Running) => {}
            Event::LinkUp { link, node, dialed } => self.link_up(link, node, dialed, now, out),
            Event::Bytes { link, bytes } => self.bytes(link, &bytes, now),
            Event::LinkDown { link, node, why } => self.link_down(link, node, &why, now),
            Event::Ask { id, ask } => self.ask(id, ask, now, out),
            Event::AskGone { id } => self.ask_gone(id),
            Event::Tick => self.gathers = false,
        }
        if self.retry_at.is_some_and(|at| now.boot >= at) {
            self.retry_at = None;
        }
        match self.phase {
            Phase::Running if tick => self.go_on(now, out),
            Phase::Running => self.gathers = true,
            // the batch with the start's record may wait for a segment
            Phase::Starting => self.commit(now, out),
            _ => {}
        }
        for (link, bytes) in std::mem::take(&mut self.outgoing) {
            out.push(Action::Send { link, bytes });
        }
    }

    /// Whether bytes and asks may be handed in: while the batch is full they wait.
    pub fn taking(&self) -> bool {
        matches!(self.phase, Phase::Running) && self.writer.fx.batch.len() < self.settings.batch_most
    }

    /// Whether bytes of this link may be handed in: not while much of what came by it is to be worked off.
    pub fn taking_from(&self, link: LinkId) -> bool {
        self.taking() && self.links.get(&link).is_none_or(|l| l.input.len() < INPUT_MOST)
    }

    /// When the core wants a tick at the latest, by the boot clock.
    pub fn wake(&self) -> Option<u64> {
        match self.phase {
            Phase::Running if self.gathers => Some(0),
            Phase::Running => self.writer.wake(&self.settings).into_iter().chain(self.links_wake()).chain(self.retry_at).min(),
            Phase::Starting => self.retry_at,
            _ => None,
        }
    }

    fn go_on(&mut self, now: Now, out: &mut Vec<Action>) {
        self.take_messages(now, out);
        if !matches!(self.phase, Phase::Running) {
            return self.outgoing.clear();
        }
        self.work(now);
        self.begin_waiting(now, out);
        self.work(now);
        self.count_refusals();
        self.tend_links(now, out);
        self.dial(now, out);
        self.commit(now, out);
        if self.settings.is(Mutant::SendEarly) || self.settings.is(Mutant::AckEarly) {
            self.mark_dirty_early();
        }
        self.let_out(now);
        self.fetch(out);
    }

    /// For the simulation: a wrong node that lets out what gathers.
    fn mark_dirty_early(&mut self) {
        let outs = self.state.gathering();
        let ins: Vec<_> = self.writer.fx.answered.iter().copied().collect();
        for stream in outs.into_iter().filter(|_| self.settings.is(Mutant::SendEarly)) {
            if let Some(node) = self.cluster.node_of(stream.to) {
                self.partners[node].to_send.insert(stream);
            }
        }
        for stream in ins.into_iter().filter(|_| self.settings.is(Mutant::AckEarly)) {
            if let Some(node) = self.cluster.node_of(stream.from) {
                self.partners[node].to_ack.insert(stream);
            }
        }
    }

    /// Hands in what waits, until nothing does or the batch is full.
    pub(crate) fn work(&mut self, now: Now) {
        while let Some(stream) = self.writer.fx.work.pop_front() {
            while self.state.hand_in(stream, now, &mut self.writer.fx) {
                if self.writer.fx.batch.len() >= self.settings.batch_most {
                    self.writer.fx.work.push_front(stream);
                    break;
                }
            }
            if self.writer.fx.batch.len() >= self.settings.batch_most {
                break;
            }
        }
        if !self.writer.fx.places.is_empty() && self.writer.place_since.is_none() {
            self.writer.place_since = Some(now.boot);
        }
        let ended = std::mem::take(&mut self.writer.fx.ended);
        self.answer_ended(ended);
    }

    // ---- the disk

    pub(crate) fn disk(&mut self, purpose: Purpose, lane: Lane, op: DiskOp, out: &mut Vec<Action>) {
        let id = self.disk_next;
        self.disk_next += 1;
        self.purposes.insert(id, purpose);
        out.push(Action::Disk { id, lane, op });
    }

    pub(crate) fn note(&self, out: &mut Vec<Action>, level: Level, line: String) {
        out.push(Action::Note { level, line });
    }

    pub(crate) fn stop(&mut self, code: u8, line: String, out: &mut Vec<Action>) {
        self.phase = Phase::Ended;
        self.outgoing.clear();
        out.push(Action::Exit { code, line });
    }

    fn disk_done(&mut self, id: DiskId, result: Result<DiskAnswer, DiskError>, now: Now, out: &mut Vec<Action>) {
        let Some(purpose) = self.purposes.remove(&id) else { return };
        match (purpose, result) {
            (Purpose::Last { code, line }, _) => self.stop(code, line, out),
            (_, _) if matches!(self.phase, Phase::Waiting) => {}
            (Purpose::Recovery, Ok(answer)) => self.recover(answer, now, out),
            (Purpose::Batch, Ok(_)) => self.synced(now, out),
            (Purpose::Segment(number), Ok(_)) => {
                self.making_segment = false;
                self.alarm = None;
                self.writer.last_segment = number;
            }
            (Purpose::Snapshot(name), Ok(_)) => self.snapshot_done(name, out),
            (Purpose::Fetch, Ok(DiskAnswer::Bytes(bytes))) => self.fetch_read(&bytes, out),
            (Purpose::Fetch, Err(e)) => self.fetch_failed(&e, out),
            (Purpose::Fetch, Ok(_)) => {}
            (Purpose::Remove, _) => {}
            (Purpose::Segment(_) | Purpose::Snapshot(_), Err(e)) if e.full => self.side_full(&e, now, out),
            (purpose, Err(e)) => self.disk_failed(&purpose, &e, out),
        }
    }

    /// No space for the next segment or a snapshot: nothing is lost, but when the batch is full no more is taken.
    fn side_full(&mut self, e: &DiskError, now: Now, out: &mut Vec<Action>) {
        (self.making_segment, self.snapshotting) = (false, false);
        self.retry_at = Some(now.boot + self.settings.full_wait);
        let line = format!("the disk is full ({}): make room; this node goes on by itself then", e.text);
        if self.alarm.as_ref() != Some(&line) {
            self.note(out, Level::Error, line.clone());
        }
        self.alarm = Some(line);
    }

    /// A failed write or sync ends the node. It is not tried again, nor under this start of the machine: pages may look written that are not.
    fn disk_failed(&mut self, purpose: &Purpose, e: &DiskError, out: &mut Vec<Action>) {
        let line = format!("disk: {}. Check the disk, restart the machine, start again", e.text);
        if e.full {
            return self.stop(exit::DISK, format!("the disk is full ({}): make room and start again", e.text), out);
        }
        if matches!(purpose, Purpose::Recovery) {
            return self.stop(exit::DISK, line, out);
        }
        let bytes = self.start.boot_id.clone().into_bytes();
        self.last_act(exit::DISK, line, FAILED, bytes, out);
    }

    /// Writes a file that says why, then ends; nothing else is done any more.
    fn last_act(&mut self, code: u8, line: String, file: &str, bytes: Vec<u8>, out: &mut Vec<Action>) {
        self.phase = Phase::Waiting;
        self.outgoing.clear();
        let length = bytes.len() as u64;
        let op = DiskOp::Replace { file: file.into(), bytes, length };
        self.disk(Purpose::Last { code, line }, Lane::Side, op, out);
    }

    /// A node says that this one has lost state. More than t of them can't all be false.
    pub(crate) fn sign(&mut self, node: NodeId, out: &mut Vec<Action>) {
        if self.cluster.nodes[node].server.is_none() {
            return;
        }
        if self.state.signs.insert(node as u8) {
            self.writer.signs.insert(node as u8);
        }
        self.greetings.remove(&node);
        self.stop_if_lost(out);
    }

    /// The nodes that gave a sign, by name.
    pub(crate) fn signs(&self) -> Vec<String> {
        let known = self.state.signs.iter().filter_map(|n| self.cluster.nodes.get(usize::from(*n)));
        known.map(|n| n.name.clone()).collect()
    }

    /// Whether it does.
    fn stop_if_lost(&mut self, out: &mut Vec<Action>) -> bool {
        let lost = self.state.signs.len() > self.cluster.parameters.t;
        if lost {
            let line = format!("this node has lost state, as {} say: it must not be started again", self.signs().join(", "));
            let bytes = line.clone().into_bytes();
            self.last_act(exit::LOST, line, LOST, bytes, out);
        }
        lost
    }

    // ---- the start

    fn begin(&mut self, start: Start, out: &mut Vec<Action>) {
        self.start = start.clone();
        let recovery = Recovery::new(start, &self.cluster, &self.settings);
        let ops = recovery.begin();
        self.phase = Phase::Recovering(Box::new(recovery), vec![], ops.len());
        for op in ops {
            self.disk(Purpose::Recovery, Lane::Log, op, out);
        }
    }

    fn recover(&mut self, answer: DiskAnswer, now: Now, out: &mut Vec<Action>) {
        let Phase::Recovering(recovery, answers, awaited) = &mut self.phase else { return };
        answers.push(answer);
        if answers.len() < *awaited {
            return;
        }
        match recovery.next(std::mem::take(answers)) {
            Next::Ask(ops) => {
                *awaited = ops.len();
                for op in ops {
                    self.disk(Purpose::Recovery, Lane::Log, op, out);
                }
            }
            Next::Stop { code, line } => self.stop(code, line, out),
            Next::Done(recovered) => self.recovered(*recovered, now, out),
        }
    }

    fn recovered(&mut self, r: Recovered, now: Now, out: &mut Vec<Action>) {
        let own: Vec<_> = self.cluster.nodes[self.me].parties().collect();
        if let Some(gone) = r.state.parties().iter().find(|p| !own.contains(p)) {
            return self.stop(exit::CLUSTER, format!("{gone} is in this node's log and not under it in the cluster file: put it back"), out);
        }
        r.notes.iter().for_each(|line| self.note(out, Level::Warning, line.clone()));
        self.writer = Writer::new(&r, now.boot);
        self.replayed = r.replayed;
        self.state = r.state;
        if self.settings.is(Mutant::NumbersLost) {
            self.state.streams.ins.values_mut().for_each(|i| i.next = 0);
        }
        if self.settings.is(Mutant::SignForgotten) {
            self.state.signs.clear();
        }
        if self.settings.is(Mutant::GivenUpForgotten) {
            self.state.given_up.clear();
            self.state.streams.outs.values_mut().for_each(|o| o.given_up = false);
        }
        if self.stop_if_lost(out) {
            return;
        }
        let parties: Vec<u8> = own.iter().flat_map(|p| [p.class, p.number]).collect();
        let mut record = vec![];
        let version = self.start.version.clone();
        records::write(&mut record, &Record::Start { pid: self.start.pid, parties: &parties, version: version.as_bytes() });
        if let Err(what) = self.state.replay(&record, &Spot::default()) {
            return self.stop(exit::CLUSTER, what.to_string(), out);
        }
        let own = self.state.settle();
        self.to_fetch.extend(own.iter().copied());
        self.writer.fx.work.extend(own);
        self.writer.fx.batch = record;
        self.writer.fx.stepped = true;
        self.phase = Phase::Starting;
        self.commit(now, out);
    }

    // ---- batches, segments, snapshots

    fn commit(&mut self, now: Now, out: &mut Vec<Action>) {
        if self.writer.last_segment <= self.writer.place.segment && !self.making_segment && self.retry_at.is_none() {
            self.making_segment = true;
            let number = self.writer.last_segment + 1;
            let (bytes, length) = (log::segment_head(&self.writer.log, number), self.settings.segment);
            self.disk(Purpose::Segment(number), Lane::Side, DiskOp::Replace { file: segment_name(number), bytes, length }, out);
        }
        if !self.writer.is_due(now.boot, &self.settings) {
            return;
        }
        let snapshot_due = self.writer.snapshot_wanted || self.writer.since_snapshot >= self.settings.snapshot_every;
        let Some(closed) = self.writer.close(&mut self.state, now.wall, &self.settings) else { return };
        if snapshot_due && !self.snapshotting && self.retry_at.is_none() {
            self.snapshot(out);
        }
        let op = DiskOp::Commit { file: segment_name(closed.segment), offset: closed.at, bytes: closed.bytes };
        self.disk(Purpose::Batch, Lane::Log, op, out);
    }

    /// A copy of the state behind the batch that was just closed. It goes to the disk when the batch is there.
    fn snapshot(&mut self, out: &mut Vec<Action>) {
        let bytes = snapshot::write(&self.state, &self.writer.log, &self.writer.place);
        let name = snapshot::Name::new(&self.state, &self.writer.place);
        self.snapshotting = true;
        self.writer.since_snapshot = 0;
        self.writer.snapshot_wanted = false;
        if self.settings.is(Mutant::SnapshotAhead) {
            return self.write_snapshot(name, bytes, out);
        }
        if let Some(f) = &mut self.writer.in_flight {
            f.snapshot = Some((name, bytes));
        }
    }

    fn write_snapshot(&mut self, name: snapshot::Name, bytes: Vec<u8>, out: &mut Vec<Action>) {
        let length = bytes.len() as u64;
        let op = DiskOp::Replace { file: name.to_string(), bytes, length };
        self.disk(Purpose::Snapshot(name), Lane::Side, op, out);
    }

    fn snapshot_done(&mut self, name: snapshot::Name, out: &mut Vec<Action>) {
        self.snapshotting = false;
        self.writer.snapshots.push(name);
        while self.writer.snapshots.len() > SNAPSHOTS {
            let file = self.writer.snapshots.remove(0).to_string();
            self.disk(Purpose::Remove, Lane::Side, DiskOp::Unlink { file }, out);
        }
        self.prune(out);
        for id in std::mem::take(&mut self.snapshot_askers) {
            out.push(Action::Answer { id, response: Response::SnapshotDone { batch: name.batch } });
        }
    }

    /// The batch in flight is on the disk: what waited for it may leave.
    fn synced(&mut self, now: Now, out: &mut Vec<Action>) {
        let Some(done) = self.writer.synced(now.boot) else { return };
        let InFlight { outs, ins, answers, snapshot, fence, .. } = done;
        for (stream, durable) in outs {
            if let Some(o) = self.state.streams.outs.get_mut(&stream) {
                o.durable = o.durable.max(durable);
            }
            if let Some(node) = self.cluster.node_of(stream.to).filter(|n| *n != self.me) {
                self.partners[node].to_send.insert(stream);
            }
        }
        for (stream, durable) in ins {
            if let Some(i) = self.state.streams.ins.get_mut(&stream) {
                i.durable = i.durable.max(durable);
            }
            if let Some(node) = self.cluster.node_of(stream.from).filter(|n| *n != self.me) {
                self.partners[node].to_ack.insert(stream);
            }
        }
        out.extend(answers.into_iter().map(|(id, response)| Action::Answer { id, response }));
        if let Some((name, bytes)) = snapshot {
            self.write_snapshot(name, bytes, out);
        }
        if matches!(self.phase, Phase::Starting) {
            self.phase = Phase::Running;
            out.push(Action::Ready);
        } else if fence {
            self.ping_all(now);
        }
    }
}
