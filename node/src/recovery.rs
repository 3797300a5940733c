//! Recovery: what the folder holds becomes the state again. It goes through the disk as all else does: each stage asks for operations, and goes on when
//! they are answered. Nothing is taken for durable that was not synced and then read back; nothing leaves before recovery is through.
use crate::bytes::Reader;
use crate::cluster::Cluster;
use crate::events::{exit, DiskAnswer, DiskOp, Start};
use crate::log::{self, batch_at, segment_name, Batch, Fault, LogId, Place, Scan};
use crate::records::Hash;
use crate::settings::{Mutant, Settings, BLOCK};
use crate::snapshot;
use crate::state::State;
use crate::streams::Spot;

/// Names of files beside segments and snapshots: the boot under which a sync failed; that the state was lost; the last batch that was found at a start.
pub const FAILED: &str = "failed";
pub const LOST: &str = "lost";
pub const LAST: &str = "last";

/// What recovery found.
pub struct Recovered {
    pub state: State,
    pub log: LogId,
    pub place: Place,
    /// Numbers and hashes of the batches that were read.
    pub marks: Vec<(u64, Hash)>,
    pub first_segment: u32,
    pub last_segment: u32,
    /// The snapshots that are there and good, as far as they were looked at, rising.
    pub snapshots: Vec<snapshot::Name>,
    /// Records that were replayed, and bytes of the batches that have them.
    pub replayed: u64,
    pub since_snapshot: u64,
    pub notes: Vec<String>,
}

pub enum Next {
    /// Carry these out, in this order, and hand all their answers in.
    Ask(Vec<DiskOp>),
    Done(Box<Recovered>),
    Stop {
        code: u8,
        line: String,
    },
}

enum Stage {
    Listing,
    Failed,
    Settling,
    Snapshot,
    Last,
    Segment(usize),
    Repair,
}

pub struct Recovery {
    start: Start,
    stage: Stage,
    register: [u8; 32],
    settings: Settings,
    blank: Box<dyn Fn() -> State>,
    /// Segments that are read, with their lengths; and the first that is there.
    segments: Vec<(u32, u64)>,
    first_segment: u32,
    snapshots: Vec<snapshot::Name>,
    bad_snapshots: Vec<snapshot::Name>,
    other_files: Vec<String>,
    has_failed: bool,
    has_last: bool,
    last: Vec<u8>,
    state: Option<State>,
    scan: Option<Scan>,
    marks: Vec<(u64, Hash)>,
    replayed: u64,
    since_snapshot: u64,
    notes: Vec<String>,
}

fn stop(code: u8, line: impl Into<String>) -> Next {
    Next::Stop { code, line: line.into() }
}

fn faulty(fault: &Fault) -> Next {
    let code = match fault {
        Fault::Damaged { .. } => exit::DAMAGED,
        Fault::Other { .. } => exit::OTHER_LOG,
    };
    stop(code, format!("{fault}. Nothing was altered: keep the folder as it is, and read docs/NODE.md, section 4"))
}

impl Recovery {
    pub fn new(start: Start, cluster: &Cluster, settings: &Settings) -> Recovery {
        let (parameters, initial) = (cluster.parameters, cluster.initial.clone());
        let one_stream = settings.is(Mutant::OneStream);
        let limits = settings.limits;
        let blank = move || {
            let mut state = State::new(parameters, &initial);
            state.limits = limits;
            if one_stream {
                state.one_stream();
            }
            state
        };
        Recovery {
            start,
            stage: Stage::Listing,
            register: cluster.register_digest(),
            settings: settings.clone(),
            blank: Box::new(blank),
            segments: vec![],
            first_segment: 1,
            snapshots: vec![],
            bad_snapshots: vec![],
            other_files: vec![],
            has_failed: false,
            has_last: false,
            last: vec![],
            state: None,
            scan: None,
            marks: vec![],
            replayed: 0,
            since_snapshot: 0,
            notes: vec![],
        }
    }

    pub fn begin(&self) -> Vec<DiskOp> {
        vec![DiskOp::List]
    }

    /// The answers to all that was asked last.
    pub fn next(&mut self, answers: Vec<DiskAnswer>) -> Next {
        match self.stage {
            Stage::Listing => match answers.into_iter().next() {
                Some(DiskAnswer::Names(names)) => self.listed(names),
                _ => stop(exit::DISK, "the folder can't be listed"),
            },
            Stage::Failed => {
                if answers == [DiskAnswer::Bytes(self.start.boot_id.clone().into_bytes())] {
                    return stop(exit::DISK, "a sync failed under this start of the machine: check the disk, restart the machine, start again");
                }
                self.notes.push("a sync failed under an earlier start of the machine".into());
                self.settle()
            }
            Stage::Settling => self.read_snapshot(),
            Stage::Snapshot => {
                let bytes = first_bytes(answers);
                self.snapshot_read(&bytes)
            }
            Stage::Last => {
                self.last = first_bytes(answers);
                self.read_segment(0)
            }
            Stage::Segment(at) => {
                let bytes = first_bytes(answers);
                self.segment_read(at, &bytes)
            }
            Stage::Repair => self.done(),
        }
    }

    fn listed(&mut self, names: Vec<(String, u64)>) -> Next {
        for (name, length) in names {
            if let Some(number) = log::segment_number(&name) {
                self.segments.push((number, length));
            } else if let Some(name) = snapshot::Name::read(&name) {
                self.snapshots.push(name);
            } else if name == LOST {
                return stop(exit::LOST, "this node has lost state (file `lost`): it must not be started again; make a new node");
            } else if name.ends_with(".new") {
                self.other_files.push(name);
            } else {
                self.has_failed |= name == FAILED;
                self.has_last |= name == LAST;
            }
        }
        self.segments.sort_unstable();
        self.first_segment = self.segments.first().map_or(1, |s| s.0);
        self.snapshots.sort_unstable();
        if self.has_failed {
            self.stage = Stage::Failed;
            return Next::Ask(vec![DiskOp::Read { file: FAILED.into(), offset: 0, length: BLOCK }]);
        }
        self.settle()
    }

    /// Everything that will be read is synced, its pages dropped, and the folder synced: what is read then is what the disk has.
    fn settle(&mut self) -> Next {
        self.stage = Stage::Settling;
        let mut ops: Vec<DiskOp> = self.other_files.iter().map(|file| DiskOp::Unlink { file: file.clone() }).collect();
        if !self.settings.is(Mutant::NoSettle) {
            let segments = self.segments.iter().map(|(number, _)| segment_name(*number));
            let snapshots = self.snapshots.iter().map(snapshot::Name::to_string);
            let last = self.has_last.then(|| LAST.to_string());
            ops.extend(segments.chain(snapshots).chain(last).map(|file| DiskOp::Settle { file }));
            ops.push(DiskOp::SettleFolder);
        }
        if ops.is_empty() {
            return self.read_snapshot();
        }
        Next::Ask(ops)
    }

    /// The newest snapshot that was not found bad, or none.
    fn read_snapshot(&mut self) -> Next {
        self.stage = Stage::Snapshot;
        match self.snapshots.last() {
            Some(name) => Next::Ask(vec![DiskOp::Read { file: name.to_string(), offset: 0, length: u64::MAX }]),
            None => self.no_snapshot(),
        }
    }

    fn snapshot_read(&mut self, bytes: &[u8]) -> Next {
        let Some(name) = self.snapshots.last().copied() else { return self.no_snapshot() };
        match snapshot::read(bytes, (self.blank)(), &self.register) {
            Some((state, log, place)) if snapshot::Name::new(&state, &place) == name => {
                self.state = Some(state);
                self.scan = Some(self.scan_from(log, place));
                self.segments.retain(|s| s.0 >= place.segment);
                self.read_last()
            }
            _ => {
                self.notes.push(format!("{name} is damaged: an older one is taken"));
                self.bad_snapshots.extend(self.snapshots.pop());
                self.read_snapshot()
            }
        }
    }

    fn scan_from(&self, log: LogId, place: Place) -> Scan {
        let mut scan = Scan::new(log, place);
        if self.settings.is(Mutant::WeakSum) {
            scan.weaken();
        }
        scan
    }

    fn no_snapshot(&mut self) -> Next {
        self.state = Some((self.blank)());
        match self.segments.first() {
            None if self.bad_snapshots.is_empty() && !self.has_last => self.fresh(),
            None => stop(exit::DAMAGED, "the log's segments are missing"),
            Some((1, _)) => self.read_last(),
            Some((number, _)) => {
                stop(exit::DAMAGED, format!("{} is the first segment, and no snapshot covers those before it", segment_name(*number)))
            }
        }
    }

    /// A new log.
    fn fresh(&mut self) -> Next {
        let log = LogId { id: self.start.random, register: self.register };
        self.scan = Some(self.scan_from(log, Place::first()));
        self.segments = vec![(1, self.settings.segment)];
        self.stage = Stage::Repair;
        let head = log::segment_head(&log, 1);
        Next::Ask(vec![DiskOp::Replace { file: segment_name(1), bytes: head, length: self.settings.segment }])
    }

    fn read_last(&mut self) -> Next {
        if !self.has_last {
            return self.read_segment(0);
        }
        self.stage = Stage::Last;
        Next::Ask(vec![DiskOp::Read { file: LAST.into(), offset: 0, length: u64::MAX }])
    }

    fn read_segment(&mut self, at: usize) -> Next {
        let Some((number, length)) = self.segments.get(at).copied() else { return self.repair() };
        let wanted = match (&self.scan, at) {
            (Some(scan), 0) => scan.place.segment,
            (None, 0) => 1,
            _ => self.segments[at - 1].0 + 1,
        };
        if number != wanted {
            return stop(exit::DAMAGED, format!("{} is missing", segment_name(wanted)));
        }
        self.stage = Stage::Segment(at);
        Next::Ask(vec![DiskOp::Read { file: segment_name(number), offset: 0, length }])
    }

    fn segment_read(&mut self, at: usize, bytes: &[u8]) -> Next {
        let number = self.segments[at].0;
        let scan = match self.scan.take() {
            Some(scan) => scan,
            None => match log::segment_read(bytes, number) {
                Ok(found) => self.scan_from(LogId { register: self.register, ..found }, Place::first()),
                Err(fault) => return faulty(&fault),
            },
        };
        if at == 0 && !snapshot_agrees(&scan, bytes) {
            return stop(exit::DAMAGED, "the snapshot is ahead of the log: the log has lost what it had");
        }
        self.scan = Some(scan);
        if let Err(fault) = self.scan_segment(number, bytes) {
            return faulty(&fault);
        }
        self.read_segment(at + 1)
    }

    fn scan_segment(&mut self, number: u32, bytes: &[u8]) -> Result<(), Fault> {
        let (Some(scan), Some(state)) = (&mut self.scan, &mut self.state) else { return Ok(()) };
        let (marks, replayed, since_snapshot) = (&mut self.marks, &mut self.replayed, &mut self.since_snapshot);
        scan.segment(number, bytes, &mut |at, batch| {
            *replayed += state.replay(batch.payload, &spot(number, at, batch))?;
            *since_snapshot += batch.bytes.len() as u64;
            marks.push((batch.number, batch.hash));
            Ok(())
        })
    }

    /// Cuts a torn batch off, or puts back the last one if the disk has lost it since the last start, and keeps a copy of the last one.
    fn repair(&mut self) -> Next {
        self.stage = Stage::Repair;
        let mut ops = vec![];
        match self.put_back() {
            Ok(Some(op)) => {
                self.notes.push("the log's last batch was put back from its copy".into());
                ops.push(op);
            }
            Ok(None) => {}
            Err(what) => return stop(exit::DAMAGED, format!("{LAST}: {what}")),
        }
        let Some(scan) = &mut self.scan else { return stop(exit::DAMAGED, "the log has no segment") };
        if let Some(end) = scan.torn.take() {
            let (file, offset) = (segment_name(scan.place.segment), scan.place.at);
            if end > offset {
                self.notes.push(format!("{file}: a batch that was not whole was cut off at byte {offset}; nothing of it had left"));
                ops.push(DiskOp::Commit { file, offset, bytes: vec![0; (end - offset) as usize] });
            }
        }
        if let Some((segment, at, bytes)) = &scan.last {
            let mut copy = segment.to_be_bytes().to_vec();
            copy.extend_from_slice(&at.to_be_bytes());
            copy.extend_from_slice(bytes);
            let length = copy.len() as u64;
            ops.push(DiskOp::Replace { file: LAST.into(), bytes: copy, length });
        }
        if self.has_failed {
            ops.push(DiskOp::Unlink { file: FAILED.into() });
        }
        ops.extend(self.bad_snapshots.iter().map(|name| DiskOp::Unlink { file: name.to_string() }));
        if ops.is_empty() {
            return self.done();
        }
        Next::Ask(ops)
    }

    /// The copy of the last batch of an earlier start, if the log ends just before it.
    fn put_back(&mut self) -> Result<Option<DiskOp>, &'static str> {
        let (Some(scan), Some(state)) = (&mut self.scan, &mut self.state) else { return Ok(None) };
        let mut b = Reader(&self.last);
        let (Some(segment), Some(at)) = (b.u32(), b.u64()) else { return Ok(None) };
        let Some(batch) = batch_at(&scan.log.id, b.0, 0) else { return Ok(None) };
        let next = (segment, at) == (scan.place.segment, scan.place.at) || (segment, at) == (scan.place.segment + 1, BLOCK);
        if batch.number != scan.place.number || batch.before != scan.place.before || !next {
            return Ok(None);
        }
        self.replayed += state.replay(batch.payload, &spot(segment, at, &batch))?;
        self.marks.push((batch.number, batch.hash));
        scan.place = scan.place.behind(segment, at, &batch);
        scan.last = Some((segment, at, batch.bytes.to_vec()));
        Ok(Some(DiskOp::Commit { file: segment_name(segment), offset: at, bytes: batch.bytes.to_vec() }))
    }

    fn done(&mut self) -> Next {
        let (Some(scan), Some(state)) = (self.scan.take(), self.state.take()) else { return stop(exit::DAMAGED, "the log has no segment") };
        let last_segment = self.segments.last().map_or(1, |s| s.0);
        Next::Done(Box::new(Recovered {
            state,
            log: scan.log,
            place: scan.place,
            marks: std::mem::take(&mut self.marks),
            first_segment: self.first_segment,
            last_segment,
            snapshots: std::mem::take(&mut self.snapshots),
            replayed: self.replayed,
            since_snapshot: self.since_snapshot,
            notes: std::mem::take(&mut self.notes),
        }))
    }
}

/// Where a batch lies.
fn spot(segment: u32, at: u64, batch: &Batch) -> Spot {
    Spot { from: 0, segment, block: (at / BLOCK) as u32, wall: batch.wall }
}

/// The batch in front of where a snapshot ends is in the log.
fn snapshot_agrees(scan: &Scan, bytes: &[u8]) -> bool {
    let place = &scan.place;
    place.last == 0 || batch_at(&scan.log.id, bytes, place.last as usize).is_some_and(|b| b.number + 1 == place.number && b.hash == place.before)
}

fn first_bytes(answers: Vec<DiskAnswer>) -> Vec<u8> {
    match answers.into_iter().next() {
        Some(DiskAnswer::Bytes(bytes)) => bytes,
        _ => vec![],
    }
}
