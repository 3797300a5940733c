//! What servers are owed lies in the log: frames are read from there when a partner comes for them. The log is kept within a budget, and a server that it
//! would have to be kept for beyond that is given up.
use crate::core::{Core, Purpose};
use crate::events::{exit, Action, DiskError, DiskOp, Lane, Level};
use crate::log::{batch_at, batch_length, segment_name, Batch};
use crate::records::{self, Record};
use crate::sem::Party;
use crate::settings::BLOCK;
use crate::snapshot;
use crate::streams::{Spot, StreamId};
use std::rc::Rc;

/// Frames of a stream that are being read from the log.
pub(crate) struct Fetch {
    stream: StreamId,
    /// The first frame that is wanted, the one behind the last that there is, and how many at most.
    first: u64,
    behind: u64,
    most: usize,
    /// Where reading goes on, and by how many bytes.
    segment: u32,
    block: u32,
    length: u64,
    frames: Vec<(u64, Rc<[u8]>)>,
    /// The batch with the last frame that was found.
    reached: Spot,
}

impl Fetch {
    fn is_enough(&self) -> bool {
        self.frames.len() >= self.most || self.first + self.frames.len() as u64 >= self.behind
    }

    /// Takes what a batch has of the stream.
    fn take(&mut self, batch: &Batch, block: u32, owner: impl Fn(&[u8]) -> u8) {
        for record in records::read(batch.payload).flatten() {
            let (from, sent) = match record {
                Record::Step { stream, sent, .. } => (stream.to, sent),
                Record::Begin { client, sent, .. } => (Party::client(client), sent),
                _ => continue,
            };
            if from != self.stream.from {
                continue;
            }
            for (to, number, frame) in records::sent_read(sent).unwrap_or_default() {
                let wanted = number == self.first + self.frames.len() as u64 && !self.is_enough();
                if wanted && to == self.stream.to && owner(frame) == self.stream.owner {
                    self.frames.push((number, frame.into()));
                    self.reached = Spot { from: number, segment: self.segment, block, wall: batch.wall };
                }
            }
        }
    }
}

impl Core {
    /// Begins to read frames that a stream waits for; of one stream at a time.
    pub(crate) fn fetch(&mut self, out: &mut Vec<Action>) {
        while self.fetching.is_none() {
            let Some(stream) = self.to_fetch.pop_first() else { return };
            let Some(o) = self.state.streams.outs.get(&stream) else { continue };
            let Some((first, spot)) = o.absent() else { continue };
            let most = self.settings.limits.near.saturating_sub((first - o.acked) as usize);
            if most == 0 {
                continue;
            }
            let (segment, block, length) = (spot.segment, spot.block, self.settings.fetch);
            self.read_log(Fetch { stream, first, behind: o.durable, most, segment, block, length, frames: vec![], reached: spot }, out);
        }
    }

    fn read_log(&mut self, fetch: Fetch, out: &mut Vec<Action>) {
        let (offset, length) = (u64::from(fetch.block) * BLOCK, fetch.length);
        let op = DiskOp::Read { file: segment_name(fetch.segment), offset, length };
        self.fetching = Some(fetch);
        self.disk(Purpose::Fetch, Lane::Side, op, out);
    }

    /// A piece of the log has come.
    pub(crate) fn fetch_read(&mut self, bytes: &[u8], out: &mut Vec<Action>) {
        let Some(mut f) = self.fetching.take() else { return };
        let mut at = 0;
        while let Some(batch) = batch_at(&self.writer.log.id, bytes, at).filter(|_| !f.is_enough()) {
            f.take(&batch, f.block + (at as u64 / BLOCK) as u32, |frame| self.state.owner(frame));
            at += batch.bytes.len();
        }
        if f.is_enough() {
            return self.fetched(f);
        }
        let cut = bytes.get(at..).and_then(batch_length).filter(|length| *length > bytes.len() - at);
        let more = at == bytes.len() && at > 0 && u64::from(f.block) * BLOCK + (at as u64) < self.settings.segment;
        (f.segment, f.block, f.length) = match cut {
            // a batch that is longer than what was read
            Some(length) if at > 0 || length as u64 > f.length => {
                (f.segment, f.block + (at as u64 / BLOCK) as u32, self.settings.fetch.max(length as u64))
            }
            _ if more => (f.segment, f.block + (at as u64 / BLOCK) as u32, self.settings.fetch),
            _ => (f.segment + 1, 1, self.settings.fetch),
        };
        if f.segment > self.writer.place.segment {
            let line = format!("the log has lost what {} is owed: frame {} of {}", f.stream.to, f.first + f.frames.len() as u64, f.stream.from);
            return self.stop(exit::DAMAGED, line, out);
        }
        self.read_log(f, out);
    }

    fn fetched(&mut self, f: Fetch) {
        let limits = self.settings.limits;
        if let Some(o) = self.state.streams.outs.get_mut(&f.stream).filter(|o| !o.given_up) {
            o.fetched(f.frames, &f.reached, &limits);
        }
        match self.cluster.node_of(f.stream.to) {
            Some(node) if node != self.me => drop(self.partners[node].to_send.insert(f.stream)),
            _ => self.writer.fx.work.push_back(f.stream),
        }
    }

    /// A piece could not be read. If it is not wanted any more, that does no harm.
    pub(crate) fn fetch_failed(&mut self, e: &DiskError, out: &mut Vec<Action>) {
        let Some(f) = self.fetching.take() else { return };
        let wanted = self.state.streams.outs.get(&f.stream).and_then(|o| o.absent());
        if wanted.is_some_and(|(_, spot)| spot.segment <= f.segment) {
            self.stop(exit::DISK, format!("disk: {}. Check the disk, and start again", e.text), out);
        } else {
            self.to_fetch.insert(f.stream);
        }
    }

    /// Bytes that the log's segments take on the disk.
    fn log_size(&self) -> u64 {
        u64::from(self.writer.last_segment + 1 - self.writer.first_segment) * self.settings.segment
    }

    /// Removes the first segments of a log that is longer than it is to be, as far as no snapshot that is kept needs them. What a snapshot needs is known
    /// to be acknowledged, or given up, on the disk.
    pub(crate) fn prune(&mut self, out: &mut Vec<Action>) {
        let snapshots = &self.writer.snapshots;
        let (Some(oldest), Some(newest)) = (snapshots.first().copied(), snapshots.last().copied()) else { return };
        if snapshots.len() < crate::core::SNAPSHOTS {
            return;
        }
        while self.log_size() > self.settings.keep && self.writer.first_segment < oldest.segment {
            let file = segment_name(self.writer.first_segment);
            self.writer.first_segment += 1;
            self.disk(Purpose::Remove, Lane::Side, DiskOp::Unlink { file }, out);
        }
        if self.log_size() > self.settings.keep.saturating_add(self.settings.owed) && self.writer.first_segment == oldest.segment {
            self.make_room(&oldest, &newest, out);
        }
    }

    /// The log is at its limit. Whoever it is kept for is given up; the segments go when two snapshots do not need them.
    fn make_room(&mut self, oldest: &snapshot::Name, newest: &snapshot::Name, out: &mut Vec<Action>) {
        let debtors = self.state.pinning(oldest.segment);
        for party in &debtors {
            self.state.give_up(*party);
            self.writer.given_up.insert(*party);
            let name = self.cluster.node_of(*party).map_or("", |n| self.cluster.nodes[n].name.as_str());
            let limit = self.settings.keep.saturating_add(self.settings.owed) >> 20;
            self.note(out, Level::Error, format!("{party} ({name}) is given up: it took nothing while the log grew to its limit of {limit} MiB"));
        }
        self.writer.snapshot_wanted |= !debtors.is_empty() || newest.segment > oldest.segment;
    }
}
