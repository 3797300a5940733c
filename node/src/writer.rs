//! What becomes the log: records gather in a batch while at most one batch is on its way to the disk. What a batch sends, acknowledges and answers is
//! let out when that batch is on the disk.
use crate::events::{AskId, Response};
use crate::log::{self, LogId, Place};
use crate::messages::Mark;
use crate::records::{self, Hash, Record};
use crate::recovery::Recovered;
use crate::sem::Party;
use crate::settings::{Settings, BLOCK};
use crate::snapshot;
use crate::state::{Effects, State};
use crate::streams::{Spot, StreamId};
use std::collections::{BTreeSet, VecDeque};

/// Hashes of so many last batches are remembered, to compare with what partners have seen.
const MARKS_MOST: usize = 16_384;

/// A batch on its way to the disk, and what waits for it.
pub struct InFlight {
    pub mark: Mark,
    pub outs: Vec<(StreamId, u64)>,
    pub ins: Vec<(StreamId, u64)>,
    pub answers: Vec<(AskId, Response)>,
    /// A snapshot of the state behind this batch.
    pub snapshot: Option<(snapshot::Name, Vec<u8>)>,
    pub fence: bool,
}

/// A batch that was closed: where it goes, and its bytes.
pub struct Closed {
    pub segment: u32,
    pub at: u64,
    pub bytes: Vec<u8>,
}

pub struct Writer {
    pub log: LogId,
    pub place: Place,
    pub fx: Effects,
    /// Answers that wait for the batch that gathers now.
    pub answers: Vec<(AskId, Response)>,
    /// Streams whose acknowledgements, and nodes whose marks, are not in the log yet.
    pub acked: BTreeSet<StreamId>,
    pub seen: BTreeSet<u8>,
    /// Nodes whose signs of lost state are not in the log yet.
    pub signs: BTreeSet<u8>,
    /// Servers that were given up, which is not in the log yet.
    pub given_up: BTreeSet<Party>,
    pub in_flight: Option<InFlight>,
    /// The last batch on the disk, and since when it is there.
    pub durable: Mark,
    pub durable_since: u64,
    /// Whether the last batch is an empty one: rot of the one before it would be seen.
    pub fenced: bool,
    /// Since when a place has waited.
    pub place_since: Option<u64>,
    /// Hashes of the last batches, and the number of the first of these.
    marks: VecDeque<Hash>,
    first_mark: u64,
    /// A batch waits for the next segment: time alone changes nothing.
    blocked: bool,
    pub first_segment: u32,
    pub last_segment: u32,
    /// Bytes of log since the last snapshot.
    pub since_snapshot: u64,
    pub snapshot_wanted: bool,
    /// The snapshots that are there, rising.
    pub snapshots: Vec<snapshot::Name>,
}

impl Writer {
    pub fn new(r: &Recovered, now: u64) -> Writer {
        let durable = Mark { batch: r.place.number - 1, hash: r.place.before };
        let mut w = Writer {
            log: r.log,
            place: r.place,
            fx: Effects::default(),
            answers: vec![],
            acked: BTreeSet::new(),
            seen: BTreeSet::new(),
            signs: BTreeSet::new(),
            given_up: BTreeSet::new(),
            in_flight: None,
            durable,
            durable_since: now,
            fenced: false,
            place_since: None,
            marks: VecDeque::new(),
            first_mark: 0,
            blocked: false,
            first_segment: r.first_segment,
            last_segment: r.last_segment,
            since_snapshot: r.since_snapshot,
            snapshot_wanted: false,
            snapshots: r.snapshots.clone(),
        };
        r.marks.iter().for_each(|(batch, hash)| w.remember(*batch, *hash));
        w
    }

    fn remember(&mut self, batch: u64, hash: Hash) {
        if batch != self.first_mark + self.marks.len() as u64 {
            self.marks.clear();
            self.first_mark = batch;
        }
        self.marks.push_back(hash);
        if self.marks.len() > MARKS_MOST {
            self.marks.pop_front();
            self.first_mark += 1;
        }
    }

    /// Whether this log, as it is on the disk, has the batch that somebody saw of it. A batch that is too old to be remembered passes.
    pub fn has(&self, mark: &Mark) -> bool {
        let known = mark.batch.checked_sub(self.first_mark).and_then(|at| self.marks.get(at as usize));
        mark.batch <= self.durable.batch && known.is_none_or(|hash| *hash == mark.hash)
    }

    /// Whether a batch is to be closed now.
    pub fn is_due(&self, now: u64, settings: &Settings) -> bool {
        let place = self.place_since.is_some_and(|since| now >= since + settings.place_wait);
        let fence = !self.fenced && now >= self.durable_since + settings.fence_wait;
        let told = !self.answers.is_empty() || !self.signs.is_empty() || !self.given_up.is_empty();
        self.in_flight.is_none() && (self.fx.stepped || told || self.snapshot_wanted || place || fence)
    }

    /// When `is_due` may come true by time alone.
    pub fn wake(&self, settings: &Settings) -> Option<u64> {
        if self.in_flight.is_some() || self.blocked {
            return None;
        }
        let place = self.place_since.map(|since| since + settings.place_wait);
        let fence = (!self.fenced).then_some(self.durable_since + settings.fence_wait);
        place.into_iter().chain(fence).min()
    }

    /// Writes down what is told once a batch.
    fn close_records(&mut self, state: &State) {
        let next_in = |s: &StreamId| state.streams.ins.get(s).map_or(0, |i| i.next);
        for stream in std::mem::take(&mut self.fx.places) {
            records::write(&mut self.fx.batch, &Record::Place { stream, next: next_in(&stream) });
        }
        for stream in std::mem::take(&mut self.acked) {
            let next = state.streams.outs.get(&stream).map_or(0, |o| o.acked);
            records::write(&mut self.fx.batch, &Record::Acked { stream, next });
        }
        for node in std::mem::take(&mut self.seen) {
            if let Some(mark) = state.seen.get(&node) {
                records::write(&mut self.fx.batch, &Record::Seen { node, batch: mark.batch, hash: mark.hash });
            }
        }
        for node in std::mem::take(&mut self.signs) {
            records::write(&mut self.fx.batch, &Record::Sign { node });
        }
        for party in std::mem::take(&mut self.given_up) {
            records::write(&mut self.fx.batch, &Record::GivenUp { party });
        }
    }

    /// Closes the batch that gathers and puts it in flight; none if it needs the next segment, which is not there yet.
    pub fn close(&mut self, state: &mut State, wall: u64, settings: &Settings) -> Option<Closed> {
        let fence = !self.fx.stepped && self.fx.places.is_empty() && self.fx.batch.is_empty();
        self.close_records(state);
        let space = log::batch_space(self.fx.batch.len());
        let mut place = self.place;
        self.blocked = place.at + space > settings.segment && self.last_segment <= place.segment;
        if self.blocked {
            return None;
        }
        if place.at + space > settings.segment {
            (place.segment, place.at) = (place.segment + 1, BLOCK);
        }
        let payload = std::mem::take(&mut self.fx.batch);
        let (bytes, hash) = log::batch_bytes(&self.log.id, &place.before, place.number, wall, &payload);
        let closed = Closed { segment: place.segment, at: place.at, bytes };
        let mark = Mark { batch: place.number, hash };
        self.place = Place { at: place.at + space, number: place.number + 1, before: hash, last: place.at, segment: place.segment };
        self.since_snapshot += space;
        let outs = state.close(&Spot { from: 0, segment: place.segment, block: (place.at / BLOCK) as u32, wall });
        let ins = std::mem::take(&mut self.fx.answered);
        self.in_flight = Some(InFlight {
            mark,
            outs: outs.into_iter().map(|s| (s, state.streams.outs.get(&s).map_or(0, |o| o.next))).collect(),
            ins: ins.into_iter().map(|s| (s, state.streams.ins.get(&s).map_or(0, |i| i.next))).collect(),
            answers: std::mem::take(&mut self.answers),
            snapshot: None,
            fence,
        });
        self.fx.stepped = false;
        self.place_since = None;
        Some(closed)
    }

    /// Bytes of the log on the disk, from the first segment that is there to the last batch's end.
    pub fn bytes(&self, settings: &Settings) -> u64 {
        self.bytes_from(self.first_segment, 0, settings)
    }

    /// Bytes of the log from a segment's block on.
    pub fn bytes_from(&self, segment: u32, block: u32, settings: &Settings) -> u64 {
        let end = u64::from(self.place.segment.saturating_sub(segment)) * settings.segment + self.place.at;
        end.saturating_sub(u64::from(block) * BLOCK)
    }

    /// The batch in flight is on the disk.
    pub fn synced(&mut self, now: u64) -> Option<InFlight> {
        let done = self.in_flight.take()?;
        self.durable = done.mark;
        self.durable_since = now;
        self.fenced = done.fence;
        self.remember(done.mark.batch, done.mark.hash);
        Some(done)
    }
}
