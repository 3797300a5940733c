//! Streams (pure): a row of frames from one party to another, by owner, numbered for ever in the order of the sender's steps. What may leave, what is
//! owed, what is held, and from where on a stream goes on, stand here; nothing here does input or output. What a server is owed lies in the log: in memory
//! are the frames that leave next, and an index.
use crate::bytes::Reader;
use crate::sem::{self, Older, Party, CLIENT};
use std::collections::{BTreeMap, VecDeque};
use std::rc::Rc;

/// Values for one read that a client is owed at most: its rows have so many places.
const VALUES_MOST: usize = 4;

#[derive(Clone, Copy, PartialEq, Eq, PartialOrd, Ord, Debug)]
pub struct StreamId {
    pub from: Party,
    pub to: Party,
    pub register: u8,
    /// The client whose write the frames are of (kinds 3 to 5), or 0.
    pub owner: u8,
}

impl StreamId {
    pub const BYTES: usize = 6;

    pub fn bytes(&self) -> [u8; Self::BYTES] {
        [self.from.class, self.from.number, self.to.class, self.to.number, self.register, self.owner]
    }

    pub fn read(b: &mut Reader) -> Option<StreamId> {
        let [a, b, c, d, register, owner] = b.array()?;
        Some(StreamId { from: Party { class: a, number: b }, to: Party { class: c, number: d }, register, owner })
    }
}

/// A frame that is owed, and when it was sent, by the wall clock in milliseconds (only shown).
#[derive(Clone, Debug, PartialEq)]
pub struct Owed {
    pub number: u64,
    pub frame: Rc<[u8]>,
    pub wall: u64,
}

/// A batch of the log that has frames of a stream: the first of them, where the batch begins, and its wall clock.
#[derive(Clone, Copy, Debug, PartialEq, Eq, Default)]
pub struct Spot {
    pub from: u64,
    pub segment: u32,
    pub block: u32,
    pub wall: u64,
}

/// How much of what a server is owed is in memory: frames of a stream, and blocks of log between two entries of a stream's index.
#[derive(Clone, Copy, Debug, PartialEq, Eq)]
pub struct Limits {
    pub near: usize,
    pub grain: u32,
}

/// The next frame of a stream to leave by the present link.
#[derive(Clone, Debug, PartialEq)]
pub enum Leaving {
    Frame(u64, Rc<[u8]>),
    /// It is in the log alone, and is to be read.
    Absent,
    /// There is none, or it must not leave yet.
    Nothing,
}

/// What goes out by a stream.
#[derive(Clone, Debug, Default)]
pub struct Out {
    /// The number of the next frame; those below `durable` are in the log on the disk, those below `acked` with the partner.
    pub next: u64,
    pub durable: u64,
    pub acked: u64,
    /// From here on frames have not been sent by the present link.
    pub sent: u64,
    /// Frames in memory. To a client: all that it is owed. To a server: the first of those that it is owed, without a gap, and behind them those of the
    /// batch that gathers.
    pub near: VecDeque<Owed>,
    /// To a server: where in the log the frames are that it is owed, rising. Between two entries they lie where the earlier one says or behind it.
    pub spots: VecDeque<Spot>,
    /// Frames below are in batches that are closed.
    pub closed: u64,
    /// The receiver was given up: frames are numbered, and nothing is owed.
    pub given_up: bool,
}

impl Out {
    /// As a snapshot has it.
    pub fn kept(next: u64, acked: u64) -> Out {
        Out { next, acked, closed: next, ..Out::default() }
    }

    /// Takes a frame up and says its number. A client is owed only what it can still use, so its numbers may rise with gaps.
    pub fn push(&mut self, to: Party, frame: Rc<[u8]>, wall: u64) -> u64 {
        let number = self.next;
        self.next += 1;
        if self.given_up {
            return number;
        }
        if to.class == CLIENT {
            self.near.retain(|o| sem::older(&o.frame, &frame) != Older::Stale);
        }
        self.near.push_back(Owed { number, frame, wall });
        if to.class == CLIENT {
            self.drop_small_value();
        }
        number
    }

    /// Of more values for the read of the last frame than a client keeps, the one with the smallest stamp goes.
    fn drop_small_value(&mut self) {
        let Some(last) = self.near.back() else { return };
        let peers: Vec<usize> = (0..self.near.len()).filter(|i| sem::older(&self.near[*i].frame, &last.frame) == Older::Peer).collect();
        if peers.len() > VALUES_MOST {
            if let Some(smallest) = peers.into_iter().min_by_key(|i| sem::value_stamp(&self.near[*i].frame)) {
                self.near.remove(smallest);
            }
        }
    }

    /// How many frames to a server are in memory without a gap, from the first that it is owed on.
    fn run(&self) -> usize {
        self.near.iter().zip(self.acked..).take_while(|(o, number)| o.number == *number).count()
    }

    /// The batch with the newest frames to a server is closed: where it lies is remembered, and of its frames only those that leave soon stay in memory.
    pub fn close(&mut self, batch: &Spot, limits: &Limits) {
        if self.given_up || self.acked >= self.next {
            self.spots.clear();
        } else if self.next > self.closed {
            let apart = |last: &Spot| last.segment != batch.segment || batch.block >= last.block + limits.grain;
            if self.spots.back().is_none_or(apart) {
                self.spots.push_back(Spot { from: self.closed, ..*batch });
            }
        }
        self.closed = self.next;
        self.near.truncate(self.run().min(limits.near));
    }

    /// Where in the log the first frame lies that is owed to a server, on the disk, and not in memory; with its number.
    pub fn absent(&self) -> Option<(u64, Spot)> {
        let first = self.acked + self.run() as u64;
        let at = self.spots.partition_point(|s| s.from <= first).checked_sub(1)?;
        (first < self.durable.min(self.closed)).then_some((first, self.spots[at]))
    }

    /// Frames that were read from the log, rising without a gap; the last of them lies in the batch that `reached` says.
    pub fn fetched(&mut self, frames: Vec<(u64, Rc<[u8]>)>, reached: &Spot, limits: &Limits) {
        let mut at = self.run();
        let Some(last) = frames.last().map(|f| f.0) else { return };
        for (number, frame) in frames {
            if number == self.acked + at as u64 && at < limits.near {
                self.near.insert(at, Owed { number, frame, wall: reached.wall });
                at += 1;
            }
        }
        let from = self.acked + at as u64;
        let behind = self.spots.partition_point(|s| s.from < from);
        if from > last && behind > 0 && self.spots.get(behind).is_none_or(|s| s.from > from) {
            self.spots.insert(behind, Spot { from, ..*reached });
        }
    }

    /// The partner has everything below `next`. Whether that is news.
    pub fn ack(&mut self, next: u64) -> bool {
        let next = next.min(self.next);
        if next <= self.acked {
            return false;
        }
        self.acked = next;
        self.sent = self.sent.max(next);
        while self.near.front().is_some_and(|o| o.number < next) {
            self.near.pop_front();
        }
        if self.acked >= self.closed {
            self.spots.clear();
        }
        while self.spots.get(1).is_some_and(|s| s.from <= next) {
            self.spots.pop_front();
        }
        true
    }

    /// The next frame that may leave by the present link.
    pub fn leave(&mut self, to: Party, window: usize, durable: u64) -> Leaving {
        let at = self.near.partition_point(|o| o.number < self.sent);
        match self.near.get(at) {
            Some(o) if to.class == CLIENT || o.number == self.sent => {
                let in_flight = if to.class == CLIENT { at as u64 } else { self.sent - self.acked };
                if in_flight >= window as u64 || o.number >= durable {
                    return Leaving::Nothing;
                }
                self.sent = o.number + 1;
                Leaving::Frame(o.number, o.frame.clone())
            }
            _ if to.class != CLIENT && !self.given_up && self.sent < self.durable.min(self.acked + window as u64) => Leaving::Absent,
            _ => Leaving::Nothing,
        }
    }

    /// Nothing is owed any more, and nothing will be.
    pub fn give_up(&mut self) {
        self.given_up = true;
        self.near.clear();
        self.spots.clear();
    }

    /// How many frames are owed.
    pub fn owed(&self, to: Party) -> u64 {
        match (self.given_up, to.class) {
            (true, _) => 0,
            (_, CLIENT) => self.near.len() as u64,
            _ => self.next - self.acked,
        }
    }

    /// Since when the oldest frame has been owed, by the wall clock.
    pub fn oldest(&self) -> Option<u64> {
        self.spots.front().map(|s| s.wall).or(self.near.front().map(|o| o.wall))
    }
}

/// What comes in by a stream.
#[derive(Clone, Debug, Default)]
pub struct In {
    /// The first number that was not answered for good; those below `durable` are so in the log on the disk, and those below `told` acknowledged.
    pub next: u64,
    pub durable: u64,
    pub told: u64,
    /// Frames that came and are not answered for good, from `next` on.
    pub held: VecDeque<(u64, Vec<u8>)>,
}

#[derive(Clone, Copy, PartialEq, Eq, Debug)]
pub enum Offer {
    Taken,
    /// Came before: it is acknowledged again, not handed in.
    Again,
    /// Not the next number, or past the window: no honest node sends it.
    Outside,
}

impl In {
    /// The first number that has not come.
    pub fn expected(&self) -> u64 {
        self.held.back().map_or(self.next, |h| h.0 + 1)
    }

    pub fn offer(&mut self, to: Party, number: u64, frame: &[u8], window: usize) -> Offer {
        let expected = self.expected();
        if number < expected {
            self.told = self.told.min(number);
            return Offer::Again;
        }
        if self.held.len() >= window || (number > expected && to.class != CLIENT) || number == u64::MAX {
            return Offer::Outside;
        }
        self.held.push_back((number, frame.to_vec()));
        Offer::Taken
    }
}

/// All streams of a node's parties. A stream between two of its own parties has both sides here, and its frames are in `Out` alone.
#[derive(Clone, Debug, Default)]
pub struct Streams {
    pub outs: BTreeMap<StreamId, Out>,
    pub ins: BTreeMap<StreamId, In>,
}

impl Streams {
    /// The frame at the head of a stream that comes in, with its number.
    pub fn head(&self, stream: &StreamId, own: bool) -> Option<(u64, Vec<u8>)> {
        if own {
            let o = self.outs.get(stream)?;
            // behind a gap frames wait for those before them
            let first = o.near.front().filter(|f| stream.to.class == CLIENT || f.number == o.acked);
            first.map(|o| (o.number, o.frame.to_vec()))
        } else {
            self.ins.get(stream)?.held.front().cloned()
        }
    }

    /// A frame was answered for good.
    pub fn answered(&mut self, stream: &StreamId, next: u64, own: bool) {
        let i = self.ins.entry(*stream).or_default();
        i.next = i.next.max(next);
        while i.held.front().is_some_and(|h| h.0 < next) {
            i.held.pop_front();
        }
        if own {
            self.outs.entry(*stream).or_default().ack(next);
        }
    }

    /// After recovery: everything is on the disk, and nothing was sent or told by a link.
    pub fn settle(&mut self) {
        for o in self.outs.values_mut() {
            (o.durable, o.sent) = (o.next, o.acked);
        }
        for i in self.ins.values_mut() {
            (i.durable, i.told) = (i.next, 0);
        }
    }
}

#[cfg(test)]
mod tests {
    use super::*;
    use crate::random::Random;

    fn to(class: u8) -> Party {
        Party { class, number: 1 }
    }

    fn value(sequence: u8, time: u8) -> Rc<[u8]> {
        let mut f = vec![0, 20, 1, 11, 1, 0, 0, 0, sequence, 0, 0, 0, 0, 0, 0, 0, time, 1, 0, 0, 0, 1];
        f[1] = f.len() as u8 - 2;
        f.into()
    }

    fn short(kind: u8, sequence: u8) -> Rc<[u8]> {
        vec![0, 7, 1, kind, 1, 0, 0, 0, sequence].into()
    }

    const FRAMES: u64 = 60;
    const LIMITS: Limits = Limits { near: 5, grain: 3 };

    /// A sender and a receiver over links that lose what is on the way when they break; the receiver may crash back to what is durable.
    #[derive(Default)]
    struct Pair {
        o: Out,
        i: In,
        wire: VecDeque<(u64, Rc<[u8]>)>,
        /// The sender's log: of each block the number behind its last frame.
        blocks: Vec<u64>,
        /// What the receiver was handed in, and what its log has of the stream.
        taken: Vec<u8>,
        log: In,
    }

    impl Pair {
        fn step(&mut self, r: &mut Random) {
            match r.below(8) {
                0 if self.o.next < FRAMES => {
                    self.o.push(to(1), vec![self.o.next as u8].into(), 0);
                }
                1 => self.sender_syncs(),
                2 => match self.o.leave(to(1), 4, self.o.durable) {
                    Leaving::Frame(number, frame) => self.wire.push_back((number, frame)),
                    Leaving::Absent => self.fetch(r),
                    Leaving::Nothing => {}
                },
                3 => {
                    if let Some((number, frame)) = self.wire.pop_front() {
                        assert_ne!(self.i.offer(to(1), number, &frame, 4), Offer::Outside);
                    }
                }
                4 => {
                    if let Some((number, frame)) = self.i.held.pop_front() {
                        self.taken.push(frame[0]);
                        self.i.next = number + 1;
                    }
                }
                5 => self.sync_and_ack(),
                6 if r.one_in(4) => self.link_breaks(),
                7 if r.one_in(10) => self.receiver_crashes(),
                7 if r.one_in(10) => self.sender_crashes(),
                _ => {}
            }
        }

        /// The frames since the last sync are a batch, which lies on a block of its own.
        fn sender_syncs(&mut self) {
            self.blocks.push(self.o.next);
            self.o.close(&Spot { block: self.blocks.len() as u32 - 1, ..Spot::default() }, &LIMITS);
            self.o.durable = self.o.next;
        }

        /// Reads some blocks of the log, from where the index says on.
        fn fetch(&mut self, r: &mut Random) {
            let (first, spot) = self.o.absent().expect("a frame that is absent");
            let before = |block: u32| block.checked_sub(1).map_or(0, |b| self.blocks[b as usize]);
            assert!(before(spot.block) <= first, "the index leads past frame {first}");
            let mut block = spot.block;
            let enough = 1 + r.below(3);
            while self.blocks[block as usize] < first + enough && (block as usize) + 1 < self.blocks.len() {
                block += 1;
            }
            let frames = (first..self.blocks[block as usize]).map(|n| (n, vec![n as u8].into())).collect();
            self.o.fetched(frames, &Spot { block, ..Spot::default() }, &LIMITS);
        }

        /// The sender starts again from what a snapshot has.
        fn sender_crashes(&mut self) {
            let next = self.o.durable;
            self.wire.clear();
            let spots = self.o.spots.iter().copied().filter(|s| s.from < next).collect();
            self.o = Out { spots, durable: next, sent: self.o.acked, ..Out::kept(next, self.o.acked) };
            self.i.held.clear();
        }

        fn sync_and_ack(&mut self) {
            self.i.durable = self.i.next;
            self.log = self.i.clone();
            self.o.ack(self.i.durable);
        }

        fn link_breaks(&mut self) {
            self.wire.clear();
            self.o.ack(self.i.durable);
            self.o.sent = self.o.acked;
            self.i.held.clear();
        }

        /// What was handed in and not synced has left no trace.
        fn receiver_crashes(&mut self) {
            self.wire.clear();
            self.i = In { held: VecDeque::new(), ..self.log.clone() };
            self.taken.truncate(self.i.next as usize);
            self.o.sent = self.o.acked;
        }
    }

    #[test]
    fn every_frame_is_handed_in_once_and_in_order() {
        for seed in 0..200 {
            let (mut r, mut pair) = (Random::new(seed), Pair::default());
            (0..4000).for_each(|_| pair.step(&mut r));
            let taken = pair.taken;
            assert_eq!(taken, (0..taken.len() as u8).collect::<Vec<_>>(), "seed {seed}");
            assert!(taken.len() as u64 > FRAMES / 2, "seed {seed}: {}", taken.len());
        }
    }

    #[test]
    fn a_client_is_owed_only_what_it_can_use() {
        let mut o = Out::default();
        for time in [5, 1, 7, 3, 9, 2] {
            o.push(to(CLIENT), value(1, time), 0);
        }
        let left: Vec<u64> = o.near.iter().map(|o| o.number).collect();
        assert_eq!(left, [0, 2, 3, 4], "the four largest stamps");
        o.push(to(CLIENT), value(2, 1), 0);
        assert_eq!(o.near.len(), 1, "the older read's are stale");
        for sequence in 1..9 {
            o.push(to(CLIENT), short(2, sequence), 0);
            o.push(to(CLIENT), short(9, sequence), 0);
        }
        assert_eq!(o.near.iter().map(|o| o.number).collect::<Vec<_>>(), [6, 21, 22]);
        assert_eq!((o.next, o.owed(to(CLIENT))), (23, 3));
        let mut s = Out::default();
        for n in 0..9 {
            s.push(to(1), short(4, n), 0);
        }
        assert_eq!(s.owed(to(1)), 9, "a server is owed every frame");
        s.close(&Spot::default(), &LIMITS);
        assert_eq!((s.owed(to(1)), s.near.len(), s.spots.len()), (9, LIMITS.near, 1), "of which some are in memory");
        s.give_up();
        s.push(to(1), short(4, 9), 0);
        assert_eq!((s.next, s.owed(to(1)), s.near.len(), s.leave(to(1), 4, 10)), (10, 0, 0, Leaving::Nothing));
    }

    #[test]
    fn what_a_server_is_owed_takes_little_memory() {
        let mut o = Out::default();
        for block in 0..10_000 {
            o.push(to(1), short(4, 0), 0);
            o.close(&Spot { segment: block / 4000, block: block % 4000, ..Spot::default() }, &Limits { near: 64, grain: 256 });
            o.durable = o.next;
        }
        assert_eq!((o.owed(to(1)), o.near.len(), o.spots.len()), (10_000, 64, 16 + 16 + 8));
        o.ack(8000);
        assert_eq!((o.near.len(), o.spots.len(), o.spots[0].segment), (0, 8, 2));
        assert_eq!(o.absent().map(|(first, spot)| (first, spot.block)), Some((8000, 0)));
        o.ack(10_000);
        assert_eq!((o.owed(to(1)), o.spots.len()), (0, 0));
    }

    /// Of a server's reports the last has the largest time, whoever's writes they name; to a server all of them go.
    #[test]
    fn a_client_is_owed_the_last_report() {
        let report = |client, time| -> Rc<[u8]> { vec![0, 15, 1, 13, client, 0, 0, 0, 1, 0, 0, 0, 0, 0, 0, 0, time].into() };
        let mut o = Out::default();
        o.push(to(CLIENT), short(9, 1), 0);
        for time in 1..5 {
            o.push(to(CLIENT), report(time, time), 0);
        }
        assert_eq!(o.near.iter().map(|o| o.number).collect::<Vec<_>>(), [0, 4]);
        let mut s = Out::default();
        for time in 1..5 {
            s.push(to(1), report(1, time), 0);
        }
        assert_eq!(s.owed(to(1)), 4);
    }

    #[test]
    fn numbers_out_of_the_window_are_seen() {
        let mut i = In::default();
        assert_eq!(i.offer(to(1), 1, b"x", 4), Offer::Outside);
        assert_eq!(i.offer(to(CLIENT), 5, b"x", 4), Offer::Taken, "a client's numbers may have gaps");
        assert_eq!(i.offer(to(CLIENT), 5, b"x", 4), Offer::Again);
        for number in 6..9 {
            assert_eq!(i.offer(to(CLIENT), number, b"x", 4), Offer::Taken);
        }
        assert_eq!(i.offer(to(CLIENT), 9, b"x", 4), Offer::Outside);
        assert_eq!(In::default().offer(to(CLIENT), u64::MAX, b"x", 4), Offer::Outside);
    }
}
