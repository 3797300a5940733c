//! A snapshot (pure): the state behind a batch as one file, with where the log goes on. What servers are owed is not in it, only where in the log it lies.
use crate::bytes::Reader;
use crate::cluster::FORMAT;
use crate::events::{Ended, Outcome, Stamp};
use crate::log::{LogId, Place};
use crate::messages::Mark;
use crate::records::outcome;
use crate::sem::{stamp_bytes, stamp_of, Client, Party, Server, CLIENT};
use crate::state::{Desk, Open, State};
use crate::streams::{In, Out, Owed, Spot, StreamId};
use openssl::sha::sha256;

const MAGIC: &[u8; 4] = b"SDS1";
const SUM: usize = 32;

/// What a snapshot's name says: the first batch that is not in it, and the first segment of the log that a start from it may need: where the log goes
/// on, or from where on something is owed.
#[derive(Clone, Copy, Debug, PartialEq, Eq, PartialOrd, Ord)]
pub struct Name {
    pub batch: u64,
    pub segment: u32,
}

impl Name {
    /// Of a snapshot of this state, where the log goes on there.
    pub fn new(state: &State, place: &Place) -> Name {
        Name { batch: place.number, segment: state.pinned().map_or(place.segment, |s| s.min(place.segment)) }
    }

    pub fn read(name: &str) -> Option<Name> {
        let (batch, segment) = name.strip_prefix("snap-")?.split_once('-')?;
        let number = |digits: &str, length: usize| (digits.len() == length).then(|| u64::from_str_radix(digits, 16).ok())?;
        Some(Name { batch: number(batch, 16)?, segment: number(segment, 8)? as u32 })
    }
}

impl std::fmt::Display for Name {
    fn fmt(&self, f: &mut std::fmt::Formatter) -> std::fmt::Result {
        write!(f, "snap-{:016x}-{:08x}", self.batch, self.segment)
    }
}

struct Writer(Vec<u8>);

impl Writer {
    fn put(&mut self, bytes: &[u8]) {
        self.0.extend_from_slice(bytes);
    }

    /// A length of four bytes, and the bytes.
    fn long(&mut self, bytes: &[u8]) {
        self.put(&(bytes.len() as u32).to_be_bytes());
        self.put(bytes);
    }

    fn count(&mut self, count: usize) {
        self.put(&(count as u32).to_be_bytes());
    }

    fn number(&mut self, number: u64) {
        self.put(&number.to_be_bytes());
    }
}

/// The state behind the batch before `place`, as the file has it.
pub fn write(state: &State, log: &LogId, place: &Place) -> Vec<u8> {
    let mut w = Writer(MAGIC.to_vec());
    w.put(&FORMAT.to_be_bytes());
    w.put(&log.register);
    w.put(&log.id);
    w.put(&place.segment.to_be_bytes());
    w.number(place.at);
    w.number(place.number);
    w.put(&place.before);
    w.number(place.last);
    w.number(state.steps);
    w.put(&state.tick.to_be_bytes());
    w.count(state.servers.len());
    for (number, s) in &state.servers {
        w.put(&[*number]);
        [&s.state, &s.area, &s.initial].iter().for_each(|b| w.long(b));
    }
    w.count(state.clients.len());
    for (number, c) in &state.clients {
        w.put(&[*number]);
        [&c.state, &c.rows, &c.value].iter().for_each(|b| w.long(b));
        write_desk(&mut w, state.desks.get(number).unwrap_or(&Desk::default()));
    }
    w.count(state.seen.len());
    for (node, mark) in &state.seen {
        w.put(&[*node]);
        w.number(mark.batch);
        w.put(&mark.hash);
    }
    w.long(&state.signs.iter().copied().collect::<Vec<u8>>());
    w.long(&state.given_up.iter().flat_map(|p| [p.class, p.number]).collect::<Vec<u8>>());
    write_streams(&mut w, state);
    let sum = sha256(&w.0);
    w.put(&sum);
    w.0
}

fn write_streams(w: &mut Writer, state: &State) {
    w.count(state.streams.ins.len());
    for (stream, i) in &state.streams.ins {
        w.put(&stream.bytes());
        w.number(i.next);
    }
    w.count(state.streams.outs.len());
    for (stream, o) in &state.streams.outs {
        w.put(&stream.bytes());
        w.number(o.next);
        w.number(o.acked);
        if stream.to.class == CLIENT {
            write_frames(w, o);
        } else {
            write_index(w, o);
        }
    }
}

/// What a client is owed: a few frames.
fn write_frames(w: &mut Writer, o: &Out) {
    w.count(o.near.len());
    for owed in &o.near {
        w.number(owed.number);
        w.number(owed.wall);
        w.long(&owed.frame);
    }
}

/// Where in the log lies what a server is owed.
fn write_index(w: &mut Writer, o: &Out) {
    w.count(o.spots.len());
    for spot in &o.spots {
        w.number(spot.from);
        w.put(&spot.segment.to_be_bytes());
        w.put(&spot.block.to_be_bytes());
        w.number(spot.wall);
    }
}

fn write_desk(w: &mut Writer, desk: &Desk) {
    w.number(desk.begun);
    w.put(&[u8::from(desk.open.is_some()), u8::from(desk.last.is_some())]);
    if let Some(o) = &desk.open {
        w.put(&[u8::from(o.write)]);
        w.put(&o.begin_tick.to_be_bytes());
        w.number(o.begin_wall);
        w.put(&stamp_bytes(&o.stamp));
        w.long(&o.heard.iter().copied().collect::<Vec<u8>>());
    }
    if let Some(e) = &desk.last {
        w.put(&[e.client, e.register]);
        [e.operation, e.begin_wall, e.end_wall, e.begin_tick.into(), e.end_tick.into()].iter().for_each(|n| w.number(*n));
        let (code, stamp, value) = match &e.outcome {
            Outcome::Written { stamp } => (outcome::WRITTEN, *stamp, &[][..]),
            Outcome::Value { value, stamp } => (outcome::VALUE, *stamp, &value[..]),
            Outcome::OutOfStamps => (outcome::OUT_OF_STAMPS, Stamp::default(), &[][..]),
            Outcome::Disagreement => (outcome::DISAGREEMENT, Stamp::default(), &[][..]),
        };
        w.put(&[code]);
        w.put(&stamp_bytes(&stamp));
        w.long(value);
    }
}

fn long<'a>(b: &mut Reader<'a>) -> Option<&'a [u8]> {
    let length = b.u32()?;
    b.take(length as usize)
}

fn read_desk(b: &mut Reader) -> Option<Desk> {
    let begun = b.u64()?;
    let (open, last) = (b.u8()? == 1, b.u8()? == 1);
    let open = if open {
        let (write, begin_tick, begin_wall) = (b.u8()? == 1, b.u32()?, b.u64()?);
        let stamp = stamp_of(&b.array()?);
        Some(Open { write, begin_tick, begin_wall, stamp, heard: long(b)?.iter().copied().collect() })
    } else {
        None
    };
    let last = if last { Some(read_ended(b)?) } else { None };
    Some(Desk { begun, open, last })
}

fn read_ended(b: &mut Reader) -> Option<Ended> {
    let (client, register) = (b.u8()?, b.u8()?);
    let (operation, begin_wall, end_wall) = (b.u64()?, b.u64()?, b.u64()?);
    let (begin_tick, end_tick) = (b.u64()? as u32, b.u64()? as u32);
    let (code, stamp, value) = (b.u8()?, stamp_of(&b.array()?), long(b)?.to_vec());
    let outcome = match code {
        outcome::WRITTEN => Outcome::Written { stamp },
        outcome::VALUE => Outcome::Value { value, stamp },
        outcome::OUT_OF_STAMPS => Outcome::OutOfStamps,
        _ => Outcome::Disagreement,
    };
    Some(Ended { client, register, operation, begin_tick, end_tick, begin_wall, end_wall, outcome })
}

fn read_streams(b: &mut Reader, state: &mut State) -> Option<()> {
    for _ in 0..b.u32()? {
        let (stream, next) = (StreamId::read(b)?, b.u64()?);
        state.streams.ins.insert(stream, In { next, ..In::default() });
    }
    for _ in 0..b.u32()? {
        let stream = StreamId::read(b)?;
        let mut o = Out { given_up: state.given_up.contains(&stream.to), ..Out::kept(b.u64()?, b.u64()?) };
        for _ in 0..b.u32()? {
            if stream.to.class == CLIENT {
                let (number, wall) = (b.u64()?, b.u64()?);
                o.near.push_back(Owed { number, wall, frame: long(b)?.into() });
            } else {
                o.spots.push_back(Spot { from: b.u64()?, segment: b.u32()?, block: b.u32()?, wall: b.u64()? });
            }
        }
        state.streams.outs.insert(stream, o);
    }
    Some(())
}

/// Reads a snapshot of this register into a new state. None: it is damaged, or of another register or format.
pub fn read(bytes: &[u8], mut state: State, register: &[u8; 32]) -> Option<(State, LogId, Place)> {
    let (front, sum) = bytes.split_at_checked(bytes.len().checked_sub(SUM)?)?;
    let mut b = Reader(front);
    if sha256(front) != sum || &b.array::<4>()? != MAGIC || b.u32()? != FORMAT || &b.array::<32>()? != register {
        return None;
    }
    let log = LogId { id: b.array()?, register: *register };
    let place = Place { segment: b.u32()?, at: b.u64()?, number: b.u64()?, before: b.array()?, last: b.u64()? };
    (state.steps, state.tick) = (b.u64()?, b.u32()?);
    for _ in 0..b.u32()? {
        let me = b.u8()?;
        let server = Server { me, state: long(&mut b)?.to_vec(), area: long(&mut b)?.to_vec(), initial: long(&mut b)?.to_vec() };
        state.servers.insert(me, server);
    }
    for _ in 0..b.u32()? {
        let me = b.u8()?;
        let client = Client { me, state: long(&mut b)?.to_vec(), rows: long(&mut b)?.to_vec(), value: long(&mut b)?.to_vec() };
        state.clients.insert(me, client);
        state.desks.insert(me, read_desk(&mut b)?);
    }
    for _ in 0..b.u32()? {
        state.seen.insert(b.u8()?, Mark { batch: b.u64()?, hash: b.array()? });
    }
    state.signs = long(&mut b)?.iter().copied().collect();
    state.given_up = long(&mut b)?.chunks_exact(2).map(|p| Party { class: p[0], number: p[1] }).collect();
    read_streams(&mut b, &mut state)?;
    b.is_empty().then_some((state, log, place))
}
