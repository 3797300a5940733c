//! The proved library: the only unsafe code. Each wrapper passes a slice as its pointer and length and reads the answer's parts; the calls and numbers of
//! include/semduoli.rs, and the few bytes of a frame that a host looks at, are used here alone.
#![allow(unsafe_code)]
use crate::events::Stamp;
use std::rc::Rc;

#[rustfmt::skip]
#[path = "../../include/semduoli.rs"]
mod raw;
use raw::{DIGEST, KIND_ACK, KIND_READY, KIND_REPORT, KIND_SEND, KIND_STAMP, KIND_VALUE, LINES, OUT_OF_STAMPS, SENT, VALUE, WRITTEN};

pub const CLIENT: u8 = raw::CLASS_CLIENT;
pub const SERVER: u8 = raw::CLASS_SERVER;
/// Clients of every register.
pub const CLIENTS: u8 = raw::CLIENTS_MOST as u8;
pub const STAMP: usize = raw::STAMP;
const SERVER_RECORD: usize = raw::SERVER;
const SERVER_AREA: usize = raw::AREA;
const CLIENT_RECORD: usize = raw::CLIENT;
const CLIENT_ROWS: usize = raw::ROWS;
const PAGES_MOST: usize = 2 * raw::PAGE;
const INDEX: usize = raw::INDEX;
/// Values that an index takes.
pub const INDEX_VALUES: usize = raw::INDEX_VALUES;

/// The refusal of a party that there is not.
pub const NOBODY: u8 = raw::REFUSED_PARTIES;
/// The refusal of a frame whose sequence has not come.
pub const AHEAD: u8 = raw::REFUSED_AHEAD;
/// How a trace closed that was played: whole, or inside an entry.
pub const TRACE_WHOLE: u8 = raw::TRACE_WHOLE;
pub const TRACE_CUT: u8 = raw::TRACE_CUT;
/// Where a frame's body begins.
const BODY: usize = 9;

/// A server or a client of the register.
#[derive(Clone, Copy, PartialEq, Eq, PartialOrd, Ord, Debug)]
pub struct Party {
    pub class: u8,
    pub number: u8,
}

impl Party {
    pub fn server(number: u8) -> Party {
        Party { class: SERVER, number }
    }

    pub fn client(number: u8) -> Party {
        Party { class: CLIENT, number }
    }
}

impl std::fmt::Display for Party {
    fn fmt(&self, f: &mut std::fmt::Formatter) -> std::fmt::Result {
        write!(f, "{} {}", if self.class == SERVER { "server" } else { "client" }, self.number)
    }
}

/// A register's parameters.
#[derive(Clone, Copy, Debug, PartialEq, Eq)]
pub struct Parameters {
    pub n: usize,
    pub t: usize,
    pub k: usize,
    pub size: usize,
}

impl Parameters {
    fn block(&self) -> usize {
        self.size.div_ceil(self.k.max(1))
    }

    /// The largest frame.
    pub fn frame_most(&self) -> usize {
        22 + DIGEST * self.n + self.block()
    }

    /// The frames that a server's step may send: n readies, and for each client's write a value to each client, an ack, and a report to each party.
    fn frames_most(&self) -> usize {
        let clients = usize::from(CLIENTS);
        self.n + clients * (clients + 1 + self.n + clients)
    }
}

/// A frame that a step sends. Frames with the same bytes share them.
#[derive(Clone, PartialEq, Debug)]
pub struct Sent {
    pub to: Party,
    pub frame: Rc<[u8]>,
}

/// What an operation came to.
#[derive(Clone, PartialEq, Debug)]
pub enum End {
    Open,
    Written,
    OutOfStamps,
    Value(Vec<u8>, Stamp),
    Disagreement,
}

#[derive(Clone, PartialEq, Debug)]
pub struct Step {
    pub sent: Vec<Sent>,
    pub end: End,
}

fn eight(bytes: &[u8]) -> u64 {
    bytes.iter().take(8).fold(0, |sum, byte| sum << 8 | u64::from(*byte))
}

pub fn stamp_of(bytes: &[u8; STAMP]) -> Stamp {
    Stamp { time: eight(&bytes[..8]), writer: bytes[8], sequence: eight(&bytes[9..]) as u32 }
}

pub fn stamp_bytes(stamp: &Stamp) -> [u8; STAMP] {
    let mut bytes = [0; STAMP];
    bytes[..8].copy_from_slice(&stamp.time.to_be_bytes());
    bytes[8] = stamp.writer;
    bytes[9..].copy_from_slice(&stamp.sequence.to_be_bytes());
    bytes
}

/// The kind, the owner and the sequence of a frame; nothing of bytes that are too few for a frame.
pub fn head(frame: &[u8]) -> Option<(u8, u8, u32)> {
    let head = frame.get(..BODY)?;
    Some((head[3], head[4], eight(&head[5..]) as u32))
}

/// The owner of the stream that a frame goes by: the client it names for kinds 3 to 5, which may be answered 13, and 0 for all others.
pub fn owner(frame: &[u8]) -> u8 {
    match head(frame) {
        Some((KIND_SEND..=KIND_READY, owner @ 1..=CLIENTS, _)) => owner,
        _ => 0,
    }
}

/// Whether a frame is a report of a server's time, which answers no operation.
pub fn is_report(frame: &[u8]) -> bool {
    matches!(head(frame), Some((KIND_REPORT, _, _)))
}

/// The sequence that a frame's owner must have come to for it to be handed in.
pub fn sequence(frame: &[u8]) -> u64 {
    head(frame).map_or(0, |(_, _, sequence)| u64::from(sequence))
}

/// The stamp that a write's own frames (kind 3) will have.
pub fn write_stamp(frame: &[u8], me: u8) -> Option<Stamp> {
    match head(frame) {
        Some((KIND_SEND, _, sequence)) => Some(Stamp { time: eight(frame.get(BODY..BODY + 8)?).wrapping_add(1), writer: me, sequence }),
        _ => None,
    }
}

/// What a client need no longer be sent once `newer` is to be sent to it: by the answer, how the older of two frames to it stands.
#[derive(Clone, Copy, PartialEq, Eq, Debug)]
pub enum Older {
    /// It is still of use.
    Keep,
    /// It would be turned down as stale.
    Stale,
    /// Both are values for one read: of these only the largest few by stamp are of use.
    Peer,
}

pub fn older(older: &[u8], newer: &[u8]) -> Older {
    match (head(older), head(newer)) {
        (Some((KIND_VALUE, a, s)), Some((KIND_VALUE, b, r))) if a == b => {
            if s == r {
                Older::Peer
            } else if s < r {
                Older::Stale
            } else {
                Older::Keep
            }
        }
        // a client's sequences rise: only a false one is answered a smaller one later, and it may lose the larger
        (Some((x @ (KIND_STAMP | KIND_ACK), a, _)), Some((y, b, _))) if x == y && a == b => Older::Stale,
        // a server's time rises, whoever's write raises it
        (Some((KIND_REPORT, _, _)), Some((KIND_REPORT, _, _))) => Older::Stale,
        _ => Older::Keep,
    }
}

/// The stamp that a value (kind 11) bears.
pub fn value_stamp(frame: &[u8]) -> Stamp {
    frame.get(BODY..BODY + STAMP).and_then(|b| b.try_into().ok()).map_or(Stamp::default(), stamp_of)
}

/// The areas that steps send by, made once.
pub struct Room {
    out: Vec<u8>,
    to: Vec<u8>,
}

impl Room {
    pub fn new(p: &Parameters) -> Room {
        let frames = p.frames_most();
        Room { out: vec![0; frames * p.frame_most()], to: vec![0; 2 * frames] }
    }

    fn frames(&self, count: usize) -> Vec<Sent> {
        let (mut sent, mut rest): (Vec<Sent>, &[u8]) = (Vec::with_capacity(count), &self.out);
        for to in self.to.chunks_exact(2).take(count) {
            let length = 2 + eight(&rest[..2]) as usize;
            let (bytes, behind) = rest.split_at(length.min(rest.len()));
            rest = behind;
            let frame = match sent.last() {
                Some(last) if *last.frame == *bytes => last.frame.clone(),
                _ => bytes.into(),
            };
            sent.push(Sent { to: Party { class: to[0], number: to[1] }, frame });
        }
        sent
    }

    fn step(&self, answer: u64) -> Result<Step, u8> {
        if answer as u8 != 0 {
            return Err(answer as u8);
        }
        let end = match (answer >> 8) as u8 {
            SENT => End::Open,
            WRITTEN => End::Written,
            OUT_OF_STAMPS => End::OutOfStamps,
            VALUE => End::Value(vec![], Stamp::default()),
            _ => End::Disagreement,
        };
        Ok(Step { sent: self.frames((answer >> 16 & 0xffff) as usize), end })
    }
}

fn done(answer: u64) -> Result<(), u8> {
    if answer == 0 {
        Ok(())
    } else {
        Err(answer as u8)
    }
}

/// A server's record and areas.
#[derive(Clone, PartialEq)]
pub struct Server {
    pub me: u8,
    pub state: Vec<u8>,
    pub area: Vec<u8>,
    pub initial: Vec<u8>,
}

impl Server {
    fn empty(p: &Parameters, me: u8) -> Server {
        Server { me, state: vec![0; SERVER_RECORD], area: vec![0; SERVER_AREA], initial: vec![0; p.block()] }
    }

    pub fn fresh(p: &Parameters, me: u8, value: &[u8]) -> Result<Server, u8> {
        let mut s = Server::empty(p, me);
        // SAFETY: each pointer is that of a slice with the length beside it, and no two of them overlap.
        done(unsafe {
            raw::semduoli_server_fresh(
                p.n,
                p.t,
                p.k,
                p.size,
                me.into(),
                value.as_ptr(),
                value.len(),
                s.area.as_mut_ptr(),
                s.area.len(),
                s.initial.as_mut_ptr(),
                s.initial.len(),
                s.state.as_mut_ptr(),
                s.state.len(),
            )
        })?;
        Ok(s)
    }

    pub fn deliver(&mut self, p: &Parameters, room: &mut Room, from: Party, frame: &[u8]) -> Result<Step, u8> {
        // SAFETY: as in `fresh`.
        let answer = unsafe {
            raw::semduoli_server_deliver(
                p.n,
                p.t,
                p.k,
                p.size,
                self.me.into(),
                from.class.into(),
                from.number.into(),
                frame.as_ptr(),
                frame.len(),
                self.area.as_mut_ptr(),
                self.area.len(),
                self.initial.as_ptr(),
                self.initial.len(),
                self.state.as_mut_ptr(),
                self.state.len(),
                room.out.as_mut_ptr(),
                room.out.len(),
                room.to.as_mut_ptr(),
                room.to.len(),
            )
        };
        room.step(answer)
    }

    /// Plays a trace: hands in the frames of its entries in their order.
    pub fn resume(&mut self, p: &Parameters, room: &mut Room, trace: &[u8]) -> Result<Played, u8> {
        // SAFETY: as in `fresh`.
        let answer = unsafe {
            raw::semduoli_server_resume(
                p.n,
                p.t,
                p.k,
                p.size,
                self.me.into(),
                trace.as_ptr(),
                trace.len(),
                self.area.as_mut_ptr(),
                self.area.len(),
                self.initial.as_ptr(),
                self.initial.len(),
                self.state.as_mut_ptr(),
                self.state.len(),
                room.out.as_mut_ptr(),
                room.out.len(),
                room.to.as_mut_ptr(),
                room.to.len(),
            )
        };
        match answer as u8 {
            0 => Ok(Played { closed: (answer >> 8) as u8, entries: answer >> 24 }),
            refusal => Err(refusal),
        }
    }

    /// The sequence of a client's write that the server works on.
    pub fn open(&self, client: u8) -> u64 {
        // SAFETY: as in `fresh`.
        (unsafe { raw::semduoli_server_open(client.into(), self.state.as_ptr(), self.state.len()) }) >> 16
    }

    pub fn stamp(&self) -> Stamp {
        let mut stamp = [0; STAMP];
        // SAFETY: as in `fresh`.
        unsafe { raw::semduoli_server_stamp(self.state.as_ptr(), self.state.len(), stamp.as_mut_ptr(), STAMP) };
        stamp_of(&stamp)
    }

    /// The digest list of the value that the server holds: the front of its area.
    pub fn digests(&self, p: &Parameters) -> &[u8] {
        &self.area[..(DIGEST * p.n).min(self.area.len())]
    }
}

/// How a trace closed that was played (0 for whole), and how many of its entries were.
#[derive(Clone, Copy, PartialEq, Eq, Debug)]
pub struct Played {
    pub closed: u8,
    pub entries: u64,
}

/// A client's record and rows, and the value of its open write.
#[derive(Clone, PartialEq)]
pub struct Client {
    pub me: u8,
    pub state: Vec<u8>,
    pub rows: Vec<u8>,
    pub value: Vec<u8>,
}

impl Client {
    pub fn fresh(me: u8) -> Client {
        let mut c = Client { me, state: vec![0; CLIENT_RECORD], rows: vec![0; CLIENT_ROWS], value: vec![] };
        // SAFETY: as in `Server::fresh`. It can't be refused: the area has its size.
        unsafe { raw::semduoli_client_fresh(c.state.as_mut_ptr(), c.state.len()) };
        c
    }

    /// Whether an operation is open.
    pub fn is_open(&self) -> bool {
        // SAFETY: as in `Server::fresh`.
        let answer = unsafe { raw::semduoli_client_open(self.state.as_ptr(), self.state.len()) };
        (answer >> 8) as u8 != 0
    }

    /// Begins the write of a value, or a read.
    pub fn begin(&mut self, p: &Parameters, room: &mut Room, value: Option<&[u8]>) -> Result<Step, u8> {
        let (state, length, me) = (self.state.as_mut_ptr(), self.state.len(), usize::from(self.me));
        let (out, out_length) = (room.out.as_mut_ptr(), room.out.len());
        let (to, to_length) = (room.to.as_mut_ptr(), room.to.len());
        // SAFETY: as in `Server::fresh`.
        let answer = unsafe {
            match value {
                None => raw::semduoli_begin_read(p.n, p.t, p.k, p.size, me, state, length, out, out_length, to, to_length),
                Some(v) => raw::semduoli_begin_write(p.n, p.t, p.k, p.size, me, state, length, v.as_ptr(), v.len(), out, out_length, to, to_length),
            }
        };
        let step = room.step(answer)?;
        self.value = value.unwrap_or(&[]).to_vec();
        Ok(step)
    }

    pub fn deliver(&mut self, p: &Parameters, room: &mut Room, from: Party, frame: &[u8]) -> Result<Step, u8> {
        let (mut result, mut stamp) = (vec![0; p.size], [0; STAMP]);
        // SAFETY: as in `Server::fresh`.
        let answer = unsafe {
            raw::semduoli_client_deliver(
                p.n,
                p.t,
                p.k,
                p.size,
                self.me.into(),
                from.class.into(),
                from.number.into(),
                self.value.as_ptr(),
                self.value.len(),
                frame.as_ptr(),
                frame.len(),
                self.rows.as_mut_ptr(),
                self.rows.len(),
                result.as_mut_ptr(),
                result.len(),
                stamp.as_mut_ptr(),
                STAMP,
                self.state.as_mut_ptr(),
                self.state.len(),
                room.out.as_mut_ptr(),
                room.out.len(),
                room.to.as_mut_ptr(),
                room.to.len(),
            )
        };
        let mut step = room.step(answer)?;
        if let End::Value(value, read) = &mut step.end {
            (*value, *read) = (result, stamp_of(&stamp));
        }
        Ok(step)
    }
}

pub fn version() -> u64 {
    // SAFETY: nothing is lent.
    unsafe { raw::semduoli_version() }
}

/// What the proved judge says of a history of at most 64 lines.
#[derive(Clone, PartialEq, Eq, Debug)]
pub enum Judged {
    /// The line numbers in that order.
    Ordered(Vec<u8>),
    /// The lines of a pair that has no order.
    Offending { earlier: u8, later: u8 },
}

pub fn judge(text: &[u8]) -> Result<Judged, u8> {
    let mut lines = [0; LINES];
    // SAFETY: as in `Server::fresh`.
    let answer = unsafe { raw::semduoli_judge(text.as_ptr(), text.len(), lines.as_mut_ptr(), lines.len()) };
    judged(answer, &lines)
}

fn judged(answer: u64, lines: &[u8]) -> Result<Judged, u8> {
    match (answer as u8, (answer >> 8) as u8) {
        (0, 0) => Ok(Judged::Ordered(lines.iter().take((answer >> 16 & 0xffff) as usize).copied().collect())),
        (0, _) => Ok(Judged::Offending { earlier: (answer >> 16) as u8, later: (answer >> 24) as u8 }),
        (refusal, _) => Err(refusal),
    }
}

/// The season sheet of a history that has an order, or the pair that has none.
pub fn sheet(text: &[u8]) -> Result<Result<Vec<u8>, (u8, u8)>, u8> {
    let mut out = vec![0; PAGES_MOST];
    // SAFETY: as in `Server::fresh`.
    let answer = unsafe { raw::semduoli_sheet(text.as_ptr(), text.len(), out.as_mut_ptr(), out.len()) };
    Ok(match judged(answer, &[])? {
        Judged::Ordered(_) => {
            out.truncate((answer >> 16 & 0xffff) as usize * (PAGES_MOST / 2));
            Ok(out)
        }
        Judged::Offending { earlier, later } => Err((earlier, later)),
    })
}

/// The index of accession numbers: a value's number is its first eight bytes, its place is counted from 1 by insertion.
pub struct Index([u8; INDEX]);

impl Index {
    pub fn fresh() -> Index {
        let mut index = [0; INDEX];
        // SAFETY: as in `Server::fresh`. It can't be refused: the area has its size.
        unsafe { raw::semduoli_index_fresh(index.as_mut_ptr(), INDEX) };
        Index(index)
    }

    /// Inserts a value and says its place.
    pub fn insert(&mut self, value: &[u8]) -> Result<usize, u8> {
        // SAFETY: as in `Server::fresh`.
        let answer = unsafe { raw::semduoli_index_insert(value.as_ptr(), value.len(), self.0.as_mut_ptr(), INDEX) };
        match answer as u8 {
            0 => Ok((answer >> 16 & 0xffff) as usize),
            refusal => Err(refusal),
        }
    }

    /// The place of the last inserted value that has the number.
    pub fn search(&self, number: u64) -> Option<usize> {
        // SAFETY: as in `Server::fresh`. It can't be refused: the area has its size.
        let answer = unsafe { raw::semduoli_index_search(number, self.0.as_ptr(), INDEX) };
        Some((answer >> 16 & 0xffff) as usize).filter(|place| *place > 0)
    }
}

/// An entry of a trace: who sent which frame, and the bytes behind it.
pub struct Entry<'a> {
    pub from: Party,
    pub frame: &'a [u8],
    pub rest: &'a [u8],
}

/// The first entry of a trace; none where no bytes are left; the number by which the trace closes there.
pub fn entry(trace: &[u8]) -> Result<Option<Entry<'_>>, u8> {
    // SAFETY: as in `Server::fresh`.
    let answer = unsafe { raw::semduoli_entry_read(trace.as_ptr(), trace.len()) };
    match (answer as u8, (answer >> 8) as u8) {
        (0, 0) => Ok(None),
        (0, _) => {
            let (entry, rest) = trace.split_at(((answer >> 32) as usize).min(trace.len()));
            Ok(Some(Entry { from: Party { class: (answer >> 16) as u8, number: (answer >> 24) as u8 }, frame: &entry[5.min(entry.len())..], rest }))
        }
        (refusal, _) => Err(refusal),
    }
}
