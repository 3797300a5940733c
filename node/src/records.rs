//! Records of the log to bytes and back: type (1), length (3), body. Numbers high byte first.
use crate::bytes::{three, Reader};
use crate::sem::{self, Party, STAMP};
use crate::streams::StreamId;

pub const STEP: u8 = 1;
pub const BEGIN: u8 = 2;
pub const ENDED: u8 = 3;
pub const PLACE: u8 = 4;
pub const ACKED: u8 = 5;
pub const START: u8 = 6;
pub const GIVEN_UP: u8 = 7;
pub const SEEN: u8 = 8;
pub const SIGN: u8 = 9;

/// The version of a trace's entries.
const ENTRY: u8 = 1;
/// Bytes of an entry's front: its version and the sender's class and number.
const ENTRY_FRONT: usize = 3;

pub type Hash = [u8; 16];

#[derive(Clone, Copy, Debug, PartialEq, Eq)]
pub enum Record<'a> {
    /// A frame was handed in and taken. `entry` is the trace's entry, `sent` as `sent_bytes` writes it.
    Step { stream: StreamId, number: u64, entry: &'a [u8], frame: &'a [u8], sent: &'a [u8] },
    /// A desk began a read, or the write of a value.
    Begin { client: u8, register: u8, tick: u32, wall: u64, value: Option<&'a [u8]>, sent: &'a [u8] },
    /// A desk's operation ended; the stamp is 0 where it has none.
    Ended { client: u8, register: u8, tick: u32, wall: u64, outcome: u8, stamp: [u8; STAMP] },
    /// Frames of a stream are answered for good up to here, the last of them refused.
    Place { stream: StreamId, next: u64 },
    /// The partner has them up to here.
    Acked { stream: StreamId, next: u64 },
    /// The program began; the node's parties, two bytes each.
    Start { pid: u32, parties: &'a [u8], version: &'a [u8] },
    /// A server was given up: nothing is owed to it any more.
    GivenUp { party: Party },
    /// The last batch of a node's log that this node was told of.
    Seen { node: u8, batch: u64, hash: Hash },
    /// A node told this one that it has lost state.
    Sign { node: u8 },
}

/// Outcomes of `Ended`.
pub mod outcome {
    pub const WRITTEN: u8 = 1;
    pub const OUT_OF_STAMPS: u8 = 2;
    pub const VALUE: u8 = 3;
    pub const DISAGREEMENT: u8 = 4;
}

fn put(batch: &mut Vec<u8>, kind: u8, parts: &[&[u8]]) {
    batch.push(kind);
    batch.extend_from_slice(&three(parts.iter().map(|p| p.len()).sum()));
    parts.iter().for_each(|p| batch.extend_from_slice(p));
}

/// A step's record. The frame is at most 65,532 bytes.
pub fn step(batch: &mut Vec<u8>, stream: &StreamId, number: u64, frame: &[u8], sent: &[u8]) {
    let length = ((ENTRY_FRONT + frame.len()) as u16).to_be_bytes();
    let entry = [length[0], length[1], ENTRY, stream.from.class, stream.from.number];
    put(batch, STEP, &[&stream.bytes(), &number.to_be_bytes(), &entry, frame, sent]);
}

pub fn write(batch: &mut Vec<u8>, record: &Record) {
    match record {
        Record::Step { stream, number, frame, sent, .. } => step(batch, stream, *number, frame, sent),
        Record::Begin { client, register, tick, wall, value, sent } => {
            let kind = if value.is_some() { b'W' } else { b'R' };
            let value = value.unwrap_or(&[]);
            let length = (value.len() as u16).to_be_bytes();
            put(batch, BEGIN, &[&[*client, *register, kind], &tick.to_be_bytes(), &wall.to_be_bytes(), &length, value, sent]);
        }
        Record::Ended { client, register, tick, wall, outcome, stamp } => {
            put(batch, ENDED, &[&[*client, *register], &tick.to_be_bytes(), &wall.to_be_bytes(), &[*outcome], stamp]);
        }
        Record::Place { stream, next } => put(batch, PLACE, &[&stream.bytes(), &next.to_be_bytes()]),
        Record::Acked { stream, next } => put(batch, ACKED, &[&stream.bytes(), &next.to_be_bytes()]),
        Record::Start { pid, parties, version } => {
            put(batch, START, &[&pid.to_be_bytes(), &[(parties.len() / 2) as u8], parties, version]);
        }
        Record::Seen { node, batch: number, hash } => put(batch, SEEN, &[&[*node], &number.to_be_bytes(), hash]),
        Record::Sign { node } => put(batch, SIGN, &[&[*node]]),
        Record::GivenUp { party } => put(batch, GIVEN_UP, &[&[party.class, party.number]]),
    }
}

fn body(kind: u8, b: &mut Reader<'_>) -> Option<Record<'static>> {
    Some(match kind {
        PLACE => Record::Place { stream: StreamId::read(b)?, next: b.u64()? },
        ACKED => Record::Acked { stream: StreamId::read(b)?, next: b.u64()? },
        SEEN => Record::Seen { node: b.u8()?, batch: b.u64()?, hash: b.array()? },
        SIGN => Record::Sign { node: b.u8()? },
        GIVEN_UP => Record::GivenUp { party: Party { class: b.u8()?, number: b.u8()? } },
        ENDED => Record::Ended { client: b.u8()?, register: b.u8()?, tick: b.u32()?, wall: b.u64()?, outcome: b.u8()?, stamp: b.array()? },
        _ => return None,
    })
}

fn long_body<'a>(kind: u8, b: &mut Reader<'a>) -> Option<Record<'a>> {
    Some(match kind {
        STEP => {
            let (stream, number) = (StreamId::read(b)?, b.u64()?);
            let entry = b.frame()?;
            let (front, frame) = entry.get(2..)?.split_at_checked(ENTRY_FRONT)?;
            if front != [ENTRY, stream.from.class, stream.from.number] {
                return None;
            }
            Record::Step { stream, number, entry, frame, sent: b.take(b.0.len())? }
        }
        BEGIN => {
            let (client, register, kind, tick, wall) = (b.u8()?, b.u8()?, b.u8()?, b.u32()?, b.u64()?);
            let length = b.u16()?;
            let value = b.take(length.into())?;
            let value = match kind {
                b'W' => Some(value),
                b'R' if value.is_empty() => None,
                _ => return None,
            };
            Record::Begin { client, register, tick, wall, value, sent: b.take(b.0.len())? }
        }
        START => {
            let (pid, count) = (b.u32()?, b.u8()?);
            Record::Start { pid, parties: b.take(2 * usize::from(count))?, version: b.take(b.0.len())? }
        }
        _ => return body(kind, b),
    })
}

/// The records of a batch's payload, in order; an error, once, at the first bytes that are none.
pub struct Records<'a>(Reader<'a>);

pub fn read(payload: &[u8]) -> Records<'_> {
    Records(Reader(payload))
}

#[derive(Debug, PartialEq, Eq)]
pub struct NoRecord;

impl<'a> Iterator for Records<'a> {
    type Item = Result<Record<'a>, NoRecord>;

    fn next(&mut self) -> Option<Self::Item> {
        if self.0.is_empty() {
            return None;
        }
        let record = (|| {
            let (kind, length) = (self.0.u8()?, self.0.u24()?);
            let mut b = Reader(self.0.take(length)?);
            let record = long_body(kind, &mut b)?;
            b.is_empty().then_some(record)
        })();
        if record.is_none() {
            self.0 = Reader(&[]);
        }
        Some(record.ok_or(NoRecord))
    }
}

/// What a step sends, each frame once: count of groups (1); of each the receivers (1), for each class, number and stream number (10), then the frame.
pub fn sent_bytes(sent: &[sem::Sent], numbers: &[u64]) -> Vec<u8> {
    let mut bytes = vec![0];
    let mut at = 0;
    while let Some(first) = sent.get(at) {
        let same = sent[at..].iter().take_while(|s| s.frame == first.frame).count().min(usize::from(u8::MAX));
        bytes[0] += 1;
        bytes.push(same as u8);
        for (s, number) in sent[at..].iter().zip(&numbers[at..]).take(same) {
            bytes.extend_from_slice(&[s.to.class, s.to.number]);
            bytes.extend_from_slice(&number.to_be_bytes());
        }
        bytes.extend_from_slice(&first.frame);
        at += same;
    }
    bytes
}

/// The receivers, numbers and frames of what a step sent.
pub fn sent_read(bytes: &[u8]) -> Option<Vec<(Party, u64, &[u8])>> {
    let mut b = Reader(bytes);
    let mut all = vec![];
    for _ in 0..b.u8()? {
        let count = b.u8()?;
        let from = all.len();
        for _ in 0..count {
            all.push((Party { class: b.u8()?, number: b.u8()? }, b.u64()?, &bytes[..0]));
        }
        let frame = b.frame()?;
        all[from..].iter_mut().for_each(|s| s.2 = frame);
    }
    b.is_empty().then_some(all)
}

#[cfg(test)]
mod tests {
    use super::*;
    use crate::random::Random;

    fn some_stream(r: &mut Random) -> StreamId {
        let mut party = || Party { class: r.below(2) as u8, number: 1 + r.below(8) as u8 };
        StreamId { from: party(), to: party(), register: 0, owner: 3 }
    }

    #[test]
    fn records_are_read_as_they_were_written() {
        let mut r = Random::new(1);
        for _ in 0..2000 {
            let bytes = r.bytes(40);
            let (stream, number) = (some_stream(&mut r), r.next());
            let (a, b) = bytes.split_at(r.below(41) as usize);
            let mut entry = ((3 + a.len()) as u16).to_be_bytes().to_vec();
            entry.extend_from_slice(&[1, stream.from.class, stream.from.number]);
            entry.extend_from_slice(a);
            let all = [
                Record::Step { stream, number, entry: &entry, frame: a, sent: b },
                Record::Begin { client: 3, register: 0, tick: 7, wall: number, value: Some(a), sent: b },
                Record::Begin { client: 3, register: 0, tick: 7, wall: number, value: None, sent: b },
                Record::Ended { client: 1, register: 0, tick: 9, wall: number, outcome: outcome::VALUE, stamp: [5; STAMP] },
                Record::Place { stream, next: number },
                Record::Acked { stream, next: number },
                Record::Start { pid: 5, parties: &[1, 2, 0, 3], version: a },
                Record::Seen { node: 2, batch: number, hash: [7; 16] },
                Record::Sign { node: 3 },
                Record::GivenUp { party: stream.to },
            ];
            let mut payload = vec![];
            all.iter().for_each(|record| write(&mut payload, record));
            let back: Vec<_> = read(&payload).map(|r| r.expect("a record")).collect();
            assert_eq!(back, all);
            // cut anywhere but between two records, it is an error, and the only one
            let cut = r.below(payload.len() as u64) as usize;
            assert!(read(&payload[..cut]).filter(Result::is_err).count() <= 1);
            let whole: usize = read(&payload[..cut]).filter(Result::is_ok).count();
            assert!(whole < all.len());
        }
    }

    #[test]
    fn any_bytes_are_answered() {
        let mut r = Random::new(2);
        for _ in 0..20_000 {
            let length = r.below(80) as usize;
            let mut bytes = r.bytes(length);
            if length > 4 {
                (bytes[0], bytes[1], bytes[2]) = (r.below(10) as u8, 0, 0);
                bytes[3] = r.below(length as u64) as u8;
            }
            let all: Vec<_> = read(&bytes).collect();
            assert!(all.iter().take(all.len().saturating_sub(1)).all(Result::is_ok));
            let _ = sent_read(&bytes);
        }
        assert_eq!(read(&[0, 0, 0, 0]).next(), Some(Err(NoRecord)), "type 0 is no record");
    }

    #[test]
    fn what_a_step_sends_is_read_as_it_was_written() {
        let frame = |b: u8| -> std::rc::Rc<[u8]> { vec![0, 2, b, b].into() };
        let to = |number| Party::server(number);
        let sent: Vec<sem::Sent> = [(1, 5), (2, 5), (3, 6), (1, 5)].iter().map(|(n, b)| sem::Sent { to: to(*n), frame: frame(*b) }).collect();
        let numbers = [10, 20, 30, 11];
        let bytes = sent_bytes(&sent, &numbers);
        assert_eq!(bytes[0], 3, "three groups");
        let back = sent_read(&bytes).expect("read");
        assert!(back.iter().zip(&sent).zip(numbers).all(|((b, s), n)| b.0 == s.to && b.1 == n && *b.2 == *s.frame));
        assert_eq!(back.len(), 4);
    }
}
