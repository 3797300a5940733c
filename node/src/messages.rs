//! Messages between nodes to bytes and back: type (1), length (3), body. Numbers high byte first.
use crate::bytes::{three, Reader};
use crate::records::Hash;
use crate::streams::StreamId;

/// The version of these messages.
pub const LINK_VERSION: u16 = 1;
const MAGIC: &[u8; 8] = b"SEMDUOLI";
/// The longest message: a greeting.
pub const MESSAGE_MOST: usize = 64 << 10;
const HEAD: usize = 4;
/// The longest text of a bye.
const TEXT_MOST: usize = 200;

/// A batch of a node's log, by its number and chained hash.
#[derive(Clone, Copy, Debug, Default, PartialEq, Eq)]
pub struct Mark {
    pub batch: u64,
    pub hash: Hash,
}

/// One stream between two nodes, as one of them sees it. From the one who greets: the number of its next frame, and from where on the partner has not
/// acknowledged. To the one who greets: the first number that it has not answered for good, on its disk, and the first that has not come.
#[derive(Clone, Copy, Debug, PartialEq, Eq)]
pub struct Line {
    pub stream: StreamId,
    pub next: u64,
    pub acked: u64,
}

#[derive(Clone, Debug, PartialEq, Eq)]
pub struct Hello {
    pub version: u16,
    pub register: [u8; 32],
    pub members: [u8; 32],
    /// The last batch of the own log that is on the disk, and the last one that was seen of the partner's.
    pub own: Mark,
    pub seen: Mark,
    pub lines: Vec<Line>,
}

/// Why a link is closed.
#[derive(Clone, Copy, Debug, PartialEq, Eq)]
pub enum Reason {
    Differs = 1,
    Misbehaved = 2,
    WentBack = 3,
}

#[derive(Clone, Debug, PartialEq, Eq)]
pub enum Message<'a> {
    Hello(Hello),
    Data { stream: StreamId, number: u64, frame: &'a [u8] },
    Ack { stream: StreamId, next: u64 },
    Ping(Mark),
    Bye { reason: u8, text: String },
}

fn put(out: &mut Vec<u8>, kind: u8, parts: &[&[u8]]) {
    out.push(kind);
    out.extend_from_slice(&three(parts.iter().map(|p| p.len()).sum()));
    parts.iter().for_each(|p| out.extend_from_slice(p));
}

pub fn write(out: &mut Vec<u8>, message: &Message) {
    match message {
        Message::Hello(h) => {
            let mut lines = (h.lines.len() as u16).to_be_bytes().to_vec();
            for l in &h.lines {
                lines.extend_from_slice(&l.stream.bytes());
                lines.extend_from_slice(&l.next.to_be_bytes());
                lines.extend_from_slice(&l.acked.to_be_bytes());
            }
            let marks = [h.own.batch.to_be_bytes(), h.seen.batch.to_be_bytes()];
            put(out, b'H', &[MAGIC, &h.version.to_be_bytes(), &h.register, &h.members, &marks[0], &h.own.hash, &marks[1], &h.seen.hash, &lines]);
        }
        Message::Data { stream, number, frame } => put(out, b'D', &[&stream.bytes(), &number.to_be_bytes(), frame]),
        Message::Ack { stream, next } => put(out, b'A', &[&stream.bytes(), &next.to_be_bytes()]),
        Message::Ping(mark) => put(out, b'P', &[&mark.batch.to_be_bytes(), &mark.hash]),
        Message::Bye { reason, text } => put(out, b'B', &[&[*reason], text.as_bytes()]),
    }
}

fn mark(b: &mut Reader) -> Option<Mark> {
    Some(Mark { batch: b.u64()?, hash: b.array()? })
}

fn hello(b: &mut Reader) -> Option<Hello> {
    if &b.array::<8>()? != MAGIC {
        return None;
    }
    let (version, register, members, own, seen) = (b.u16()?, b.array()?, b.array()?, mark(b)?, mark(b)?);
    let lines = (0..b.u16()?).map(|_| Some(Line { stream: StreamId::read(b)?, next: b.u64()?, acked: b.u64()? })).collect::<Option<Vec<Line>>>()?;
    Some(Hello { version, register, members, own, seen, lines })
}

/// A partner's text, of which only what can be printed is kept.
fn printable(text: &[u8]) -> String {
    text.iter().take(TEXT_MOST).map(|b| if (b' '..=b'~').contains(b) { char::from(*b) } else { '?' }).collect()
}

fn body<'a>(kind: u8, b: &mut Reader<'a>) -> Option<Message<'a>> {
    Some(match kind {
        b'H' => Message::Hello(hello(b)?),
        b'D' => {
            let (stream, number) = (StreamId::read(b)?, b.u64()?);
            Message::Data { stream, number, frame: b.take(b.0.len())? }
        }
        b'A' => Message::Ack { stream: StreamId::read(b)?, next: b.u64()? },
        b'P' => Message::Ping(mark(b)?),
        b'B' => Message::Bye { reason: b.u8()?, text: printable(b.take(b.0.len())?) },
        _ => return None,
    })
}

/// What stands at the front of the bytes that came.
#[derive(Debug, PartialEq, Eq)]
pub enum Front<'a> {
    /// A message, and the bytes it takes.
    Whole(Message<'a>, usize),
    /// Not all of it has come.
    Part,
    /// No message begins so.
    None,
}

pub fn read(bytes: &[u8], most: usize) -> Front<'_> {
    let mut b = Reader(bytes);
    let (Some(kind), Some(length)) = (b.u8(), b.u24()) else { return Front::Part };
    if length > most {
        return Front::None;
    }
    let Some(inside) = b.take(length) else { return Front::Part };
    let mut inside = Reader(inside);
    match body(kind, &mut inside) {
        Some(message) if inside.is_empty() => Front::Whole(message, HEAD + length),
        _ => Front::None,
    }
}

#[cfg(test)]
mod tests {
    use super::*;
    use crate::random::Random;
    use crate::sem::Party;

    #[test]
    fn messages_are_read_as_they_were_written() {
        let stream = StreamId { from: Party::server(1), to: Party::client(2), register: 0, owner: 0 };
        let mark = Mark { batch: 77, hash: [3; 16] };
        let line = Line { stream, next: 9, acked: 4 };
        let hello = Hello { version: 1, register: [1; 32], members: [2; 32], own: mark, seen: Mark::default(), lines: vec![line; 3] };
        let all = [
            Message::Hello(hello),
            Message::Data { stream, number: 5, frame: b"abc" },
            Message::Ack { stream, next: 6 },
            Message::Ping(mark),
            Message::Bye { reason: 2, text: "so long".into() },
        ];
        let mut bytes = vec![];
        all.iter().for_each(|m| write(&mut bytes, m));
        let mut rest = &bytes[..];
        for m in &all {
            (1..rest.len().min(4)).for_each(|cut| assert_eq!(read(&rest[..cut], MESSAGE_MOST), Front::Part));
            let Front::Whole(found, length) = read(rest, MESSAGE_MOST) else { panic!("{m:?}") };
            assert_eq!((&found, read(&rest[..length - 1], MESSAGE_MOST)), (m, Front::Part));
            rest = &rest[length..];
        }
        assert!(rest.is_empty());
    }

    #[test]
    fn any_bytes_are_answered() {
        let mut r = Random::new(8);
        for _ in 0..50_000 {
            let length = r.below(200) as usize;
            let mut bytes = r.bytes(length);
            if length > 4 {
                bytes[0] = b"HDAPBX"[r.below(6) as usize];
                (bytes[1], bytes[2], bytes[3]) = (0, 0, r.below(length as u64) as u8);
            }
            if let Front::Whole(Message::Bye { text, .. }, _) = read(&bytes, MESSAGE_MOST) {
                assert!(text.bytes().all(|b| (b' '..=b'~').contains(&b)));
            }
        }
        assert_eq!(read(&[b'P', 0xff, 0xff, 0xff], MESSAGE_MOST), Front::None);
    }
}
