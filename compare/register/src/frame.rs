//! Frames: opening and building. Length (2), version, kind, client, sequence (4), body.

use crate::params::{Params, Refusal, CLIENTS};

/// (time, writer, write sequence), compared in that order.
#[derive(Clone, Copy, Debug, Default, PartialEq, Eq, PartialOrd, Ord, Hash)]
pub struct Stamp {
    pub time: u64,
    pub writer: u8,
    pub sequence: u32,
}

#[derive(Clone, Copy, Debug, PartialEq, Eq, PartialOrd, Ord)]
pub enum Stage {
    Send,
    Echo,
    Ready,
}

#[derive(Clone, Copy, Debug, PartialEq, Eq)]
pub enum Body<'a> {
    GetStamp,
    Stamp {
        time: u64,
    },
    Block {
        stage: Stage,
        time: u64,
        digests: &'a [u8],
        block: &'a [u8],
    },
    Ack,
    Read,
    Value {
        stamp: Stamp,
        digests: &'a [u8],
        block: &'a [u8],
    },
    ReadComplete,
    /// The time that a server has come to.
    Report {
        time: u64,
    },
}

#[derive(Clone, Copy, Debug, PartialEq, Eq)]
pub struct Frame<'a> {
    pub client: u8,
    pub sequence: u32,
    pub body: Body<'a>,
}

pub const HEADER: usize = 9;
/// Where a frame's kind is, and the kinds that tell a server's time.
pub const KIND_AT: usize = 3;
pub const STAMP: u8 = 2;
pub const REPORT: u8 = 13;

impl Body<'_> {
    pub fn kind(&self) -> u8 {
        match self {
            Body::GetStamp => 1,
            Body::Stamp { .. } => 2,
            Body::Block { stage, .. } => 3 + *stage as u8,
            Body::Ack => 9,
            Body::Read => 10,
            Body::Value { .. } => 11,
            Body::ReadComplete => 12,
            Body::Report { .. } => 13,
        }
    }
}

/// Kinds 6, 7 and 8 are retired.
fn is_kind(kind: u8) -> bool {
    matches!(kind, 1..=5 | 9..=13)
}

fn body_length(p: &Params, kind: u8) -> usize {
    match kind {
        2 | 13 => 8,
        3..=5 => 8 + p.list() + p.block(),
        11 => 13 + p.list() + p.block(),
        _ => 0,
    }
}

fn stage(kind: u8) -> Stage {
    match kind {
        3 => Stage::Send,
        4 => Stage::Echo,
        _ => Stage::Ready,
    }
}

/// The client that a frame names, or 0: what names none of 0 to 8 does not open.
pub fn client_named(bytes: &[u8]) -> usize {
    match bytes.get(4) {
        Some(&client) if client as usize <= CLIENTS => client as usize,
        _ => 0,
    }
}

/// Opens a frame, refusals 4 to 9; the parameters are within bounds.
pub fn open<'a>(p: &Params, bytes: &'a [u8]) -> Result<Frame<'a>, Refusal> {
    if bytes.len() < HEADER || bytes.len() - 2 != u16::from_be_bytes([bytes[0], bytes[1]]) as usize {
        return Err(Refusal::FrameLength);
    }
    if bytes[2] != 1 {
        return Err(Refusal::Version);
    }
    let kind = bytes[3];
    if !is_kind(kind) {
        return Err(Refusal::Kind);
    }
    let client = bytes[4];
    let sequence = u32::from_be_bytes(bytes[5..9].try_into().unwrap());
    if client < 1 || client as usize > CLIENTS || sequence == 0 {
        return Err(Refusal::Operation);
    }
    let body = &bytes[HEADER..];
    if body.len() != body_length(p, kind) {
        return Err(Refusal::BodyLength);
    }
    let time = |bytes: &[u8]| u64::from_be_bytes(bytes[..8].try_into().unwrap());
    let body = match kind {
        1 => Body::GetStamp,
        2 => Body::Stamp { time: time(body) },
        3..=5 => {
            let (digests, block) = body[8..].split_at(p.list());
            Body::Block { stage: stage(kind), time: time(body), digests, block }
        }
        9 => Body::Ack,
        10 => Body::Read,
        11 => {
            let stamp = Stamp {
                time: time(body),
                writer: body[8],
                sequence: u32::from_be_bytes(body[9..13].try_into().unwrap()),
            };
            let zeros = [stamp.time == 0, stamp.writer == 0, stamp.sequence == 0];
            let alike = zeros == [true; 3] || zeros == [false; 3];
            if !alike || stamp.writer as usize > CLIENTS {
                return Err(Refusal::Parts);
            }
            let (digests, block) = body[13..].split_at(p.list());
            Body::Value { stamp, digests, block }
        }
        12 => Body::ReadComplete,
        _ => Body::Report { time: time(body) },
    };
    Ok(Frame { client, sequence, body })
}

/// Puts bytes at the front of the rest of an area.
fn put<'a>(area: &'a mut [u8], bytes: &[u8]) -> &'a mut [u8] {
    let (front, rest) = area.split_at_mut(bytes.len());
    front.copy_from_slice(bytes);
    rest
}

/// Writes a frame to the front of an area and gives its length.
pub fn write(frame: &Frame, area: &mut [u8]) -> usize {
    let whole = area.len();
    let rest = put(area, &[0, 0, 1, frame.body.kind(), frame.client]);
    let rest = put(rest, &frame.sequence.to_be_bytes());
    let rest = match frame.body {
        Body::GetStamp | Body::Ack | Body::Read | Body::ReadComplete => rest,
        Body::Stamp { time } | Body::Report { time } => put(rest, &time.to_be_bytes()),
        Body::Block { time, digests, block, .. } => put(put(put(rest, &time.to_be_bytes()), digests), block),
        Body::Value { stamp, digests, block } => {
            let rest = put(rest, &stamp.time.to_be_bytes());
            let rest = put(rest, &[stamp.writer]);
            let rest = put(rest, &stamp.sequence.to_be_bytes());
            put(put(rest, digests), block)
        }
    };
    let length = whole - rest.len();
    area[..2].copy_from_slice(&((length - 2) as u16).to_be_bytes());
    length
}

/// A frame as bytes.
pub fn build(client: u8, sequence: u32, body: Body) -> Vec<u8> {
    let mut area = [0; 22 + 320 + 256];
    let length = write(&Frame { client, sequence, body }, &mut area);
    area[..length].to_vec()
}

#[cfg(test)]
mod tests {
    use super::*;
    use crate::random::Random;

    #[test]
    fn get_stamp_example() {
        let bytes = [0, 7, 1, 1, 2, 0, 0, 0, 5];
        assert_eq!(build(2, 5, Body::GetStamp), bytes);
        let p = Params::new(4, 1, 2, 3);
        assert_eq!(open(&p, &bytes), Ok(Frame { client: 2, sequence: 5, body: Body::GetStamp }));
    }

    fn some_frame(random: &mut Random, p: &Params) -> Vec<u8> {
        let digests = random.bytes(p.list());
        let block = random.bytes(p.block());
        let time = random.word();
        let stamp = if random.chance(1, 4) {
            Stamp::default()
        } else {
            let sequence = (random.word() as u32).max(1);
            Stamp { time: time.max(1), writer: random.range(1, 8) as u8, sequence }
        };
        let stage = random.pick(&[Stage::Send, Stage::Echo, Stage::Ready]);
        let body = match random.below(8) {
            0 => Body::GetStamp,
            1 => Body::Stamp { time },
            2 => Body::Block { stage, time, digests: &digests, block: &block },
            3 => Body::Ack,
            4 => Body::Read,
            5 => Body::Value { stamp, digests: &digests, block: &block },
            6 => Body::Report { time },
            _ => Body::ReadComplete,
        };
        build(random.range(1, 8) as u8, (random.word() as u32).max(1), body)
    }

    /// Kinds 0, 6 to 8 and above 13 are 6, whatever client, sequence and body they have; the others are not.
    #[test]
    fn kinds_that_open() {
        let p = Params::new(4, 1, 2, 3);
        for kind in 0..=255u8 {
            for (client, sequence, body) in [(2, 5, 0), (2, 5, 8), (0, 5, 0), (9, 5, 3), (2, 0, 138)] {
                let mut bytes = vec![0, 7 + body, 1, kind, client, 0, 0, 0, sequence];
                bytes.resize(9 + body as usize, 0);
                let retired = kind == 0 || (6..=8).contains(&kind) || kind > 13;
                assert_eq!(open(&p, &bytes) == Err(Refusal::Kind), retired, "kind {kind}, client {client}");
            }
        }
    }

    /// A report is of 17 bytes; the request's example of a kind that is none is 0E.
    #[test]
    fn report_frames() {
        let p = Params::new(4, 1, 2, 3);
        let body = Body::Report { time: 0x0102030405060708 };
        let mut bytes = vec![0, 15, 1, 13, 2, 0, 0, 0, 5, 1, 2, 3, 4, 5, 6, 7, 8];
        assert_eq!(build(2, 5, body), bytes);
        assert_eq!(open(&p, &bytes), Ok(Frame { client: 2, sequence: 5, body }));
        bytes[3] = 0x0e;
        assert_eq!(open(&p, &bytes), Err(Refusal::Kind));
    }

    /// A frame of a write: the time stands before the digest list.
    #[test]
    fn block_frames() {
        let p = Params::new(4, 1, 2, 3);
        let (digests, block) = ([7; 128], [8, 9]);
        for (stage, kind) in [(Stage::Send, 3), (Stage::Echo, 4), (Stage::Ready, 5)] {
            let body = Body::Block { stage, time: 0x0102030405060708, digests: &digests, block: &block };
            let mut bytes = vec![0, 145, 1, kind, 2, 0, 0, 0, 5, 1, 2, 3, 4, 5, 6, 7, 8];
            bytes.extend(digests);
            bytes.extend(block);
            assert_eq!(build(2, 5, body), bytes);
            assert_eq!(open(&p, &bytes), Ok(Frame { client: 2, sequence: 5, body }));
        }
    }

    /// Frames read back to what was written, and what opens is written the same again.
    #[test]
    fn open_and_build_agree() {
        let mut random = Random::new(3);
        for round in 0..20_000 {
            let sets = Params::all(random.range(1, 256));
            let p = sets[random.below(sets.len())];
            let mut bytes = some_frame(&mut random, &p);
            assert!(open(&p, &bytes).is_ok());
            assert!(bytes.len() <= p.largest());
            if round % 2 == 1 {
                match random.below(4) {
                    0 => {
                        let i = random.below(bytes.len());
                        bytes[i] = random.byte();
                    }
                    1 => {
                        bytes.push(0);
                    }
                    2 => {
                        bytes.pop();
                    }
                    _ => {
                        let length = random.below(30);
                        bytes = random.bytes(length);
                    }
                }
            }
            if let Ok(frame) = open(&p, &bytes) {
                assert_eq!(build(frame.client, frame.sequence, frame.body), bytes);
            }
        }
    }
}
