//! Playing back a trace: entries that were recorded at a server, handed to a fresh one in their order. `play` follows the request's
//! words with the clear server and can be told to be wrong by a hair; `play_lent` does the same on `flat`'s records and lent areas.

use crate::flat;
use crate::layout;
use crate::params::{Params, Party, Refusal, Send};
use crate::server::Server;

/// Bytes of an entry's length field, and of what stands before its frame.
const LENGTH: usize = 2;
const HEAD: usize = 5;
/// The least that a length may be: version, class and number.
const LEAST: usize = 3;

/// Bytes of the out area before an entry's frames, and before each frame.
const REPLY: usize = 3;
const RECEIVER: usize = 2;

/// Deliberately wrong readings of the request. Tests switch them on to show that they are found.
#[derive(Clone, Copy, Debug, PartialEq, Eq)]
pub enum Reading {
    Right,
    /// 23 is looked for before 22.
    CutFirst,
    /// A length under 4 is malformed.
    LengthUnderFour,
    /// The class is looked at only in whole entries.
    ClassOfWhole,
    /// The length counts its own two bytes too.
    LengthOfAll,
    /// A frame that is turned down ends the playback.
    EndsAtRefusal,
    /// Frames lie in the out area without their receivers.
    NoReceivers,
    /// Room is asked for the closing entry too.
    RoomForClosing,
    /// The count of frames has one byte.
    ShortCount,
}

impl Reading {
    pub const WRONG: [Reading; 8] = [
        Reading::CutFirst,
        Reading::LengthUnderFour,
        Reading::ClassOfWhole,
        Reading::LengthOfAll,
        Reading::EndsAtRefusal,
        Reading::NoReceivers,
        Reading::RoomForClosing,
        Reading::ShortCount,
    ];
}

/// How a trace ends.
#[derive(Clone, Copy, Debug, PartialEq, Eq)]
#[repr(u8)]
pub enum Closing {
    Whole = 0,
    Malformed = 22,
    Cut = 23,
}

impl Closing {
    pub fn number(self) -> u8 {
        self as u8
    }
}

/// A frame as it was handed in, with its sender.
#[derive(Clone, Copy, Debug, PartialEq, Eq)]
pub struct Entry<'a> {
    pub from: Party,
    pub frame: &'a [u8],
}

fn class_of(party: Party) -> (u8, usize) {
    match party {
        Party::Client(c) => (0, c),
        Party::Server(j) => (1, j),
    }
}

fn party(class: u8, number: u8) -> Party {
    match class {
        0 => Party::Client(number as usize),
        _ => Party::Server(number as usize),
    }
}

/// An entry as bytes. A number above 255 is written as 255, which is nobody's either.
pub fn write_entry(from: Party, frame: &[u8]) -> Vec<u8> {
    let (class, number) = class_of(from);
    let length = u16::try_from(LEAST + frame.len()).expect("a frame of at most 65,532 bytes");
    let mut bytes = length.to_be_bytes().to_vec();
    bytes.extend([1, class, number.min(255) as u8]);
    bytes.extend(frame);
    bytes
}

/// The first entry of what is left of a trace, and what is left behind it; or how the trace ends here.
fn first_entry(rest: &[u8], reading: Reading) -> Result<(Entry<'_>, &[u8]), Closing> {
    if rest.is_empty() {
        return Err(Closing::Whole);
    }
    let itself = if reading == Reading::LengthOfAll { 0 } else { LENGTH };
    let length = rest.get(..LENGTH).map(|bytes| u16::from_be_bytes([bytes[0], bytes[1]]) as usize);
    let ends = length.map(|length| length + itself).filter(|&end| end <= rest.len());
    let least = if reading == Reading::LengthUnderFour { 4 } else { LEAST } + LENGTH - itself;
    let class = if reading == Reading::ClassOfWhole && ends.is_none() { None } else { rest.get(3) };
    let malformed = length.is_some_and(|length| length < least)
        || rest.get(2).is_some_and(|&version| version != 1)
        || class.is_some_and(|&class| class > 1);
    match ends {
        None if reading == Reading::CutFirst => Err(Closing::Cut),
        _ if malformed => Err(Closing::Malformed),
        None => Err(Closing::Cut),
        Some(end) => Ok((Entry { from: party(rest[3], rest[4]), frame: &rest[HEAD..end] }, &rest[end..])),
    }
}

fn entries_by(trace: &[u8], reading: Reading) -> (Vec<Entry<'_>>, Closing) {
    let mut found = Vec::new();
    let mut rest = trace;
    loop {
        match first_entry(rest, reading) {
            Ok((entry, behind)) => {
                found.push(entry);
                rest = behind;
            }
            Err(closing) => return (found, closing),
        }
    }
}

/// The entries of a trace up to where it ends, and how it ends there.
pub fn entries(trace: &[u8]) -> (Vec<Entry<'_>>, Closing) {
    entries_by(trace, Reading::Right)
}

/// Bytes that each entry played asks of the out area.
pub fn need(p: &Params) -> usize {
    REPLY + p.server_frames() * (p.largest() + RECEIVER)
}

/// Whether an out area of that many bytes holds so many entries: the product may be above any number, so it is not taken.
fn has_room(p: &Params, entries: usize, out: usize) -> bool {
    out / need(p) >= entries
}

/// What an entry was answered: 0 and the frames sent, or the refusal's number.
#[derive(Clone, Debug, PartialEq, Eq)]
pub struct Reply {
    pub number: u8,
    pub sends: Vec<Send>,
}

impl Reply {
    pub fn of(answer: Result<Vec<Send>, Refusal>) -> Reply {
        match answer {
            Ok(sends) => Reply { number: 0, sends },
            Err(refusal) => Reply { number: refusal.number(), sends: Vec::new() },
        }
    }
}

fn put_reply(reply: &Reply, reading: Reading, out: &mut Vec<u8>) {
    out.push(reply.number);
    match reading {
        Reading::ShortCount => out.push(reply.sends.len() as u8),
        _ => out.extend((reply.sends.len() as u16).to_be_bytes()),
    }
    for Send { to, frame } in &reply.sends {
        if reading != Reading::NoReceivers {
            let (class, number) = class_of(*to);
            out.extend([class, number as u8]);
        }
        out.extend(frame);
    }
}

/// The replies that the out area's bytes tell, and how many bytes they are; none where the bytes end before.
pub fn replies_in(out: &[u8], entries: usize) -> Option<(Vec<Reply>, usize)> {
    let mut at = 0;
    let mut replies = Vec::new();
    for _ in 0..entries {
        let head = out.get(at..at + REPLY)?;
        at += REPLY;
        let mut sends = Vec::new();
        for _ in 0..u16::from_be_bytes([head[1], head[2]]) {
            let receiver = out.get(at..at + RECEIVER)?;
            at += RECEIVER;
            let length = out.get(at..at + 2)?;
            let length = 2 + u16::from_be_bytes([length[0], length[1]]) as usize;
            sends.push(Send {
                to: party(receiver[0], receiver[1]),
                frame: out.get(at..at + length)?.to_vec(),
            });
            at += length;
        }
        replies.push(Reply { number: head[0], sends });
    }
    Some((replies, at))
}

/// A playback's result: the reply to each entry played, how the trace ended, and the server as it then is.
#[derive(Clone, Debug)]
pub struct Played {
    pub replies: Vec<Reply>,
    pub closing: Closing,
    pub server: Server,
    reading: Reading,
}

impl Played {
    /// The bytes at the front of the out area.
    pub fn out(&self) -> Vec<u8> {
        let mut out = Vec::new();
        for reply in &self.replies {
            put_reply(reply, self.reading, &mut out);
        }
        out
    }
}

/// Plays a trace back from a fresh server, with an out area of `room` bytes. Refusals 1, 2, 3, 10.
pub fn play(
    p: Params,
    own: usize,
    initial: &[u8],
    trace: &[u8],
    room: usize,
    reading: Reading,
) -> Result<Played, Refusal> {
    let mut server = Server::fresh(p, own, initial)?;
    let (entries, closing) = entries_by(trace, reading);
    let counted = match (reading, closing) {
        (Reading::RoomForClosing, Closing::Malformed | Closing::Cut) => entries.len() + 1,
        _ => entries.len(),
    };
    if !has_room(&p, counted, room) {
        return Err(Refusal::Room);
    }
    let mut replies = Vec::new();
    for Entry { from, frame } in entries {
        let step = server.deliver(from, frame, p.server_room());
        replies.push(Reply::of(step.map(|step| step.sends)));
        if reading == Reading::EndsAtRefusal && step_refused(&replies) {
            break;
        }
    }
    Ok(Played { replies, closing, server, reading })
}

fn step_refused(replies: &[Reply]) -> bool {
    replies.last().is_some_and(|reply| reply.number != 0)
}

/// What a playback on lent areas answers.
#[derive(Clone, Copy, Debug, PartialEq, Eq)]
pub struct Done {
    pub played: usize,
    /// Bytes of the out area used.
    pub bytes: usize,
    pub closing: Closing,
}

/// The areas of a playback: the server's record and state area, its block of the initial value, and the out area.
#[derive(Clone, Debug, PartialEq, Eq)]
pub struct Areas {
    pub state: Vec<u8>,
    pub area: Vec<u8>,
    pub initial: Vec<u8>,
    pub out: Vec<u8>,
}

/// Plays a trace back on lent areas. A refusal changes none of them; bytes of the out area behind the used ones stay as lent.
pub fn play_lent(
    p: &Params,
    own: usize,
    value: &[u8],
    trace: &[u8],
    lent: &mut Areas,
) -> Result<Done, Refusal> {
    let Areas { state, area, initial, out } = lent;
    p.check_server(own)?;
    if value.len() != p.l {
        return Err(Refusal::ValueLength);
    }
    let (entries, closing) = entries(trace);
    if state.len() < layout::SERVER || !has_room(p, entries.len(), out.len()) {
        return Err(Refusal::Room);
    }
    let mut server = flat::Server::fresh(p, own, value, initial, area)?;
    let (mut sent, mut to) = (vec![0; p.server_room()], vec![0; 2 * p.server_frames()]);
    let mut bytes = 0;
    for entry in &entries {
        let Entry { from, frame } = *entry;
        let step = server.deliver(p, own, initial, area, from, frame, &mut sent, &mut to);
        bytes += put_step(step, &sent, &to, &mut out[bytes..]);
    }
    layout::put_server(&server, state);
    Ok(Done { played: entries.len(), bytes, closing })
}

/// What a server keeps, its record and state area, and the areas for the frames and receivers of one step.
#[derive(Clone, Debug, PartialEq, Eq)]
pub struct Kept {
    pub state: Vec<u8>,
    pub area: Vec<u8>,
    pub out: Vec<u8>,
    pub to: Vec<u8>,
}

impl Kept {
    fn has_room(&self, p: &Params, initial: usize) -> bool {
        self.state.len() >= layout::SERVER
            && self.area.len() >= flat::STATE_AREA
            && initial >= p.block()
            && self.out.len() >= p.server_room()
            && self.to.len() >= 2 * p.server_frames()
    }
}

/// Hands the entries of a trace to the server of a kept record, one after the other. A frame that is turned down changes nothing; a step writes the bytes
/// of the record that it touches, and uses the areas for frames and receivers again. Refusals 1, 2, 3, 10.
pub fn resume_lent(
    p: &Params,
    own: usize,
    initial: &[u8],
    trace: &[u8],
    kept: &mut Kept,
) -> Result<Done, Refusal> {
    p.check_server(own)?;
    if !kept.has_room(p, initial.len()) {
        return Err(Refusal::Room);
    }
    let (entries, closing) = entries(trace);
    let Kept { state, area, out, to } = kept;
    for &Entry { from, frame } in &entries {
        let mut server = layout::server_in(state);
        if let Ok(done) = server.deliver(p, own, initial, area, from, frame, out, to) {
            layout::put_step(&server, from, frame, done.outcome, state);
        }
    }
    Ok(Done { played: entries.len(), bytes: 0, closing })
}

/// Writes a step's reply to the front of the out area and gives its bytes.
fn put_step(step: Result<flat::Done, Refusal>, sent: &[u8], to: &[u8], out: &mut [u8]) -> usize {
    let (number, frames) = match step {
        Ok(done) => (0, done.frames),
        Err(refusal) => (refusal.number(), 0),
    };
    out[0] = number;
    out[1..REPLY].copy_from_slice(&(frames as u16).to_be_bytes());
    let (mut at, mut from) = (REPLY, 0);
    for i in 0..frames {
        let length = 2 + u16::from_be_bytes([sent[from], sent[from + 1]]) as usize;
        out[at..at + RECEIVER].copy_from_slice(&to[2 * i..2 * i + 2]);
        at += RECEIVER;
        out[at..at + length].copy_from_slice(&sent[from..from + length]);
        at += length;
        from += length;
    }
    at
}

#[cfg(test)]
mod tests {
    use super::*;

    /// No product of entries and need is too large to be compared.
    #[test]
    fn room_without_overflow() {
        for p in Params::all(256) {
            let most = usize::MAX / need(&p);
            assert!(has_room(&p, most, usize::MAX));
            assert!(!has_room(&p, most + 1, usize::MAX));
            assert!(!has_room(&p, usize::MAX, usize::MAX));
            assert!(has_room(&p, 0, 0) && !has_room(&p, 1, 0));
            for entries in [1, 2, 1000] {
                assert!(has_room(&p, entries, entries * need(&p)));
                assert!(!has_room(&p, entries, entries * need(&p) - 1));
            }
        }
        assert_eq!(need(&Params::new(10, 1, 1, 256)), 3 + 226 * 600);
    }
}
