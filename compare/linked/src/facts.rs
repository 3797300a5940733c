//! What a host may ask of a frame and of an entry of a trace, with anything in the calls.

use crate::calls::raw::{ENTRY_FRAME_MOST as LONGEST, ENTRY_HEAD as HEAD, TIME};
use crate::calls::Sender;
use crate::{calls, pattern, same_answer, same_bytes, Difference, Seen};
use register::any::{bounds, client_call, server_call};
use register::frame::{open, Body};
use register::playback::{entries, write_entry, Entry};
use register::random::Random;
use register::traces::playback_call;
use register::Party;

fn time_of(body: &Body) -> Option<u64> {
    match *body {
        Body::Stamp { time } | Body::Block { time, .. } | Body::Report { time } => Some(time),
        Body::Value { stamp, .. } => Some(stamp.time),
        Body::GetStamp | Body::Ack | Body::Read | Body::ReadComplete => None,
    }
}

/// A frame's kind, client and sequence, and the time that it carries, in half of the frames any time.
pub fn frame(seed: u64) -> Result<Seen, Difference> {
    let mut random = Random::new(seed);
    let (p, mut frame) = if random.chance(1, 2) {
        let c = server_call(&mut random);
        (c.p, c.frame)
    } else {
        let c = client_call(&mut random);
        (c.p, c.frame)
    };
    if random.chance(1, 2) && frame.len() >= 17 {
        frame[9..17].copy_from_slice(&random.bytes(TIME));
    }
    let room = if random.chance(1, 10) { random.below(TIME) } else { TIME + random.below(3) };
    let (mut time, mut expected_time) = (pattern(room, seed), pattern(room, seed));
    let opened = match bounds(&p, 1, 1) {
        Some(number) => Err(number),
        None => open(&p, &frame).map_err(|refusal| refusal.number()),
    };
    let (header, timed) = match opened {
        Err(number) => (number as u64, number as u64),
        Ok(f) => {
            let header = (f.body.kind() as u64) << 8 | (f.client as u64) << 16 | (f.sequence as u64) << 24;
            let timed = match time_of(&f.body) {
                _ if room < TIME => 10,
                None => 0,
                Some(time) => {
                    expected_time[..TIME].copy_from_slice(&time.to_be_bytes());
                    1 << 8
                }
            };
            (header, timed)
        }
    };
    let at = |difference| format!("{p:?}, {frame:02x?}: {difference}");
    same_answer(calls::frame_header(&p, &frame), header).map_err(at)?;
    let answer = calls::frame_time(&p, &frame, &mut time);
    same_answer(answer, timed).map_err(at)?;
    same_bytes("time", &time, &expected_time).map_err(at)?;
    Ok(Seen::of(answer))
}

/// All entries of a trace, read one after the other up to where it ends.
fn read_all(trace: &[u8]) -> Result<Seen, Difference> {
    let (found, closing) = entries(trace);
    let (mut rest, mut seen) = (trace, Seen::default());
    for Entry { from, frame } in found {
        let (sender, length) = (Sender::from(from), HEAD + frame.len());
        let answer = calls::entry_read(rest);
        let expected =
            1 << 8 | (sender.class as u64) << 16 | (sender.number as u64) << 24 | (length as u64) << 32;
        same_answer(answer, expected)?;
        same_bytes("frame", &rest[HEAD..length], frame)?;
        rest = &rest[length..];
        seen = seen.and(Seen::of(answer));
    }
    let answer = calls::entry_read(rest);
    same_answer(answer, closing.number() as u64)?;
    Ok(seen.and(Seen::of(answer)))
}

/// An entry written, of a sender with any class and number and a frame of any length, into an area of any length.
fn write_any(random: &mut Random, seed: u64) -> Result<Seen, Difference> {
    let length = random.pick(&[0, 1, 9, 17, 152, 598, LONGEST, LONGEST + 1]);
    let frame = random.bytes(length);
    let class = random.pick(&[0, 0, 0, 1, 1, 1, 2, 256, usize::MAX]);
    let number = random.pick(&[0, 1, 3, 8, 10, 11, 254, 255, 256, usize::MAX]);
    let room = match random.below(8) {
        0 => 0,
        1 => HEAD + length - 1,
        2 => random.below(HEAD + length),
        _ => HEAD + length + random.below(3),
    };
    let (mut out, mut expected_out) = (pattern(room, seed), pattern(room, seed));
    let expected = if length > LONGEST {
        3
    } else if room < HEAD + length {
        10
    } else if class > 1 || number > 255 {
        11
    } else {
        let sender = if class == 0 { Party::Client(number) } else { Party::Server(number) };
        expected_out[..HEAD + length].copy_from_slice(&write_entry(sender, &frame));
        ((HEAD + length) as u64) << 16
    };
    let answer = calls::entry_write(Sender { class, number }, &frame, &mut out);
    let at = |difference| format!("class {class}, number {number}, {length} bytes: {difference}");
    same_answer(answer, expected).map_err(at)?;
    same_bytes("out", &out, &expected_out).map_err(at)?;
    Ok(Seen::of(answer))
}

/// A trace that is read, in two of five cases damaged, and an entry that is written.
pub fn entry(seed: u64) -> Result<Seen, Difference> {
    let mut random = Random::new(seed);
    let trace = playback_call(&mut random).trace;
    let read = read_all(&trace).map_err(|difference| format!("{trace:02x?}: {difference}"))?;
    Ok(read.and(write_any(&mut random, seed)?))
}
