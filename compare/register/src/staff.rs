//! What the staff's program prints of a trace that is played back: a line for each entry, and a summary.

use crate::params::{Params, Party, Send};
use crate::playback::{entries, play, Closing, Played, Reading};
use std::fmt::Write;

fn party(party: Party) -> String {
    match party {
        Party::Client(c) => format!("client {c}"),
        Party::Server(j) => format!("server {j}"),
    }
}

fn refusal(number: u8) -> &'static str {
    match number {
        1 => "n, t or own number out of bounds",
        2 => "k out of bounds",
        3 => "L out of bounds, or the initial value not that long",
        4 => "frame under 9 bytes, or its length wrong",
        5 => "frame's version not 1",
        6 => "no kind, or a retired one",
        7 => "client not 1 to 8, or sequence 0",
        8 => "body length wrong for the kind",
        9 => "stamp parts mixed, or writer above 8",
        10 => "lent area short",
        11 => "not from this sender to a server",
        12 => "old, repeated or not awaited",
        13 => "above the open sequence",
        14 => "block against its digest",
        _ => "unknown",
    }
}

/// A frame's kind, client and sequence, as far as it has them.
fn frame_words(frame: &[u8]) -> String {
    let &[_, _, _, kind, client, a, b, c, d, ..] = frame else { return format!("{} bytes", frame.len()) };
    let kind = match kind {
        1 => "get-stamp".to_string(),
        2 => "stamp".to_string(),
        3 => "send".to_string(),
        4 => "echo".to_string(),
        5 => "ready".to_string(),
        9 => "ack".to_string(),
        10 => "read".to_string(),
        11 => "value".to_string(),
        12 => "read-complete".to_string(),
        13 => "report".to_string(),
        other => format!("kind {other}"),
    };
    format!("{kind} of client {client}, sequence {}", u32::from_be_bytes([a, b, c, d]))
}

fn hex(bytes: &[u8]) -> String {
    bytes.iter().map(|byte| format!("{byte:02x}")).collect()
}

/// So many of what the word names.
fn counted(count: usize, word: &str) -> String {
    format!("{count} {word}{}", if count == 1 { "" } else { "s" })
}

fn lines(trace: &[u8], played: &Played, frames_too: bool) -> String {
    let mut text = String::new();
    for (i, (entry, reply)) in entries(trace).0.iter().zip(&played.replies).enumerate() {
        let answer = match reply.number {
            0 => format!("step, {}", counted(reply.sends.len(), "frame")),
            number => format!("refused {number}, {}", refusal(number)),
        };
        let words = frame_words(entry.frame);
        writeln!(text, "{}: {}, {words}: {answer}", i + 1, party(entry.from)).unwrap();
        for Send { to, frame } in reply.sends.iter().filter(|_| frames_too) {
            writeln!(text, "  > {}, {}: {}", party(*to), frame_words(frame), hex(frame)).unwrap();
        }
    }
    text
}

fn summary(played: &Played) -> String {
    let count = played.replies.len();
    let by = |number: u8| played.replies.iter().filter(|reply| reply.number == number).count();
    let frames: usize = played.replies.iter().map(|reply| reply.sends.len()).sum();
    let steps = by(0);
    let (took, sent) = (counted(steps, "step"), counted(frames, "frame"));
    let mut text = format!("played {count}: {took}, {} turned down, {sent} sent\n", count - steps);
    for number in (1..=u8::MAX).filter(|&number| by(number) > 0) {
        writeln!(text, "refused {number}, {}: {}", refusal(number), by(number)).unwrap();
    }
    match played.closing {
        Closing::Whole => text += "whole\n",
        Closing::Malformed => text += &format!("closed 22 at entry {}, entry malformed\n", count + 1),
        Closing::Cut => {
            text += &format!("closed 23 at entry {}, the trace ends inside this entry\n", count + 1)
        }
    }
    let (stamp, block) = (played.server.stamp, hex(&played.server.present.block));
    text + &format!("stamp {} {} {}\nblock {block}\n", stamp.time, stamp.writer, stamp.sequence)
}

/// All that the program prints, with the frames sent or without.
pub fn report(p: Params, own: usize, initial: &[u8], trace: &[u8], frames_too: bool) -> String {
    match play(p, own, initial, trace, usize::MAX, Reading::Right) {
        Ok(played) => lines(trace, &played, frames_too) + &summary(&played),
        Err(refused) => format!("refused {}, {}\n", refused.number(), refusal(refused.number())),
    }
}
