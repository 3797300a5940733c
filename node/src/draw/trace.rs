//! A server's trace, handed to the proved library entry by entry: what each entry did is the library's answer.

use super::run::{Answer, Asked, Call, Choice, Run, Who};
use super::words;
use crate::sem::{self, Parameters, Party, Room, Server};
use std::collections::VecDeque;

fn who(party: Party) -> Who {
    Who { server: party.class == sem::SERVER, number: party.number.into() }
}

/// Keeps a call if it is to be drawn.
fn keep(calls: &mut VecDeque<Call>, call: Call, choice: &Choice) {
    match choice.from {
        Some(from) if call.at < from || calls.len() >= choice.rows => {}
        _ => calls.push_back(call),
    }
    if calls.len() > choice.rows {
        calls.pop_front();
    }
}

/// Plays a trace, or answers the number by which the library refuses the server itself. Of a long one only what is drawn is kept.
pub fn read(p: &Parameters, me: u8, initial: &[u8], trace: &[u8], choice: &Choice) -> Result<Run, u8> {
    let (mut server, mut room) = (Server::fresh(p, me, initial)?, Room::new(p));
    let (mut calls, mut rest, mut all, mut refused) = (VecDeque::new(), trace, 0, 0);
    let closed = loop {
        let entry = match sem::entry(rest) {
            Ok(None) => break None,
            Err(number) => break Some(format!("The trace closes at entry {} by {number}: {}.", all + 1, words::refusal(number))),
            Ok(Some(entry)) => entry,
        };
        all += 1;
        rest = entry.rest;
        let answer = match server.deliver(p, &mut room, entry.from, entry.frame) {
            Ok(step) => Answer::Step { sent: step.sent.iter().map(|s| (who(s.to), s.frame.to_vec())).collect(), end: None },
            Err(number) => Answer::Refused(number),
        };
        refused += usize::from(matches!(answer, Answer::Refused(_)));
        let asked = Asked::Frame { from: who(entry.from), frame: entry.frame.to_vec() };
        keep(&mut calls, Call { at: all, to: who(Party::server(me)), asked, answer }, choice);
    };
    let stamp = server.stamp();
    let of = format!("Trace of server {me}: {all} entries; at its end it holds stamp {}.{}.{}.", stamp.time, stamp.writer, stamp.sequence);
    Ok(Run { of, counted: "entry", servers: p.n as u16, calls: calls.into(), all, refused: Some(refused), whole: false, closed })
}

#[cfg(test)]
mod tests {
    use super::*;
    use crate::bytes::unhex;

    const P: Parameters = Parameters { n: 4, t: 1, k: 2, size: 1 };
    const LAST: Choice = Choice { from: None, rows: 64 };

    #[test]
    fn each_entry_has_the_answer_of_the_library() {
        let trace = unhex("000c010002000701010200000005000c010102000701010200000005000201").unwrap();
        let run = read(&P, 3, &[7], &trace, &LAST).unwrap();
        assert_eq!(run.calls.len(), 2);
        let Answer::Step { sent, .. } = &run.calls[0].answer else { panic!() };
        assert_eq!(sent[0].0, Who { server: false, number: 2 });
        assert_eq!(run.calls[1].answer, Answer::Refused(11));
        assert_eq!(run.closed.unwrap(), "The trace closes at entry 3 by 22: an entry of another form.");
        assert!(read(&P, 3, &[7], &[], &LAST).unwrap().closed.is_none());
        assert_eq!(read(&P, 9, &[7], &trace, &LAST).unwrap_err(), 1);
    }
    #[test]
    fn of_a_long_trace_what_is_drawn_is_kept() {
        let trace = unhex("000c010002000701010200000005").unwrap().repeat(1000);
        for (from, first, count) in [(None, 991, 10), (Some(5), 5, 10), (Some(998), 998, 3), (Some(0), 1, 10)] {
            let run = read(&P, 3, &[7], &trace, &Choice { from, rows: 10 }).unwrap();
            assert_eq!((run.all, run.refused, run.calls[0].at, run.calls.len()), (1000, Some(0), first, count), "{from:?}");
        }
        assert!(read(&P, 3, &[7], &trace, &Choice { from: Some(1001), rows: 10 }).unwrap().calls.is_empty());
    }
}
