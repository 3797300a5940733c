//! A run: calls on parties, one after another, each with its answer. What was sent and what was handed in are compared byte by byte.

use crate::sem;
use std::collections::BTreeMap;

/// A server or a client, or whoever has no number of either.
#[derive(Clone, Copy, Debug, PartialEq, Eq, PartialOrd, Ord)]
pub struct Who {
    pub server: bool,
    pub number: u16,
}

#[derive(Clone, Debug, PartialEq, Eq)]
pub enum Asked {
    Frame {
        from: Who,
        frame: Vec<u8>,
    },
    Read,
    /// The value in hexadecimal digits.
    Write(String),
    /// A line of no form, as it is there.
    Other(String),
}

#[derive(Clone, Debug, PartialEq, Eq)]
pub enum End {
    Written,
    OutOfStamps,
    Disagreement,
    /// The value in hexadecimal digits, empty where it is not known, and its stamp: time, writer, sequence.
    Value(String, String),
}

#[derive(Clone, Debug, PartialEq, Eq)]
pub enum Answer {
    Step {
        sent: Vec<(Who, Vec<u8>)>,
        end: Option<End>,
    },
    Refused(u8),
    /// No line of a script's form.
    What,
}

#[derive(Clone, Debug, PartialEq, Eq)]
pub struct Call {
    /// Its line in the script, or its entry in the trace, from 1.
    pub at: usize,
    pub to: Who,
    pub asked: Asked,
    pub answer: Answer,
}

#[derive(Clone, Debug, PartialEq, Eq)]
pub struct Run {
    /// What it is a run of, in words.
    pub of: String,
    /// What a call is counted by: `line`, `entry` or `step`.
    pub counted: &'static str,
    pub servers: u16,
    pub calls: Vec<Call>,
    /// How many calls there were; those above are some of them, or all.
    pub all: usize,
    /// How many of all were refused; none where refused ones were not kept.
    pub refused: Option<usize>,
    /// Whether the steps of all parties are in it, so that a frame that none of them sent is a false one.
    pub whole: bool,
    /// How a trace closed, where it is not whole.
    pub closed: Option<String>,
}

/// Which calls of a run are drawn.
#[derive(Clone, Copy, Debug)]
pub struct Choice {
    /// The first line, entry or step that is drawn; without it the last ones are.
    pub from: Option<usize>,
    pub rows: usize,
}

/// What was sent, and not handed in.
pub struct Compared {
    /// Of each call whether its frame was sent before by who it is named after, to this receiver.
    pub sent: Vec<bool>,
    pub not_handed_in: usize,
}

impl Run {
    /// The clients that occur and have a number of a client's.
    pub fn clients(&self) -> Vec<u16> {
        let known = |who: &Who| !who.server && (1..=u16::from(sem::CLIENTS)).contains(&who.number);
        let mut clients: Vec<u16> = self.parties().filter(known).map(|who| who.number).collect();
        clients.sort_unstable();
        clients.dedup();
        clients
    }

    /// Everybody who is handed something or is named as a sender or receiver; not who is only sent reports, which go to all there may be.
    fn parties(&self) -> impl Iterator<Item = Who> + '_ {
        self.calls.iter().filter(|c| c.answer != Answer::What).flat_map(|c| {
            let from = match &c.asked {
                Asked::Frame { from, .. } => Some(*from),
                _ => None,
            };
            let receivers = match &c.answer {
                Answer::Step { sent, .. } => sent.iter().filter(|(_, frame)| !sem::is_report(frame)).map(|(to, _)| *to).collect(),
                _ => vec![],
            };
            receivers.into_iter().chain([c.to]).chain(from)
        })
    }

    /// Whether somebody occurs who is neither a server nor a client of the register.
    pub fn has_strangers(&self) -> bool {
        let clients = u16::from(sem::CLIENTS);
        self.parties().any(|who| !(1..=if who.server { self.servers } else { clients }).contains(&who.number))
    }

    /// Compares what is handed in with what was sent before. A frame may be handed in more than once.
    pub fn compared(&self) -> Compared {
        let mut waiting: BTreeMap<(Who, Who, &[u8]), bool> = BTreeMap::new();
        let mut sent = Vec::with_capacity(self.calls.len());
        for call in &self.calls {
            sent.push(match &call.asked {
                Asked::Frame { from, frame } => match waiting.get_mut(&(*from, call.to, frame.as_slice())) {
                    Some(handed_in) => {
                        *handed_in = true;
                        true
                    }
                    None => false,
                },
                _ => true,
            });
            if let Answer::Step { sent, .. } = &call.answer {
                for (to, frame) in sent {
                    waiting.entry((call.to, *to, frame.as_slice())).or_insert(false);
                }
            }
        }
        Compared { sent, not_handed_in: waiting.values().filter(|handed_in| !**handed_in).count() }
    }
}
