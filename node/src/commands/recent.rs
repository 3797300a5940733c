//! The last operations and steps of a node, from the end of its log; the node may be running.

use super::files::read_last;
use crate::failure::Failure;
use semduoli::bytes::hex;
use semduoli::cluster::Cluster;
use semduoli::draw::run::{Answer, Asked, Call, End, Run, Who};
use semduoli::events::Stamp;
use semduoli::judge::Line;
use semduoli::records::{self, outcome, Record};
use semduoli::sem::{self, Party};
use std::collections::{BTreeMap, VecDeque};
use std::path::Path;

/// The log's end: the segment that is made ahead, the one that is written, and the one before.
const SEGMENTS: usize = 3;
/// Operations that are judged and steps that are kept, the last ones.
const OPERATIONS_MOST: usize = 256;
const STEPS_MOST: usize = 512;

/// What the end of a log has.
pub struct Recent {
    pub lines: Vec<Line>,
    pub run: Run,
    /// The last batch: its number, and when it was made, in ms since 1970.
    pub last_batch: Option<(u64, u64)>,
}

#[derive(Default)]
struct Gathered {
    /// Of each client, by register: whether its open operation is a write, and the tick at which it began.
    open: BTreeMap<(u8, u8), (bool, u32)>,
    lines: VecDeque<Line>,
    calls: VecDeque<Call>,
    steps: usize,
    last_batch: Option<(u64, u64)>,
}

fn who(party: Party) -> Who {
    Who { server: party.class == sem::SERVER, number: party.number.into() }
}

fn sent(bytes: &[u8]) -> Vec<(Who, Vec<u8>)> {
    records::sent_read(bytes).unwrap_or_default().into_iter().map(|(to, _, frame)| (who(to), frame.to_vec())).collect()
}

impl Gathered {
    fn call(&mut self, to: Party, asked: Asked, sent_bytes: &[u8]) {
        self.steps += 1;
        self.calls.push_back(Call { at: self.steps, to: who(to), asked, answer: Answer::Step { sent: sent(sent_bytes), end: None } });
        if self.calls.len() > STEPS_MOST {
            self.calls.pop_front();
        }
    }

    fn take(&mut self, record: Record) {
        match record {
            Record::Step { stream, frame, sent, .. } => self.call(stream.to, Asked::Frame { from: who(stream.from), frame: frame.to_vec() }, sent),
            Record::Begin { client, register, tick, value, sent, .. } => {
                self.open.insert((client, register), (value.is_some(), tick));
                self.call(Party::client(client), value.map_or(Asked::Read, |v| Asked::Write(hex(v))), sent);
            }
            Record::Ended { client, register, tick, outcome, stamp, .. } => self.ended((client, register), tick, outcome, sem::stamp_of(&stamp)),
            _ => {}
        }
    }

    /// An operation has ended by the client's last step.
    fn ended(&mut self, (client, register): (u8, u8), tick: u32, outcome: u8, stamp: Stamp) {
        let begun = self.open.remove(&(client, register));
        let ended = match outcome {
            outcome::WRITTEN => End::Written,
            outcome::OUT_OF_STAMPS => End::OutOfStamps,
            outcome::VALUE => End::Value(String::new(), format!("{}.{}.{}", stamp.time, stamp.writer, stamp.sequence)),
            _ => End::Disagreement,
        };
        let last = self.calls.iter_mut().rev().find(|c| c.to == who(Party::client(client)));
        if let Some(Call { answer: Answer::Step { end, .. }, .. }) = last {
            *end = Some(ended);
        }
        let told = matches!(outcome, outcome::WRITTEN | outcome::VALUE);
        if let Some((write, start)) = begun.filter(|_| told) {
            self.lines.push_back(Line { write, start, end: tick.max(start.saturating_add(1)), stamp, caller: client });
            if self.lines.len() > OPERATIONS_MOST {
                self.lines.pop_front();
            }
        }
    }
}

/// Reads the end of a node's log.
pub fn recent(folder: &Path, cluster: &Cluster) -> Result<Recent, Failure> {
    let mut gathered = Gathered::default();
    let whole = read_last(folder, cluster.register_digest(), SEGMENTS, &mut |batch| {
        gathered.last_batch = Some((batch.number, batch.wall));
        for record in records::read(batch.payload) {
            gathered.take(record.map_err(|_| "the batch has bytes that are no record")?);
        }
        Ok(())
    })?;
    let counted = if whole.from_start { "" } else { ", counted from an older segment on" };
    let run = Run {
        of: format!("{} steps of this node's parties{counted}. Frames that were refused are not in the log.", gathered.steps),
        counted: "step",
        servers: cluster.parameters.n as u16,
        all: gathered.steps,
        refused: None,
        calls: gathered.calls.into(),
        whole: false,
        closed: None,
    };
    Ok(Recent { lines: gathered.lines.into(), run, last_batch: gathered.last_batch })
}
