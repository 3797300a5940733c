//! The client, written for clarity: write and read of Figures 1 and 2 with document 01's steps, the end of a read as request F-7
//! has it, and the counting of stamps as request F-9 has it.

use crate::blocks::encoded;
use crate::frame::{build, open, Body, Frame, Stage, Stamp};
use crate::params::{Params, Party, Refusal, Send, DIGEST};
use crate::server::{digest_list, reported, value_of_group};
use crate::sha256::digest;
use crate::variant::Variant;
use std::collections::{BTreeMap, BTreeSet};

/// Stamps kept of each server in a read.
pub const KEPT: usize = 4;

#[derive(Clone, Debug, PartialEq, Eq)]
pub struct Kept {
    pub stamp: Stamp,
    pub digests: Vec<u8>,
    pub block: Vec<u8>,
}

#[derive(Clone, Debug, PartialEq, Eq)]
pub enum Operation {
    None,
    /// A write that waits for stamps: the first reply of each server, counted or not.
    Stamps(BTreeMap<usize, u64>),
    /// A write that waits for acks.
    Acks(BTreeSet<usize>),
    /// A read; place j − 1 is server j's row.
    Read(Vec<Vec<Kept>>),
}

#[derive(Clone, Debug, PartialEq, Eq)]
pub enum Outcome {
    Going,
    /// The read ended with this stamp and value.
    Value(Stamp, Vec<u8>),
    /// The read ended, the blocks of its group being not all of one value.
    Disagreement,
    Written,
    OutOfStamps,
}

#[derive(Clone, Debug, PartialEq, Eq)]
pub struct Step {
    pub sends: Vec<Send>,
    pub outcome: Outcome,
}

#[derive(Clone, Debug)]
pub struct Client {
    p: Params,
    own: usize,
    variant: Variant,
    pub writes: u32,
    pub reads: u32,
    pub out_of_stamps: bool,
    pub operation: Operation,
    /// The highest time that each server reported, across operations; place j − 1 is server j's.
    pub reports: Vec<u64>,
    /// Acks counted, for the variant that counts a server twice.
    acks: usize,
}

impl Client {
    pub fn fresh(p: Params, own: usize) -> Result<Client, Refusal> {
        p.check_client(own)?;
        Ok(Client {
            p,
            own,
            variant: Variant::Right,
            writes: 0,
            reads: 0,
            out_of_stamps: false,
            operation: Operation::None,
            reports: vec![0; p.n],
            acks: 0,
        })
    }

    pub fn with_variant(mut self, variant: Variant) -> Client {
        self.variant = variant;
        self
    }

    /// Sets the numbers used so far, for tests of the last sequences.
    pub fn with_numbers(mut self, writes: u32, reads: u32) -> Client {
        self.writes = writes;
        self.reads = reads;
        self
    }

    pub fn is_open(&self) -> bool {
        self.operation != Operation::None
    }

    fn to_all(&self, sequence: u32, body: Body) -> Vec<Send> {
        let bytes = build(self.own as u8, sequence, body);
        (1..=self.p.n).map(|j| Send { to: Party::Server(j), frame: bytes.clone() }).collect()
    }

    fn check_begin(&self, room: usize, used: u32) -> Result<(), Refusal> {
        if room < self.p.client_room() {
            return Err(Refusal::Room);
        }
        if self.is_open() {
            return Err(Refusal::Open);
        }
        if used == u32::MAX {
            return Err(Refusal::UsedUp);
        }
        Ok(())
    }

    pub fn begin_write(&mut self, value: &[u8], room: usize) -> Result<Step, Refusal> {
        if value.len() != self.p.l {
            return Err(Refusal::ValueLength);
        }
        self.check_begin(room, self.writes)?;
        if self.out_of_stamps {
            return Err(Refusal::OutOfStamps);
        }
        self.writes += 1;
        self.operation = Operation::Stamps(BTreeMap::new());
        self.acks = 0;
        let sends = self.to_all(self.writes, Body::GetStamp);
        Ok(Step { sends, outcome: Outcome::Going })
    }

    pub fn begin_read(&mut self, room: usize) -> Result<Step, Refusal> {
        self.check_begin(room, self.reads)?;
        self.reads += 1;
        self.operation = Operation::Read(vec![Vec::new(); self.p.n]);
        let sends = self.to_all(self.reads, Body::Read);
        Ok(Step { sends, outcome: Outcome::Going })
    }

    /// A frame handed in, named as `from`'s. `value` is that of the open write, and is not
    /// looked at when no write is open.
    pub fn deliver(&mut self, from: Party, bytes: &[u8], value: &[u8], room: usize) -> Result<Step, Refusal> {
        let writing = matches!(self.operation, Operation::Stamps(_) | Operation::Acks(_));
        if writing && value.len() != self.p.l {
            return Err(Refusal::ValueLength);
        }
        let frame = open(&self.p, bytes)?;
        if room < self.p.client_room() {
            return Err(Refusal::Room);
        }
        let server = match from {
            Party::Server(j) if 1 <= j && j <= self.p.n => j,
            _ => return Err(Refusal::Sender),
        };
        // A report names the write that raised the server's time, whoever's it is.
        let anyones = matches!(frame.body, Body::Report { .. }) && self.variant != Variant::ReportOwner;
        if frame.client as usize != self.own && !anyones {
            return Err(Refusal::Sender);
        }
        match frame.body {
            Body::Stamp { time } => self.stamp(server, &frame, time, value),
            Body::Report { time } => self.report(server, time, value),
            Body::Ack => self.ack(server, &frame),
            Body::Value { stamp, digests, block } => {
                let kept = Kept { stamp, digests: digests.to_vec(), block: block.to_vec() };
                self.value(server, &frame, kept)
            }
            _ => Err(Refusal::Sender),
        }
    }

    fn stamp(&mut self, server: usize, frame: &Frame, time: u64, value: &[u8]) -> Result<Step, Refusal> {
        let stale = self.variant == Variant::StaleStamp && frame.sequence < self.writes;
        let Operation::Stamps(times) = &mut self.operation else { return Err(Refusal::Old) };
        if (frame.sequence != self.writes && !stale) || times.contains_key(&server) {
            return Err(Refusal::Old);
        }
        times.insert(server, time);
        self.keep_report(server, time);
        Ok(self.gather(value))
    }

    /// The higher of two reports of a server is kept.
    fn keep_report(&mut self, server: usize, time: u64) {
        let kept = &mut self.reports[server - 1];
        *kept = if self.variant == Variant::LatestReport { time } else { time.max(*kept) };
    }

    fn report(&mut self, server: usize, time: u64, value: &[u8]) -> Result<Step, Refusal> {
        let latest = self.variant == Variant::LatestReport;
        if time <= self.reports[server - 1] && !latest {
            return Err(Refusal::Old);
        }
        self.keep_report(server, time);
        if self.variant == Variant::NoRecount {
            return Ok(Step { sends: Vec::new(), outcome: Outcome::Going });
        }
        Ok(self.gather(value))
    }

    /// The times of the replies that count: t + 1 servers have reported such a time or more.
    fn counted(&self, times: &BTreeMap<usize, u64>) -> Vec<u64> {
        let least = match self.variant {
            Variant::CountsAtOnce => 0,
            Variant::FewReportsCount => self.p.t,
            _ => self.p.t + 1,
        };
        times.values().copied().filter(|&time| reported(&self.reports, time, least)).collect()
    }

    /// Where a write waits for stamps and n − t of them count, the blocks go out with the largest time that counts.
    fn gather(&mut self, value: &[u8]) -> Step {
        let p = self.p;
        let nothing = Step { sends: Vec::new(), outcome: Outcome::Going };
        let Operation::Stamps(times) = &self.operation else { return nothing };
        let mut sorted = self.counted(times);
        if sorted.len() < p.most() {
            return nothing;
        }
        if self.variant == Variant::LargestOfAll {
            sorted = times.values().copied().collect();
        }
        sorted.sort();
        let place = if self.variant == Variant::SmallerTime { p.t + 1 } else { 1 };
        let largest = sorted[sorted.len() - place];
        if largest == u64::MAX {
            self.operation = Operation::None;
            self.out_of_stamps = true;
            return Step { sends: Vec::new(), outcome: Outcome::OutOfStamps };
        }
        self.operation = Operation::Acks(BTreeSet::new());
        let blocks = encoded(&p, value);
        let digests = digest_list(&blocks);
        let send = |j: usize| {
            let (time, block) = (largest, &blocks[j - 1][..]);
            let body = Body::Block { stage: Stage::Send, time, digests: &digests, block };
            Send { to: Party::Server(j), frame: build(self.own as u8, self.writes, body) }
        };
        Step { sends: (1..=p.n).map(send).collect(), outcome: Outcome::Going }
    }

    fn ack(&mut self, server: usize, frame: &Frame) -> Result<Step, Refusal> {
        let twice = self.variant == Variant::AckTwice;
        let Operation::Acks(from) = &mut self.operation else { return Err(Refusal::Old) };
        if frame.sequence != self.writes || (from.contains(&server) && !twice) {
            return Err(Refusal::Old);
        }
        from.insert(server);
        self.acks += 1;
        if self.acks < self.p.most() {
            return Ok(Step { sends: Vec::new(), outcome: Outcome::Going });
        }
        self.operation = Operation::None;
        Ok(Step { sends: Vec::new(), outcome: Outcome::Written })
    }

    fn value(&mut self, server: usize, frame: &Frame, kept: Kept) -> Result<Step, Refusal> {
        let p = self.p;
        let variant = self.variant;
        let Operation::Read(rows) = &mut self.operation else { return Err(Refusal::Old) };
        let row = &mut rows[server - 1];
        let again = row.iter().any(|old| old.stamp == kept.stamp) && variant != Variant::ValueTwice;
        if frame.sequence != self.reads || again {
            return Err(Refusal::Old);
        }
        let expected = &kept.digests[(server - 1) * DIGEST..server * DIGEST];
        if digest(&kept.block) != expected && variant != Variant::NoDigest {
            return Err(Refusal::Digest);
        }
        keep(row, kept);
        let Some((stamp, chosen)) = settled(&p, rows, variant) else {
            return Ok(Step { sends: Vec::new(), outcome: Outcome::Going });
        };
        let outcome = match value_of_group(&p, &chosen, variant) {
            Some(value) => Outcome::Value(stamp, value),
            None if variant == Variant::DisagreementOpen => {
                return Ok(Step { sends: Vec::new(), outcome: Outcome::Going });
            }
            None => Outcome::Disagreement,
        };
        self.operation = Operation::None;
        let sends = self.to_all(self.reads, Body::ReadComplete);
        Ok(Step { sends, outcome })
    }
}

/// A row takes one more; of five the smallest goes, be it the new one. The new one stands in
/// the place of the one that goes.
fn keep(row: &mut Vec<Kept>, new: Kept) {
    if row.len() < KEPT {
        row.push(new);
        return;
    }
    let smallest = row.iter_mut().min_by_key(|old| old.stamp).expect("a full row");
    if smallest.stamp < new.stamp {
        *smallest = new;
    }
}

/// Servers with their blocks, by rising number.
type Chosen = Vec<(usize, Vec<u8>)>;

/// The first stamp and digest list in n − t rows, with the servers and blocks that have it.
fn settled(p: &Params, rows: &[Vec<Kept>], variant: Variant) -> Option<(Stamp, Chosen)> {
    let most = if variant == Variant::FewRows { p.most() - 1 } else { p.most() };
    for candidate in rows.iter().flatten() {
        let same = |kept: &&Kept| {
            kept.stamp == candidate.stamp
                && (kept.digests == candidate.digests || variant == Variant::StampAlone)
        };
        let mut values = 0;
        let mut chosen = Vec::new();
        for (i, row) in rows.iter().enumerate() {
            values += row.iter().filter(same).count();
            if let Some(kept) = row.iter().find(same) {
                chosen.push((i + 1, kept.block.clone()));
            }
        }
        let counted = if variant == Variant::ValueTwice { values } else { chosen.len() };
        if counted >= most && chosen.len() >= p.k {
            return Some((candidate.stamp, chosen));
        }
    }
    None
}
