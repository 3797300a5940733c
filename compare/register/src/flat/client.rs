//! A client on lent areas.

use super::{block_in, list_in, row_chunk, store, vouched, Done, Out, Outcome, ROWS_AREA, SEATS};
use crate::blocks::{agree, block_of, decode_into};
use crate::client::KEPT;
use crate::frame::{open, Body, Frame, Stage, Stamp};
use crate::params::{Params, Party, Refusal, DIGEST, MAX_SERVERS, MAX_VALUE};
use crate::sha256::digest;

#[derive(Clone, Copy, Debug, PartialEq, Eq)]
pub enum Operation {
    None,
    Stamps,
    Acks,
    Read,
}

/// A client's record. Place j of the arrays is server j's.
#[derive(Clone, Copy, Debug, PartialEq, Eq)]
pub struct Client {
    pub operation: Operation,
    pub writes: u32,
    pub reads: u32,
    pub out_of_stamps: bool,
    /// Servers whose first stamp, or then ack, came, and the times of the stamps.
    pub counted: [bool; SEATS],
    pub times: [u64; SEATS],
    /// Stamps kept of each server, and how many; a number above four stands for four.
    pub kept: [u64; SEATS],
    pub stamps: [[Stamp; KEPT]; SEATS],
    /// The highest time that each server reported, across operations.
    pub reports: [u64; SEATS],
}

impl Client {
    pub const fn fresh() -> Client {
        let zero = Stamp { time: 0, writer: 0, sequence: 0 };
        Client {
            operation: Operation::None,
            writes: 0,
            reads: 0,
            out_of_stamps: false,
            counted: [false; SEATS],
            times: [0; SEATS],
            kept: [0; SEATS],
            stamps: [[zero; KEPT]; SEATS],
            reports: [0; SEATS],
        }
    }

    /// The time of a server's first stamp, if it came and counts: t + 1 servers have reported that time or more.
    fn reply(&self, p: &Params, server: usize) -> Option<u64> {
        let time = self.times[server];
        (self.counted[server] && vouched(p, &self.reports, time)).then_some(time)
    }

    /// How many stamps are kept of a server.
    fn used(&self, server: usize) -> usize {
        self.kept[server].min(KEPT as u64) as usize
    }

    fn check_begin(&self, p: &Params, used: u32, out: &[u8], to: &[u8]) -> Result<(), Refusal> {
        if out.len() < p.client_room() || to.len() < 2 * p.n {
            return Err(Refusal::Room);
        }
        if self.operation != Operation::None {
            return Err(Refusal::Open);
        }
        if used == u32::MAX {
            return Err(Refusal::UsedUp);
        }
        Ok(())
    }

    pub fn begin_write(
        &mut self,
        p: &Params,
        own: usize,
        value: &[u8],
        out: &mut [u8],
        to: &mut [u8],
    ) -> Result<Done, Refusal> {
        p.check_client(own)?;
        if value.len() != p.l {
            return Err(Refusal::ValueLength);
        }
        self.check_begin(p, self.writes, out, to)?;
        if self.out_of_stamps {
            return Err(Refusal::OutOfStamps);
        }
        self.writes += 1;
        self.operation = Operation::Stamps;
        self.counted = [false; SEATS];
        self.times = [0; SEATS];
        let mut out = Out { out, to, bytes: 0, frames: 0 };
        let frame = Frame { client: own as u8, sequence: self.writes, body: Body::GetStamp };
        out.send_servers(p.n, &frame);
        Ok(Done { frames: out.frames, bytes: out.bytes, outcome: Outcome::Going })
    }

    pub fn begin_read(
        &mut self,
        p: &Params,
        own: usize,
        out: &mut [u8],
        to: &mut [u8],
    ) -> Result<Done, Refusal> {
        p.check_client(own)?;
        self.check_begin(p, self.reads, out, to)?;
        self.reads += 1;
        self.operation = Operation::Read;
        self.kept = [0; SEATS];
        self.stamps = [[Stamp::default(); KEPT]; SEATS];
        let mut out = Out { out, to, bytes: 0, frames: 0 };
        let frame = Frame { client: own as u8, sequence: self.reads, body: Body::Read };
        out.send_servers(p.n, &frame);
        Ok(Done { frames: out.frames, bytes: out.bytes, outcome: Outcome::Going })
    }

    /// A frame handed in, named as `from`'s. `written` is the open write's value; a read's value
    /// goes to the first l bytes of `value`.
    #[allow(clippy::too_many_arguments)]
    pub fn deliver(
        &mut self,
        p: &Params,
        own: usize,
        written: &[u8],
        rows: &mut [u8],
        from: Party,
        bytes: &[u8],
        out: &mut [u8],
        to: &mut [u8],
        value: &mut [u8],
    ) -> Result<Done, Refusal> {
        p.check_client(own)?;
        let writing = matches!(self.operation, Operation::Stamps | Operation::Acks);
        if writing && written.len() != p.l {
            return Err(Refusal::ValueLength);
        }
        let frame = open(p, bytes)?;
        if out.len() < p.client_room() || to.len() < 2 * p.n || rows.len() < ROWS_AREA || value.len() < p.l {
            return Err(Refusal::Room);
        }
        let server = match from {
            Party::Server(j)
                if 1 <= j && j <= p.n && (frame.client as usize == own || frame.body.kind() == 13) =>
            {
                j
            }
            _ => return Err(Refusal::Sender),
        };
        let mut out = Out { out, to, bytes: 0, frames: 0 };
        let outcome = match frame.body {
            Body::Stamp { time } => {
                self.await_frame(Operation::Stamps, self.writes, &frame)?;
                self.count(p, server)?;
                self.times[server] = time;
                self.reports[server] = self.reports[server].max(time);
                self.gather(p, own, written, &mut out)
            }
            Body::Report { time } => {
                if time <= self.reports[server] {
                    return Err(Refusal::Old);
                }
                self.reports[server] = time;
                match self.operation {
                    Operation::Stamps => self.gather(p, own, written, &mut out),
                    _ => Outcome::Going,
                }
            }
            Body::Ack => {
                self.await_frame(Operation::Acks, self.writes, &frame)?;
                self.ack(p, server)?
            }
            Body::Value { stamp, digests, block } => {
                self.await_frame(Operation::Read, self.reads, &frame)?;
                self.keep_value(rows, server, stamp, digests, block)?;
                self.settle(p, rows, &frame, &mut out, value)
            }
            _ => return Err(Refusal::Sender),
        };
        Ok(Done { frames: out.frames, bytes: out.bytes, outcome })
    }

    fn await_frame(&self, operation: Operation, sequence: u32, frame: &Frame) -> Result<(), Refusal> {
        if self.operation == operation && frame.sequence == sequence {
            Ok(())
        } else {
            Err(Refusal::Old)
        }
    }

    fn count(&mut self, p: &Params, server: usize) -> Result<bool, Refusal> {
        if self.counted[server] {
            return Err(Refusal::Old);
        }
        self.counted[server] = true;
        Ok(self.counted[1..=p.n].iter().filter(|&&x| x).count() >= p.most())
    }

    /// Once n − t stamps count, the blocks go out with the largest time that counts.
    fn gather(&mut self, p: &Params, own: usize, written: &[u8], out: &mut Out) -> Outcome {
        let (mut count, mut largest) = (0, 0);
        for time in (1..=p.n).filter_map(|server| self.reply(p, server)) {
            count += 1;
            largest = time.max(largest);
        }
        if count < p.most() {
            return Outcome::Going;
        }
        if largest == u64::MAX {
            self.operation = Operation::None;
            self.out_of_stamps = true;
            return Outcome::OutOfStamps;
        }
        self.operation = Operation::Acks;
        self.counted = [false; SEATS];
        let mut blocks = [[0; MAX_VALUE]; SEATS];
        let mut digests = [0; MAX_SERVERS * DIGEST];
        for j in 1..=p.n {
            block_of(p, written, j, &mut blocks[j]);
            let place = &mut digests[(j - 1) * DIGEST..j * DIGEST];
            place.copy_from_slice(&digest(&blocks[j][..p.block()]));
        }
        let digests = &digests[..p.list()];
        for (j, block) in blocks.iter().enumerate().take(p.n + 1).skip(1) {
            let block = &block[..p.block()];
            let body = Body::Block { stage: Stage::Send, time: largest, digests, block };
            out.send(1, j, &Frame { client: own as u8, sequence: self.writes, body });
        }
        Outcome::Going
    }

    fn ack(&mut self, p: &Params, server: usize) -> Result<Outcome, Refusal> {
        if !self.count(p, server)? {
            return Ok(Outcome::Going);
        }
        self.operation = Operation::None;
        Ok(Outcome::Written)
    }

    fn keep_value(
        &mut self,
        rows: &mut [u8],
        server: usize,
        stamp: Stamp,
        digests: &[u8],
        block: &[u8],
    ) -> Result<(), Refusal> {
        let kept = self.used(server);
        let row = &mut self.stamps[server];
        if row[..kept].contains(&stamp) {
            return Err(Refusal::Old);
        }
        if digest(block) != digests[(server - 1) * DIGEST..server * DIGEST] {
            return Err(Refusal::Digest);
        }
        let mut place = kept;
        if kept == KEPT {
            place = 0;
            for i in 1..KEPT {
                if row[i] < row[place] {
                    place = i;
                }
            }
            if stamp < row[place] {
                return Ok(());
            }
        } else {
            self.kept[server] += 1;
        }
        row[place] = stamp;
        store(rows, row_chunk(server, place), digests, block);
        Ok(())
    }

    /// The place in a server's row with this stamp and list.
    fn find(&self, p: &Params, rows: &[u8], server: usize, stamp: Stamp, digests: &[u8]) -> Option<usize> {
        (0..self.used(server))
            .find(|&i| self.stamps[server][i] == stamp && list_in(p, rows, row_chunk(server, i)) == digests)
    }

    /// The search of the rows: the first stamp and list in n − t of them ends the read, with a value if all blocks there are its blocks.
    fn settle(&mut self, p: &Params, rows: &[u8], frame: &Frame, out: &mut Out, value: &mut [u8]) -> Outcome {
        for j in 1..=p.n {
            for i in 0..self.used(j) {
                let stamp = self.stamps[j][i];
                let digests = list_in(p, rows, row_chunk(j, i));
                let mut numbers = [0; MAX_SERVERS];
                let mut blocks: [&[u8]; MAX_SERVERS] = [&[]; MAX_SERVERS];
                let mut found = 0;
                for server in 1..=p.n {
                    if let Some(place) = self.find(p, rows, server, stamp, digests) {
                        numbers[found] = server as u8;
                        blocks[found] = block_in(p, rows, row_chunk(server, place));
                        found += 1;
                    }
                }
                if found >= p.most() {
                    self.operation = Operation::None;
                    out.send_servers(p.n, &Frame { body: Body::ReadComplete, ..*frame });
                    let mut decoded = [0; MAX_VALUE];
                    let decoded = &mut decoded[..p.l];
                    decode_into(p, &numbers, &blocks, decoded);
                    if !agree(p, decoded, &numbers[..found], &blocks[..found]) {
                        return Outcome::Disagreement;
                    }
                    value[..p.l].copy_from_slice(decoded);
                    return Outcome::Value(stamp);
                }
            }
        }
        Outcome::Going
    }
}
