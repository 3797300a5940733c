//! A server on lent areas.

use super::{block_in, complete_chunk, echo_chunk, list_in, ready_chunk, store, vouched, Done, Out, Outcome};
use super::{BLOCK_AT, CHUNK, DESKS, SEATS, STATE_AREA};
use crate::blocks::{block_of, decode_into};
use crate::frame::{open, Body, Frame, Stage, Stamp};
use crate::params::{Params, Party, Refusal, CLIENTS, DIGEST, MAX_SERVERS, MAX_VALUE};
use crate::sha256::digest;

/// A client's open write. Place j of the arrays is server j's; the digest lists and blocks lie in the state area.
#[derive(Clone, Copy, Debug, PartialEq, Eq)]
pub struct Slot {
    pub open: u64,
    pub sent: bool,
    pub ready: bool,
    pub complete: bool,
    /// The time of the complete write.
    pub time: u64,
    pub echoes: [bool; SEATS],
    pub readies: [bool; SEATS],
    pub echo_times: [u64; SEATS],
    pub ready_times: [u64; SEATS],
}

impl Slot {
    pub const fn fresh(open: u64) -> Slot {
        Slot {
            open,
            sent: false,
            ready: false,
            complete: false,
            time: 0,
            echoes: [false; SEATS],
            readies: [false; SEATS],
            echo_times: [0; SEATS],
            ready_times: [0; SEATS],
        }
    }

    /// The chunk of server j's echo, if it is of this group.
    fn echo_of(&self, p: &Params, area: &[u8], c: usize, j: usize, group: Group) -> Option<usize> {
        let chunk = echo_chunk(c, j);
        let kept = self.echoes[j] && self.echo_times[j] == group.time;
        (kept && list_in(p, area, chunk) == group.digests).then_some(chunk)
    }

    /// The chunk of server j's ready, if it is of this group.
    fn ready_of(&self, p: &Params, area: &[u8], c: usize, j: usize, group: Group) -> Option<usize> {
        let chunk = ready_chunk(c, j);
        let kept = self.readies[j] && self.ready_times[j] == group.time;
        (kept && list_in(p, area, chunk) == group.digests).then_some(chunk)
    }
}

/// Frames of one write with equal time and digest list.
#[derive(Clone, Copy)]
struct Group<'a> {
    time: u64,
    digests: &'a [u8],
}

#[derive(Clone, Copy, Debug, Default, PartialEq, Eq)]
pub struct Reader {
    pub newest: u32,
    pub listening: bool,
    pub noted: Stamp,
}

/// Place c of the arrays is client c's.
#[derive(Clone, Copy, Debug, PartialEq, Eq)]
pub struct Server {
    pub stamp: Stamp,
    pub slots: [Slot; DESKS],
    pub readers: [Reader; DESKS],
    /// The highest time that each server reported; place j is server j's.
    pub reports: [u64; SEATS],
}

/// The blocks of a group, by rising server number.
struct Given<'a> {
    numbers: [u8; MAX_SERVERS],
    blocks: [&'a [u8]; MAX_SERVERS],
    count: usize,
}

/// Compares a fresh encoding of a value with the blocks of a group and with its digest list; the own block goes to `block`.
fn same_encoding(
    p: &Params,
    value: &[u8],
    given: &Given,
    digests: &[u8],
    own: usize,
    block: &mut [u8],
) -> bool {
    let mut other = [0; MAX_VALUE];
    let mut met = 0;
    for j in 1..=p.n {
        let target = if j == own { &mut *block } else { &mut other[..] };
        block_of(p, value, j, target);
        let fresh = &target[..p.block()];
        if met < given.count && given.numbers[met] as usize == j {
            if given.blocks[met] != fresh {
                return false;
            }
            met += 1;
        }
        if digest(fresh) != digests[(j - 1) * DIGEST..j * DIGEST] {
            return false;
        }
    }
    true
}

impl Server {
    /// A fresh server: the own block goes to the initial area, the digests to chunk 0.
    pub fn fresh(
        p: &Params,
        own: usize,
        value: &[u8],
        initial: &mut [u8],
        area: &mut [u8],
    ) -> Result<Server, Refusal> {
        p.check_server(own)?;
        if value.len() != p.l {
            return Err(Refusal::ValueLength);
        }
        if initial.len() < p.block() || area.len() < STATE_AREA {
            return Err(Refusal::Room);
        }
        let mut block = [0; MAX_VALUE];
        for j in 1..=p.n {
            block_of(p, value, j, &mut block);
            area[(j - 1) * DIGEST..j * DIGEST].copy_from_slice(&digest(&block[..p.block()]));
        }
        block_of(p, value, own, initial);
        Ok(Server {
            stamp: Stamp::default(),
            slots: [Slot::fresh(1); DESKS],
            readers: [Reader::default(); DESKS],
            reports: [0; SEATS],
        })
    }

    /// The present block: in the initial area until the first accepted write.
    pub fn present<'a>(&self, p: &Params, initial: &'a [u8], area: &'a [u8]) -> &'a [u8] {
        if self.stamp == Stamp::default() {
            &initial[..p.block()]
        } else {
            block_in(p, area, 0)
        }
    }

    /// What the frame says, or the lowest refusal up to 10, for which no state is looked at.
    pub fn admit<'a>(
        p: &Params,
        own: usize,
        initial: &[u8],
        area: &[u8],
        bytes: &'a [u8],
        out: &[u8],
        to: &[u8],
    ) -> Result<Frame<'a>, Refusal> {
        p.check_server(own)?;
        let frame = open(p, bytes)?;
        if out.len() < p.server_room()
            || to.len() < 2 * p.server_frames()
            || area.len() < STATE_AREA
            || initial.len() < p.block()
        {
            return Err(Refusal::Room);
        }
        Ok(frame)
    }

    /// A frame handed in, named as `from`'s.
    #[allow(clippy::too_many_arguments)]
    pub fn deliver(
        &mut self,
        p: &Params,
        own: usize,
        initial: &[u8],
        area: &mut [u8],
        from: Party,
        bytes: &[u8],
        out: &mut [u8],
        to: &mut [u8],
    ) -> Result<Done, Refusal> {
        let frame = Server::admit(p, own, initial, area, bytes, out, to)?;
        self.step(p, own, initial, area, from, frame, out, to)
    }

    /// A frame that was let in.
    #[allow(clippy::too_many_arguments)]
    pub fn step(
        &mut self,
        p: &Params,
        own: usize,
        initial: &[u8],
        area: &mut [u8],
        from: Party,
        frame: Frame,
        out: &mut [u8],
        to: &mut [u8],
    ) -> Result<Done, Refusal> {
        let from = Server::sender(p, &frame, from)?;
        let mut out = Out { out, to, bytes: 0, frames: 0 };
        let c = frame.client as usize;
        let mut outcome = Outcome::Going;
        match frame.body {
            Body::GetStamp => {
                let body = Body::Stamp { time: self.stamp.time };
                out.send_client(&Frame { body, ..frame });
            }
            Body::Block { stage, time, digests, block } => {
                self.check_open(&frame)?;
                let group = Group { time, digests };
                self.keep(area, own, c, stage, from, group, block)?;
                if stage == Stage::Send {
                    let body = Body::Block { stage: Stage::Echo, time, digests, block };
                    out.send_servers(p.n, &Frame { body, ..frame });
                } else {
                    self.compare(p, own, area, &frame, group, &mut out);
                    outcome = self.free(p, area, &mut out);
                }
            }
            Body::Read => {
                let stamp = self.stamp;
                let reader = &mut self.readers[c];
                if frame.sequence <= reader.newest {
                    return Err(Refusal::Old);
                }
                *reader = Reader { newest: frame.sequence, listening: true, noted: stamp };
                let digests = list_in(p, area, 0);
                let block = self.present(p, initial, area);
                out.send_client(&Frame { body: Body::Value { stamp, digests, block }, ..frame });
            }
            Body::ReadComplete => {
                let reader = &mut self.readers[c];
                let s = frame.sequence;
                if s < reader.newest || (s == reader.newest && !reader.listening) {
                    return Err(Refusal::Old);
                }
                *reader = Reader { newest: s, listening: false, noted: reader.noted };
            }
            Body::Report { time } => {
                if time <= self.reports[from] {
                    return Err(Refusal::Old);
                }
                self.reports[from] = time;
                outcome = self.free(p, area, &mut out);
            }
            Body::Stamp { .. } | Body::Ack | Body::Value { .. } => return Err(Refusal::Sender),
        }
        Ok(Done { frames: out.frames, bytes: out.bytes, outcome })
    }

    /// Refusal 11; gives the sender's number.
    fn sender(p: &Params, frame: &Frame, from: Party) -> Result<usize, Refusal> {
        match (frame.body.kind(), from) {
            (1 | 3 | 10 | 12, Party::Client(c)) if c == frame.client as usize => Ok(c),
            (4 | 5 | 13, Party::Server(j)) if 1 <= j && j <= p.n => Ok(j),
            _ => Err(Refusal::Sender),
        }
    }

    fn check_open(&self, frame: &Frame) -> Result<(), Refusal> {
        let open = self.slots[frame.client as usize].open;
        match (frame.sequence as u64).cmp(&open) {
            std::cmp::Ordering::Less => Err(Refusal::Old),
            std::cmp::Ordering::Equal => Ok(()),
            std::cmp::Ordering::Greater => Err(Refusal::Early),
        }
    }

    #[allow(clippy::too_many_arguments)]
    fn keep(
        &mut self,
        area: &mut [u8],
        own: usize,
        c: usize,
        stage: Stage,
        from: usize,
        group: Group,
        block: &[u8],
    ) -> Result<(), Refusal> {
        let Group { time, digests } = group;
        let slot = &mut self.slots[c];
        let (flag, place) = match stage {
            Stage::Send => (&mut slot.sent, own),
            Stage::Echo => (&mut slot.echoes[from], from),
            Stage::Ready => (&mut slot.readies[from], from),
        };
        if *flag {
            return Err(Refusal::Old);
        }
        if digest(block) != digests[(place - 1) * DIGEST..place * DIGEST] {
            return Err(Refusal::Digest);
        }
        *flag = true;
        match stage {
            Stage::Send => {}
            Stage::Echo => {
                slot.echo_times[from] = time;
                store(area, echo_chunk(c, from), digests, block);
            }
            Stage::Ready => {
                slot.ready_times[from] = time;
                store(area, ready_chunk(c, from), digests, block);
            }
        }
        Ok(())
    }

    /// What a counted echo or ready of this group brings about, but for acceptance.
    fn compare(
        &mut self,
        p: &Params,
        own: usize,
        area: &mut [u8],
        frame: &Frame,
        group: Group,
        out: &mut Out,
    ) {
        let c = frame.client as usize;
        let Group { time, digests } = group;
        let slot = &mut self.slots[c];
        let echoes = (1..=p.n).filter(|&j| slot.echo_of(p, area, c, j, group).is_some()).count();
        let readies = (1..=p.n).filter(|&j| slot.ready_of(p, area, c, j, group).is_some()).count();
        if echoes < p.most() && readies < p.q() {
            return;
        }
        let completes = readies >= p.q() + p.t && !slot.complete;
        if slot.ready && !completes {
            return;
        }
        let mut given = Given { numbers: [0; MAX_SERVERS], blocks: [&[]; MAX_SERVERS], count: 0 };
        for j in 1..=p.n {
            let chunk = if readies >= p.q() {
                slot.ready_of(p, area, c, j, group)
            } else {
                slot.echo_of(p, area, c, j, group)
            };
            if let Some(chunk) = chunk {
                given.numbers[given.count] = j as u8;
                given.blocks[given.count] = block_in(p, area, chunk);
                given.count += 1;
            }
        }
        let mut value = [0; MAX_VALUE];
        decode_into(p, &given.numbers, &given.blocks, &mut value);
        let mut own_block = [0; MAX_VALUE];
        if !same_encoding(p, &value, &given, digests, own, &mut own_block) {
            return;
        }
        let block = &own_block[..p.block()];
        if !slot.ready {
            slot.ready = true;
            let body = Body::Block { stage: Stage::Ready, time, digests, block };
            out.send_servers(p.n, &Frame { body, ..*frame });
        }
        if completes {
            slot.complete = true;
            slot.time = time;
            store(area, complete_chunk(c), digests, block);
        }
    }

    /// Whether a client's write may be accepted. A record of no run may have a complete write whose sequence no stamp can hold: not that.
    fn is_free(&self, p: &Params, client: usize) -> bool {
        let slot = &self.slots[client];
        slot.complete
            && slot.time < u64::MAX
            && slot.open <= u32::MAX as u64
            && (slot.time <= self.stamp.time || vouched(p, &self.reports, slot.time))
    }

    /// Accepts the lowest client's write that may be accepted, and from the lowest again, until none is left.
    fn free(&mut self, p: &Params, area: &mut [u8], out: &mut Out) -> Outcome {
        let mut outcome = Outcome::Going;
        let mut accepted = [false; DESKS];
        while let Some(client) = (1..=CLIENTS).find(|&client| self.is_free(p, client)) {
            self.accept(p, area, client, out);
            accepted[client] = true;
            outcome = Outcome::Accepted(accepted);
        }
        outcome
    }

    /// Accepts a client's write: values, its ack, and reports if the time grew.
    fn accept(&mut self, p: &Params, area: &mut [u8], c: usize, out: &mut Out) {
        let slot = &mut self.slots[c];
        let (writer, sequence) = (c as u8, slot.open as u32);
        let stamp = Stamp { time: slot.time + 1, writer, sequence };
        *slot = Slot::fresh(slot.open + 1);
        let chunk = complete_chunk(c);
        let grown = stamp.time > self.stamp.time;
        if stamp > self.stamp {
            self.stamp = stamp;
            let start = chunk * CHUNK;
            area.copy_within(start..start + p.list(), 0);
            area.copy_within(start + BLOCK_AT..start + BLOCK_AT + p.block(), BLOCK_AT);
        }
        let digests = list_in(p, area, chunk);
        let block = block_in(p, area, chunk);
        for client in 1..=CLIENTS {
            let reader = &self.readers[client];
            if reader.listening && reader.noted < stamp {
                out.send_client(&Frame {
                    client: client as u8,
                    sequence: reader.newest,
                    body: Body::Value { stamp, digests, block },
                });
            }
        }
        out.send_client(&Frame { client: writer, sequence, body: Body::Ack });
        if grown {
            let body = Body::Report { time: stamp.time };
            out.send_report(p.n, &Frame { client: writer, sequence, body });
        }
    }
}
