//! The server, written for clarity: what document 01, "Steps", and requests F-4, F-7 and F-9 say, with ordinary
//! collections.

use crate::blocks::{decode, decode_into, encoded};
use crate::frame::{build, open, Body, Frame, Stage, Stamp};
use crate::params::{Params, Party, Refusal, Send, CLIENTS, DIGEST};
use crate::sha256::digest;
use crate::variant::Variant;
use std::collections::BTreeMap;

/// A digest list and a block that goes with it.
#[derive(Clone, Debug, PartialEq, Eq)]
pub struct Dispersed {
    pub digests: Vec<u8>,
    pub block: Vec<u8>,
}

/// What a frame of kinds 3, 4 and 5 says of a write: a time, and a digest list with a block.
#[derive(Clone, Debug, PartialEq, Eq)]
pub struct Proposal {
    pub time: u64,
    pub dispersed: Dispersed,
}

/// What frames of one group have in common.
#[derive(Clone, Copy)]
struct Group<'a> {
    time: u64,
    digests: &'a [u8],
}

impl Group<'_> {
    fn has(&self, kept: &Proposal, variant: Variant) -> bool {
        (kept.time == self.time || variant == Variant::ListAlone)
            && (kept.dispersed.digests == self.digests || variant == Variant::TimeAlone)
    }
}

/// What a server keeps of one client's open write.
#[derive(Clone, Debug, PartialEq, Eq)]
pub struct Slot {
    /// The open sequence; 2^32 when none is open.
    pub open: u64,
    /// The time of the counted kind 3.
    pub sent: Option<u64>,
    pub echoes: BTreeMap<usize, Proposal>,
    pub readies: BTreeMap<usize, Proposal>,
    pub ready: bool,
    pub complete: Option<Proposal>,
}

impl Slot {
    fn fresh(open: u64) -> Slot {
        Slot {
            open,
            sent: None,
            echoes: BTreeMap::new(),
            readies: BTreeMap::new(),
            ready: false,
            complete: None,
        }
    }
}

/// The newest read of a client: its number, and while listening the noted stamp.
#[derive(Clone, Copy, Debug, Default, PartialEq, Eq)]
pub struct Reader {
    pub newest: u32,
    pub listening: Option<Stamp>,
}

/// A write that a server accepted in a step.
#[derive(Clone, Debug, PartialEq, Eq)]
pub struct Accepted {
    pub client: usize,
    pub sequence: u32,
    pub stamp: Stamp,
    pub own: Dispersed,
    /// Present stamp, digests and block were replaced.
    pub replaced: bool,
}

/// The frames sent, and the writes accepted, both in their order.
#[derive(Clone, Debug, Default, PartialEq, Eq)]
pub struct Step {
    pub sends: Vec<Send>,
    pub accepted: Vec<Accepted>,
}

#[derive(Clone, Debug, PartialEq, Eq)]
pub struct Server {
    p: Params,
    own: usize,
    variant: Variant,
    pub stamp: Stamp,
    pub present: Dispersed,
    /// Place c − 1 is client c's.
    pub slots: Vec<Slot>,
    pub readers: Vec<Reader>,
    /// The highest time that each server reported; place j − 1 is server j's.
    pub reports: Vec<u64>,
}

/// At least so many of the reports are of this time or more.
pub fn reported(reports: &[u64], time: u64, least: usize) -> bool {
    reports.iter().filter(|&&report| report >= time).count() >= least
}

/// The digests of all blocks, end to end.
pub fn digest_list(blocks: &[Vec<u8>]) -> Vec<u8> {
    blocks.iter().flat_map(|block| digest(block)).collect()
}

/// The value whose blocks a group's are, all of them at their servers' numbers, or none if they disagree.
pub fn value_of_group(p: &Params, group: &[(usize, Vec<u8>)], variant: Variant) -> Option<Vec<u8>> {
    let looked_at = if variant == Variant::LowestAlone { p.k } else { group.len() };
    let given: Vec<(usize, &[u8])> = group[..looked_at].iter().map(|(j, block)| (*j, &block[..])).collect();
    let mut value = vec![0; p.l];
    match decode(p, &given, &mut value) {
        Ok(_) => return Some(value),
        Err(refusal) => assert_eq!(refusal, Refusal::Disagreement, "k or more different senders"),
    }
    match variant {
        // What the lowest give, with any padding.
        Variant::LowestAlone => {
            let numbers: Vec<u8> = given.iter().map(|(j, _)| *j as u8).collect();
            let blocks: Vec<&[u8]> = given.iter().map(|(_, block)| *block).collect();
            decode_into(p, &numbers, &blocks, &mut value);
            Some(value)
        }
        Variant::AnyPadding => {
            let padded = Params { l: p.k * p.block(), ..*p };
            let mut whole = vec![0; padded.l];
            decode(&padded, &given, &mut whole).ok()?;
            whole.truncate(p.l);
            Some(whole)
        }
        _ => None,
    }
}

fn digest_at(digests: &[u8], j: usize) -> &[u8] {
    &digests[(j - 1) * DIGEST..j * DIGEST]
}

impl Server {
    /// A fresh server: stamp 0, client 0, sequence 0, the initial value's block and digests.
    pub fn fresh(p: Params, own: usize, initial: &[u8]) -> Result<Server, Refusal> {
        p.check_server(own)?;
        if initial.len() != p.l {
            return Err(Refusal::ValueLength);
        }
        let blocks = encoded(&p, initial);
        let present = Dispersed { digests: digest_list(&blocks), block: blocks[own - 1].clone() };
        Ok(Server {
            p,
            own,
            variant: Variant::Right,
            stamp: Stamp::default(),
            present,
            slots: vec![Slot::fresh(1); CLIENTS],
            readers: vec![Reader::default(); CLIENTS],
            reports: vec![0; p.n],
        })
    }

    pub fn with_variant(mut self, variant: Variant) -> Server {
        self.variant = variant;
        self
    }

    /// A frame handed in, named as `from`'s, with an out area of `room` bytes.
    pub fn deliver(&mut self, from: Party, bytes: &[u8], room: usize) -> Result<Step, Refusal> {
        let frame = open(&self.p, bytes)?;
        if room < self.p.server_room() {
            return Err(Refusal::Room);
        }
        self.check_sender(from, &frame)?;
        let (Party::Client(number) | Party::Server(number)) = from;
        match frame.body {
            Body::GetStamp => Ok(self.get_stamp(&frame)),
            Body::Block { stage, time, digests, block } => {
                self.check_broadcast(&frame, stage, number)?;
                let dispersed = Dispersed { digests: digests.to_vec(), block: block.to_vec() };
                self.broadcast_step(&frame, stage, number, Proposal { time, dispersed })
            }
            Body::Read => self.read(&frame),
            Body::ReadComplete => self.read_complete(&frame),
            Body::Report { time } => self.report(number, time),
            Body::Stamp { .. } | Body::Ack | Body::Value { .. } => Err(Refusal::Sender),
        }
    }

    /// Refusal 11.
    fn check_sender(&self, from: Party, frame: &Frame) -> Result<(), Refusal> {
        use Stage::*;
        let right = match (frame.body, from) {
            (Body::GetStamp | Body::Read | Body::ReadComplete, Party::Client(c))
            | (Body::Block { stage: Send, .. }, Party::Client(c)) => c == frame.client as usize,
            (Body::Block { stage: Echo | Ready, .. } | Body::Report { .. }, Party::Server(j)) => {
                1 <= j && j <= self.p.n
            }
            _ => false,
        };
        if right {
            Ok(())
        } else {
            Err(Refusal::Sender)
        }
    }

    fn slot(&mut self, client: u8) -> &mut Slot {
        &mut self.slots[client as usize - 1]
    }

    /// Refusals 12 and 13 of kinds 3 to 5.
    fn check_broadcast(&mut self, frame: &Frame, stage: Stage, from: usize) -> Result<(), Refusal> {
        let variant = self.variant;
        let slot = self.slot(frame.client);
        let sequence = frame.sequence as u64;
        if sequence > slot.open && variant == Variant::EarlyOpen {
            *slot = Slot::fresh(sequence);
        }
        if sequence < slot.open {
            return Err(Refusal::Old);
        }
        if sequence > slot.open {
            return Err(Refusal::Early);
        }
        let again = match stage {
            Stage::Send => slot.sent.is_some(),
            Stage::Echo => slot.echoes.contains_key(&from),
            Stage::Ready => slot.readies.contains_key(&from),
        };
        if again {
            return Err(Refusal::Old);
        }
        Ok(())
    }

    fn to_all(&self, frame: &Frame, body: Body) -> Vec<Send> {
        let bytes = build(frame.client, frame.sequence, body);
        (1..=self.p.n).map(|j| Send { to: Party::Server(j), frame: bytes.clone() }).collect()
    }

    fn broadcast_step(
        &mut self,
        frame: &Frame,
        stage: Stage,
        from: usize,
        said: Proposal,
    ) -> Result<Step, Refusal> {
        let Dispersed { digests, block } = &said.dispersed;
        let place = if stage == Stage::Send { self.own } else { from };
        if digest(block) != digest_at(digests, place) {
            return Err(Refusal::Digest);
        }
        let silent = self.variant == Variant::LateSendSilent;
        let slot = self.slot(frame.client);
        match stage {
            Stage::Send => {
                slot.sent = Some(said.time);
                if silent && slot.ready {
                    return Ok(Step::default());
                }
                let echo = Body::Block { stage: Stage::Echo, time: said.time, digests, block };
                return Ok(Step { sends: self.to_all(frame, echo), accepted: Vec::new() });
            }
            Stage::Echo => slot.echoes.insert(from, said.clone()),
            Stage::Ready => slot.readies.insert(from, said.clone()),
        };
        Ok(self.compare_group(frame, Group { time: said.time, digests }))
    }

    /// What a counted echo or ready of this group brings about.
    fn compare_group(&mut self, frame: &Frame, group: Group) -> Step {
        let p = self.p;
        let variant = self.variant;
        let Group { time, digests } = group;
        let slot = &self.slots[frame.client as usize - 1];
        let of_group = |kept: &BTreeMap<usize, Proposal>| -> Vec<(usize, Vec<u8>)> {
            let chosen = kept.iter().filter(|(_, said)| group.has(said, variant));
            chosen.map(|(&j, said)| (j, said.dispersed.block.clone())).collect()
        };
        let echoes = of_group(&slot.echoes);
        let readies = of_group(&slot.readies);
        let enough_echoes = match variant {
            Variant::FewEchoes => p.n - 2 * p.t,
            _ => p.most(),
        };
        if echoes.len() < enough_echoes && readies.len() < p.q() {
            return Step::default();
        }
        let chosen = if readies.len() >= p.q() { &readies } else { &echoes };
        let looked_at = if variant == Variant::NoCompare { Variant::LowestAlone } else { variant };
        let Some(value) = value_of_group(&p, chosen, looked_at) else { return Step::default() };
        let blocks = encoded(&p, &value);
        let compared = !matches!(variant, Variant::NoCompare | Variant::AgreementAlone);
        if compared && digest_list(&blocks) != digests {
            return Step::default();
        }
        let mut block = blocks[self.own - 1].clone();
        if variant == Variant::NoCompare {
            // The block that goes with the group, if this server has it.
            if let Some(said) = slot.echoes.get(&self.own).filter(|said| group.has(said, variant)) {
                block = said.dispersed.block.clone();
            }
        }
        let own = Dispersed { digests: digests.to_vec(), block };
        let enough_readies = match variant {
            Variant::FewReadies => p.q(),
            _ => p.q() + p.t,
        };
        let complete = readies.len() >= enough_readies;
        let mut step = Step::default();
        if !slot.ready {
            let ready = Body::Block { stage: Stage::Ready, time, digests, block: &own.block };
            step.sends = self.to_all(frame, ready);
        }
        let slot = self.slot(frame.client);
        slot.ready = true;
        if complete && slot.complete.is_none() {
            let time = slot.sent.filter(|_| variant == Variant::SentTime).unwrap_or(time);
            slot.complete = Some(Proposal { time, dispersed: own });
        }
        self.free(frame.client as usize, &mut step);
        step
    }

    /// A server reported its time: kept if it is higher than its last one. It may free writes that wait.
    fn report(&mut self, from: usize, time: u64) -> Result<Step, Refusal> {
        let latest = self.variant == Variant::LatestReport;
        if time <= self.reports[from - 1] && !latest {
            return Err(Refusal::Old);
        }
        self.reports[from - 1] = time;
        let mut step = Step::default();
        self.free(0, &mut step);
        Ok(step)
    }

    /// t + 1 servers have reported this incoming time or more, or the own time reaches it.
    fn vouched(&self, time: u64) -> bool {
        let Server { p, own, variant, .. } = *self;
        let mut least = p.t + 1;
        let mut reports = self.reports.clone();
        match variant {
            Variant::FewReports => least = p.t,
            Variant::CountsItself => reports[own - 1] = u64::MAX,
            _ => {}
        }
        let own_time = match variant {
            Variant::OwnTimeLess => self.stamp.time.saturating_add(1),
            _ => self.stamp.time,
        };
        let time = if variant == Variant::NewTimeVouched { time + 1 } else { time };
        time <= own_time || reported(&reports, time, least)
    }

    /// Whether this client's write may be accepted: complete, its time below 2^64 − 1 and vouched, its sequence one that a stamp can hold.
    pub fn is_free(&self, client: usize) -> bool {
        let slot = &self.slots[client - 1];
        slot.open <= u32::MAX as u64
            && slot.complete.as_ref().is_some_and(|said| said.time < u64::MAX && self.vouched(said.time))
    }

    /// Accepts the lowest client's write that may be accepted, and from the lowest again, until none is left. The step's frame was of
    /// client `named`'s write, or, at 0, of none.
    fn free(&mut self, named: usize, step: &mut Step) {
        match self.variant {
            Variant::OnePass => {
                for client in 1..=CLIENTS {
                    if self.is_free(client) {
                        self.accept(client, step);
                    }
                }
            }
            Variant::OneAcceptance => {
                if let Some(client) = (1..=CLIENTS).find(|&client| self.is_free(client)) {
                    self.accept(client, step);
                }
            }
            Variant::NamedAlone => {
                if (1..=CLIENTS).contains(&named) && self.is_free(named) {
                    self.accept(named, step);
                }
            }
            _ => {
                while let Some(client) = (1..=CLIENTS).find(|&client| self.is_free(client)) {
                    self.accept(client, step);
                }
            }
        }
    }

    /// Accepts a client's complete write: the new stamp has its time + 1. The values go to listeners, the ack to the owner, and, if the
    /// server's time grew, its reports to all servers and then to all clients.
    fn accept(&mut self, client: usize, step: &mut Step) {
        let slot = &self.slots[client - 1];
        let Some(Proposal { time: incoming, dispersed: own }) = slot.complete.clone() else { return };
        let (owner, sequence) = (client as u8, slot.open as u32);
        let stamp = Stamp { time: incoming + 1, writer: owner, sequence };
        let grown = stamp.time > self.stamp.time;
        let replaced = stamp > self.stamp || self.variant == Variant::StampFalls;
        if replaced {
            self.stamp = stamp;
            self.present = own.clone();
        }
        for (i, reader) in self.readers.iter().enumerate() {
            if reader.listening.is_some_and(|noted| noted < stamp) && self.variant != Variant::NoListeners {
                let value = Body::Value { stamp, digests: &own.digests, block: &own.block };
                let frame = build(i as u8 + 1, reader.newest, value);
                step.sends.push(Send { to: Party::Client(i + 1), frame });
            }
        }
        let ack = build(owner, sequence, Body::Ack);
        step.sends.push(Send { to: Party::Client(client), frame: ack });
        if grown {
            self.send_reports(owner, sequence, incoming, step);
        }
        self.slots[client - 1] = Slot::fresh(sequence as u64 + 1);
        step.accepted.push(Accepted { client, sequence, stamp, own, replaced });
    }

    /// The server's time grew by this write, whose incoming time is named.
    fn send_reports(&self, owner: u8, sequence: u32, incoming: u64, step: &mut Step) {
        let time = match self.variant {
            Variant::IncomingReported => incoming,
            _ => self.stamp.time,
        };
        let frame = build(owner, sequence, Body::Report { time });
        let told = |client: &usize| match self.variant {
            Variant::ClientsNotTold => false,
            Variant::OwnerTold => *client == owner as usize,
            _ => true,
        };
        let servers = (1..=self.p.n).map(Party::Server);
        let receivers = servers.chain((1..=CLIENTS).filter(told).map(Party::Client));
        step.sends.extend(receivers.map(|to| Send { to, frame: frame.clone() }));
    }

    fn answer(&self, frame: &Frame, body: Body) -> Step {
        let bytes = build(frame.client, frame.sequence, body);
        let to = Party::Client(frame.client as usize);
        Step { sends: vec![Send { to, frame: bytes }], accepted: Vec::new() }
    }

    fn get_stamp(&self, frame: &Frame) -> Step {
        self.answer(frame, Body::Stamp { time: self.stamp.time })
    }

    fn read(&mut self, frame: &Frame) -> Result<Step, Refusal> {
        let stamp = self.stamp;
        let reader = &mut self.readers[frame.client as usize - 1];
        if frame.sequence <= reader.newest {
            return Err(Refusal::Old);
        }
        *reader = Reader { newest: frame.sequence, listening: Some(stamp) };
        let Dispersed { digests, block } = &self.present;
        Ok(self.answer(frame, Body::Value { stamp, digests, block }))
    }

    fn read_complete(&mut self, frame: &Frame) -> Result<Step, Refusal> {
        let reader = &mut self.readers[frame.client as usize - 1];
        let repeated = frame.sequence == reader.newest && reader.listening.is_none();
        if frame.sequence < reader.newest || repeated {
            return Err(Refusal::Old);
        }
        *reader = Reader { newest: frame.sequence, listening: None };
        Ok(Step::default())
    }
}
