//! The false servers and clients of a run: they see every frame and may send anything, from
//! noise to well-formed equivocation.

use crate::check::Violation;
use crate::world::{Sent, World};
use register::blocks::encoded;
use register::frame::{build, open, Body, Frame, Stage, Stamp, KIND_AT, REPORT, STAMP};
use register::random::Random;
use register::server::{digest_list, Server};
use register::{Params, Party, Send};
use std::collections::BTreeMap;

/// How a false server takes the frames sent to it.
#[derive(Clone, Copy, Debug)]
enum Mood {
    Silent,
    /// As an honest server would.
    Faithful,
    /// Answers from the initial state and acknowledges every write at once.
    Frozen,
    /// Takes part in broadcasts, but answers get-stamp and read from the initial state.
    Forgetful,
    /// Takes part in broadcasts and answers reads, but tells nobody its time.
    Mute,
    /// Two honest servers in one, each seen by one half of the others.
    TwoFaced,
    /// Any of these, anew for each frame.
    Changing,
}

const MOODS: [Mood; 7] =
    [Mood::Silent, Mood::Faithful, Mood::Frozen, Mood::Forgetful, Mood::Mute, Mood::TwoFaced, Mood::Changing];

/// How the false parties act together.
#[derive(Clone, Copy, Debug, PartialEq, Eq)]
pub enum Profile {
    /// Everything at random, much of it noise.
    Noisy,
    /// Prompt and well-formed, with one plan for the whole run.
    Cunning,
    /// As cunning, with two-faced servers, and clients that write two versions, one to each half.
    Splitting,
}

/// A write as false servers may support it: a list with the blocks they know, and a time.
struct Known {
    client: u8,
    sequence: u32,
    digests: Vec<u8>,
    blocks: BTreeMap<usize, Vec<u8>>,
    time: u64,
}

pub struct Adversary {
    p: Params,
    servers: Vec<usize>,
    clients: Vec<usize>,
    moods: BTreeMap<usize, Mood>,
    faces: BTreeMap<usize, [Server; 2]>,
    profile: Profile,
    /// No false server ever tells a time: clients have to count with the honest ones alone.
    mute: bool,
    /// Which face, and which version of a false client's write, each party sees.
    pub halves: u32,
    /// Frames of false parties to honest ones, to be handed in at any time.
    stock: Vec<Sent>,
    /// Frames to false servers from false parties.
    inner: Vec<Sent>,
    known: Vec<Known>,
    writes: [u32; 9],
    reads: [u32; 9],
    initial: Vec<Vec<u8>>,
}

const STOCK: usize = 600;

/// Two halves of the servers, equal or nearly so, and of the clients.
fn some_halves(n: usize, random: &mut Random) -> u32 {
    let mut servers: Vec<usize> = (1..=n).collect();
    for i in (1..n).rev() {
        servers.swap(i, random.below(i + 1));
    }
    let clients = (random.word() as u32) << 16;
    servers[..n / 2].iter().fold(clients, |halves, j| halves | 1 << j)
}

/// Drops what does not fit of the items from this place on.
fn retain_behind<T>(items: &mut Vec<T>, place: usize, fits: impl Fn(&T) -> bool) {
    let behind = items.split_off(place);
    items.extend(behind.into_iter().filter(fits));
}

fn bit(party: Party) -> u32 {
    match party {
        Party::Server(j) => j as u32,
        Party::Client(c) => 16 + c as u32,
    }
}

impl Adversary {
    pub fn new(
        p: Params,
        servers: &[usize],
        clients: &[usize],
        initial: &[u8],
        profile: Profile,
        random: &mut Random,
    ) -> Adversary {
        let mute = profile == Profile::Cunning && random.chance(1, 3);
        let moods = match profile {
            Profile::Noisy => &MOODS[..],
            Profile::Cunning if mute => &[Mood::Mute],
            Profile::Cunning => &[Mood::Faithful, Mood::Forgetful, Mood::Forgetful, Mood::TwoFaced],
            Profile::Splitting => &[Mood::TwoFaced],
        };
        let face = |j: usize| Server::fresh(p, j, initial).unwrap();
        Adversary {
            p,
            servers: servers.to_vec(),
            clients: clients.to_vec(),
            moods: servers.iter().map(|&j| (j, random.pick(moods))).collect(),
            faces: servers.iter().map(|&j| (j, [face(j), face(j)])).collect(),
            profile,
            mute,
            halves: some_halves(p.n, random),
            stock: Vec::new(),
            inner: Vec::new(),
            known: Vec::new(),
            writes: [1; 9],
            reads: [0; 9],
            initial: encoded(&p, initial),
        }
    }

    /// True if there is anybody false to act.
    pub fn present(&self) -> bool {
        !self.servers.is_empty() || !self.clients.is_empty()
    }

    /// One action of the false parties.
    pub fn act(&mut self, world: &mut World, random: &mut Random) -> Result<(), Violation> {
        if self.stock.len() > STOCK {
            let cut = self.stock.len() - STOCK / 2;
            self.stock.drain(..cut);
        }
        if self.servers.len() >= self.p.most() && random.chance(1, 8) {
            return self.hand_group(world, random);
        }
        if self.profile != Profile::Noisy {
            return self.act_cunning(world, random);
        }
        match random.below(22) {
            0..=4 => self.work(world, random),
            5..=10 => return self.hand_stock(world, random),
            11 => return self.hand_mutated(world, random),
            12 => return self.hand_noise(world, random),
            13 | 14 => self.write(world, random),
            15 => self.read(random),
            16 | 17 => self.support(world, random),
            18 => self.reply(world, random),
            19 | 20 => self.report(world, random),
            _ => {
                for mood in self.moods.values_mut() {
                    if random.chance(1, 10) {
                        *mood = random.pick(&MOODS);
                    }
                }
                if random.chance(1, 10) {
                    self.halves = some_halves(self.p.n, random);
                }
            }
        }
        Ok(())
    }

    fn act_cunning(&mut self, world: &mut World, random: &mut Random) -> Result<(), Violation> {
        match random.below(if self.profile == Profile::Splitting { 22 } else { 60 }) {
            0 => self.write(world, random),
            1 => self.support(world, random),
            2 => self.reply(world, random),
            3 => self.read(random),
            4 | 5 => self.report(world, random),
            _ => {
                while !world.caught.is_empty() || !self.inner.is_empty() {
                    self.work(world, random);
                }
                return self.hand_stock(world, random);
            }
        }
        Ok(())
    }

    fn put(&mut self, world: &World, from: Party, to: Party, frame: Vec<u8>) {
        if world.honest(to) {
            self.stock.push(Sent { from, to, frame });
        } else if let Party::Server(_) = to {
            self.inner.push(Sent { from, to, frame });
        }
    }

    /// False servers take frames that were sent to them.
    fn work(&mut self, world: &mut World, random: &mut Random) {
        for _ in 0..random.range(1, 6) {
            let sent = if !world.caught.is_empty() && (self.inner.is_empty() || random.chance(1, 2)) {
                let i = random.below(world.caught.len());
                world.log[world.caught.swap_remove(i)].clone()
            } else if !self.inner.is_empty() {
                let i = random.below(self.inner.len());
                self.inner.swap_remove(i)
            } else {
                return;
            };
            self.take(world, &sent, random);
        }
    }

    fn take(&mut self, world: &World, sent: &Sent, random: &mut Random) {
        let Party::Server(j) = sent.to else { return };
        let Ok(frame) = open(&self.p, &sent.frame) else { return };
        self.learn(j, &frame);
        let mood = match self.moods[&j] {
            Mood::Changing => random.pick(&MOODS[..6]),
            mood => mood,
        };
        match mood {
            Mood::Silent | Mood::Changing => {}
            Mood::Faithful => self.face(world, j, 0, sent, false),
            Mood::TwoFaced => {
                let client = matches!(sent.from, Party::Client(_));
                let half = self.halves >> bit(sent.from) & 1;
                for face in 0..2 {
                    if client || face == half as usize {
                        self.face(world, j, face, sent, true);
                    }
                }
            }
            Mood::Frozen => self.frozen(world, j, sent, &frame),
            Mood::Forgetful => match frame.body {
                Body::GetStamp | Body::Read => self.frozen(world, j, sent, &frame),
                _ => self.face(world, j, 0, sent, false),
            },
            Mood::Mute => {
                let before = (self.stock.len(), self.inner.len());
                self.face(world, j, 0, sent, false);
                let tells = |sent: &Sent| matches!(sent.frame[KIND_AT], STAMP | REPORT);
                retain_behind(&mut self.stock, before.0, |sent| !tells(sent));
                retain_behind(&mut self.inner, before.1, |sent| !tells(sent));
            }
        }
    }

    /// Remembers the time, list and block of a write that was sent to a false server.
    fn learn(&mut self, j: usize, frame: &Frame) {
        if let Body::Block { stage: Stage::Send, time, digests, block } = frame.body {
            let (client, sequence) = (frame.client, frame.sequence);
            let same = |k: &&mut Known| {
                (k.client, k.sequence, k.time) == (client, sequence, time) && k.digests == digests
            };
            if let Some(known) = self.known.iter_mut().find(same) {
                known.blocks.insert(j, block.to_vec());
                return;
            }
            let blocks = BTreeMap::from([(j, block.to_vec())]);
            self.known.push(Known { client, sequence, digests: digests.to_vec(), blocks, time });
        }
    }

    fn face(&mut self, world: &World, j: usize, face: usize, sent: &Sent, half: bool) {
        let server = &mut self.faces.get_mut(&j).unwrap()[face];
        let mut queue = vec![(sent.from, sent.frame.clone())];
        let mut sends: Vec<Send> = Vec::new();
        while let Some((from, frame)) = queue.pop() {
            if let Ok(step) = server.deliver(from, &frame, usize::MAX) {
                for send in step.sends {
                    if send.to == Party::Server(j) {
                        queue.push((send.to, send.frame));
                    } else {
                        sends.push(send);
                    }
                }
            }
        }
        for Send { to, frame } in sends {
            if !half || self.halves >> bit(to) & 1 == face as u32 {
                self.put(world, Party::Server(j), to, frame);
            }
        }
    }

    fn frozen(&mut self, world: &World, j: usize, sent: &Sent, frame: &Frame) {
        let digests = digest_list(&self.initial);
        let body = match frame.body {
            Body::GetStamp => Body::Stamp { time: 0 },
            Body::Read => {
                Body::Value { stamp: Stamp::default(), digests: &digests, block: &self.initial[j - 1] }
            }
            Body::Block { stage: Stage::Send, .. } => Body::Ack,
            _ => return,
        };
        let bytes = build(frame.client, frame.sequence, body);
        self.put(world, Party::Server(j), sent.from, bytes);
    }

    /// A frame of the stock, mostly a recent one; it may be handed in again later.
    fn hand_stock(&mut self, world: &mut World, random: &mut Random) -> Result<(), Violation> {
        for _ in 0..random.range(1, 8) {
            if self.stock.is_empty() {
                return Ok(());
            }
            let length = self.stock.len();
            let reach = if random.chance(3, 4) { length.min(40) } else { length };
            let i = length - 1 - random.below(reach);
            let sent = if random.chance(9, 10) { self.stock.remove(i) } else { self.stock[i].clone() };
            let room = world.room(sent.to);
            world.hand_false(sent.to, sent.from, &sent.frame, room)?;
        }
        Ok(())
    }

    /// Someone who is not honest.
    fn anyone(&self, world: &World, random: &mut Random) -> Party {
        let mut parties: Vec<Party> = self.servers.iter().map(|&j| Party::Server(j)).collect();
        parties.extend(self.clients.iter().map(|&c| Party::Client(c)));
        if parties.is_empty() || random.chance(1, 8) {
            parties = vec![
                Party::Server(0),
                Party::Server(self.p.n + 1),
                Party::Server(255),
                Party::Client(0),
                Party::Client(9),
                Party::Client(usize::MAX),
            ];
        }
        let party = random.pick(&parties);
        assert!(!world.honest(party));
        party
    }

    fn honest_receiver(&self, world: &World, random: &mut Random) -> Party {
        loop {
            let party = if random.chance(2, 3) {
                Party::Server(random.range(1, self.p.n))
            } else {
                Party::Client(random.range(1, 8))
            };
            if world.honest(party) {
                return party;
            }
        }
    }

    /// A frame of anybody's, changed a little or only handed in as a false party's.
    fn hand_mutated(&mut self, world: &mut World, random: &mut Random) -> Result<(), Violation> {
        let from_log = !world.log.is_empty() && (self.stock.is_empty() || random.chance(1, 2));
        let mut sent = if from_log {
            world.log[random.below(world.log.len())].clone()
        } else if !self.stock.is_empty() {
            self.stock[random.below(self.stock.len())].clone()
        } else {
            return Ok(());
        };
        if world.honest(sent.from) || random.chance(1, 10) {
            sent.from = self.anyone(world, random);
        }
        if !world.honest(sent.to) || random.chance(1, 3) {
            sent.to = self.honest_receiver(world, random);
        }
        let frame = &mut sent.frame;
        match random.below(8) {
            0 => {}
            1 => frame[2] = random.byte(),
            2 => frame[3] = random.range(0, 14) as u8,
            3 => frame[4] = random.range(0, 9) as u8,
            4 => frame[8] = random.range(0, 4) as u8,
            5 => {
                let i = random.below(frame.len());
                frame[i] ^= 1 << random.below(8);
            }
            6 => {
                let length = random.below(frame.len() + 1);
                frame.truncate(length);
                if length > 2 && random.chance(1, 2) {
                    frame[..2].copy_from_slice(&((length - 2) as u16).to_be_bytes());
                }
            }
            _ => {
                let from = 9.min(frame.len());
                for byte in frame[from..].iter_mut().take(8) {
                    *byte = if random.chance(1, 2) { 0 } else { random.byte() };
                }
            }
        }
        let room = world.room(sent.to);
        world.hand_false(sent.to, sent.from, &sent.frame, room)?;
        Ok(())
    }

    fn hand_noise(&mut self, world: &mut World, random: &mut Random) -> Result<(), Violation> {
        let length = random.below(40);
        let mut frame = random.bytes(length);
        if length >= 9 && random.chance(3, 4) {
            frame[..2].copy_from_slice(&((length - 2) as u16).to_be_bytes());
            frame[2] = 1;
            frame[3] = random.range(0, 14) as u8;
            frame[4] = random.range(0, 9) as u8;
            frame[5..8].fill(0);
            frame[8] = random.range(0, 3) as u8;
        }
        let (to, from) = (self.honest_receiver(world, random), self.anyone(world, random));
        let room = world.room(to);
        world.hand_false(to, from, &frame, room)?;
        Ok(())
    }

    /// A time that a false party may name.
    fn some_time(&self, world: &World, random: &mut Random) -> u64 {
        let highest = world.seen.accepted.iter().map(|a| a.stamp.time).max().unwrap_or(0);
        match random.below(40) {
            0..=9 => 0,
            10..=19 => highest,
            20..=29 => highest.saturating_add(random.below(3) as u64),
            30..=36 => random.below(4) as u64,
            37 => u64::MAX - 1,
            38 => u64::MAX,
            _ => highest.saturating_sub(1),
        }
    }

    /// Blocks of a value, or, three times in so many, such that no value has.
    fn some_blocks(&self, times: usize, random: &mut Random) -> Vec<Vec<u8>> {
        let p = &self.p;
        let value = random.bytes(p.l);
        let mut blocks = encoded(p, &value);
        match random.below(times) {
            0 => {
                for block in &mut blocks {
                    *block = random.bytes(p.block());
                }
            }
            1 => {
                let j = random.below(p.n);
                blocks[j] = random.bytes(p.block());
            }
            2 => {
                // Padding that is not zero.
                let padded = Params { l: p.k * p.block(), ..*p };
                if padded.check_sizes().is_ok() {
                    blocks = encoded(&padded, &random.bytes(padded.l));
                }
            }
            _ => {}
        }
        blocks
    }

    /// A false client's write: one version or two, to all servers or some.
    fn write(&mut self, world: &World, random: &mut Random) {
        if self.clients.is_empty() {
            return;
        }
        let client = random.pick(&self.clients);
        let accepted = |s: u32| world.seen.accepted.iter().any(|a| a.client == client && a.sequence == s);
        while accepted(self.writes[client]) {
            self.writes[client] += 1;
        }
        let sequence = self.writes[client] + random.chance(1, 6) as u32;
        let splitting = self.profile == Profile::Splitting;
        let versions = if splitting { 2 } else { random.range(1, 2) };
        let aligned = splitting || random.chance(1, 2);
        let split = if aligned { self.halves } else { random.word() as u32 };
        let blocks: Vec<Vec<Vec<u8>>> = (0..versions).map(|_| self.some_blocks(8, random)).collect();
        let lists: Vec<Vec<u8>> = blocks.iter().map(|b| digest_list(b)).collect();
        let times: Vec<u64> = (0..versions).map(|_| self.some_time(world, random)).collect();
        // Two versions differ in value and time, in one of both, or not at all.
        let (one_value, one_time) = (random.chance(1, 3), random.chance(1, 3));
        let parts =
            |version| (if one_value { 0 } else { version }, times[if one_time { 0 } else { version }]);
        let reach = if random.chance(1, 3) { random.word() as u32 } else { u32::MAX };
        // Sometimes every server gets both versions, in turns.
        let rounds = if random.chance(1, 3) { versions } else { 1 };
        let n = self.p.n;
        for (round, j) in (0..rounds).flat_map(|round| (1..=n).map(move |j| (round, j))) {
            if reach >> j & 1 == 0 {
                continue;
            }
            let version = if versions == 2 { (split >> j & 1) as usize ^ round } else { 0 };
            let (v, time) = parts(version);
            let (digests, block) = (&lists[v], &blocks[v][j - 1]);
            let frame =
                build(client as u8, sequence, Body::Block { stage: Stage::Send, time, digests, block });
            self.put(world, Party::Client(client), Party::Server(j), frame);
        }
        for version in 0..versions {
            let (v, time) = parts(version);
            self.known.push(Known {
                client: client as u8,
                sequence,
                digests: lists[v].clone(),
                blocks: (1..=self.p.n).map(|j| (j, blocks[v][j - 1].clone())).collect(),
                time,
            });
        }
    }

    fn read(&mut self, random: &mut Random) {
        if self.clients.is_empty() {
            return;
        }
        let client = random.pick(&self.clients);
        self.reads[client] += random.below(2) as u32;
        let sequence = self.reads[client].max(1);
        for j in 1..=self.p.n {
            if !self.servers.contains(&j) && random.chance(1, 2) {
                let body = if random.chance(2, 3) { Body::Read } else { Body::ReadComplete };
                let frame = build(client as u8, sequence, body);
                self.stock.push(Sent { from: Party::Client(client), to: Party::Server(j), frame });
            }
        }
    }

    /// n − t or more false servers answer an honest client's read with one stamp and list; each block has its digest, and in most
    /// groups they are blocks of no value.
    fn hand_group(&mut self, world: &mut World, random: &mut Random) -> Result<(), Violation> {
        let asked = |sent: &&Sent| sent.frame[3] == 10 && world.honest(sent.from);
        let Some(Sent { from: to, frame, .. }) = world.log.iter().rev().find(asked).cloned() else {
            return Ok(());
        };
        let Ok(frame) = open(&self.p, &frame) else { return Ok(()) };
        let blocks = self.some_blocks(5, random);
        let digests = digest_list(&blocks);
        let time = self.some_time(world, random).max(1);
        let stamp = Stamp { time, writer: random.range(1, 8) as u8, sequence: random.range(1, 9) as u32 };
        let mut servers = self.servers.clone();
        for i in (1..servers.len()).rev() {
            servers.swap(i, random.below(i + 1));
        }
        for j in servers {
            let body = Body::Value { stamp, digests: &digests, block: &blocks[j - 1] };
            let bytes = build(frame.client, frame.sequence, body);
            let room = world.room(to);
            world.hand_false(to, Party::Server(j), &bytes, room)?;
        }
        Ok(())
    }

    /// False servers echo and confirm one version of a write to some servers.
    fn support(&mut self, world: &World, random: &mut Random) {
        if self.known.is_empty() || self.servers.is_empty() {
            return;
        }
        let reach = self.known.len().min(6);
        let known = &self.known[self.known.len() - 1 - random.below(reach)];
        let receivers = random.word() as u32;
        let time = if random.chance(1, 6) { self.some_time(world, random) } else { known.time };
        let mut frames = Vec::new();
        for &j in &self.servers {
            for to in (1..=self.p.n).filter(|&to| receivers >> to & 1 == 1) {
                for stage in [Stage::Echo, Stage::Ready] {
                    if let Some(block) = known.blocks.get(&j) {
                        let body = Body::Block { stage, time, digests: &known.digests, block };
                        frames.push((j, to, build(known.client, known.sequence, body)));
                    }
                }
            }
        }
        for (j, to, frame) in frames {
            self.put(world, Party::Server(j), Party::Server(to), frame);
        }
    }

    /// False servers report a time to some servers and clients, each one in most cases, the same or their own.
    fn report(&mut self, world: &World, random: &mut Random) {
        if self.mute {
            return;
        }
        let time = self.some_time(world, random);
        let (client, sequence) = match world.seen.accepted.last() {
            Some(a) if random.chance(2, 3) => (a.client, a.sequence),
            _ => (random.range(1, 8), random.range(1, 4) as u32),
        };
        let reach = if random.chance(1, 3) { random.word() as u32 } else { u32::MAX };
        for j in self.servers.clone() {
            let time = if random.chance(1, 4) { self.some_time(world, random) } else { time };
            let frame = build(client as u8, sequence, Body::Report { time });
            let receivers = (1..=self.p.n).map(Party::Server).chain((1..=8).map(Party::Client));
            for to in receivers.filter(|&to| reach >> bit(to) & 1 == 1) {
                self.put(world, Party::Server(j), to, frame.clone());
            }
        }
    }

    /// False servers answer an honest client's operation as they like.
    fn reply(&mut self, world: &World, random: &mut Random) {
        if world.log.is_empty() || self.servers.is_empty() {
            return;
        }
        let reach = world.log.len().min(200);
        let sent = &world.log[world.log.len() - 1 - random.below(reach)];
        let Party::Client(c) = sent.from else { return };
        let Ok(frame) = open(&self.p, &sent.frame) else { return };
        if self.mute && frame.body == Body::GetStamp {
            return;
        }
        let initial = digest_list(&self.initial);
        let wrong = random.bytes(self.p.block());
        for j in self.servers.clone() {
            let mut digests = &initial;
            let mut block = &self.initial[j - 1];
            let mut stamp = Stamp::default();
            if let Some(known) = self.known.last().filter(|_| random.chance(2, 3)) {
                if let Some(own) = known.blocks.get(&j) {
                    (digests, block) = (&known.digests, own);
                }
                let time = self.some_time(world, random).max(1);
                stamp = Stamp { time, writer: known.client, sequence: known.sequence };
            }
            if let Some(a) = world.seen.accepted.last().filter(|_| random.chance(1, 3)) {
                stamp = a.stamp;
            }
            if random.chance(1, 4) {
                block = &wrong;
            }
            // A stamp with some parts zero: 9.
            if random.chance(1, 8) {
                stamp = Stamp { sequence: stamp.sequence ^ 1, ..stamp };
            }
            let time = if random.chance(1, 20) { u64::MAX } else { self.some_time(world, random) };
            let body = match frame.body {
                Body::GetStamp => Body::Stamp { time },
                Body::Read => Body::Value { stamp, digests, block },
                _ => Body::Ack,
            };
            let bytes = build(frame.client, frame.sequence, body);
            self.put(world, Party::Server(j), Party::Client(c), bytes);
        }
    }
}
