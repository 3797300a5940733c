//! A false node: it has a valid certificate and speaks the links' language, and tells what it likes. It helps some and not others, sends different things
//! to different servers, writes and reads out of turn, acknowledges what it did not take, never acknowledges, repeats, floods, and sends garbage.
use crate::cluster::Cluster;
use crate::messages::{self, Front, Hello, Line, Mark, Message, LINK_VERSION, MESSAGE_MOST};
use crate::random::Random;
use crate::sem::{self, Client, Parameters, Party, Room, Sent, CLIENT, SERVER};
use crate::streams::StreamId;
use std::collections::{BTreeMap, BTreeSet};

/// What is remembered of others' frames.
const LEARNED_MOST: usize = 64;
/// One that floods sends up to so many messages at once.
const FLOOD: u64 = 100;

struct Link {
    other: usize,
    input: Vec<u8>,
    /// The next number of each stream to the partner, as its greeting told.
    next: BTreeMap<StreamId, u64>,
    greeted: bool,
}

pub struct Evil {
    cluster: Cluster,
    me: usize,
    links: BTreeMap<u64, Link>,
    /// What was acknowledged of each stream to this node.
    acked: BTreeMap<StreamId, u64>,
    /// Frames that came: sender and bytes.
    learned: Vec<(Party, Vec<u8>)>,
    /// Writes of the own clients: the same sequence with two values.
    writers: BTreeMap<u8, [Client; 2]>,
    writes: BTreeMap<u8, [Vec<Sent>; 2]>,
    greetings: u64,
    /// Servers that it helps.
    friends: BTreeSet<u8>,
    acks: bool,
    /// It floods readers with values whose digest lists look like the beginnings of batches.
    floods: bool,
}

type Sends = Vec<(u64, Vec<u8>)>;

impl Evil {
    pub fn new(cluster: &Cluster, me: usize, floods: bool) -> Evil {
        Evil {
            cluster: cluster.clone(),
            me,
            links: BTreeMap::new(),
            acked: BTreeMap::new(),
            learned: vec![],
            writers: BTreeMap::new(),
            writes: BTreeMap::new(),
            greetings: 0,
            friends: BTreeSet::new(),
            acks: floods || me.is_multiple_of(2),
            floods,
        }
    }

    pub fn up(&mut self, link: u64, other: usize, r: &mut Random) -> Sends {
        self.links.retain(|_, l| l.other != other);
        self.links.insert(link, Link { other, input: vec![], next: BTreeMap::new(), greeted: false });
        self.greetings += 1;
        let lies = r.one_in(6);
        let mut lines = vec![];
        for from in self.cluster.nodes[self.me].parties() {
            for to in self.cluster.nodes[other].parties() {
                for owner in 0..=sem::CLIENTS {
                    let out = StreamId { from, to, register: 0, owner };
                    let back = StreamId { from: to, to: from, register: 0, owner };
                    let acked = if lies && r.one_in(3) { r.below(1000) } else { 0 };
                    lines.push(Line { stream: out, next: 1 << 40, acked });
                    let next = if lies && r.one_in(3) { r.below(1000) } else { self.acked.get(&back).copied().unwrap_or(0) };
                    lines.push(Line { stream: back, next, acked: 0 });
                }
            }
        }
        let mark = |batch: u64| Mark { batch, hash: [7; 16] };
        let hello = Hello {
            version: LINK_VERSION,
            register: self.cluster.register_digest(),
            members: self.cluster.members_digest(),
            own: mark(self.greetings),
            seen: if lies { mark(r.below(500)) } else { Mark::default() },
            lines,
        };
        let mut bytes = vec![];
        messages::write(&mut bytes, &Message::Hello(hello));
        vec![(link, bytes)]
    }

    pub fn down(&mut self, link: u64) {
        self.links.remove(&link);
    }

    pub fn bytes(&mut self, link: u64, _other: usize, bytes: &[u8], r: &mut Random) -> Sends {
        let Some(l) = self.links.get_mut(&link) else { return vec![] };
        l.input.extend_from_slice(bytes);
        let input = std::mem::take(&mut l.input);
        let (mut rest, mut out) = (&input[..], vec![]);
        while let Front::Whole(message, length) = messages::read(rest, MESSAGE_MOST) {
            match message {
                Message::Hello(hello) => {
                    l.greeted = true;
                    for line in hello.lines {
                        if self.cluster.node_of(line.stream.from) == Some(self.me) {
                            l.next.insert(line.stream, line.next);
                        }
                    }
                }
                Message::Data { stream, number, frame } => {
                    if self.learned.len() < LEARNED_MOST {
                        self.learned.push((stream.from, frame.to_vec()));
                    } else {
                        let at = r.below(LEARNED_MOST as u64) as usize;
                        self.learned[at] = (stream.from, frame.to_vec());
                    }
                    if self.acks && r.one_in(2) {
                        let next = self.acked.entry(stream).or_default();
                        *next = (*next).max(number + 1);
                        messages::write(&mut out, &Message::Ack { stream, next: *next });
                    }
                }
                _ => {}
            }
            rest = &rest[length..];
        }
        l.input = rest.to_vec();
        vec![(link, out)]
    }

    pub fn mischief(&mut self, r: &mut Random) -> Sends {
        if r.one_in(20) {
            self.friends = (1..=self.cluster.parameters.n as u8).filter(|_| r.one_in(2)).collect();
        }
        let links: Vec<u64> = self.links.iter().filter(|(_, l)| l.greeted).map(|(id, _)| *id).collect();
        let mut sends = vec![];
        for link in links {
            let mut out = vec![];
            for _ in 0..r.below(if self.floods { FLOOD } else { 4 }) {
                self.one(link, r, &mut out);
            }
            sends.push((link, out));
        }
        sends
    }

    /// One false message for one partner.
    fn one(&mut self, link: u64, r: &mut Random, out: &mut Vec<u8>) {
        let mine: Vec<Party> = self.cluster.nodes[self.me].parties().collect();
        let other = self.links.get(&link).map_or(0, |l| l.other);
        let theirs: Vec<Party> = self.cluster.nodes[other].parties().collect();
        if mine.is_empty() || theirs.is_empty() {
            return;
        }
        let from = mine[r.below(mine.len() as u64) as usize];
        let to = theirs[r.below(theirs.len() as u64) as usize];
        if self.floods && from.class == SERVER && to.class == CLIENT && !r.one_in(200) {
            if let Some(frame) = self.pattern_value(from, to, r) {
                self.put_next(link, from, to, &frame, out);
            }
            return;
        }
        let frame = match r.below(40) {
            0 => return out.extend_from_slice(&r.bytes(30)),
            1 => {
                let stream = StreamId { from, to, register: 0, owner: 0 };
                return messages::write(out, &Message::Ack { stream, next: r.below(2000) });
            }
            2 => return messages::write(out, &Message::Ping(Mark { batch: r.below(50), hash: [1; 16] })),
            3..=5 => {
                let length = r.below(60) as usize;
                r.bytes(length)
            }
            6..=8 => match self.learned.get(r.below(LEARNED_MOST as u64) as usize) {
                Some((_, frame)) => frame.clone(),
                None => return,
            },
            9..=12 => self.pattern(from, to, r),
            _ if from.class == SERVER => match self.as_server(from, to, r) {
                Some(frame) => frame,
                None => return,
            },
            _ => match self.as_client(from, to, r) {
                Some(frame) => frame,
                None => return,
            },
        };
        self.put(link, from, to, &frame, r, out);
    }

    fn put_next(&mut self, link: u64, from: Party, to: Party, frame: &[u8], out: &mut Vec<u8>) {
        let stream = StreamId { from, to, register: 0, owner: sem::owner(frame) };
        let Some(l) = self.links.get_mut(&link) else { return };
        let number = l.next.entry(stream).or_default();
        messages::write(out, &Message::Data { stream, number: *number, frame });
        *number += 1;
    }

    fn put(&mut self, link: u64, from: Party, to: Party, frame: &[u8], r: &mut Random, out: &mut Vec<u8>) {
        let stream = StreamId { from, to, register: 0, owner: sem::owner(frame) };
        let Some(l) = self.links.get_mut(&link) else { return };
        let next = l.next.entry(stream).or_default();
        let number = if r.one_in(60) { r.below(100) } else { *next };
        if number == *next {
            *next += 1;
        }
        messages::write(out, &Message::Data { stream, number, frame });
    }

    fn head(kind: u8, owner: u8, sequence: u32, body: &[u8]) -> Vec<u8> {
        let mut f = ((7 + body.len()) as u16).to_be_bytes().to_vec();
        f.extend_from_slice(&[1, kind, owner]);
        f.extend_from_slice(&sequence.to_be_bytes());
        f.extend_from_slice(body);
        f
    }

    /// A block for a server, and a digest list that looks like the beginning of a batch of the log, again and again, but for that block's digest.
    fn pattern_parts(&self, server: u8, r: &mut Random) -> (Vec<u8>, Vec<u8>) {
        let p = &self.cluster.parameters;
        let block = r.bytes(p.size.div_ceil(p.k));
        let mut list: Vec<u8> = b"SDB1".iter().copied().cycle().skip(r.below(4) as usize).take(32 * p.n).collect();
        let at = 32 * usize::from(server.clamp(1, p.n as u8) - 1);
        list[at..at + 32].copy_from_slice(&openssl::sha::sha256(&block));
        (list, block)
    }

    /// A send with such a list.
    fn pattern(&self, from: Party, to: Party, r: &mut Random) -> Vec<u8> {
        let (list, block) = self.pattern_parts(to.number, r);
        let body = [&[0; 8][..], &list, &block].concat();
        Evil::head(3, from.number, 1 + r.below(3) as u32, &body)
    }

    /// A value with such a list, for the last read of a client that came here.
    fn pattern_value(&self, from: Party, to: Party, r: &mut Random) -> Option<Vec<u8>> {
        let reads = self.learned.iter().filter(|(p, f)| *p == to && matches!(sem::head(f), Some((10, _, _))));
        let sequence = reads.filter_map(|(_, f)| sem::head(f)).map(|h| h.2).max()?;
        let (list, block) = self.pattern_parts(from.number, r);
        let body = [&(1 + r.below(40)).to_be_bytes()[..], &[1 + r.below(8) as u8], &sequence.to_be_bytes(), &list, &block].concat();
        Some(Evil::head(11, to.number, sequence, &body))
    }

    /// What a false server sends: help with writes for its friends, and answers of its own making.
    fn as_server(&self, from: Party, to: Party, r: &mut Random) -> Option<Vec<u8>> {
        if to.class == CLIENT {
            let sequence = 1 + r.below(6) as u32;
            let time = if r.one_in(30) { u64::MAX } else { r.below(40) };
            return Some(match r.below(4) {
                0 => Evil::head(2, to.number, sequence, &time.to_be_bytes()),
                1 => Evil::head(9, to.number, sequence, &[]),
                2 => Evil::head(13, 1 + r.below(8) as u8, sequence, &time.to_be_bytes()),
                _ => {
                    let (_, known) = self.learned.iter().find(|(_, f)| matches!(sem::head(f), Some((3..=5, _, _))))?;
                    let list = known.get(17..)?;
                    let body = [&time.to_be_bytes()[..], &[1 + r.below(8) as u8], &sequence.to_be_bytes(), list].concat();
                    Evil::head(11, to.number, sequence, &body)
                }
            });
        }
        if r.one_in(8) {
            let time = if r.one_in(10) { u64::MAX } else { r.below(40) };
            return Some(Evil::head(13, 1 + r.below(8) as u8, 1 + r.below(6) as u32, &time.to_be_bytes()));
        }
        if !self.friends.contains(&to.number) {
            return None;
        }
        // an echo or a ready with the own block, of a write whose send came here
        let sends: Vec<&Vec<u8>> =
            self.learned.iter().filter(|(p, f)| p.class == CLIENT && matches!(sem::head(f), Some((3, _, _)))).map(|(_, f)| f).collect();
        let mut frame = sends.get(r.below(sends.len().max(1) as u64) as usize)?.to_vec();
        frame[3] = 4 + r.below(2) as u8;
        let _ = from;
        Some(frame)
    }

    /// What a false client sends: writes of two values at once, reads and ends out of turn.
    fn as_client(&mut self, from: Party, to: Party, r: &mut Random) -> Option<Vec<u8>> {
        if to.class != SERVER {
            return None;
        }
        match r.below(8) {
            0 => Some(Evil::head(1, from.number, 1 + r.below(9) as u32, &[])),
            1 => Some(Evil::head(10, from.number, 1 + r.below(9) as u32, &[])),
            2 => Some(Evil::head(12, from.number, 1 + r.below(9) as u32, &[])),
            3 => {
                self.write(from.number, r);
                None
            }
            _ => {
                let made = self.writes.get(&from.number)?;
                let sent = &made[r.below(2) as usize];
                sent.iter().find(|s| s.to == to).map(|s| s.frame.to_vec())
            }
        }
    }

    /// Makes the sends of the next write, for two values, with the library's own client.
    fn write(&mut self, client: u8, r: &mut Random) {
        let p = self.cluster.parameters;
        let mut room = Room::new(&p);
        let writers = self.writers.entry(client).or_insert_with(|| [Client::fresh(client), Client::fresh(client)]);
        let time = r.below(30);
        let mut made = [vec![], vec![]];
        for (writer, made) in writers.iter_mut().zip(&mut made) {
            *made = sends(&p, &mut room, writer, &r.bytes(p.size), time);
        }
        self.writes.insert(client, made);
    }
}

/// The sends of a client's next write, with a time of its choice: it is told made-up stamps, and then made-up acks.
pub fn sends(p: &Parameters, room: &mut Room, client: &mut Client, value: &[u8], time: u64) -> Vec<Sent> {
    let (me, mut made) = (client.me, vec![]);
    let Ok(begun) = client.begin(p, room, Some(value)) else { return made };
    let sequence = begun.sent.first().map_or(0, |s| sem::sequence(&s.frame)) as u32;
    let stamp = Evil::head(2, me, sequence, &time.to_be_bytes());
    let ack = Evil::head(9, me, sequence, &[]);
    for frame in [stamp, ack] {
        for server in 1..=p.n as u8 {
            if let Ok(step) = client.deliver(p, room, Party::server(server), &frame) {
                made.extend(step.sent);
            }
        }
    }
    made
}
