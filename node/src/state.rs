//! What the log determines: the parties with their records and areas, the streams, and the desks' operations. It is moved in two ways that must
//! agree: live, where each step makes records, and by replay, where each record is made again and compared with what the log says.
use crate::events::{Ended, Now, Outcome, Stamp};
use crate::messages::Mark;
use crate::records::{self, outcome, Record};
use crate::sem::{self, Client, End, Parameters, Party, Room, Sent, Server, Step, AHEAD, CLIENT, SERVER};
use crate::streams::{Limits, Out, Spot, StreamId, Streams};
use std::collections::{BTreeMap, BTreeSet, VecDeque};

/// A desk: how many operations it began, the one that is open, and the last that ended.
#[derive(Clone, Debug, Default, PartialEq)]
pub struct Desk {
    pub begun: u64,
    pub open: Option<Open>,
    pub last: Option<Ended>,
}

#[derive(Clone, Debug, Default, PartialEq)]
pub struct Open {
    pub write: bool,
    pub begin_tick: u32,
    pub begin_wall: u64,
    /// The write's own stamp, once it has one.
    pub stamp: Stamp,
    /// Servers heard in the operation's present part.
    pub heard: BTreeSet<u8>,
}

pub struct State {
    pub parameters: Parameters,
    initial: Vec<u8>,
    room: Room,
    pub servers: BTreeMap<u8, Server>,
    pub clients: BTreeMap<u8, Client>,
    pub desks: BTreeMap<u8, Desk>,
    pub streams: Streams,
    /// Counts the begins and ends of this node's desks.
    pub tick: u32,
    pub steps: u64,
    /// The last batch of each node's log that this node was told of.
    pub seen: BTreeMap<u8, Mark>,
    /// Nodes that gave a sign that this one has lost state. What was lost does not come back, so a sign stands for good.
    pub signs: BTreeSet<u8>,
    /// Servers that were given up.
    pub given_up: BTreeSet<Party>,
    pub limits: Limits,
    /// Streams that frames were put into since the last batch was closed.
    sent: BTreeSet<StreamId>,
    /// In replay: an operation that ended, whose record must come next; and the batch's wall clock.
    ending: Option<(u8, Outcome)>,
    wall: u64,
    one_stream: bool,
}

/// What live steps did besides: for the batch, and for who waits.
#[derive(Default)]
pub struct Effects {
    pub batch: Vec<u8>,
    /// Streams whose frames were answered.
    pub answered: BTreeSet<StreamId>,
    /// Streams whose last answered frame was refused: a place is written at the batch's end.
    pub places: BTreeSet<StreamId>,
    pub ended: Vec<Ended>,
    pub refused: Vec<(StreamId, u8)>,
    /// A step or a begin was made: the batch must be committed.
    pub stepped: bool,
    /// Streams to look at: own frames, and those whose sequence has come.
    pub work: VecDeque<StreamId>,
    /// Streams whose head was answered 13.
    pub waiting: BTreeSet<StreamId>,
}

fn ended_parts(o: &Outcome) -> (u8, Stamp) {
    match o {
        Outcome::Written { stamp } => (outcome::WRITTEN, *stamp),
        Outcome::Value { stamp, .. } => (outcome::VALUE, *stamp),
        Outcome::OutOfStamps => (outcome::OUT_OF_STAMPS, Stamp::default()),
        Outcome::Disagreement => (outcome::DISAGREEMENT, Stamp::default()),
    }
}

impl State {
    pub fn new(parameters: Parameters, initial: &[u8]) -> State {
        State {
            parameters,
            initial: initial.to_vec(),
            room: Room::new(&parameters),
            servers: BTreeMap::new(),
            clients: BTreeMap::new(),
            desks: BTreeMap::new(),
            streams: Streams::default(),
            tick: 0,
            steps: 0,
            seen: BTreeMap::new(),
            signs: BTreeSet::new(),
            given_up: BTreeSet::new(),
            limits: Limits { near: usize::MAX, grain: 1 },
            sent: BTreeSet::new(),
            ending: None,
            wall: 0,
            one_stream: false,
        }
    }

    /// For the simulation: a wrong node that has one stream for all owners.
    pub fn one_stream(&mut self) {
        self.one_stream = true;
    }

    pub fn owner(&self, frame: &[u8]) -> u8 {
        if self.one_stream {
            0
        } else {
            sem::owner(frame)
        }
    }

    pub fn is_own(&self, party: Party) -> bool {
        match party.class {
            SERVER => self.servers.contains_key(&party.number),
            CLIENT => self.clients.contains_key(&party.number),
            _ => false,
        }
    }

    pub fn parties(&self) -> Vec<Party> {
        let servers = self.servers.keys().map(|s| Party::server(*s));
        servers.chain(self.clients.keys().map(|c| Party::client(*c))).collect()
    }

    /// Makes a party that the node has not had.
    pub fn add(&mut self, party: Party) -> Result<(), u8> {
        if party.class == SERVER {
            let server = Server::fresh(&self.parameters, party.number, &self.initial)?;
            self.servers.entry(party.number).or_insert(server);
        } else {
            self.clients.entry(party.number).or_insert_with(|| Client::fresh(party.number));
            self.desks.entry(party.number).or_default();
        }
        Ok(())
    }

    fn deliver(&mut self, to: Party, from: Party, frame: &[u8]) -> Result<Step, u8> {
        let none = Err(sem::NOBODY);
        match to.class {
            SERVER => self.servers.get_mut(&to.number).map_or(none, |s| s.deliver(&self.parameters, &mut self.room, from, frame)),
            _ => self.clients.get_mut(&to.number).map_or(none, |c| c.deliver(&self.parameters, &mut self.room, from, frame)),
        }
    }

    /// Puts what a party sends into its streams, and says it as the log does. Receivers are numbered whether they are listed or not.
    fn send(&mut self, from: Party, sent: &[Sent], wall: u64) -> Vec<u8> {
        let mut numbers = Vec::with_capacity(sent.len());
        for s in sent {
            let stream = StreamId { from, to: s.to, register: 0, owner: self.owner(&s.frame) };
            let given_up = self.given_up.contains(&s.to);
            let o = self.streams.outs.entry(stream).or_insert_with(|| Out { given_up, ..Out::default() });
            numbers.push(o.push(s.to, s.frame.clone(), wall));
            self.sent.insert(stream);
        }
        records::sent_bytes(sent, &numbers)
    }

    /// A batch with all that was sent so far is closed: where it lies. The answer is what it has frames of.
    pub fn close(&mut self, batch: &Spot) -> BTreeSet<StreamId> {
        let sent = std::mem::take(&mut self.sent);
        for stream in sent.iter().filter(|s| s.to.class == SERVER) {
            let own = self.is_own(stream.to);
            let limits = if own { Limits { near: usize::MAX, ..self.limits } } else { self.limits };
            if let Some(o) = self.streams.outs.get_mut(stream) {
                o.close(batch, &limits);
            }
        }
        sent
    }

    /// What frames were put into since the last batch was closed.
    pub fn gathering(&self) -> Vec<StreamId> {
        self.sent.iter().copied().collect()
    }

    /// Nothing is owed to a server any more, for good.
    pub fn give_up(&mut self, party: Party) {
        self.given_up.insert(party);
        self.streams.outs.iter_mut().filter(|(s, _)| s.to == party).for_each(|(_, o)| o.give_up());
    }

    /// The first segment of the log that something is owed from.
    pub fn pinned(&self) -> Option<u32> {
        self.streams.outs.values().filter_map(|o| o.spots.front().map(|s| s.segment)).min()
    }

    /// Servers of others that are owed something from a segment of the log.
    pub fn pinning(&self, segment: u32) -> BTreeSet<Party> {
        let pins = |o: &Out| o.spots.front().is_some_and(|s| s.segment <= segment);
        self.streams.outs.iter().filter(|(s, o)| !self.is_own(s.to) && pins(o)).map(|(s, _)| s.to).collect()
    }

    /// What a client's step means for its open operation: its outcome, if it has ended.
    fn follow(&mut self, client: u8, from: Party, frame: &[u8], step: &Step) -> Option<Outcome> {
        let open = self.desks.get_mut(&client)?.open.as_mut()?;
        if !sem::is_report(frame) {
            open.heard.insert(from.number);
        }
        if let Some(stamp) = step.sent.first().and_then(|s| sem::write_stamp(&s.frame, client)) {
            open.stamp = stamp;
            open.heard.clear();
        }
        match &step.end {
            End::Open => None,
            End::Written => Some(Outcome::Written { stamp: open.stamp }),
            End::OutOfStamps => Some(Outcome::OutOfStamps),
            End::Value(value, stamp) => Some(Outcome::Value { value: value.clone(), stamp: *stamp }),
            End::Disagreement => Some(Outcome::Disagreement),
        }
    }

    fn end(&mut self, client: u8, outcome: Outcome, wall: u64) -> Option<Ended> {
        let tick = self.tick;
        let desk = self.desks.get_mut(&client)?;
        let open = desk.open.take()?;
        self.tick = tick.wrapping_add(1);
        let ended = Ended {
            client,
            register: 0,
            operation: desk.begun,
            begin_tick: open.begin_tick,
            end_tick: tick,
            begin_wall: open.begin_wall,
            end_wall: wall,
            outcome,
        };
        desk.last = Some(ended.clone());
        Some(ended)
    }

    /// Hands the head of a stream in. Whether the next one may be looked at.
    pub fn hand_in(&mut self, stream: StreamId, now: Now, fx: &mut Effects) -> bool {
        let own = self.is_own(stream.from);
        let Some((number, frame)) = self.streams.head(&stream, own) else { return false };
        match self.deliver(stream.to, stream.from, &frame) {
            Err(AHEAD) => {
                fx.waiting.insert(stream);
                return false;
            }
            Err(refusal) => {
                fx.refused.push((stream, refusal));
                fx.places.insert(stream);
            }
            Ok(step) => {
                self.steps += 1;
                fx.stepped = true;
                let sent = self.send_live(stream.to, &step.sent, now, fx);
                records::step(&mut fx.batch, &stream, number, &frame, &sent);
                if stream.to.class == CLIENT {
                    self.end_live(stream, &frame, &step, now, fx);
                } else {
                    self.wake(stream.to, fx);
                }
            }
        }
        self.streams.answered(&stream, number + 1, own);
        fx.answered.insert(stream);
        true
    }

    fn send_live(&mut self, from: Party, sent: &[Sent], now: Now, fx: &mut Effects) -> Vec<u8> {
        let bytes = self.send(from, sent, now.wall);
        for s in sent.iter().filter(|s| self.is_own(s.to)) {
            fx.work.push_back(StreamId { from, to: s.to, register: 0, owner: self.owner(&s.frame) });
        }
        bytes
    }

    fn end_live(&mut self, stream: StreamId, frame: &[u8], step: &Step, now: Now, fx: &mut Effects) {
        let client = stream.to.number;
        let Some(outcome) = self.follow(client, stream.from, frame, step) else { return };
        let (code, stamp) = ended_parts(&outcome);
        if let Some(ended) = self.end(client, outcome, now.wall) {
            let stamp = sem::stamp_bytes(&stamp);
            let record = Record::Ended { client, register: 0, tick: ended.end_tick, wall: now.wall, outcome: code, stamp };
            records::write(&mut fx.batch, &record);
            fx.ended.push(ended);
        }
    }

    /// After a step of a server: its held streams whose sequence has come.
    fn wake(&self, to: Party, fx: &mut Effects) {
        let Some(server) = self.servers.get(&to.number) else { return };
        let ready: Vec<StreamId> = fx.waiting.iter().filter(|s| s.to == to && self.has_come(server, s)).copied().collect();
        for stream in ready {
            fx.waiting.remove(&stream);
            fx.work.push_back(stream);
        }
    }

    fn has_come(&self, server: &Server, stream: &StreamId) -> bool {
        match self.streams.head(stream, self.is_own(stream.from)) {
            Some((_, frame)) => sem::sequence(&frame) <= server.open(sem::owner(&frame)),
            None => true,
        }
    }

    /// A desk begins a read, or the write of a value. The answer is the operation's number, or the refusal.
    pub fn begin(&mut self, client: u8, value: Option<&[u8]>, now: Now, fx: &mut Effects) -> Result<u64, u8> {
        let party = self.clients.get_mut(&client).ok_or(sem::NOBODY)?;
        let step = party.begin(&self.parameters, &mut self.room, value)?;
        self.steps += 1;
        fx.stepped = true;
        let tick = self.tick;
        let sent = self.send_live(Party::client(client), &step.sent, now, fx);
        records::write(&mut fx.batch, &Record::Begin { client, register: 0, tick, wall: now.wall, value, sent: &sent });
        Ok(self.begun(client, value.is_some(), now.wall))
    }

    fn begun(&mut self, client: u8, write: bool, wall: u64) -> u64 {
        let open = Open { write, begin_tick: self.tick, begin_wall: wall, ..Open::default() };
        self.tick = self.tick.wrapping_add(1);
        let desk = self.desks.entry(client).or_default();
        desk.begun += 1;
        desk.open = Some(open);
        desk.begun
    }

    /// The records of a batch that lies there, once more. What they send must be what the log says they sent, byte for byte.
    pub fn replay(&mut self, payload: &[u8], batch: &Spot) -> Result<u64, &'static str> {
        let mut count = 0;
        self.wall = batch.wall;
        for record in records::read(payload) {
            self.replay_one(&record.map_err(|_| "the batch is whole, but its records are not")?)?;
            count += 1;
        }
        self.close(batch);
        match self.ending {
            Some(_) => Err("an operation ends now that did not end when the log was written"),
            None => Ok(count),
        }
    }

    fn replay_one(&mut self, record: &Record) -> Result<(), &'static str> {
        if self.ending.is_some() && !matches!(record, Record::Ended { .. }) {
            return Err("an operation ends now that did not end when the log was written");
        }
        match record {
            Record::Step { stream, number, frame, sent, .. } => self.replay_step(*stream, *number, frame, sent),
            Record::Begin { client, value, sent, tick, wall, .. } => self.replay_begin(*client, *value, sent, *tick, *wall),
            Record::Ended { client, tick, wall, outcome, stamp, .. } => {
                let (ending, found) = self.ending.take().ok_or("an operation ended that does not end now")?;
                let parts = ended_parts(&found);
                if (ending, self.tick, parts.0, sem::stamp_bytes(&parts.1)) != (*client, *tick, *outcome, *stamp) {
                    return Err("an operation ends in another way now");
                }
                self.end(ending, found, *wall).map(|_| ()).ok_or("an operation ended that was not open")
            }
            Record::Place { stream, next } => {
                let own = self.is_own(stream.from);
                self.streams.answered(stream, *next, own);
                Ok(())
            }
            Record::Acked { stream, next } => {
                self.streams.outs.entry(*stream).or_default().ack(*next);
                Ok(())
            }
            Record::Start { parties, .. } => {
                for p in parties.chunks_exact(2) {
                    self.add(Party { class: p[0], number: p[1] }).map_err(|_| "a party of the log can't be made")?;
                }
                Ok(())
            }
            Record::Seen { node, batch, hash } => {
                self.seen.insert(*node, Mark { batch: *batch, hash: *hash });
                Ok(())
            }
            Record::Sign { node } => {
                self.signs.insert(*node);
                Ok(())
            }
            Record::GivenUp { party } => {
                self.give_up(*party);
                Ok(())
            }
        }
    }

    fn replay_step(&mut self, stream: StreamId, number: u64, frame: &[u8], sent: &[u8]) -> Result<(), &'static str> {
        let own = self.is_own(stream.from);
        if self.streams.ins.get(&stream).is_some_and(|i| number < i.next) {
            return Err("a frame was handed in twice");
        }
        let step = self.deliver(stream.to, stream.from, frame).map_err(|_| "a step of the log is refused now")?;
        self.steps += 1;
        if self.send(stream.to, &step.sent, self.wall) != sent {
            return Err("a step sends something else now");
        }
        self.streams.answered(&stream, number + 1, own);
        if stream.to.class == CLIENT {
            self.ending = self.follow(stream.to.number, stream.from, frame, &step).map(|o| (stream.to.number, o));
        }
        Ok(())
    }

    fn replay_begin(&mut self, client: u8, value: Option<&[u8]>, sent: &[u8], tick: u32, wall: u64) -> Result<(), &'static str> {
        let party = self.clients.get_mut(&client).ok_or("an operation of a client that this node does not have")?;
        let step = party.begin(&self.parameters, &mut self.room, value).map_err(|_| "a begin of the log is refused now")?;
        self.steps += 1;
        if tick != self.tick || self.send(Party::client(client), &step.sent, self.wall) != sent {
            return Err("a begin sends something else now");
        }
        self.begun(client, value.is_some(), wall);
        Ok(())
    }

    /// After recovery: everything is on the disk, and nothing was sent by a link. The answer is what is to be looked at: frames between own parties.
    pub fn settle(&mut self) -> Vec<StreamId> {
        self.streams.settle();
        let own = |s: &&StreamId| self.is_own(s.from) && self.is_own(s.to);
        self.streams.outs.keys().filter(own).copied().collect()
    }
}
