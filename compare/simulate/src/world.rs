//! The honest parties of a run, every frame they sent, and what the run showed. Frames named as
//! an honest party's come from the log alone.

use crate::check::{left_waiting, Acceptance, Observed, Read, Violation, Write};
use crate::lockstep::{ClientPair, ServerPair};
use crate::recorded::{Recorded, Recorder};
use crate::style::Style;
use hall::to_hex;
use register::client::{Operation, Outcome, KEPT};
use register::frame::{KIND_AT, REPORT};
use register::{Params, Party, Refusal, Send, Variant};

/// A frame that an honest party sent.
#[derive(Clone, Debug)]
pub struct Sent {
    pub from: Party,
    pub to: Party,
    pub frame: Vec<u8>,
}

pub struct World {
    pub p: Params,
    /// Place j is server j's or client j's; none for a false or absent one.
    servers: Vec<Option<ServerPair>>,
    clients: Vec<Option<ClientPair>>,
    pub log: Vec<Sent>,
    /// Places in the log of frames to honest parties that are still to be delivered.
    pub pending: Vec<usize>,
    /// Places in the log of frames to false servers that the adversary has not looked at.
    pub caught: Vec<usize>,
    pub seen: Observed,
    /// Calls that gave a step, and refusals by number.
    pub steps: u64,
    pub refusals: [u64; 20],
    /// Values that came to a row of four.
    pub overflows: u64,
    /// Writes that closed as out of stamps.
    pub closed: u64,
    /// Steps that accepted several writes, and reports that freed any.
    pub several: u64,
    pub freed: u64,
    /// The calls as lines of the hall program, if asked for.
    pub script: Option<Vec<String>>,
    /// What each server was handed, if asked for; place j is server j's.
    recorders: Vec<Recorder>,
    calls: u64,
    /// When each client's open operation began.
    begun: [u64; 9],
}

pub struct Setup<'a> {
    pub p: Params,
    pub initial: &'a [u8],
    pub false_servers: &'a [usize],
    pub honest_clients: &'a [usize],
    pub variant: Variant,
    pub style: Option<Style>,
    /// Whether the servers' traces are recorded.
    pub record: bool,
}

impl World {
    pub fn new(setup: &Setup) -> World {
        let p = setup.p;
        let server = |j: usize| {
            let honest = 1 <= j && !setup.false_servers.contains(&j);
            honest.then(|| ServerPair::fresh(p, j, setup.initial, setup.variant, setup.style))
        };
        let client = |c: usize| {
            let honest = setup.honest_clients.contains(&c);
            honest.then(|| ClientPair::fresh(p, c, setup.variant, setup.style))
        };
        World {
            p,
            servers: (0..=p.n).map(server).collect(),
            clients: (0..=8).map(client).collect(),
            log: Vec::new(),
            pending: Vec::new(),
            caught: Vec::new(),
            seen: Observed { initial: setup.initial.to_vec(), ..Observed::default() },
            steps: 0,
            refusals: [0; 20],
            overflows: 0,
            closed: 0,
            several: 0,
            freed: 0,
            script: None,
            recorders: if setup.record { vec![Recorder::default(); p.n + 1] } else { Vec::new() },
            calls: 0,
            begun: [0; 9],
        }
    }

    pub fn honest(&self, party: Party) -> bool {
        match party {
            Party::Server(j) => self.servers.get(j).is_some_and(|s| s.is_some()),
            Party::Client(c) => self.clients.get(c).is_some_and(|s| s.is_some()),
        }
    }

    pub fn is_open(&self, client: usize) -> bool {
        self.clients[client].as_ref().is_some_and(|c| c.clear.is_open())
    }

    pub fn out_of_stamps(&self, client: usize) -> bool {
        self.clients[client].as_ref().is_some_and(|c| c.clear.out_of_stamps)
    }

    fn note(&mut self, line: impl FnOnce() -> String) {
        self.calls += 1;
        if let Some(script) = &mut self.script {
            script.push(line());
        }
    }

    fn refuse(&mut self, refusal: Refusal) -> Result<Option<Refusal>, Violation> {
        self.refusals[refusal.number() as usize] += 1;
        Ok(Some(refusal))
    }

    fn record(&mut self, from: Party, sends: Vec<Send>) {
        self.steps += 1;
        for Send { to, frame } in sends {
            let place = self.log.len();
            if self.honest(to) {
                self.pending.push(place);
            } else if matches!(to, Party::Server(_)) {
                self.caught.push(place);
            }
            self.log.push(Sent { from, to, frame });
        }
    }

    pub fn begin_read(&mut self, client: usize, room: usize) -> Result<Option<Refusal>, Violation> {
        self.note(|| format!("C {client} read"));
        let party = self.clients[client].as_mut().expect("an honest client");
        match party.begin_read(room).map_err(Violation::Differ)? {
            Ok(step) => {
                self.begun[client] = self.calls;
                self.record(Party::Client(client), step.sends);
                Ok(None)
            }
            Err(refusal) => self.refuse(refusal),
        }
    }

    pub fn begin_write(
        &mut self,
        client: usize,
        value: &[u8],
        room: usize,
    ) -> Result<Option<Refusal>, Violation> {
        self.note(|| format!("C {client} write {}", to_hex(value)));
        let party = self.clients[client].as_mut().expect("an honest client");
        match party.begin_write(value, room).map_err(Violation::Differ)? {
            Ok(step) => {
                let sequence = party.clear.writes;
                let write = Write { begun: self.calls, ended: None, value: value.to_vec() };
                self.seen.writes.insert((client, sequence), write);
                self.record(Party::Client(client), step.sends);
                Ok(None)
            }
            Err(refusal) => self.refuse(refusal),
        }
    }

    /// Hands in a frame of the log.
    pub fn hand_sent(&mut self, place: usize, room: usize) -> Result<Option<Refusal>, Violation> {
        let Sent { from, to, frame } = self.log[place].clone();
        self.hand(to, from, &frame, room)
    }

    /// Hands in any frame, named as a party's that is not honest.
    pub fn hand_false(
        &mut self,
        to: Party,
        from: Party,
        frame: &[u8],
        room: usize,
    ) -> Result<Option<Refusal>, Violation> {
        assert!(!self.honest(from) && self.honest(to));
        self.hand(to, from, frame, room)
    }

    fn hand(
        &mut self,
        to: Party,
        from: Party,
        frame: &[u8],
        room: usize,
    ) -> Result<Option<Refusal>, Violation> {
        self.note(|| call_line(to, from, frame));
        match to {
            Party::Server(j) => {
                let server = self.servers[j].as_mut().expect("an honest server");
                let answer = server.deliver(from, frame, room).map_err(Violation::Differ)?;
                if let Some(recorder) = self.recorders.get_mut(j) {
                    recorder.note(from, frame, &answer);
                }
                let step = match answer {
                    Ok(step) => step,
                    Err(refusal) => return self.refuse(refusal),
                };
                for accepted in &step.accepted {
                    self.seen.accepted.push(Acceptance {
                        server: j,
                        client: accepted.client,
                        sequence: accepted.sequence,
                        stamp: accepted.stamp,
                        digests: accepted.own.digests.clone(),
                    });
                }
                self.several += (step.accepted.len() > 1) as u64;
                self.freed += (frame[KIND_AT] == REPORT && !step.accepted.is_empty()) as u64;
                if self.seen.waiting.is_none() {
                    let waiting = left_waiting(&self.p, &server.clear);
                    self.seen.waiting = waiting.map(|c| format!("client {c} at server {j}"));
                }
                self.record(to, step.sends);
            }
            Party::Client(c) => {
                let client = self.clients[c].as_mut().expect("an honest client");
                let full = match (&client.clear.operation, from) {
                    (Operation::Read(rows), Party::Server(j)) => {
                        rows.get(j.wrapping_sub(1)).is_some_and(|r| r.len() == KEPT)
                    }
                    _ => false,
                };
                let step = match client.deliver(from, frame, room).map_err(Violation::Differ)? {
                    Ok(step) => step,
                    Err(refusal) => return self.refuse(refusal),
                };
                self.overflows += full as u64;
                match step.outcome {
                    Outcome::Value(stamp, value) => self.seen.reads.push(Read {
                        client: c,
                        sequence: client.clear.reads,
                        begun: self.begun[c],
                        ended: self.calls,
                        stamp,
                        value,
                    }),
                    Outcome::Written => {
                        let name = (c, client.clear.writes);
                        self.seen.writes.get_mut(&name).expect("a begun write").ended = Some(self.calls);
                    }
                    Outcome::Disagreement => self.seen.disagreements.push((c, client.clear.reads)),
                    Outcome::OutOfStamps => self.closed += 1,
                    Outcome::Going => {}
                }
                self.record(to, step.sends);
            }
        }
        Ok(None)
    }

    /// The traces of the honest servers, with the servers as they are.
    pub fn recorded(&self) -> Vec<Recorded> {
        let (p, initial) = (self.p, &self.seen.initial);
        let of = |(own, recorder): (usize, &Recorder)| {
            let server = self.servers[own].as_ref()?;
            Some(Recorded::new(p, own, initial, recorder, server))
        };
        self.recorders.iter().enumerate().filter_map(of).collect()
    }

    /// The room that a call on this party asks for.
    pub fn room(&self, to: Party) -> usize {
        match to {
            Party::Server(_) => self.p.server_room(),
            Party::Client(_) => self.p.client_room(),
        }
    }

    /// Delivers every frame between honest parties, offering again what was 10 or 13, until none
    /// gives a step; then no honest operation may be open. `meanwhile` acts before each delivery.
    pub fn flush(
        &mut self,
        mut meanwhile: impl FnMut(&mut World) -> Result<(), Violation>,
    ) -> Result<(), Violation> {
        let mut waiting: Vec<usize> = Vec::new();
        loop {
            let mut progress = false;
            let round = std::mem::take(&mut self.pending);
            for place in waiting.drain(..).chain(round).collect::<Vec<_>>() {
                meanwhile(self)?;
                let room = self.room(self.log[place].to);
                match self.hand_sent(place, room)? {
                    None => progress = true,
                    Some(Refusal::Early) => waiting.push(place),
                    Some(_) => {}
                }
            }
            if !progress && self.pending.is_empty() {
                break;
            }
        }
        self.pending = waiting;
        for (c, client) in self.clients.iter().enumerate() {
            if let Some(client) = client.as_ref().filter(|client| client.clear.is_open()) {
                return Err(Violation::StillOpen(format!("client {c}: {:?}", short(&client.clear))));
            }
        }
        Ok(())
    }
}

/// A handed frame as the hall program reads it.
fn call_line(to: Party, from: Party, frame: &[u8]) -> String {
    let party = |party, client, server| match party {
        Party::Client(c) => format!("{client} {}", c.min(255)),
        Party::Server(j) => format!("{server} {}", j.min(255)),
    };
    format!("{} {} {}", party(to, 'C', 'S'), party(from, 'c', 's'), to_hex(frame))
}

fn short(client: &register::client::Client) -> String {
    use register::client::Operation::*;
    match &client.operation {
        None => "nothing open".to_string(),
        Stamps(times) => format!("write {} awaits stamps, has {times:?}", client.writes),
        Acks(from) => format!("write {} awaits acks, has {from:?}", client.writes),
        Read(rows) => {
            let stamps: Vec<Vec<_>> =
                rows.iter().map(|row| row.iter().map(|kept| kept.stamp).collect()).collect();
            format!("read {} has {stamps:?}", client.reads)
        }
    }
}
