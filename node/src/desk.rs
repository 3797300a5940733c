//! Desks: what is asked by the local socket. A desk has one operation open; further asks wait their turn.
use crate::bytes::hex;
use crate::core::Core;
use crate::events::{Action, Ask, AskId, Ended, Now, Response};
use crate::status::{DeskStatus, LogStatus, PartnerStatus, ServerStatus, Status};
use openssl::sha::sha256;
use std::collections::VecDeque;

/// Who waits at a desk.
#[derive(Default)]
pub struct Queue {
    /// Asks that wait for their turn: who asks, and the value of a write.
    pub waiting: VecDeque<(AskId, Option<Vec<u8>>)>,
    /// Who waits for the open operation.
    pub askers: Vec<AskId>,
    /// Since when it has been open, by the boot clock.
    pub since: u64,
}

fn refused(number: u8, why: &str) -> Response {
    Response::Refused { number, why: why.into() }
}

fn words(refusal: u8) -> &'static str {
    match refusal {
        1 => "no client of this node",
        3 => "the value has another length than the register's",
        16 => "the client's sequences are used up",
        17 => "an earlier write of this client closed as out of stamps: it writes no more",
        _ => "refused by the library",
    }
}

impl Core {
    pub(crate) fn ask(&mut self, id: AskId, ask: Ask, now: Now, out: &mut Vec<Action>) {
        let answer = match ask {
            Ask::Status => Some(Response::Status(Box::new(self.status(now)))),
            Ask::Snapshot => {
                self.writer.snapshot_wanted = true;
                self.snapshot_askers.push(id);
                None
            }
            Ask::Read { client, register } => self.queue(id, client, register, None),
            Ask::Write { client, register, value } => self.queue(id, client, register, Some(value)),
            Ask::Wait { client, register, operation } => self.wait(id, client, register, operation),
        };
        if let Some(response) = answer {
            out.push(Action::Answer { id, response });
        }
    }

    pub(crate) fn ask_gone(&mut self, id: AskId) {
        for q in self.queues.values_mut() {
            q.waiting.retain(|w| w.0 != id);
            q.askers.retain(|a| *a != id);
        }
        self.snapshot_askers.retain(|a| *a != id);
    }

    fn desk(&self, client: u8, register: u8) -> Result<(), Response> {
        if !self.state.clients.contains_key(&client) {
            return Err(refused(1, "no client of this node"));
        }
        if register != 0 {
            return Err(refused(7, "there is register 0 alone"));
        }
        Ok(())
    }

    fn queue(&mut self, id: AskId, client: u8, register: u8, value: Option<Vec<u8>>) -> Option<Response> {
        if let Err(response) = self.desk(client, register) {
            return Some(response);
        }
        if value.as_ref().is_some_and(|v| v.len() != self.cluster.parameters.size) {
            return Some(refused(3, &format!("the value must have {} bytes", self.cluster.parameters.size)));
        }
        let q = self.queues.entry(client).or_default();
        if q.waiting.len() >= self.settings.asks_most {
            return Some(refused(15, "too many operations wait at this desk"));
        }
        q.waiting.push_back((id, value));
        None
    }

    fn wait(&mut self, id: AskId, client: u8, register: u8, operation: u64) -> Option<Response> {
        if let Err(response) = self.desk(client, register) {
            return Some(response);
        }
        let desk = self.state.desks.get(&client)?;
        if desk.open.is_some() && desk.begun == operation {
            self.queues.entry(client).or_default().askers.push(id);
            return None;
        }
        match &desk.last {
            // an end that is not on the disk yet is told with its batch
            Some(ended) if ended.operation == operation => {
                self.writer.answers.push((id, Response::Ended(ended.clone())));
                None
            }
            _ => Some(refused(0, "this operation is not known: only a desk's open operation and the last that ended are")),
        }
    }

    /// Begins what waits at desks that have nothing open.
    pub(crate) fn begin_waiting(&mut self, now: Now, out: &mut Vec<Action>) {
        let clients: Vec<u8> = self.queues.iter().filter(|(_, q)| !q.waiting.is_empty()).map(|(c, _)| *c).collect();
        for client in clients {
            while self.state.desks.get(&client).is_some_and(|d| d.open.is_none()) {
                let Some(q) = self.queues.get_mut(&client) else { break };
                let Some((id, value)) = q.waiting.pop_front() else { break };
                match self.state.begin(client, value.as_deref(), now, &mut self.writer.fx) {
                    Ok(operation) => {
                        q.askers = vec![id];
                        q.since = now.boot;
                        self.writer.answers.push((id, Response::Begun { operation }));
                    }
                    Err(refusal) => out.push(Action::Answer { id, response: refused(refusal, words(refusal)) }),
                }
            }
        }
    }

    /// Operations that ended are answered with the batch that their end is in.
    pub(crate) fn answer_ended(&mut self, ended: Vec<Ended>) {
        for e in ended {
            for id in self.queues.entry(e.client).or_default().askers.drain(..) {
                self.writer.answers.push((id, Response::Ended(e.clone())));
            }
        }
    }

    pub fn status(&self, now: Now) -> Status {
        Status {
            name: self.cluster.nodes[self.me].name.clone(),
            open: self.open,
            signs: self.signs(),
            alarm: self.alarm.clone(),
            servers: self.state.servers.values().map(server_status).collect(),
            desks: self.state.desks.keys().map(|c| self.desk_status(*c, now)).collect(),
            partners: (0..self.partners.len()).filter(|n| *n != self.me).map(|n| self.partner_status(n, now)).collect(),
            log: LogStatus {
                batch: self.writer.durable.batch,
                hash: hex(&self.writer.durable.hash),
                segment: self.writer.place.segment,
                first_segment: self.writer.first_segment,
                steps: self.state.steps,
                bytes: self.writer.bytes(&self.settings),
                snapshot: self.writer.snapshots.last().map_or(0, |name| name.batch),
                replayed: self.replayed,
            },
        }
    }

    fn desk_status(&self, client: u8, now: Now) -> DeskStatus {
        let (desk, queue) = (self.state.desks.get(&client), self.queues.get(&client));
        let open = desk.and_then(|d| d.open.as_ref());
        let awaited = open.map(|o| (1..=self.cluster.parameters.n as u8).filter(|s| !o.heard.contains(s)).collect());
        DeskStatus {
            client,
            register: 0,
            open: open.map(|o| if o.write { "write" } else { "read" }.to_string()),
            operation: desk.map_or(0, |d| d.begun),
            age: open.map_or(0, |_| now.boot.saturating_sub(queue.map_or(0, |q| q.since))),
            awaited: awaited.unwrap_or_default(),
            waiting: queue.map_or(0, |q| q.waiting.len()),
        }
    }

    fn partner_status(&self, node: usize, now: Now) -> PartnerStatus {
        let p = &self.partners[node];
        let mut s = PartnerStatus {
            name: self.cluster.nodes[node].name.clone(),
            linked: p.link.is_some_and(|l| self.links.get(&l).is_some_and(|l| l.greeted)),
            why: p.why.clone(),
            refused: p.refused.iter().map(|(number, count)| (*number, *count)).collect(),
            ..PartnerStatus::default()
        };
        for (stream, o) in self.state.streams.outs.iter().filter(|(s, _)| self.cluster.node_of(s.to) == Some(node)) {
            s.owed_frames += o.owed(stream.to);
            let log = o.spots.front().map_or(0, |at| self.writer.bytes_from(at.segment, at.block, &self.settings));
            s.owed_log = s.owed_log.max(log);
            s.owed_age = s.owed_age.max(o.oldest().map_or(0, |wall| now.wall.saturating_sub(wall)));
        }
        s.given_up = self.cluster.nodes[node].parties().any(|p| self.state.given_up.contains(&p));
        for (_, i) in self.state.streams.ins.iter().filter(|(s, _)| self.cluster.node_of(s.from) == Some(node)) {
            s.held += i.held.len() as u64;
        }
        s
    }

    /// Refusals are counted by partner: an honest one's are 12 alone, and 13 while one of the two is behind.
    pub(crate) fn count_refusals(&mut self) {
        for (stream, refusal) in std::mem::take(&mut self.writer.fx.refused) {
            if let Some(node) = self.cluster.node_of(stream.from) {
                *self.partners[node].refused.entry(refusal).or_default() += 1;
            }
        }
    }
}

fn server_status(server: &crate::sem::Server) -> ServerStatus {
    let stamp = server.stamp();
    ServerStatus {
        number: server.me,
        register: 0,
        stamp: (stamp.time, stamp.writer, stamp.sequence),
        sequences: (1..=crate::sem::CLIENTS).map(|c| server.open(c)).collect(),
        record: hex(&sha256(&server.state)),
    }
}
