//! A run that is laid out by hand: why frames go by streams with an owner. n is 4, t 1; server 4 and clients 1 and 2 are false. Server 4 helps server 1
//! with client 1's write and server 2 with client 2's, and is silent to server 3. Then server 1 sends server 3 its echo of client 1's second write in
//! front of its ready for client 2's first, and server 2 the other way round. By one stream for two parties each head waits at server 3 for what stands
//! behind the other, and an honest client waits for ever.
use super::evil::sends;
use crate::events::Now;
use crate::sem::{self, Client, Parameters, Party, Room, Sent, CLIENT};
use crate::state::{Effects, State};
use crate::streams::{Leaving, StreamId};
use std::collections::BTreeMap;

const P: Parameters = Parameters { n: 4, t: 1, k: 2, size: 4 };
const WINDOW: usize = 1000;
const FALSE_SERVER: Party = Party { class: sem::SERVER, number: 4 };
const HONEST_CLIENT: u8 = 3;
const READY: u8 = 5;

struct Node {
    state: State,
    fx: Effects,
}

/// Parties, each on a node of its own, and the numbers of what false ones send.
struct Laid {
    nodes: BTreeMap<Party, Node>,
    numbers: BTreeMap<StreamId, u64>,
}

fn kind(frame: &[u8]) -> u8 {
    sem::head(frame).map_or(0, |h| h.0)
}

impl Laid {
    fn new(one_stream: bool) -> Laid {
        let servers = (1..=P.n as u8).map(Party::server);
        let parties = servers.chain([Party::client(HONEST_CLIENT)]);
        let nodes = parties.map(|party| {
            let mut state = State::new(P, &[0; 4]);
            if one_stream {
                state.one_stream();
            }
            state.add(party).unwrap_or_else(|refusal| panic!("{party}: refused {refusal}"));
            (party, Node { state, fx: Effects::default() })
        });
        Laid { nodes: nodes.collect(), numbers: BTreeMap::new() }
    }

    /// Offers a frame to its receiver, which hands in what it can.
    fn offer(&mut self, stream: StreamId, number: u64, frame: &[u8]) {
        let Some(node) = self.nodes.get_mut(&stream.to) else { return };
        node.state.streams.ins.entry(stream).or_default().offer(stream.to, number, frame, WINDOW);
        if !node.fx.waiting.contains(&stream) {
            node.fx.work.push_back(stream);
        }
        node.work();
    }

    /// A false party sends: its numbers are its own.
    fn put(&mut self, from: Party, sent: &[Sent]) {
        for s in sent {
            let owner = self.nodes.get(&s.to).map_or(0, |n| n.state.owner(&s.frame));
            let stream = StreamId { from, to: s.to, register: 0, owner };
            let number = self.numbers.entry(stream).or_default();
            *number += 1;
            let number = *number - 1;
            self.offer(stream, number, &s.frame);
        }
    }

    /// Carries what the parties send, as far as it is allowed, until nothing moves.
    fn drain(&mut self, allowed: &dyn Fn(&StreamId, &[u8]) -> bool) {
        loop {
            let next = self.nodes.values_mut().find_map(|n| n.leave(allowed));
            let Some((stream, number, frame)) = next else { return };
            if stream.from != FALSE_SERVER {
                self.offer(stream, number, &frame);
                continue;
            }
            // server 4 sends server 1 what is client 1's, server 2 what is client 2's, and server 3 nothing
            let owner = frame.get(4).copied().unwrap_or(0);
            if stream.to.class == CLIENT || stream.to.number != 3 && stream.to.number == owner {
                self.put(FALSE_SERVER, &[Sent { to: stream.to, frame: frame.into() }]);
            }
        }
    }
}

impl Node {
    fn work(&mut self) {
        while let Some(stream) = self.fx.work.pop_front() {
            while self.state.hand_in(stream, Now::default(), &mut self.fx) {}
        }
    }

    /// The next frame to another party that is allowed to leave.
    fn leave(&mut self, allowed: &dyn Fn(&StreamId, &[u8]) -> bool) -> Option<(StreamId, u64, Vec<u8>)> {
        let own = self.state.parties();
        for (stream, o) in self.state.streams.outs.iter_mut().filter(|(s, _)| !own.contains(&s.to)) {
            let next = o.near.iter().find(|owed| owed.number >= o.sent);
            if next.is_some_and(|owed| allowed(stream, &owed.frame)) {
                let durable = o.next;
                let Leaving::Frame(number, frame) = o.leave(stream.to, WINDOW, durable) else { return None };
                return Some((*stream, number, frame.to_vec()));
            }
        }
        None
    }
}

/// Whether the honest client's write ends.
pub fn honest_write_ends(one_stream: bool) -> bool {
    let mut laid = Laid::new(one_stream);
    let mut room = Room::new(&P);
    let mut clients = [Client::fresh(1), Client::fresh(2)];
    let server = Party::server;
    let slow = |s: &StreamId| [s.from, s.to] == [server(1), server(2)] || [s.from, s.to] == [server(2), server(1)];
    // the false clients write; the link between servers 1 and 2 is slow, and readies to server 3 are
    for (c, value) in clients.iter_mut().zip([b"aaaa", b"bbbb"]) {
        let sent = sends(&P, &mut room, c, value, 0);
        laid.put(Party::client(c.me), &sent);
    }
    laid.drain(&|s, f| !(slow(s) || s.to == server(3) && kind(f) == READY));
    // at once they write again: server 1 gets client 1's second write, server 2 client 2's
    let mut rest = vec![];
    for (c, value) in clients.iter_mut().zip([b"cccc", b"dddd"]) {
        let (own, others): (Vec<Sent>, Vec<Sent>) = sends(&P, &mut room, c, value, 0).into_iter().partition(|s| s.to == server(c.me));
        laid.put(Party::client(c.me), &own);
        rest.push((c.me, others));
    }
    // from now on all links are fast, server 4 is silent, and client 3, which is honest, writes
    laid.nodes.remove(&FALSE_SERVER);
    for (client, others) in rest {
        laid.put(Party::client(client), &others);
    }
    laid.drain(&|_, _| true);
    if let Some(n) = laid.nodes.get_mut(&Party::client(HONEST_CLIENT)) {
        let _ = n.state.begin(HONEST_CLIENT, Some(b"good"), Now::default(), &mut n.fx);
    }
    laid.drain(&|_, _| true);
    let desk = laid.nodes.get(&Party::client(HONEST_CLIENT)).and_then(|n| n.state.desks.get(&HONEST_CLIENT));
    desk.is_some_and(|d| d.begun == 1 && d.open.is_none())
}

#[cfg(test)]
mod tests {
    #[test]
    fn streams_by_owner_serve_everybody_and_one_stream_does_not() {
        assert!(super::honest_write_ends(false));
        assert!(!super::honest_write_ends(true));
    }
}
