//! Partners and links: greetings, what a greeting tells of lost state, messages, and what may leave.
use crate::cluster::Cluster;
use crate::core::Core;
use crate::events::{Action, Level, LinkId, NodeId, Now};
use crate::messages::{self, Front, Hello, Line, Mark, Message, Reason, LINK_VERSION, MESSAGE_MOST};
use crate::sem;
use crate::settings::Mutant;
use crate::streams::{Leaving, Offer, StreamId};
use std::collections::{BTreeMap, BTreeSet};

/// The front of a data message's body: the stream and the number.
const DATA_FRONT: usize = StreamId::BYTES + 8;
/// Other messages than greetings and data are no longer than this.
const SHORT_MOST: usize = 256;

pub struct Link {
    pub node: NodeId,
    pub input: Vec<u8>,
    /// Whether the partner's greeting has come.
    pub greeted: bool,
    pub heard: u64,
    pub pinged: u64,
}

#[derive(Default)]
pub struct Partner {
    pub link: Option<LinkId>,
    pub dialing: bool,
    pub dial_at: u64,
    /// Calls since the last greeting.
    pub calls: u32,
    /// Why there is no link.
    pub why: String,
    /// Streams that something may leave by, and streams that are to be acknowledged.
    pub to_send: BTreeSet<StreamId>,
    pub to_ack: BTreeSet<StreamId>,
    /// Since when acknowledgements have waited for something that leaves by the link anyway.
    pub ack_since: Option<u64>,
    pub refused: BTreeMap<u8, u64>,
}

/// Why a message ends its link.
struct Wrong(Reason, String);

fn misbehaved(what: &str) -> Wrong {
    Wrong(Reason::Misbehaved, what.into())
}

/// What a greeting says of one's own state and of the partner's.
#[derive(Default)]
struct Found {
    lost: bool,
    went_back: bool,
}

impl Core {
    /// Of two nodes the later in the cluster file calls the earlier.
    pub(crate) fn dials(cluster: &Cluster, me: NodeId, node: NodeId) -> bool {
        node < me && cluster.nodes.get(node).is_some_and(|n| n.address.is_some())
    }

    pub(crate) fn dial(&mut self, now: Now, out: &mut Vec<Action>) {
        for node in 0..self.me {
            let p = &mut self.partners[node];
            if p.link.is_none() && !p.dialing && now.boot >= p.dial_at && Core::dials(&self.cluster, self.me, node) {
                p.dialing = true;
                out.push(Action::Dial { node });
            }
        }
    }

    /// The next call to a node waits: shortly for some calls, since most partners that go come back soon, then longer each time.
    fn back_off(&mut self, node: NodeId, now: Now) {
        let (first, most) = (self.settings.call_first, self.settings.call_most);
        let p = &mut self.partners[node];
        p.calls += 1;
        let doubled = p.calls.saturating_sub(self.settings.calls_short).min(20);
        p.dial_at = now.boot + (first << doubled).min(most);
    }

    pub(crate) fn link_up(&mut self, link: LinkId, node: NodeId, dialed: bool, now: Now, out: &mut Vec<Action>) {
        if node == self.me || node >= self.partners.len() {
            out.push(Action::Close { link, reason: "not a partner".into() });
            return;
        }
        if dialed {
            self.partners[node].dialing = false;
        }
        if let Some(older) = self.partners[node].link.take() {
            self.links.remove(&older);
            self.outgoing.remove(&older);
            out.push(Action::Close { link: older, reason: "a newer link took its place".into() });
        }
        self.partners[node].link = Some(link);
        self.links.insert(link, Link { node, input: vec![], greeted: false, heard: now.boot, pinged: now.boot });
        let hello = self.hello(node);
        self.put(link, &Message::Hello(hello));
    }

    pub(crate) fn link_down(&mut self, link: Option<LinkId>, node: NodeId, why: &str, now: Now) {
        let Some(partner) = self.partners.get_mut(node) else { return };
        match link {
            None => partner.dialing = false,
            Some(link) => {
                self.links.remove(&link);
                self.outgoing.remove(&link);
                if partner.link != Some(link) {
                    return;
                }
                partner.link = None;
            }
        }
        partner.why = why.to_string();
        self.back_off(node, now);
    }

    pub(crate) fn put(&mut self, link: LinkId, message: &Message) {
        messages::write(self.outgoing.entry(link).or_default(), message);
    }

    fn close(&mut self, link: LinkId, wrong: &Wrong, now: Now, out: &mut Vec<Action>) {
        let Some(l) = self.links.remove(&link) else { return };
        self.put(link, &Message::Bye { reason: wrong.0 as u8, text: wrong.1.clone() });
        let bytes = self.outgoing.remove(&link).unwrap_or_default();
        out.push(Action::Send { link, bytes });
        out.push(Action::Close { link, reason: wrong.1.clone() });
        self.note(out, Level::Warning, format!("link to {} closed: {}", self.cluster.nodes[l.node].name, wrong.1));
        let p = &mut self.partners[l.node];
        (p.link, p.why) = (None, wrong.1.clone());
        self.back_off(l.node, now);
    }

    /// The two nodes of a stream.
    fn ends(&self, stream: &StreamId) -> (Option<NodeId>, Option<NodeId>) {
        (self.cluster.node_of(stream.from), self.cluster.node_of(stream.to))
    }

    /// What this node tells a partner first on each link: all of it is on the disk.
    fn hello(&mut self, node: NodeId) -> Hello {
        let mut lines = vec![];
        for (stream, o) in &self.state.streams.outs {
            if self.ends(stream) == (Some(self.me), Some(node)) {
                lines.push(Line { stream: *stream, next: o.durable, acked: o.acked });
            }
        }
        let ends: Vec<StreamId> = self.state.streams.ins.keys().filter(|s| self.ends(s) == (Some(node), Some(self.me))).copied().collect();
        for stream in ends {
            if let Some(i) = self.state.streams.ins.get_mut(&stream) {
                i.told = i.durable;
                lines.push(Line { stream, next: i.durable, acked: i.expected() });
            }
        }
        Hello {
            version: LINK_VERSION,
            register: self.cluster.register_digest(),
            members: self.cluster.members_digest(),
            own: self.writer.durable,
            seen: self.state.seen.get(&(node as u8)).copied().unwrap_or_default(),
            lines,
        }
    }

    pub(crate) fn bytes(&mut self, link: LinkId, bytes: &[u8], now: Now) {
        if let Some(l) = self.links.get_mut(&link) {
            l.input.extend_from_slice(bytes);
            l.heard = now.boot;
        }
    }

    /// Takes the messages that have come, as long as the batch has room.
    pub(crate) fn take_messages(&mut self, now: Now, out: &mut Vec<Action>) {
        let links: Vec<LinkId> = self.links.iter().filter(|(_, l)| !l.input.is_empty()).map(|(id, _)| *id).collect();
        for link in links {
            let Some(input) = self.links.get_mut(&link).map(|l| std::mem::take(&mut l.input)) else { continue };
            let mut at = 0;
            let wrong = loop {
                let Some(l) = self.links.get(&link) else { break None };
                if !self.taking() {
                    break None;
                }
                let most = if l.greeted { SHORT_MOST.max(DATA_FRONT + self.cluster.parameters.frame_most()) } else { MESSAGE_MOST };
                match messages::read(&input[at..], most) {
                    Front::Part => break None,
                    Front::None => break Some(misbehaved("a message that is none")),
                    Front::Whole(message, length) => {
                        at += length;
                        if let Err(wrong) = self.message(link, message, now, out) {
                            break Some(wrong);
                        }
                    }
                }
                self.work(now);
            };
            match (wrong, self.links.get_mut(&link)) {
                (Some(wrong), _) => self.close(link, &wrong, now, out),
                (None, Some(l)) => l.input = input[at..].to_vec(),
                (None, None) => {}
            }
        }
    }

    fn message(&mut self, link: LinkId, message: Message, now: Now, out: &mut Vec<Action>) -> Result<(), Wrong> {
        let Some((node, greeted)) = self.links.get(&link).map(|l| (l.node, l.greeted)) else { return Ok(()) };
        match message {
            Message::Hello(hello) if !greeted => self.greeted(link, node, &hello, now, out),
            Message::Hello(_) => Err(misbehaved("a second greeting")),
            Message::Bye { reason, text } => {
                self.note(out, Level::Warning, format!("{} closed the link ({reason}): {text}", self.cluster.nodes[node].name));
                self.links.remove(&link);
                self.outgoing.remove(&link);
                out.push(Action::Close { link, reason: "the partner closed it".into() });
                let p = &mut self.partners[node];
                (p.link, p.why) = (None, text);
                self.back_off(node, now);
                Ok(())
            }
            _ if !greeted => Err(misbehaved("a message before the greeting")),
            Message::Data { stream, number, frame } => self.data(node, stream, number, frame),
            Message::Ack { stream, next } => {
                if self.ends(&stream) != (Some(self.me), Some(node)) {
                    return Err(misbehaved("an acknowledgement of a stream that is not between us"));
                }
                match self.state.streams.outs.get_mut(&stream) {
                    Some(o) if next <= o.durable => {
                        if o.ack(next) {
                            self.writer.acked.insert(stream);
                            self.partners[node].to_send.insert(stream);
                        }
                        Ok(())
                    }
                    _ => Err(misbehaved("an acknowledgement of frames that were not sent")),
                }
            }
            Message::Ping(mark) => {
                self.saw(node, mark);
                Ok(())
            }
        }
    }

    /// The last batch of a partner's log that this node was told of.
    fn saw(&mut self, node: NodeId, mark: Mark) {
        let seen = self.state.seen.entry(node as u8).or_default();
        if mark.batch > seen.batch {
            *seen = mark;
            self.writer.seen.insert(node as u8);
        }
    }

    fn data(&mut self, node: NodeId, mut stream: StreamId, number: u64, frame: &[u8]) -> Result<(), Wrong> {
        if self.settings.is(Mutant::SenderByFrame) {
            if let (Some((3 | 1 | 10 | 12, owner, _)), true) = (sem::head(frame), stream.from.class == sem::CLIENT) {
                stream.from.number = owner;
            }
        }
        let between = self.ends(&stream) == (Some(node), Some(self.me)) || self.settings.is(Mutant::SenderByFrame);
        if !between || stream.register != 0 || stream.owner != self.state.owner(frame) {
            return Err(misbehaved("a frame of a stream that is not between us"));
        }
        let window = self.window(&stream);
        match self.state.streams.ins.entry(stream).or_default().offer(stream.to, number, frame, window) {
            Offer::Outside => Err(misbehaved("a frame's number is out of its window")),
            Offer::Again => {
                self.partners[node].to_ack.insert(stream);
                Ok(())
            }
            Offer::Taken => {
                if !self.writer.fx.waiting.contains(&stream) {
                    self.writer.fx.work.push_back(stream);
                }
                Ok(())
            }
        }
    }

    fn window(&self, stream: &StreamId) -> usize {
        if stream.owner == 0 {
            self.settings.window
        } else {
            self.settings.window_owner
        }
    }

    fn greeted(&mut self, link: LinkId, node: NodeId, hello: &Hello, now: Now, out: &mut Vec<Action>) -> Result<(), Wrong> {
        self.agree(hello)?;
        let found = self.compare(node, hello)?;
        let name = self.cluster.nodes[node].name.clone();
        if found.lost {
            self.note(out, Level::Error, format!("{name} has seen more of this node than this node has: state was lost here, or {name} is false"));
            self.sign(node, out);
        }
        if found.went_back {
            return Err(Wrong(Reason::WentBack, format!("{name} has gone back behind what it told before: its state was lost")));
        }
        self.saw(node, hello.own);
        self.resume(node, hello);
        if let Some(l) = self.links.get_mut(&link) {
            l.greeted = true;
        }
        let p = &mut self.partners[node];
        (p.calls, p.why) = (0, String::new());
        // a sign stands: what was lost does not come back, though this node's numbers may pass those that the partner saw
        let signed = if self.settings.is(Mutant::SignPasses) { found.lost } else { self.state.signs.contains(&(node as u8)) };
        if !signed && self.cluster.nodes[node].server.is_some() {
            self.greetings.insert(node);
            self.open_gate(now, out);
        }
        Ok(())
    }

    /// What both nodes must say alike before anything else is looked at.
    fn agree(&self, hello: &Hello) -> Result<(), Wrong> {
        let differs = |what: &str| Err(Wrong(Reason::Differs, what.to_string()));
        if hello.version != LINK_VERSION {
            return differs(&format!("link version {} here and {} there", LINK_VERSION, hello.version));
        }
        if hello.register != self.cluster.register_digest() {
            return differs("the cluster files differ in cluster, generation, n, t, k, length or initial, or the programs in their format");
        }
        if hello.members != self.cluster.members_digest() {
            return differs("the cluster files differ in the nodes' order, names or parties");
        }
        Ok(())
    }

    /// The streams to a partner go on behind what it has.
    fn resume(&mut self, node: NodeId, hello: &Hello) {
        for (stream, o) in &mut self.state.streams.outs {
            if self.cluster.node_of(stream.to) != Some(node) || self.cluster.node_of(stream.from) != Some(self.me) {
                continue;
            }
            let next = hello.lines.iter().find(|l| l.stream == *stream).map_or(0, |l| l.next);
            if o.ack(next.min(o.durable)) {
                self.writer.acked.insert(*stream);
            }
            o.sent = o.acked;
            self.partners[node].to_send.insert(*stream);
        }
    }

    /// Compares what a partner tells of the streams between us, and of both logs, with what is on the disk here.
    fn compare(&self, node: NodeId, hello: &Hello) -> Result<Found, Wrong> {
        let mut told: BTreeMap<StreamId, Line> = BTreeMap::new();
        for line in &hello.lines {
            let ends = self.ends(&line.stream);
            if ends != (Some(self.me), Some(node)) && ends != (Some(node), Some(self.me)) {
                return Err(misbehaved("a greeting with a stream that is not between us"));
            }
            told.insert(line.stream, *line);
        }
        let seen = self.state.seen.get(&(node as u8)).copied().unwrap_or_default();
        let mut found = Found {
            lost: !self.writer.has(&hello.seen),
            went_back: hello.own.batch < seen.batch || (hello.own.batch == seen.batch && hello.own != seen),
        };
        for (stream, line) in &told {
            if self.cluster.node_of(stream.from) == Some(self.me) {
                let durable = self.state.streams.outs.get(stream).map_or(0, |o| o.durable);
                found.lost |= line.next.max(line.acked) > durable;
            } else {
                let durable = self.state.streams.ins.get(stream).map_or(0, |i| i.durable);
                found.lost |= line.acked > durable;
            }
        }
        let next = |stream: &StreamId| told.get(stream).map_or(0, |l| l.next);
        for (stream, o) in &self.state.streams.outs {
            found.went_back |= self.ends(stream) == (Some(self.me), Some(node)) && next(stream) < o.acked;
        }
        for (stream, i) in &self.state.streams.ins {
            found.went_back |= self.ends(stream) == (Some(node), Some(self.me)) && next(stream) < i.next;
        }
        Ok(found)
    }

    /// Frames may leave once so many other servers have greeted without a sign of lost state.
    fn open_gate(&mut self, _now: Now, out: &mut Vec<Action>) {
        let p = &self.cluster.parameters;
        let own = usize::from(self.cluster.nodes[self.me].server.is_some());
        if !self.open && self.greetings.len() >= p.n - p.t - own {
            self.open = true;
            self.note(out, Level::Info, "enough servers have greeted: frames leave".into());
        }
    }

    /// What is on the disk may leave: frames, acknowledgements.
    pub(crate) fn let_out(&mut self, now: Now) {
        let early_send = self.settings.is(Mutant::SendEarly);
        let early_ack = self.settings.is(Mutant::AckEarly);
        let open = self.open || self.settings.is(Mutant::NoWait);
        for node in 0..self.partners.len() {
            let Some(link) = self.partners[node].link.filter(|l| self.links.get(l).is_some_and(|l| l.greeted)) else {
                self.partners[node].ack_since = None;
                continue;
            };
            let streams = if open { std::mem::take(&mut self.partners[node].to_send) } else { BTreeSet::new() };
            for stream in streams {
                let window = self.window(&stream);
                let Some(o) = self.state.streams.outs.get_mut(&stream) else { continue };
                let durable = if early_send { o.next } else { o.durable };
                loop {
                    match o.leave(stream.to, window, durable) {
                        Leaving::Frame(number, frame) => {
                            messages::write(self.outgoing.entry(link).or_default(), &Message::Data { stream, number, frame: &frame });
                        }
                        Leaving::Absent => {
                            self.to_fetch.insert(stream);
                            break;
                        }
                        Leaving::Nothing => break,
                    }
                }
            }
            if !self.acks_are_due(node, link, now) {
                continue;
            }
            for stream in std::mem::take(&mut self.partners[node].to_ack) {
                let Some(i) = self.state.streams.ins.get_mut(&stream) else { continue };
                let next = if early_ack { i.next } else { i.durable };
                if i.told < next {
                    i.told = next;
                    messages::write(self.outgoing.entry(link).or_default(), &Message::Ack { stream, next });
                }
            }
        }
    }

    /// Acknowledgements go with what leaves anyway, or after a while, or when much of a window waits for them.
    fn acks_are_due(&mut self, node: NodeId, link: LinkId, now: Now) -> bool {
        let (p, ins) = (&self.partners[node], &self.state.streams.ins);
        let waits = |s: &StreamId| ins.get(s).is_some_and(|i| i.next.saturating_sub(i.told) * 4 >= self.window(s) as u64);
        let late = p.ack_since.is_some_and(|since| now.boot >= since + self.settings.ack_wait);
        let due = late || self.outgoing.contains_key(&link) || p.to_ack.iter().any(waits);
        let p = &mut self.partners[node];
        p.ack_since = if due || p.to_ack.is_empty() { None } else { p.ack_since.or(Some(now.boot)) };
        due
    }

    /// Tells every partner the last batch on the disk.
    pub(crate) fn ping_all(&mut self, now: Now) {
        let links: Vec<LinkId> = self.links.iter().filter(|(_, l)| l.greeted).map(|(id, _)| *id).collect();
        for link in links {
            self.put(link, &Message::Ping(self.writer.durable));
            if let Some(l) = self.links.get_mut(&link) {
                l.pinged = now.boot;
            }
        }
    }

    /// Pings links that have been quiet from here, and closes those that are silent from there.
    pub(crate) fn tend_links(&mut self, now: Now, out: &mut Vec<Action>) {
        let silent: Vec<LinkId> = self.links.iter().filter(|(_, l)| now.boot >= l.heard + self.settings.silent_most).map(|(id, _)| *id).collect();
        for link in silent {
            self.close(link, &misbehaved("nothing was heard for too long"), now, out);
        }
        let quiet: Vec<LinkId> =
            self.links.iter().filter(|(_, l)| l.greeted && now.boot >= l.pinged + self.settings.ping_every).map(|(id, _)| *id).collect();
        for link in quiet {
            self.put(link, &Message::Ping(self.writer.durable));
            if let Some(l) = self.links.get_mut(&link) {
                l.pinged = now.boot;
            }
        }
    }

    /// When a link or a call has to be looked at.
    pub(crate) fn links_wake(&self) -> Option<u64> {
        let links = self.links.values().map(|l| {
            let silent = l.heard + self.settings.silent_most;
            if l.greeted {
                silent.min(l.pinged + self.settings.ping_every)
            } else {
                silent
            }
        });
        let calls = (0..self.me)
            .filter(|n| self.partners[*n].link.is_none() && !self.partners[*n].dialing && Core::dials(&self.cluster, self.me, *n))
            .map(|n| self.partners[n].dial_at);
        let acks = self.partners.iter().filter_map(|p| p.ack_since).map(|since| since + self.settings.ack_wait);
        links.chain(calls).chain(acks).min()
    }
}
