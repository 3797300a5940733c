//! The adapter: carries out what the core says with sockets, files and clocks, and hands in what happens. One loop, no locks; the disk and the door have
//! threads of their own, which wake it.

use crate::disk::{Disk, Done, Fault};
use crate::door::{Door, Knock, Order, Partner, Ways};
use crate::failure::{code, Failure};
use crate::keys;
use crate::link::Link;
use crate::local::{Asked, Local};
use crate::note::{self, note};
use crate::rate::Rate;
use crate::wake::{self, Sleeper, Waker};
use nix::poll::{poll, PollFd, PollFlags};
use nix::time::{clock_gettime, ClockId};
use openssl::ssl::SslContext;
use semduoli::cluster::Cluster;
use semduoli::core::Core;
use semduoli::events::{Action, AskId, Event, Level, LinkId, NodeId, Now, Response, Start, SEND_MOST};
use semduoli::settings::Settings;
use serde_json::{json, Value};
use std::collections::{BTreeMap, VecDeque};
use std::net::TcpListener;
use std::os::unix::io::RawFd;
use std::path::{Path, PathBuf};
use std::sync::mpsc::{channel, Receiver, Sender};
use std::time::{Duration, Instant};

/// The last strangers' addresses that `status` shows.
const STRANGERS: usize = 20;
/// How long a link that was closed may take to send what is left, and its partner to read it.
const CLOSING: Duration = Duration::from_secs(2);
const LONGEST_WAIT: u64 = 10_000;

pub struct Setup {
    pub folder: PathBuf,
    pub cluster: Cluster,
    pub me: NodeId,
    pub settings: Settings,
    /// Frames a second that are taken from a node with desks alone.
    pub rate: f64,
    pub fault: Option<Fault>,
}

/// A link that was closed: what was sent before goes out, then what the partner still sends is read until it has closed too.
struct Closing {
    link: Link,
    finished: bool,
    until: Instant,
}

impl Closing {
    /// Whether it goes on.
    fn go_on(&mut self) -> bool {
        let flushed = self.link.flush();
        if !self.finished && self.link.waiting() == 0 {
            self.link.finish();
            self.finished = true;
        }
        flushed.is_ok() && self.link.take().end.is_none() && Instant::now() < self.until
    }
}

/// Why the program ends: always by the core, or because it can't go on.
struct End(Failure);

struct Host {
    core: Core,
    folder: PathBuf,
    address: Option<String>,
    tls: SslContext,
    partners: Vec<Partner>,
    names: Vec<String>,
    /// Bytes of a value.
    length: usize,
    links: BTreeMap<LinkId, (NodeId, Link)>,
    /// Of nodes with desks alone.
    rates: BTreeMap<NodeId, Rate>,
    closing: Vec<Closing>,
    next_link: LinkId,
    disk: Disk,
    door: Option<(Sender<Order>, Waker)>,
    knocks: (Sender<Knock>, Receiver<Knock>),
    local: Option<Local>,
    waker: Waker,
    events: VecDeque<Event>,
    started: Instant,
    turned_away: u64,
    strangers: VecDeque<String>,
}

fn now() -> Now {
    let ms = |id| clock_gettime(id).map_or(0, |t| t.tv_sec() as u64 * 1000 + t.tv_nsec() as u64 / 1_000_000);
    Now { boot: ms(ClockId::CLOCK_BOOTTIME), wall: ms(ClockId::CLOCK_REALTIME) }
}

fn start() -> Result<Start, String> {
    let mut random = [0; 16];
    openssl::rand::rand_bytes(&mut random).map_err(|e| format!("no random numbers: {e}"))?;
    let boot_id = "/proc/sys/kernel/random/boot_id";
    let boot_id = std::fs::read_to_string(boot_id).map_err(|e| format!("{boot_id}: {e}"))?.trim().to_string();
    Ok(Start { random, boot_id, pid: std::process::id(), version: env!("CARGO_PKG_VERSION").into() })
}

fn partners(cluster: &Cluster) -> Vec<Partner> {
    let print = |text: &String| semduoli::bytes::unhex(text).and_then(|b| b.try_into().ok());
    let partner =
        |n: &semduoli::cluster::Node| Partner { fingerprints: n.fingerprints.iter().filter_map(print).collect(), address: n.address.clone() };
    cluster.nodes.iter().map(partner).collect()
}

/// Runs the node until it ends, and says why it does.
pub fn run(setup: Setup) -> Failure {
    let (waker, sleeper) = match wake::pair() {
        Ok(pair) => pair,
        Err(e) => return Failure::new(code::USE, format!("no pair of sockets: {e}")),
    };
    let (done_to, done) = channel();
    let made = Host::new(setup, done_to, waker).and_then(|host| Ok((host, start().map_err(|e| Failure::new(code::USE, e))?)));
    match made {
        Ok((host, start)) => host.run(start, &sleeper, &done).0,
        Err(failure) => failure,
    }
}

impl Host {
    fn new(setup: Setup, done: Sender<Done>, waker: Waker) -> Result<Host, Failure> {
        let partners = partners(&setup.cluster);
        let prints = partners.iter().flat_map(|p| p.fingerprints.clone()).collect();
        let tls = keys::context(&setup.folder, prints).map_err(|e| Failure::new(code::CLUSTER, e))?;
        let name = &setup.cluster.nodes[setup.me].name;
        note(Level::Notice, &format!("node {name} of {}, version {}", setup.cluster.name, env!("CARGO_PKG_VERSION")));
        let desks = setup.cluster.nodes.iter().enumerate().filter(|(_, n)| n.server.is_none());
        let rates = desks.map(|(node, _)| (node, Rate::new(setup.rate, Instant::now()))).collect();
        let disk = Disk::start(&setup.folder, setup.fault, done, waker.clone());
        let disk = disk.map_err(|e| Failure::new(code::DISK, format!("no thread for the disk: {e}")))?;
        Ok(Host {
            names: setup.cluster.nodes.iter().map(|n| n.name.clone()).collect(),
            length: setup.cluster.parameters.size,
            address: setup.cluster.nodes[setup.me].address.clone(),
            core: Core::new(setup.cluster, setup.me, setup.settings),
            folder: setup.folder,
            tls,
            partners,
            links: BTreeMap::new(),
            rates,
            closing: vec![],
            next_link: 0,
            disk,
            door: None,
            knocks: channel(),
            local: None,
            waker,
            events: VecDeque::new(),
            started: Instant::now(),
            turned_away: 0,
            strangers: VecDeque::new(),
        })
    }

    fn run(mut self, start: Start, sleeper: &Sleeper, done: &Receiver<Done>) -> End {
        let mut again = vec![];
        let mut end = self.hand_in(Event::Start(start));
        loop {
            if let Err(end) = end {
                return end;
            }
            self.flush();
            end = self.round(sleeper, done, &mut again);
        }
    }

    /// Waits for something to happen, and hands it in. `again` has the links that may have more than `poll` knows.
    fn round(&mut self, sleeper: &Sleeper, done: &Receiver<Done>, again: &mut Vec<LinkId>) -> Result<(), End> {
        let taking = self.core.taking();
        let at_once = again.iter().any(|link| self.core.taking_from(*link));
        let ready = self.wait(sleeper, taking, at_once);
        if ready.woken {
            sleeper.clear();
        }
        while let Ok(done) = done.try_recv() {
            self.hand_in(Event::Disk { id: done.id, result: done.result })?;
        }
        while let Ok(knock) = self.knocks.1.try_recv() {
            self.knock(knock)?;
        }
        if let Some(mut local) = self.local.take() {
            let asked = local.take(&ready.local);
            self.local = Some(local);
            self.asked(asked);
            self.work_off()?;
        }
        again.extend(ready.links);
        again.sort_unstable();
        again.dedup();
        for link in std::mem::take(again) {
            // a batch that is full is on its way to the disk: what comes waits in the sockets
            if !self.core.taking_from(link) || self.take(link)? {
                again.push(link);
            }
        }
        self.closing.retain_mut(Closing::go_on);
        if self.core.wake().is_some_and(|at| at <= now().boot) {
            self.hand_in(Event::Tick)?;
        }
        Ok(())
    }

    fn wait(&mut self, sleeper: &Sleeper, taking: bool, at_once: bool) -> Ready {
        let paused: BTreeMap<NodeId, Duration> = self.rates.iter_mut().map(|(node, rate)| (*node, rate.pause(Instant::now()))).collect();
        let is_paused = |node: &NodeId| paused.get(node).is_some_and(|p| !p.is_zero());
        let read_write = |link: &Link, reading: bool| {
            let mut flags = PollFlags::empty();
            flags.set(PollFlags::POLLIN, reading && !link.is_full());
            flags.set(PollFlags::POLLOUT, link.wants_write());
            flags
        };
        let mut fds = vec![(sleeper.fd(), PollFlags::POLLIN)];
        fds.extend(self.local.iter_mut().flat_map(|l| l.interests(taking)));
        let links_at = fds.len();
        // one that nothing is wanted of is not looked at: its end would wake the loop again and again
        let watched: Vec<(LinkId, RawFd, PollFlags)> =
            self.links.iter().map(|(id, (node, l))| (*id, l.fd(), read_write(l, taking && !is_paused(node)))).collect();
        let watched: Vec<_> = watched.into_iter().filter(|w| !w.2.is_empty()).collect();
        fds.extend(watched.iter().map(|(_, fd, flags)| (*fd, *flags)));
        fds.extend(self.closing.iter().map(|c| (c.link.fd(), read_write(&c.link, true))));
        let mut wait = LONGEST_WAIT;
        for pause in paused.values().filter(|p| !p.is_zero()) {
            wait = wait.min(pause.as_millis() as u64 + 1);
        }
        if let Some(at) = self.core.wake() {
            wait = wait.min(at.saturating_sub(now().boot));
        }
        if !self.closing.is_empty() {
            wait = wait.min(CLOSING.as_millis() as u64);
        }
        let flags = poll_all(&fds, if at_once { 0 } else { wait });
        let is_ready = |flags: &PollFlags| flags.intersects(!PollFlags::POLLOUT);
        let links = watched.iter().zip(&flags[links_at..]).filter(|(_, f)| is_ready(f)).map(|((id, ..), _)| *id).collect();
        Ready { woken: !flags[0].is_empty(), local: flags[1..links_at].to_vec(), links }
    }

    /// Hands an event in, and whatever carrying out the core's actions leads to.
    fn hand_in(&mut self, event: Event) -> Result<(), End> {
        self.events.push_back(event);
        self.work_off()
    }

    fn work_off(&mut self) -> Result<(), End> {
        let mut actions = vec![];
        while let Some(event) = self.events.pop_front() {
            self.core.on(now(), event, &mut actions);
            for action in actions.drain(..) {
                self.carry_out(action)?;
            }
        }
        Ok(())
    }

    fn carry_out(&mut self, action: Action) -> Result<(), End> {
        match action {
            Action::Ready => self.open().map_err(End)?,
            Action::Send { link, bytes } => self.send(link, &bytes),
            Action::Close { link, reason } => self.close(link, &reason),
            Action::Dial { node } => self.call(node),
            Action::Disk { id, lane, op } => self.disk.order(id, lane, op),
            Action::Answer { id, response } => self.answer(id, response),
            Action::Note { level, line } => note(level, &line),
            Action::Exit { code, line } => return Err(End(Failure::new(code, line))),
        }
        Ok(())
    }

    fn send(&mut self, link: LinkId, bytes: &[u8]) {
        let Some((_, l)) = self.links.get_mut(&link) else { return };
        l.put(bytes);
        if l.waiting() > SEND_MOST {
            self.down(link, "it does not take what it is sent".into());
        }
    }

    fn close(&mut self, link: LinkId, reason: &str) {
        let Some((node, link)) = self.links.remove(&link) else { return };
        note(Level::Info, &format!("link to {} closed: {reason}", self.names[node]));
        let mut closing = Closing { link, finished: false, until: Instant::now() + CLOSING };
        if closing.go_on() {
            self.closing.push(closing);
        }
    }

    fn call(&mut self, node: NodeId) {
        match &self.door {
            Some((orders, waker)) => {
                let _ = orders.send(Order::Call { node });
                waker.wake();
            }
            None => self.events.push_back(Event::LinkDown { link: None, node, why: "the door is not open yet".into() }),
        }
    }

    fn answer(&mut self, id: AskId, response: Response) {
        let Some(mut local) = self.local.take() else { return };
        let asked = local.answer(id, response, || self.program());
        self.local = Some(local);
        self.asked(asked);
    }

    /// What `status` shows of the program itself.
    fn program(&self) -> Value {
        json!({
            "version": env!("CARGO_PKG_VERSION"), "library": semduoli::sem::version(), "pid": std::process::id(),
            "up": self.started.elapsed().as_secs(), "length": self.length, "turned_away": self.turned_away, "strangers": self.strangers,
            "links": self.links.values().map(|(node, l)| json!({"node": self.names[*node], "taken": l.taken, "sent": l.sent})).collect::<Vec<_>>(),
        })
    }

    fn asked(&mut self, asked: Vec<Asked>) {
        self.events.extend(asked.into_iter().map(|a| match a {
            Asked::Ask(id, ask) => Event::Ask { id, ask },
            Asked::Gone(id) => Event::AskGone { id },
        }));
    }

    /// Recovery is through: the door and the local socket open.
    fn open(&mut self) -> Result<(), Failure> {
        let failed = |what: String| Failure::new(code::CLUSTER, what);
        let listener = match &self.address {
            Some(a) => {
                let listener = TcpListener::bind(a);
                Some(listener.map_err(|e| failed(format!("{a}, this node's address in the cluster file, can't be opened: {e}")))?)
            }
            None => None,
        };
        let local = Local::open(&self.folder);
        self.local = Some(local.map_err(|e| failed(format!("the socket in {} can't be opened: {e}", self.folder.display())))?);
        let (waker, sleeper) = wake::pair().map_err(|e| failed(format!("no pair of sockets: {e}")))?;
        let (own_orders, orders) = channel();
        self.door = Some((own_orders.clone(), waker.clone()));
        let ways = Ways { orders, own_orders, own_waker: waker, knocks: self.knocks.0.clone(), loop_waker: self.waker.clone() };
        let door = Door::new(self.tls.clone(), self.partners.clone(), listener, ways).map_err(|e| failed(format!("no door: {e}")))?;
        let standing = std::thread::Builder::new().name("door".into()).spawn(move || door.stand(sleeper));
        standing.map_err(|e| failed(format!("no thread for the door: {e}")))?;
        note::ready();
        Ok(())
    }

    fn knock(&mut self, knock: Knock) -> Result<(), End> {
        match knock {
            Knock::Up { node, stream, address, dialed } => match Link::new(stream) {
                Ok(link) => {
                    self.next_link += 1;
                    if let Some(rate) = self.rates.get_mut(&node) {
                        rate.begin();
                    }
                    self.links.insert(self.next_link, (node, link));
                    note(Level::Info, &format!("link to {} at {address}", self.names[node]));
                    self.hand_in(Event::LinkUp { link: self.next_link, node, dialed })?;
                    // bytes may have come with the handshake, of which `poll` tells nothing
                    self.take(self.next_link).map(|_| ())
                }
                Err(e) => self.hand_in(Event::LinkDown { link: None, node, why: e.to_string() }),
            },
            Knock::CallFailed { node, why } => self.hand_in(Event::LinkDown { link: None, node, why }),
            Knock::TurnedAway { address, why } => {
                self.turned_away += 1;
                self.strangers.truncate(STRANGERS - 1);
                self.strangers.push_front(format!("{address}: {why}"));
                Ok(())
            }
        }
    }

    /// Takes what a link has, and hands it in; whether there may be more.
    fn take(&mut self, id: LinkId) -> Result<bool, End> {
        let Some((node, link)) = self.links.get_mut(&id).filter(|(_, l)| !l.is_full()) else { return Ok(false) };
        let mut rate = self.rates.get_mut(node);
        if rate.as_mut().is_some_and(|r| !r.pause(Instant::now()).is_zero()) {
            return Ok(false);
        }
        let taken = link.take();
        if let Some(rate) = rate {
            rate.count(&taken.bytes);
        }
        if !taken.bytes.is_empty() {
            self.hand_in(Event::Bytes { link: id, bytes: taken.bytes })?;
        }
        if let Some(why) = taken.end {
            self.down(id, why);
            self.work_off()?;
        }
        Ok(taken.more)
    }

    fn down(&mut self, id: LinkId, why: String) {
        if let Some((node, _)) = self.links.remove(&id) {
            self.events.push_back(Event::LinkDown { link: Some(id), node, why });
        }
    }

    fn flush(&mut self) {
        let broken: Vec<(LinkId, String)> = self.links.iter_mut().filter_map(|(id, (_, link))| link.flush().err().map(|why| (*id, why))).collect();
        for (id, why) in broken {
            self.down(id, why);
        }
    }
}

/// What is ready: whether a thread has something for the loop; of the local socket, in its order; and links to read.
struct Ready {
    woken: bool,
    local: Vec<PollFlags>,
    links: Vec<LinkId>,
}

fn poll_all(interests: &[(RawFd, PollFlags)], wait: u64) -> Vec<PollFlags> {
    let mut fds: Vec<PollFd> = interests.iter().map(|(fd, flags)| PollFd::new(*fd, *flags)).collect();
    // a signal ends the wait early, which does no harm
    let _ = poll(&mut fds, wait as i32);
    fds.iter().map(|f| f.revents().unwrap_or(PollFlags::empty())).collect()
}

/// Bytes of the disk of a folder.
pub fn disk_size(folder: &Path) -> Option<u64> {
    let s = nix::sys::statvfs::statvfs(folder).ok()?;
    Some(s.blocks() * s.fragment_size())
}

/// Bytes free on the disk of a folder, for the node's user.
pub fn free_space(folder: &Path) -> Option<u64> {
    let s = nix::sys::statvfs::statvfs(folder).ok()?;
    Some(s.blocks_available() * s.fragment_size())
}
