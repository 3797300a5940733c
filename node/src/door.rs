//! The door: one thread makes all TLS handshakes, of those who call this node and of those it calls, and hands the loop streams of known partners only.
//! Strangers can spend places at the door, and nothing else.

use crate::bucket::Bucket;
use crate::keys::{self, Fingerprint};
use crate::wake::{Sleeper, Waker};
use nix::poll::{poll, PollFd, PollFlags};
use openssl::ssl::{ErrorCode, Ssl, SslContext, SslStream};
use std::collections::BTreeMap;
use std::io;
use std::net::{IpAddr, SocketAddr, TcpListener, TcpStream, ToSocketAddrs};
use std::os::unix::io::AsRawFd;
use std::sync::mpsc::{Receiver, Sender};
use std::time::{Duration, Instant};

/// Handshakes at once; half of the places are kept for addresses of the cluster file.
const PLACES: usize = 32;
const PLACES_OF_OTHERS: usize = PLACES / 2;
/// Handshakes at once from one address, for each node that the cluster file has there.
const PLACES_AN_ADDRESS: usize = 4;
const HANDSHAKE: Duration = Duration::from_secs(5);
const CALL: Duration = Duration::from_secs(5);
/// Callers let in, for a second, and at most at once.
const CALLERS_A_SECOND: f64 = 50.0;
/// A partner that calls gets one new link a second, after a few at any speed, as restarts need; one that is too early waits at the door, and a newer one
/// replaces it.
const LINKS_A_SECOND: f64 = 1.0;
const LINKS_AT_ONCE: f64 = 4.0;
const LONGEST_WAIT: Duration = Duration::from_secs(10);

/// What the door knows of a node of the cluster file.
#[derive(Clone)]
pub struct Partner {
    pub fingerprints: Vec<Fingerprint>,
    pub address: Option<String>,
}

/// From the loop, and from threads that call.
pub enum Order {
    Call { node: usize },
    Connected { node: usize, connection: io::Result<(TcpStream, SocketAddr)> },
}

/// To the loop.
pub enum Knock {
    Up { node: usize, stream: SslStream<TcpStream>, address: SocketAddr, dialed: bool },
    CallFailed { node: usize, why: String },
    TurnedAway { address: SocketAddr, why: String },
}

/// Who may begin a handshake.
struct Places {
    listed: BTreeMap<IpAddr, usize>,
    callers: Bucket,
}

#[derive(PartialEq, Debug)]
enum Entry {
    Enter,
    /// Somebody's place, which has not come to an end, is given to the new one.
    Instead(usize),
    TurnAway,
}

impl Places {
    fn new(partners: &[Partner], now: Instant) -> Places {
        let mut listed = BTreeMap::new();
        for address in partners.iter().filter_map(|p| p.address.as_deref()) {
            // names are looked up once, when the node starts
            for ip in address.to_socket_addrs().into_iter().flatten().map(|a| a.ip()) {
                *listed.entry(ip).or_insert(0) += 1;
            }
        }
        Places { listed, callers: Bucket::new(CALLERS_A_SECOND, CALLERS_A_SECOND, now) }
    }

    /// Whether a caller gets a place beside those who have one; `random` chooses who loses it.
    fn entry(&mut self, caller: IpAddr, inside: &[IpAddr], random: usize) -> Entry {
        self.callers.spend(1.0);
        let nodes = self.listed.get(&caller).copied().unwrap_or(0);
        let same = inside.iter().filter(|ip| **ip == caller).count();
        if same >= PLACES_AN_ADDRESS * nodes.max(1) {
            return Entry::TurnAway;
        }
        let others: Vec<usize> = (0..inside.len()).filter(|at| !self.listed.contains_key(&inside[*at])).collect();
        if nodes == 0 && others.len() >= PLACES_OF_OTHERS {
            return Entry::Instead(others[random % others.len()]);
        }
        match (inside.len() < PLACES, others.is_empty()) {
            (true, _) => Entry::Enter,
            (false, false) => Entry::Instead(others[random % others.len()]),
            (false, true) => Entry::Instead(random % inside.len()),
        }
    }
}

/// A handshake that is not done.
struct Shaking {
    stream: SslStream<TcpStream>,
    address: SocketAddr,
    /// The node that was called, or none: it called.
    called: Option<usize>,
    wants_write: bool,
    until: Instant,
}

/// A partner whose last link is too young.
struct Waiting {
    since: Instant,
    stream: SslStream<TcpStream>,
    address: SocketAddr,
    dialed: bool,
}

pub struct Door {
    tls: SslContext,
    partners: Vec<Partner>,
    listener: Option<TcpListener>,
    places: Places,
    shaking: Vec<Shaking>,
    /// By node; each may be handed over at its time.
    waiting: BTreeMap<usize, Waiting>,
    links: BTreeMap<usize, Bucket>,
    orders: Receiver<Order>,
    own_orders: Sender<Order>,
    own_waker: Waker,
    knocks: Sender<Knock>,
    loop_waker: Waker,
}

/// The ends of the door's channels.
pub struct Ways {
    pub orders: Receiver<Order>,
    pub own_orders: Sender<Order>,
    pub own_waker: Waker,
    pub knocks: Sender<Knock>,
    pub loop_waker: Waker,
}

impl Door {
    pub fn new(tls: SslContext, partners: Vec<Partner>, listener: Option<TcpListener>, ways: Ways) -> io::Result<Door> {
        if let Some(l) = &listener {
            l.set_nonblocking(true)?;
        }
        Ok(Door {
            places: Places::new(&partners, Instant::now()),
            tls,
            partners,
            listener,
            shaking: vec![],
            waiting: BTreeMap::new(),
            links: BTreeMap::new(),
            orders: ways.orders,
            own_orders: ways.own_orders,
            own_waker: ways.own_waker,
            knocks: ways.knocks,
            loop_waker: ways.loop_waker,
        })
    }

    /// Stands at the door until the loop is gone.
    pub fn stand(mut self, sleeper: Sleeper) {
        loop {
            let (shaken, callers) = self.wait(&sleeper);
            sleeper.clear();
            loop {
                match self.orders.try_recv() {
                    Ok(order) => self.order(order),
                    Err(std::sync::mpsc::TryRecvError::Empty) => break,
                    Err(std::sync::mpsc::TryRecvError::Disconnected) => return,
                }
            }
            self.shake(&shaken);
            if callers {
                self.let_in();
            }
            self.hand_over();
        }
    }

    /// Waits until something can go on: which handshakes (by their places), and whether somebody calls.
    fn wait(&mut self, sleeper: &Sleeper) -> (Vec<bool>, bool) {
        let now = Instant::now();
        self.places.callers.fill(now);
        let mut fds = vec![PollFd::new(sleeper.fd(), PollFlags::POLLIN)];
        for s in &self.shaking {
            let events = if s.wants_write { PollFlags::POLLOUT } else { PollFlags::POLLIN };
            fds.push(PollFd::new(s.stream.get_ref().as_raw_fd(), events));
        }
        let listens = self.listener.as_ref().filter(|_| self.places.callers.has_token());
        fds.extend(listens.map(|l| PollFd::new(l.as_raw_fd(), PollFlags::POLLIN)));
        let listening = fds.len() > 1 + self.shaking.len();
        let mut wait = LONGEST_WAIT;
        let ends = self.shaking.iter().map(|s| s.until).chain(self.waiting.values().map(|w| w.since));
        for end in ends {
            wait = wait.min(end.saturating_duration_since(now));
        }
        if !listening && self.listener.is_some() {
            wait = wait.min(Duration::from_secs_f64(1.0 / CALLERS_A_SECOND));
        }
        // a signal ends the wait early, which does no harm
        let _ = poll(&mut fds, wait.as_millis() as i32 + 1);
        let ready = |fd: &PollFd| fd.revents().is_some_and(|r| !r.is_empty());
        let shaken = fds[1..1 + self.shaking.len()].iter().map(ready).collect();
        (shaken, listening && fds.last().is_some_and(ready))
    }

    fn order(&mut self, order: Order) {
        match order {
            Order::Call { node } => self.call(node),
            Order::Connected { node, connection } => {
                let begun = connection.map_err(|e| e.to_string());
                let begun = begun.and_then(|(tcp, address)| self.begin(tcp, address, Some(node)));
                if let Err(why) = begun {
                    self.tell(Knock::CallFailed { node, why });
                }
            }
        }
    }

    /// Calls a node in a thread of its own: looking up a name and connecting may take seconds.
    fn call(&mut self, node: usize) {
        let Some(address) = self.partners.get(node).and_then(|p| p.address.clone()) else {
            return self.tell(Knock::CallFailed { node, why: "it has no address in the cluster file".into() });
        };
        let (orders, waker) = (self.own_orders.clone(), self.own_waker.clone());
        let calling = std::thread::Builder::new().name("call".into()).spawn(move || {
            let connection = connect(&address);
            let _ = orders.send(Order::Connected { node, connection });
            waker.wake();
        });
        if let Err(e) = calling {
            self.tell(Knock::CallFailed { node, why: format!("no thread to call it: {e}") });
        }
    }

    fn begin(&mut self, tcp: TcpStream, address: SocketAddr, called: Option<usize>) -> Result<(), String> {
        tcp.set_nonblocking(true).map_err(|e| e.to_string())?;
        tcp.set_nodelay(true).map_err(|e| e.to_string())?;
        let mut ssl = Ssl::new(&self.tls).map_err(|e| e.to_string())?;
        match called {
            Some(_) => ssl.set_connect_state(),
            None => ssl.set_accept_state(),
        }
        let stream = SslStream::new(ssl, tcp).map_err(|e| e.to_string())?;
        let until = Instant::now() + HANDSHAKE;
        self.shaking.push(Shaking { stream, address, called, wants_write: called.is_some(), until });
        Ok(())
    }

    fn let_in(&mut self) {
        while self.places.callers.has_token() {
            let Some(Ok((tcp, address))) = self.listener.as_ref().map(|l| l.accept()) else { return };
            let at: Vec<usize> = (0..self.shaking.len()).filter(|at| self.shaking[*at].called.is_none()).collect();
            let inside: Vec<IpAddr> = at.iter().map(|at| self.shaking[*at].address.ip()).collect();
            match self.places.entry(address.ip(), &inside, random()) {
                Entry::Enter => {}
                Entry::Instead(place) => {
                    let s = self.shaking.swap_remove(at[place]);
                    self.turn_away(s.address, "did not finish its handshake before others came".into());
                }
                Entry::TurnAway => {
                    self.turn_away(address, "too many handshakes at once from its address".into());
                    continue;
                }
            }
            if let Err(why) = self.begin(tcp, address, None) {
                self.turn_away(address, why);
            }
        }
    }

    /// Goes on with the handshakes that can.
    fn shake(&mut self, ready: &[bool]) {
        let now = Instant::now();
        // from the last to the first, so that the places in front stay; those behind `ready` have just begun
        for at in (0..self.shaking.len()).rev() {
            let is_ready = ready.get(at).copied().unwrap_or(true);
            let s = &mut self.shaking[at];
            if !is_ready && now < s.until {
                continue;
            }
            let end = if now >= s.until {
                Err("did not finish its handshake in time".to_string())
            } else {
                match s.stream.do_handshake() {
                    Ok(()) => Ok(()),
                    Err(e) if e.code() == ErrorCode::WANT_READ => {
                        s.wants_write = false;
                        continue;
                    }
                    Err(e) if e.code() == ErrorCode::WANT_WRITE => {
                        s.wants_write = true;
                        continue;
                    }
                    Err(e) => Err(reason(&e)),
                }
            };
            let s = self.shaking.swap_remove(at);
            self.shaken(s, end);
        }
    }

    fn shaken(&mut self, s: Shaking, end: Result<(), String>) {
        let print = keys::partner(s.stream.ssl());
        let known = print.and_then(|print| self.partners.iter().position(|p| p.fingerprints.contains(&print)));
        let node = end.and_then(|()| match (s.called, known) {
            (Some(called), Some(node)) if called != node => Err("another node than the one that was called".into()),
            (_, Some(node)) => Ok(node),
            (_, None) => Err("unknown certificate".into()),
        });
        match (node, s.called) {
            (Ok(node), _) => {
                let (now, dialed) = (Instant::now(), s.called.is_some());
                let links = self.links.entry(node).or_insert_with(|| Bucket::new(LINKS_AT_ONCE, LINKS_A_SECOND, now));
                let since = match self.waiting.get(&node) {
                    // it has the turn of the one that it replaces
                    Some(older) => older.since,
                    None if dialed => now,
                    None => now + links.take(now),
                };
                let older = self.waiting.insert(node, Waiting { since, stream: s.stream, address: s.address, dialed });
                if older.is_some_and(|o| o.dialed) {
                    self.tell(Knock::CallFailed { node, why: "a newer connection came".into() });
                }
            }
            (Err(why), Some(node)) => self.tell(Knock::CallFailed { node, why }),
            (Err(why), None) => self.turn_away(s.address, why),
        }
    }

    fn hand_over(&mut self) {
        let now = Instant::now();
        let due: Vec<usize> = self.waiting.iter().filter(|(_, w)| w.since <= now).map(|(node, _)| *node).collect();
        for node in due {
            if let Some(Waiting { stream, address, dialed, .. }) = self.waiting.remove(&node) {
                self.tell(Knock::Up { node, stream, address, dialed });
            }
        }
    }

    fn turn_away(&self, address: SocketAddr, why: String) {
        self.tell(Knock::TurnedAway { address, why });
    }

    fn tell(&self, knock: Knock) {
        // a loop that is gone is noticed at the next order
        let _ = self.knocks.send(knock);
        self.loop_waker.wake();
    }
}

fn connect(address: &str) -> io::Result<(TcpStream, SocketAddr)> {
    let mut last = io::Error::new(io::ErrorKind::NotFound, format!("{address}: no such address"));
    for address in address.to_socket_addrs()? {
        match TcpStream::connect_timeout(&address, CALL) {
            Ok(tcp) => return Ok((tcp, address)),
            Err(e) => last = e,
        }
    }
    Err(last)
}

fn reason(e: &openssl::ssl::Error) -> String {
    if let Some(io) = e.io_error() {
        return io.to_string();
    }
    let first = e.ssl_error().and_then(|stack| stack.errors().first().and_then(|f| f.reason()));
    match first {
        Some("certificate verify failed") => "unknown certificate".into(),
        Some("peer did not return a certificate") => "no certificate".into(),
        Some(other) => format!("no TLS handshake: {other}"),
        None => "closed in the handshake".into(),
    }
}

fn random() -> usize {
    let mut bytes = [0; 8];
    // without randomness the first place is given away
    let _ = openssl::rand::rand_bytes(&mut bytes);
    usize::from_le_bytes(bytes)
}

#[cfg(test)]
mod tests {
    use super::*;

    fn ip(last: u8) -> IpAddr {
        IpAddr::from([192, 0, 2, last])
    }

    fn places() -> Places {
        let listed = (1..=2).map(|i| Partner { fingerprints: vec![], address: Some(format!("192.0.2.{i}:7070")) });
        Places::new(&listed.collect::<Vec<_>>(), Instant::now())
    }

    #[test]
    fn one_address_has_four_places() {
        let mut p = places();
        assert_eq!(p.entry(ip(9), &[ip(9); 3], 0), Entry::Enter);
        assert_eq!(p.entry(ip(9), &[ip(9); 4], 0), Entry::TurnAway);
        assert_eq!(p.entry(ip(8), &[ip(9); 4], 0), Entry::Enter);
    }

    #[test]
    fn half_of_the_places_are_kept_for_listed_addresses() {
        let mut p = places();
        let others: Vec<IpAddr> = (100..100 + PLACES_OF_OTHERS as u8).map(ip).collect();
        assert_eq!(p.entry(ip(99), &others, 3), Entry::Instead(3));
        assert_eq!(p.entry(ip(1), &others, 3), Entry::Enter);
        let mut full = others.clone();
        full.extend((0..PLACES - PLACES_OF_OTHERS).map(|_| ip(2)));
        assert_eq!(p.entry(ip(1), &full, 5), Entry::Instead(5));
    }

    #[test]
    fn callers_are_let_in_fifty_a_second() {
        let (mut p, start) = (places(), Instant::now());
        for i in 0..CALLERS_A_SECOND as usize {
            assert!(p.callers.has_token(), "caller {i}");
            p.entry(ip(9), &[], 0);
        }
        assert!(!p.callers.has_token());
        p.callers.fill(start);
        assert!(!p.callers.has_token());
        p.callers.fill(start + Duration::from_millis(25));
        assert!(p.callers.has_token());
        p.callers.fill(start + Duration::from_secs(60));
        assert!(p.callers.has_token());
    }
}
