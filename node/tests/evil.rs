//! A false node with a valid certificate, and strangers without one: what they send costs the others a link or a place at the door, and nothing else.
mod common;

use common::{Desk, Nodes};
use openssl::ssl::{Ssl, SslContext, SslFiletype, SslMethod, SslStream, SslVerifyMode};
use semduoli::events::Stamp;
use semduoli::judge::{self, Line, Verdict};
use semduoli::messages::{self, Front, Hello, Message, MESSAGE_MOST};
use semduoli::random::Random;
use semduoli::sem::Party;
use semduoli::streams::StreamId;
use serde_json::{json, Value};
use std::collections::BTreeMap;
use std::io::{Read, Write};
use std::net::TcpStream;
use std::path::Path;
use std::sync::atomic::{AtomicBool, AtomicUsize, Ordering};
use std::sync::Arc;
use std::time::{Duration, Instant};

const SIZE: (usize, usize, usize, usize) = (4, 1, 2, 32);
const FALSE: u8 = 4;
const ATTACK: Duration = Duration::from_secs(8);
const MEMORY_MOST: u64 = 2 << 20;
const PATIENCE: Duration = Duration::from_secs(10);
/// On a slow machine an attack goes on until it and the operations beside it are so many, for so many times as long at most.
const LONGER: u32 = 10;
const MESSAGES: u64 = 12_000;
const OPERATIONS: usize = 60;
const OPERATIONS_OF_EIGHT: usize = 600;
/// The first part of an attack does a third of it.
const FIRST: f64 = 1.0 / 3.0;

fn tls(folder: Option<&Path>) -> SslContext {
    let mut c = SslContext::builder(SslMethod::tls()).expect("a context");
    c.set_verify(SslVerifyMode::NONE);
    if let Some(folder) = folder {
        c.set_private_key_file(folder.join("node.key"), SslFiletype::PEM).expect("a key");
        c.set_certificate_file(folder.join("node.crt"), SslFiletype::PEM).expect("a certificate");
    }
    c.build()
}

fn connect(context: &SslContext, port: u16) -> Option<SslStream<TcpStream>> {
    let tcp = TcpStream::connect(("127.0.0.1", port)).ok()?;
    tcp.set_read_timeout(Some(PATIENCE)).ok()?;
    tcp.set_write_timeout(Some(PATIENCE)).ok()?;
    Ssl::new(context).ok()?.connect(tcp).ok()
}

/// The false node's link to a server.
struct Evil {
    stream: SslStream<TcpStream>,
    server: u8,
    /// The next number of each stream to the server, by owner.
    numbers: BTreeMap<u8, u64>,
    /// The server's streams to it.
    theirs: Vec<StreamId>,
}

fn stream_to(server: u8, owner: u8) -> StreamId {
    StreamId { from: Party::server(FALSE), to: Party::server(server), register: 0, owner }
}

fn next_message(stream: &mut SslStream<TcpStream>, input: &mut Vec<u8>) -> Option<Vec<u8>> {
    let mut room = [0; 16 * 1024];
    loop {
        if let Front::Whole(_, length) = messages::read(input, MESSAGE_MOST) {
            return Some(input.drain(..length).collect());
        }
        let n = stream.read(&mut room).ok().filter(|n| *n > 0)?;
        input.extend_from_slice(&room[..n]);
    }
}

impl Evil {
    /// Greets as the server expects it, but for `lie`.
    fn new(nodes: &Nodes, server: u8, lie: impl FnOnce(&mut Hello)) -> Option<Evil> {
        let mut stream = connect(&tls(Some(&nodes.at("s4"))), nodes.ports[usize::from(server) - 1])?;
        let first = next_message(&mut stream, &mut vec![])?;
        let Front::Whole(Message::Hello(theirs), _) = messages::read(&first, MESSAGE_MOST) else { return None };
        let to_us = |l: &&messages::Line| l.stream.from == Party::server(FALSE);
        let numbers = theirs.lines.iter().filter(to_us).map(|l| (l.stream.owner, l.next)).collect();
        // it never acknowledges what it is sent; what it says that it has sent is more than was taken, or it would be seen that it goes back
        let lines = theirs.lines.iter().filter(to_us).map(|l| messages::Line { next: l.next + 1000, acked: l.next, ..*l }).collect();
        let mut own = Hello { own: theirs.seen, seen: theirs.own, lines, ..theirs.clone() };
        lie(&mut own);
        let mut bytes = vec![];
        messages::write(&mut bytes, &Message::Hello(own));
        stream.write_all(&bytes).ok()?;
        let theirs = theirs.lines.iter().filter(|l| l.stream.to == Party::server(FALSE)).map(|l| l.stream).collect();
        Some(Evil { stream, server, numbers, theirs })
    }

    fn send(&mut self, message: &Message) -> Option<()> {
        let mut bytes = vec![];
        messages::write(&mut bytes, message);
        self.stream.write_all(&bytes).ok()
    }

    fn data(&mut self, owner: u8, frame: &[u8]) -> Option<()> {
        let number = self.numbers.entry(owner).or_insert(0);
        *number += 1;
        let (number, stream) = (*number - 1, stream_to(self.server, owner));
        self.send(&Message::Data { stream, number, frame })
    }

    /// Whether the server closes the link, and not only goes on sending.
    fn sees_its_end(mut self) -> bool {
        let until = Instant::now() + PATIENCE;
        let mut room = [0; 16 * 1024];
        while Instant::now() < until {
            if !matches!(self.stream.read(&mut room), Ok(1..)) {
                return Instant::now() < until;
            }
        }
        false
    }
}

fn frame(kind: u8, owner: u8, sequence: u32, body: &[u8]) -> Vec<u8> {
    let mut frame = ((7 + body.len()) as u16).to_be_bytes().to_vec();
    frame.extend_from_slice(&[1, kind, owner]);
    frame.extend_from_slice(&sequence.to_be_bytes());
    frame.extend_from_slice(body);
    frame
}

/// A burst of frames that no honest server sends; how many left.
fn burst(evil: &mut Evil, random: &mut Random) -> u64 {
    let mut count = 0;
    for _ in 0..2000 {
        let owner = 1 + random.below(8) as u8;
        let sequence = 1 + random.below(40) as u32;
        let body = |random: &mut Random, length| random.bytes(length);
        let sent = match random.below(100) {
            // echoes and readies that equivocate, of the past and of what may be open; few are ahead, which would fill the window
            0..=9 => {
                let body = [&[0; 8][..], &body(random, 32 * 4 + 16)].concat();
                evil.data(owner, &frame(4 + random.below(2) as u8, owner, 1 + random.below(2) as u32, &body))
            }
            10..=89 => {
                let length = random.below(150) as usize;
                let kind = [0, 1, 2, 6, 7, 8, 9, 10, 11, 12, 13, 255][random.below(12) as usize];
                evil.data(0, &frame(kind, owner, sequence, &body(random, length)))
            }
            90..=94 => {
                let length = random.below(9) as usize;
                evil.data(0, &body(random, length))
            }
            // acknowledged again, long ago
            95..=97 => match evil.theirs.first().copied() {
                Some(stream) => evil.send(&Message::Ack { stream, next: 0 }),
                None => Some(()),
            },
            _ => evil.send(&Message::Data { stream: stream_to(evil.server, 0), number: 0, frame: &frame(1, owner, 1, &[]) }),
        };
        if sent.is_none() {
            break;
        }
        count += 1;
    }
    count
}

/// A client that reads and writes until it is stopped; its history. It counts what has ended.
fn client(folder: &Path, number: u8, start: Instant, stop: &AtomicBool, ended: &AtomicUsize) -> Vec<Line> {
    let mut desk = Desk::new(folder).expect("the desk's socket");
    let tick = || (start.elapsed().as_micros() / 10) as u32;
    let mut lines = vec![];
    while !stop.load(Ordering::Relaxed) {
        let (begin, write) = (tick(), lines.len() % 2 == 0);
        let answer = if write { desk.write(number, &[lines.len() as u8; 32]) } else { desk.read(number) };
        assert_eq!(answer["answer"], "ended", "{answer}");
        let part = |name: &str| answer["stamp"][name].as_u64().expect("a stamp");
        let stamp = Stamp { time: part("time"), writer: part("writer") as u8, sequence: part("sequence") as u32 };
        lines.push(Line { write, start: begin, end: tick().max(begin + 1), stamp, caller: number });
        ended.fetch_add(1, Ordering::Relaxed);
    }
    lines
}

fn three_and_a_desk(name: &str) -> Nodes {
    let mut nodes = Nodes::new(name, SIZE);
    nodes.words = ["--rate", "1000000"].map(str::to_string).into();
    for name in ["s1", "s2", "s3", "desk"] {
        nodes.start(name);
    }
    for name in ["s1", "s2", "s3", "desk"] {
        nodes.wait_until(name, "is open", |s| s["open"] == true);
    }
    nodes
}

/// The false node's attack on all servers: messages that left, and links that were made.
struct Attack<'a> {
    nodes: &'a Nodes,
    random: Random,
    messages: u64,
    links: u64,
}

impl Attack<'_> {
    fn go_on(&mut self) {
        let server = 1 + self.random.below(3) as u8;
        if let Some(mut evil) = Evil::new(self.nodes, server, |_| {}) {
            self.links += 1;
            self.messages += burst(&mut evil, &mut self.random);
        }
    }
}

/// How many frames of the false node a server has refused.
fn refused(status: &Value) -> u64 {
    let partner = status["partners"].as_array().into_iter().flatten().find(|p| p["name"] == "s4").cloned().unwrap_or_default();
    partner["refused"].as_array().into_iter().flatten().filter_map(|r| r[1].as_u64()).sum()
}

const SERVERS: [&str; 3] = ["s1", "s2", "s3"];

/// Clients that read and write until they are stopped.
struct Clients {
    stop: Arc<AtomicBool>,
    ended: Arc<AtomicUsize>,
    threads: Vec<std::thread::JoinHandle<Vec<Line>>>,
}

impl Clients {
    fn begin(nodes: &Nodes, count: u8) -> Clients {
        let (stop, start) = (Arc::new(AtomicBool::new(false)), Instant::now());
        let ended = Arc::new(AtomicUsize::new(0));
        let begin = |number: u8| {
            let (stop, ended, folder) = (stop.clone(), ended.clone(), nodes.at("desk"));
            std::thread::spawn(move || client(&folder, number, start, &stop, &ended))
        };
        let threads = (1..=count).map(begin).collect();
        Clients { stop, ended, threads }
    }

    /// How many operations have ended.
    fn ended(&self) -> usize {
        self.ended.load(Ordering::Relaxed)
    }

    /// Stops them: all that they did has an order. How many operations it was.
    fn end(self) -> usize {
        self.stop.store(true, Ordering::Relaxed);
        let mut lines: Vec<Line> = self.threads.into_iter().flat_map(|c| c.join().expect("a client")).collect();
        let count = lines.len();
        judge::add_writes(&mut lines);
        assert!(matches!(judge::history(&lines, &mut |_, _| {}), Verdict::Order { .. }));
        count
    }
}

/// Runs an attack: what a first part costs is buffers; a second must cost nothing more. The attack goes on a little at each call, and says how much of all
/// that is wanted has happened.
fn within_memory(nodes: &Nodes, long: Duration, mut attack: impl FnMut() -> f64) {
    let mut part = |long: Duration, wanted: f64| {
        let (since, mut happened) = (Instant::now(), 0.0);
        while since.elapsed() < long || (happened < wanted && since.elapsed() < long * LONGER) {
            happened = attack();
        }
    };
    part(long / 2, FIRST);
    let before = SERVERS.map(|name| nodes.memory(name));
    part(long, 1.0);
    for (name, before) in SERVERS.iter().zip(before) {
        let after = nodes.memory(name);
        println!("{name}: {before} bytes before, {after} after");
        assert!(after < before + MEMORY_MOST, "{name}: {before} bytes before, {after} after");
    }
}

#[test]
fn a_false_node_costs_no_memory_and_no_order() {
    let nodes = three_and_a_desk("evil");
    let clients = Clients::begin(&nodes, 2);
    let mut attack = Attack { nodes: &nodes, random: Random::new(5), messages: 0, links: 0 };
    within_memory(&nodes, ATTACK, || {
        attack.go_on();
        (attack.messages as f64 / MESSAGES as f64).min(clients.ended() as f64 / OPERATIONS as f64)
    });
    let (messages, links, operations) = (attack.messages, attack.links, clients.end());
    println!("{messages} messages by {links} links; {operations} operations beside them");
    assert!(messages > 10_000 && operations > 50, "too little happened: {messages}, {operations}");
    let status = nodes.wait_until("s1", "has refused frames", |s| refused(s) > 1000);
    println!("{} of them refused by s1", refused(&status));
    assert!(status["signs"].as_array().is_some_and(|s| s.is_empty()), "{status}");
}

/// A node that is greeted, is sent what it is owed, and never acknowledges anything; one that does not even read.
#[test]
fn a_node_that_never_acknowledges_costs_no_memory() {
    for reads in [true, false] {
        let nodes = three_and_a_desk("never");
        let clients = Clients::begin(&nodes, 8);
        let mut links: Vec<Evil> = (1..=3).map(|server| Evil::new(&nodes, server, |_| {}).expect("a link")).collect();
        for l in &links {
            l.stream.get_ref().set_nonblocking(true).expect("no waiting");
        }
        let (mut taken, mut room) = (0, [0; 16 * 1024]);
        within_memory(&nodes, ATTACK / 2, || {
            for l in links.iter_mut().filter(|_| reads) {
                taken += l.stream.read(&mut room).unwrap_or(0);
            }
            std::thread::sleep(Duration::from_millis(5));
            clients.ended() as f64 / OPERATIONS_OF_EIGHT as f64
        });
        let operations = clients.end();
        let status = nodes.wait_until("s1", "has the link", |s| s["partners"].as_array().is_some_and(|p| p.iter().any(|p| p["name"] == "s4")));
        let owed =
            status["partners"].as_array().into_iter().flatten().find(|p| p["name"] == "s4").map_or(0, |p| p["owed_frames"].as_u64().unwrap_or(0));
        println!("reads {reads}: it took {taken} bytes and is owed {owed} frames by s1; {operations} operations beside it");
        // it is sent a window of each stream
        assert!(owed > 500 && operations > 500 && (taken > 5000) == reads, "{owed}, {operations}, {taken}");
    }
}

/// A link to the first server. New links of one node are limited, so it is tried again.
fn patient(nodes: &Nodes, lie: fn(&mut Hello)) -> Evil {
    let until = Instant::now() + PATIENCE;
    loop {
        match Evil::new(nodes, 1, lie) {
            Some(evil) => return evil,
            None => assert!(Instant::now() < until, "no link"),
        }
    }
}

/// Messages to the first server that no honest node sends.
fn wrong_messages(honest: &[u8]) -> [(&'static str, Message<'_>); 6] {
    let of_another = StreamId { from: Party::server(2), ..stream_to(1, 0) };
    let to_another = StreamId { to: Party::server(2), ..stream_to(1, 0) };
    let back = StreamId { from: Party::server(1), to: Party::server(FALSE), register: 0, owner: 0 };
    [
        ("a frame as another's", Message::Data { stream: of_another, number: 0, frame: honest }),
        ("a frame to another", Message::Data { stream: to_another, number: 0, frame: honest }),
        ("a frame of another owner", Message::Data { stream: stream_to(1, 3), number: 0, frame: honest }),
        ("a number out of the window", Message::Data { stream: stream_to(1, 0), number: 1 << 40, frame: honest }),
        ("an acknowledgement of another's stream", Message::Ack { stream: StreamId { from: Party::server(2), ..to_another }, next: 0 }),
        ("an acknowledgement of what was never sent", Message::Ack { stream: back, next: 1 << 40 }),
    ]
}

#[test]
fn what_no_node_may_say_ends_its_link() {
    let nodes = three_and_a_desk("wrong");
    let patient = |lie: fn(&mut Hello)| patient(&nodes, lie);
    let honest = frame(1, 1, 1, &[]);
    for (what, message) in wrong_messages(&honest) {
        let mut evil = patient(|_| {});
        evil.send(&message).expect("sent");
        assert!(evil.sees_its_end(), "{what}");
    }
    for bytes in [&b"Z\0\0\0"[..], b"D\xff\xff\xff", b"D\0\0\x01x", b"H\0\0\0"] {
        let mut evil = patient(|_| {});
        evil.stream.write_all(bytes).expect("sent");
        assert!(evil.sees_its_end(), "{bytes:?}");
    }
    type Lie = fn(&mut Hello);
    let lies: [(&str, Lie); 3] =
        [("another register", |h| h.register[0] ^= 1), ("other members", |h| h.members[0] ^= 1), ("another version of links", |h| h.version += 1)];
    for (what, lie) in lies {
        assert!(patient(lie).sees_its_end(), "{what}");
    }
}

/// A false node can say that a node lost state; alone it does not stop it. The node remembers it, by its log and by a snapshot.
#[test]
fn a_sign_of_lost_state_is_remembered() {
    let mut nodes = three_and_a_desk("sign");
    let mut evil = patient(&nodes, |h| h.seen.batch += 1 << 30);
    let _ = evil.send(&Message::Ping(Default::default()));
    let signed = |s: &Value| s["open"] == true && s["signs"] == json!(["s4"]);
    nodes.wait_until("s1", "shows the sign", signed);
    assert_eq!(nodes.desk().write(1, &[9; 32])["outcome"], "written");
    drop(evil);
    for _ in 0..2 {
        nodes.kill("s1");
        nodes.start("s1");
        nodes.wait_until("s1", "shows the sign again", signed);
        let made = common::semduoli(&["snapshot", "--folder", &nodes.path("s1")]);
        assert_eq!(common::code(&made), 0, "{}", common::said(&made));
    }
    assert_eq!(nodes.desk().write(1, &[8; 32])["outcome"], "written");
}

#[test]
fn strangers_are_turned_away() {
    let mut nodes = three_and_a_desk("strangers");
    let port = nodes.ports[0];
    let other = common::temporary("other").join("key");
    assert_eq!(common::code(&common::semduoli(&["keygen", other.to_str().expect("text")])), 0);
    let ended = |stream: Option<SslStream<TcpStream>>| {
        let mut stream = stream?;
        let mut room = [0; 16];
        // in TLS 1.3 who calls learns of it only when it reads
        Some(matches!(stream.read(&mut room), Ok(1..)))
    };
    for context in [tls(None), tls(Some(&other)), tls(Some(&nodes.at("s1")))] {
        assert_ne!(ended(connect(&context, port)), Some(true));
    }
    let mut plain = TcpStream::connect(("127.0.0.1", port)).expect("a connection");
    plain.write_all(b"GET / HTTP/1.1\r\n\r\n").expect("sent");
    plain.set_read_timeout(Some(PATIENCE)).expect("a timeout");
    let mut answer = vec![];
    let _ = plain.read_to_end(&mut answer);
    assert!(!answer.starts_with(b"HTTP"));
    let silent: Vec<TcpStream> = (0..60).filter_map(|_| TcpStream::connect(("127.0.0.1", port)).ok()).collect();
    assert!(silent.len() > 40);
    nodes.kill("s2");
    nodes.start("s2");
    nodes.wait_until("s2", "is open in spite of them", |s| s["open"] == true);
    let answer = Desk::new(&nodes.at("s1")).expect("its socket").ask(&json!({ "ask": "status" })).expect("an answer");
    let strangers = answer["program"]["strangers"].as_array().expect("strangers").len();
    let count = answer["program"]["turned_away"].as_u64();
    println!("{count:?} turned away, {strangers} shown");
    assert!(count >= Some(44) && strangers == 20, "{answer}");
    std::fs::remove_dir_all(other.parent().expect("a folder")).expect("removed");
}
