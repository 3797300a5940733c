//! What a page must show and honest nodes never do: a false partner, and a log that was altered on the disk.

use crate::common::Nodes;
use openssl::ssl::{Ssl, SslContext, SslFiletype, SslMethod, SslStream, SslVerifyMode};
use semduoli::log::{batch_at, batch_bytes, segment_name, segment_read};
use semduoli::messages::{self, Front, Line, Message, MESSAGE_MOST};
use semduoli::records::{self, outcome, Record};
use semduoli::sem::{Party, STAMP};
use semduoli::settings::BLOCK;
use semduoli::streams::StreamId;
use std::fs;
use std::io::{Read, Write};
use std::net::TcpStream;
use std::path::Path;
use std::time::Duration;

const PATIENCE: Duration = Duration::from_secs(10);
/// How far a false partner says that it is ahead of what was taken of it.
const AHEAD: u64 = 1000;

/// A link to server 1 with the key of another server, which must not be running.
pub struct FalsePartner {
    stream: SslStream<TcpStream>,
    me: u8,
    lines: Vec<Line>,
}

impl FalsePartner {
    pub fn new(nodes: &Nodes, me: u8) -> FalsePartner {
        let folder = nodes.at(&format!("s{me}"));
        let mut c = SslContext::builder(SslMethod::tls()).expect("a context");
        c.set_verify(SslVerifyMode::NONE);
        c.set_private_key_file(folder.join("node.key"), SslFiletype::PEM).expect("a key");
        c.set_certificate_file(folder.join("node.crt"), SslFiletype::PEM).expect("a certificate");
        let tcp = TcpStream::connect(("127.0.0.1", nodes.ports[0])).expect("a connection");
        tcp.set_read_timeout(Some(PATIENCE)).expect("a time");
        let mut stream = Ssl::new(&c.build()).expect("a session").connect(tcp).expect("a handshake");
        let mut theirs = greeting(&mut stream);
        let lines = theirs.lines.clone();
        for l in &mut theirs.lines {
            // of its own streams it has sent more than was taken, of the others it has what it acknowledged: it does not seem to go back
            *l = match l.stream.from == Party::server(me) {
                true => Line { next: l.next + AHEAD, acked: l.next, ..*l },
                false => Line { next: l.acked, ..*l },
            };
        }
        std::mem::swap(&mut theirs.own, &mut theirs.seen);
        let mut partner = FalsePartner { stream, me, lines };
        partner.tell(&Message::Hello(theirs));
        partner
    }

    fn tell(&mut self, message: &Message) {
        let mut bytes = vec![];
        messages::write(&mut bytes, message);
        self.stream.write_all(&bytes).expect("sent");
    }

    /// Sends a frame in its stream.
    pub fn send(&mut self, owner: u8, frame: &[u8]) {
        let stream = StreamId { from: Party::server(self.me), to: Party::server(1), register: 0, owner };
        let number = match self.lines.iter_mut().find(|l| l.stream == stream) {
            Some(line) => {
                line.next += 1;
                line.next - 1
            }
            None => 0,
        };
        self.tell(&Message::Data { stream, number, frame });
    }
}

fn greeting(stream: &mut SslStream<TcpStream>) -> messages::Hello {
    let (mut input, mut room) = (vec![], [0; 16 * 1024]);
    loop {
        if let Front::Whole(Message::Hello(hello), _) = messages::read(&input, MESSAGE_MOST) {
            return hello;
        }
        let n = stream.read(&mut room).expect("a greeting");
        assert!(n > 0, "no greeting");
        input.extend_from_slice(&room[..n]);
    }
}

/// A frame as `docs/PROTOCOL.md` has it.
pub fn frame(kind: u8, owner: u8, sequence: u32, body: &[u8]) -> Vec<u8> {
    let length = ((7 + body.len()) as u16).to_be_bytes();
    [&length[..], &[1, kind, owner], &sequence.to_be_bytes(), body].concat()
}

/// Alters a log on the disk, so that the last read of this node's desks has ended with the initial value: its hashes are made anew.
pub fn forget_what_was_read(folder: &Path) {
    let path = folder.join(segment_name(1));
    let mut bytes = fs::read(&path).expect("a segment");
    let id = segment_read(&bytes, 1).expect("a log").id;
    let mut batches = vec![];
    let mut at = BLOCK as usize;
    while let Some(batch) = batch_at(&id, &bytes, at) {
        batches.push((at, batch.number, batch.wall, batch.payload.to_vec()));
        at += batch.bytes.len();
    }
    let is_read = |r: &Record| matches!(r, Record::Ended { outcome: outcome::VALUE, .. });
    let last = batches.iter().rposition(|b| records::read(&b.3).flatten().any(|r| is_read(&r))).expect("a read");
    let mut before = [0; 16];
    for (place, (at, number, wall, payload)) in batches.iter().enumerate() {
        let mut altered = vec![];
        for record in records::read(payload) {
            let mut record = record.expect("a record");
            if let (true, Record::Ended { outcome: outcome::VALUE, stamp, .. }) = (place == last, &mut record) {
                *stamp = [0; STAMP];
            }
            records::write(&mut altered, &record);
        }
        let (made, own) = batch_bytes(&id, &before, *number, *wall, &altered);
        bytes[*at..*at + made.len()].copy_from_slice(&made);
        before = own;
    }
    fs::write(&path, &bytes).expect("written");
}
