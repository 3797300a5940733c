//! All servers of a register and one client, of one side, with every frame delivered in the order sent.

use crate::side::{Handed, Side};
use register::flat::{Server, ROWS_AREA, STATE_AREA};
use register::{Params, Party};

pub struct Host<S> {
    pub server: S,
    pub area: Vec<u8>,
    pub initial: Vec<u8>,
}

/// Frames under way, end to end, each with sender, receiver and length.
#[derive(Default)]
struct Mail {
    bytes: Vec<u8>,
    frames: Vec<(Party, Party, usize)>,
}

pub struct System<S: Side> {
    p: Params,
    /// Place j − 1 is server j's.
    pub hosts: Vec<Host<S::Server>>,
    client: S::Client,
    rows: Vec<u8>,
    value: Vec<u8>,
    out: Vec<u8>,
    to: Vec<u8>,
    sent: Mail,
    read: Mail,
}

/// The one client.
pub const CLIENT: usize = 1;

/// Server `own` afresh, with its areas.
pub fn fresh(p: &Params, own: usize, value: &[u8]) -> Host<Server> {
    let (mut area, mut initial) = (vec![0; STATE_AREA], vec![0; p.block()]);
    let server = Server::fresh(p, own, value, &mut initial, &mut area).expect("sound parameters");
    Host { server, area, initial }
}

impl<S: Side> System<S> {
    pub fn new(p: Params, initial_value: &[u8]) -> System<S> {
        // Enough for a call of any party, by the rules of any state of the library.
        let frames = p.server_frames();
        System {
            p,
            hosts: (1..=p.n).map(|j| S::host(&p, j, initial_value)).collect(),
            client: S::fresh_client(),
            rows: vec![0; ROWS_AREA],
            value: vec![0; p.l],
            out: vec![0; frames * p.largest()],
            to: vec![0; 2 * frames],
            sent: Mail::default(),
            read: Mail::default(),
        }
    }

    /// Takes the frames of the out area, but for reports to clients that are not there.
    fn post(&mut self, from: Party, frames: usize) {
        let mut at = 0;
        for receiver in self.to.chunks(2).take(frames) {
            let length = 2 + u16::from_be_bytes([self.out[at], self.out[at + 1]]) as usize;
            let number = receiver[1] as usize;
            let to = if receiver[0] == 0 { Party::Client(number) } else { Party::Server(number) };
            if receiver[0] == 1 || number == CLIENT {
                self.sent.frames.push((from, to, length));
                self.sent.bytes.extend_from_slice(&self.out[at..at + length]);
            }
            at += length;
        }
    }

    /// An operation, and the delivery of everything that it causes; it must end. `look` sees each frame before its delivery.
    fn operate(&mut self, write: Option<&[u8]>, mut look: impl FnMut(&System<S>, Party, Party, &[u8])) {
        let p = self.p;
        let begun = S::begin(&mut self.client, &p, CLIENT, write, &mut self.out, &mut self.to);
        self.post(Party::Client(CLIENT), begun.expect("no operation is open").0);
        let mut ended = false;
        while !self.sent.frames.is_empty() {
            let mut mail = std::mem::take(&mut self.read);
            std::mem::swap(&mut mail, &mut self.sent);
            let mut rest = &mail.bytes[..];
            for &(from, receiver, length) in &mail.frames {
                let (frame, behind) = rest.split_at(length);
                rest = behind;
                look(self, from, receiver, frame);
                let (out, to) = (&mut self.out[..], &mut self.to[..]);
                let told = match receiver {
                    Party::Server(own) => {
                        let host = &mut self.hosts[own - 1];
                        let handed = Handed { p: &p, own, from, frame, out, to };
                        S::to_server(&mut host.server, handed, &host.initial, &mut host.area)
                    }
                    Party::Client(own) => {
                        let handed = Handed { p: &p, own, from, frame, out, to };
                        let written = write.unwrap_or_default();
                        S::to_client(&mut self.client, handed, written, &mut self.rows, &mut self.value)
                    }
                };
                if let Some((frames, end)) = told {
                    ended |= end;
                    self.post(receiver, frames);
                }
            }
            mail.bytes.clear();
            mail.frames.clear();
            self.read = mail;
        }
        assert!(ended);
    }

    pub fn write(&mut self, value: &[u8], look: impl FnMut(&System<S>, Party, Party, &[u8])) {
        self.operate(Some(value), look);
    }

    pub fn read(&mut self, look: impl FnMut(&System<S>, Party, Party, &[u8])) -> &[u8] {
        self.operate(None, look);
        &self.value
    }
}
