//! Another implementation of a party on lent areas, which a run calls beside the clear one. `FLAT` is the plain Rust one.

use register::flat::{self, Outcome};
use register::frame::Stamp;
use register::{Params, Party, Refusal};

/// What a call ended, a read with its stamp.
#[derive(Clone, Copy, Debug, PartialEq, Eq)]
pub enum Ended {
    Nothing,
    Written,
    OutOfStamps,
    Value(Stamp),
    Disagreement,
}

/// What an answer tells: how many frames were sent, and what ended.
#[derive(Clone, Copy, Debug, PartialEq, Eq)]
pub struct Told {
    pub frames: usize,
    pub ended: Ended,
}

/// A frame handed to a party, named as another's.
#[derive(Clone, Copy)]
pub struct Handed<'a> {
    pub p: &'a Params,
    pub own: usize,
    pub from: Party,
    pub frame: &'a [u8],
}

/// The areas lent for what a call sends.
pub struct Sending<'a> {
    pub out: &'a mut [u8],
    pub to: &'a mut [u8],
}

/// An answer, or words about what is wrong with it in itself.
pub type Answer = Result<Result<Told, Refusal>, String>;

pub trait OtherServer {
    fn deliver(&mut self, handed: Handed, initial: &[u8], area: &mut [u8], sending: Sending) -> Answer;
    fn record(&self) -> flat::Server;
}

pub trait OtherClient {
    fn begin_read(&mut self, p: &Params, own: usize, sending: Sending) -> Answer;
    fn begin_write(&mut self, p: &Params, own: usize, value: &[u8], sending: Sending) -> Answer;
    /// `written` is the open write's value, `value` the area of a read's.
    fn deliver(
        &mut self,
        handed: Handed,
        written: &[u8],
        rows: &mut [u8],
        value: &mut [u8],
        sending: Sending,
    ) -> Answer;
    fn record(&self) -> flat::Client;
}

/// A fresh server: parameters, own number, value, initial area, state area.
pub type FreshServer = fn(&Params, usize, &[u8], &mut [u8], &mut [u8]) -> Box<dyn OtherServer>;

#[derive(Clone, Copy)]
pub struct Style {
    pub name: &'static str,
    pub server: FreshServer,
    pub client: fn() -> Box<dyn OtherClient>,
}

impl std::fmt::Debug for Style {
    fn fmt(&self, f: &mut std::fmt::Formatter) -> std::fmt::Result {
        f.write_str(self.name)
    }
}

pub const FLAT: Style = Style {
    name: "flat",
    server: |p, own, value, initial, area| {
        Box::new(flat::Server::fresh(p, own, value, initial, area).expect("sound parameters"))
    },
    client: || Box::new(flat::Client::fresh()),
};

/// What flat's answer tells; its count of bytes must be that of its frames.
fn told(answer: Result<flat::Done, Refusal>, out: &[u8]) -> Answer {
    let done = match answer {
        Ok(done) => done,
        Err(refusal) => return Ok(Err(refusal)),
    };
    let mut bytes = 0;
    for _ in 0..done.frames {
        bytes += 2 + u16::from_be_bytes([out[bytes], out[bytes + 1]]) as usize;
    }
    if bytes != done.bytes {
        return Err("bytes sent".to_string());
    }
    let ended = match done.outcome {
        Outcome::Going | Outcome::Accepted(_) => Ended::Nothing,
        Outcome::Written => Ended::Written,
        Outcome::OutOfStamps => Ended::OutOfStamps,
        Outcome::Value(stamp) => Ended::Value(stamp),
        Outcome::Disagreement => Ended::Disagreement,
    };
    Ok(Ok(Told { frames: done.frames, ended }))
}

impl OtherServer for flat::Server {
    fn deliver(&mut self, handed: Handed, initial: &[u8], area: &mut [u8], sending: Sending) -> Answer {
        let Handed { p, own, from, frame } = handed;
        let answer = flat::Server::deliver(self, p, own, initial, area, from, frame, sending.out, sending.to);
        told(answer, sending.out)
    }

    fn record(&self) -> flat::Server {
        *self
    }
}

impl OtherClient for flat::Client {
    fn begin_read(&mut self, p: &Params, own: usize, sending: Sending) -> Answer {
        told(flat::Client::begin_read(self, p, own, sending.out, sending.to), sending.out)
    }

    fn begin_write(&mut self, p: &Params, own: usize, value: &[u8], sending: Sending) -> Answer {
        told(flat::Client::begin_write(self, p, own, value, sending.out, sending.to), sending.out)
    }

    fn deliver(
        &mut self,
        handed: Handed,
        written: &[u8],
        rows: &mut [u8],
        value: &mut [u8],
        sending: Sending,
    ) -> Answer {
        let Handed { p, own, from, frame } = handed;
        let Sending { out, to } = sending;
        let answer = flat::Client::deliver(self, p, own, written, rows, from, frame, out, to, value);
        told(answer, out)
    }

    fn record(&self) -> flat::Client {
        *self
    }
}
