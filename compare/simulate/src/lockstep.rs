//! Each party in the clear style and in another, called side by side: every byte of answers, states and lent areas
//! is compared.

use crate::style::{Answer, Ended, Handed, OtherClient, OtherServer, Sending, Style, Told};
use register::client::{self, Client, Operation, Outcome};
use register::flat::{self, CHUNK, ROWS_AREA, STATE_AREA};
use register::frame::{open, Body, Stage};
use register::server::{self, Accepted, Dispersed, Proposal, Server};
use register::{Params, Party, Refusal, Send, Variant};
use std::sync::LazyLock;

/// What the unused bytes of lent areas hold: 256 bytes that differ, over and over, from a place that depends on the salt.
fn pattern(length: usize, salt: usize) -> Vec<u8> {
    static BYTES: LazyLock<Vec<u8>> = LazyLock::new(|| (0..1 << 18).map(|i| (i * 7 + 5) as u8).collect());
    let from = salt * 89 % 256;
    BYTES[from..from + length].to_vec()
}

/// Compares frames and receivers with the out and to areas, whose further bytes are as lent.
fn compare_out(sends: &[Send], told: &Told, out: &[u8], to: &[u8], salt: usize) -> Result<(), String> {
    let mut expected = pattern(out.len(), salt);
    let mut receivers = pattern(to.len(), salt + 1);
    let mut at = 0;
    for (i, send) in sends.iter().enumerate() {
        expected[at..at + send.frame.len()].copy_from_slice(&send.frame);
        at += send.frame.len();
        let (class, number) = match send.to {
            Party::Client(c) => (0, c),
            Party::Server(j) => (1, j),
        };
        receivers[2 * i] = class;
        receivers[2 * i + 1] = number as u8;
    }
    if told.frames != sends.len() || out != expected || to != receivers {
        return Err("frames sent".to_string());
    }
    Ok(())
}

fn unchanged_out(out: &[u8], to: &[u8], salt: usize) -> Result<(), String> {
    if out != pattern(out.len(), salt) || to != pattern(to.len(), salt + 1) {
        return Err("a refusal wrote to a lent area".to_string());
    }
    Ok(())
}

struct LentServer {
    server: Box<dyn OtherServer>,
    area: Vec<u8>,
    initial: Vec<u8>,
}

pub struct ServerPair {
    p: Params,
    own: usize,
    pub clear: Server,
    other: Option<LentServer>,
}

/// The state area and the initial area that a run lends a server, as they are before its first call.
pub fn server_areas(p: &Params, own: usize) -> (Vec<u8>, Vec<u8>) {
    (pattern(STATE_AREA + own % 3, own), pattern(p.block() + own % 2, own))
}

impl ServerPair {
    pub fn fresh(p: Params, own: usize, value: &[u8], variant: Variant, style: Option<Style>) -> ServerPair {
        let clear = Server::fresh(p, own, value).unwrap().with_variant(variant);
        let other = style.map(|style| {
            let (mut area, mut initial) = server_areas(&p, own);
            let server = (style.server)(&p, own, value, &mut initial, &mut area);
            LentServer { server, area, initial }
        });
        ServerPair { p, own, clear, other }
    }

    /// The other style's record, state area and initial area.
    pub fn lent(&self) -> Option<(flat::Server, &[u8], &[u8])> {
        self.other.as_ref().map(|lent| (lent.server.record(), &lent.area[..], &lent.initial[..]))
    }

    /// One call, with both answers compared.
    pub fn deliver(
        &mut self,
        from: Party,
        bytes: &[u8],
        room: usize,
    ) -> Result<Result<server::Step, Refusal>, String> {
        let answer = self.clear.deliver(from, bytes, room);
        let Some(lent) = &mut self.other else { return Ok(answer) };
        let before = lent.area.clone();
        let record_before = lent.server.record();
        let initial_before = lent.initial.clone();
        let mut out = pattern(room, self.own);
        let mut to = pattern(2 * self.p.server_frames() + 1, self.own + 1);
        let (p, own) = (self.p, self.own);
        let handed = Handed { p: &p, own, from, frame: bytes };
        let sending = Sending { out: &mut out, to: &mut to };
        let other = lent.server.deliver(handed, &lent.initial, &mut lent.area, sending)?;
        if lent.initial != initial_before {
            return Err("initial area".to_string());
        }
        match (&answer, other) {
            (Err(a), Err(b)) if *a == b => {
                unchanged_out(&out, &to, self.own)?;
                if lent.area != before || lent.server.record() != record_before {
                    return Err("a refusal changed a server".to_string());
                }
            }
            (Ok(step), Ok(told)) => {
                compare_out(&step.sends, &told, &out, &to, self.own)?;
                let expected = self.expected_area(before, from, bytes, step);
                if told.ended != Ended::Nothing
                    || self.other.as_ref().is_some_and(|lent| lent.area != expected)
                {
                    return Err("state area".to_string());
                }
                self.compare_state()?;
            }
            _ => return Err(format!("answers {answer:?} and {other:?}")),
        }
        Ok(answer)
    }

    /// The state area after a step: the kept frame, the complete writes, the present value.
    fn expected_area(&self, mut area: Vec<u8>, from: Party, bytes: &[u8], step: &server::Step) -> Vec<u8> {
        let frame = open(&self.p, bytes).expect("a step's frame opens");
        let c = frame.client as usize;
        if let (Body::Block { stage, digests, block, .. }, Party::Server(j)) = (frame.body, from) {
            let chunk = match stage {
                Stage::Echo => flat::echo_chunk(c, j),
                _ => flat::ready_chunk(c, j),
            };
            flat::store(&mut area, chunk, digests, block);
        }
        if let Some(complete) = &self.clear.slots[c - 1].complete {
            let Dispersed { digests, block } = &complete.dispersed;
            flat::store(&mut area, flat::complete_chunk(c), digests, block);
        }
        for Accepted { client, own: Dispersed { digests, block }, replaced, .. } in &step.accepted {
            flat::store(&mut area, flat::complete_chunk(*client), digests, block);
            if *replaced {
                flat::store(&mut area, 0, digests, block);
            }
        }
        area
    }

    fn compare_state(&self) -> Result<(), String> {
        let Some(lent) = &self.other else { return Ok(()) };
        let (p, a, b) = (&self.p, &self.clear, &lent.server.record());
        let present = b.present(p, &lent.initial, &lent.area);
        if a.stamp != b.stamp
            || a.present.block != present
            || a.present.digests != flat::list_in(p, &lent.area, 0)
        {
            return Err("present value".to_string());
        }
        if a.reports != b.reports[1..=p.n] {
            return Err("reports".to_string());
        }
        for c in 1..=8 {
            let (x, y) = (&a.slots[c - 1], &b.slots[c]);
            let at = |time, chunk| {
                let digests = flat::list_in(p, &lent.area, chunk).to_vec();
                let block = flat::block_in(p, &lent.area, chunk).to_vec();
                Proposal { time, dispersed: Dispersed { digests, block } }
            };
            let flags = x.open == y.open && x.sent.is_some() == y.sent && x.ready == y.ready;
            let complete = y.complete.then(|| at(y.time, flat::complete_chunk(c)));
            let kept = (1..=p.n).all(|j| {
                let echo = y.echoes[j].then(|| at(y.echo_times[j], flat::echo_chunk(c, j)));
                let ready = y.readies[j].then(|| at(y.ready_times[j], flat::ready_chunk(c, j)));
                x.echoes.get(&j) == echo.as_ref() && x.readies.get(&j) == ready.as_ref()
            });
            let (r, s) = (&a.readers[c - 1], &b.readers[c]);
            let reader = r.newest == s.newest && r.listening == s.listening.then_some(s.noted);
            if !flags || x.complete != complete || !kept || !reader {
                return Err(format!("slot or reader of client {c}"));
            }
        }
        Ok(())
    }
}

struct LentClient {
    client: Box<dyn OtherClient>,
    rows: Vec<u8>,
}

pub struct ClientPair {
    p: Params,
    own: usize,
    pub clear: Client,
    other: Option<LentClient>,
    /// The value of the open write.
    value: Vec<u8>,
}

impl ClientPair {
    pub fn fresh(p: Params, own: usize, variant: Variant, style: Option<Style>) -> ClientPair {
        let clear = Client::fresh(p, own).unwrap().with_variant(variant);
        let other = style
            .map(|style| LentClient { client: (style.client)(), rows: pattern(ROWS_AREA + own % 3, own) });
        ClientPair { p, own, clear, other, value: Vec::new() }
    }

    fn compare(
        &self,
        answer: &Result<client::Step, Refusal>,
        other: Result<Told, Refusal>,
        before: flat::Client,
        areas: (&[u8], &[u8], &[u8]),
    ) -> Result<(), String> {
        let (out, to, value) = areas;
        let Some(lent) = &self.other else { return Ok(()) };
        let mut expected_value = pattern(value.len(), self.own + 2);
        match (answer, other) {
            (Err(a), Err(b)) if *a == b => {
                unchanged_out(out, to, self.own)?;
                if lent.client.record() != before {
                    return Err("a refusal changed a client".to_string());
                }
            }
            (Ok(step), Ok(told)) => {
                compare_out(&step.sends, &told, out, to, self.own)?;
                let ended = match &step.outcome {
                    Outcome::Going => Ended::Nothing,
                    Outcome::Written => Ended::Written,
                    Outcome::OutOfStamps => Ended::OutOfStamps,
                    Outcome::Disagreement => Ended::Disagreement,
                    Outcome::Value(stamp, bytes) => {
                        expected_value[..bytes.len()].copy_from_slice(bytes);
                        Ended::Value(*stamp)
                    }
                };
                if told.ended != ended {
                    return Err("outcome".to_string());
                }
                self.compare_state()?;
            }
            _ => return Err(format!("answers {answer:?} and {other:?}")),
        }
        if value != expected_value {
            return Err("value area".to_string());
        }
        Ok(())
    }

    fn compare_state(&self) -> Result<(), String> {
        let Some(lent) = &self.other else { return Ok(()) };
        let (p, a, b) = (&self.p, &self.clear, &lent.client.record());
        let operation = match &a.operation {
            Operation::None => b.operation == flat::Operation::None,
            Operation::Stamps(times) => {
                b.operation == flat::Operation::Stamps
                    && (1..=p.n).all(|j| times.get(&j).copied() == b.counted[j].then_some(b.times[j]))
            }
            Operation::Acks(from) => {
                b.operation == flat::Operation::Acks && (1..=p.n).all(|j| from.contains(&j) == b.counted[j])
            }
            Operation::Read(rows) => {
                b.operation == flat::Operation::Read
                    && rows.iter().enumerate().all(|(i, row)| {
                        row.len() as u64 == b.kept[i + 1]
                            && row.iter().enumerate().all(|(place, kept)| {
                                let chunk = flat::row_chunk(i + 1, place);
                                kept.stamp == b.stamps[i + 1][place]
                                    && kept.digests == flat::list_in(p, &lent.rows, chunk)
                                    && kept.block == flat::block_in(p, &lent.rows, chunk)
                            })
                    })
            }
        };
        let numbers = a.writes == b.writes && a.reads == b.reads && a.out_of_stamps == b.out_of_stamps;
        if !operation || !numbers || a.reports != b.reports[1..=p.n] {
            return Err("client record".to_string());
        }
        Ok(())
    }

    /// A call that lends no rows: made on the other side, and compared.
    fn also(
        &mut self,
        answer: &Result<client::Step, Refusal>,
        room: usize,
        call: impl FnOnce(&mut dyn OtherClient, &Params, usize, Sending) -> Answer,
    ) -> Result<(), String> {
        let (mut out, mut to) = self.areas(room);
        let (p, own) = (self.p, self.own);
        let Some(lent) = &mut self.other else { return Ok(()) };
        let before = lent.client.record();
        let other = call(&mut *lent.client, &p, own, Sending { out: &mut out, to: &mut to })?;
        self.compare(answer, other, before, (&out, &to, &[]))
    }

    pub fn begin_read(&mut self, room: usize) -> Result<Result<client::Step, Refusal>, String> {
        let answer = self.clear.begin_read(room);
        self.also(&answer, room, |client, p, own, sending| client.begin_read(p, own, sending))?;
        Ok(answer)
    }

    pub fn begin_write(
        &mut self,
        value: &[u8],
        room: usize,
    ) -> Result<Result<client::Step, Refusal>, String> {
        let answer = self.clear.begin_write(value, room);
        self.also(&answer, room, |client, p, own, sending| client.begin_write(p, own, value, sending))?;
        if answer.is_ok() {
            self.value = value.to_vec();
        }
        Ok(answer)
    }

    fn areas(&self, room: usize) -> (Vec<u8>, Vec<u8>) {
        (pattern(room, self.own), pattern(2 * self.p.n + self.own % 2, self.own + 1))
    }

    pub fn deliver(
        &mut self,
        from: Party,
        bytes: &[u8],
        room: usize,
    ) -> Result<Result<client::Step, Refusal>, String> {
        let rows_before = match &self.clear.operation {
            Operation::Read(rows) if self.other.is_some() => Some(rows.clone()),
            _ => None,
        };
        let answer = self.clear.deliver(from, bytes, &self.value, room);
        let (mut out, mut to) = self.areas(room);
        let mut value = pattern(self.p.l + self.own % 2, self.own + 2);
        let Some(lent) = &mut self.other else { return Ok(answer) };
        let before = lent.client.record();
        let mut expected = lent.rows.clone();
        let (p, own) = (self.p, self.own);
        let handed = Handed { p: &p, own, from, frame: bytes };
        let sending = Sending { out: &mut out, to: &mut to };
        let other = lent.client.deliver(handed, &self.value, &mut lent.rows, &mut value, sending)?;
        // The rows area: the new value in a free place or in that of the smallest of five.
        if let (Ok(_), Some(rows), Party::Server(j)) = (&answer, rows_before, from) {
            let row: Vec<_> = rows[j - 1].iter().map(|kept| kept.stamp).collect();
            if let Ok(Body::Value { stamp, digests, block }) = open(&p, bytes).map(|frame| frame.body) {
                let smallest = (0..row.len()).min_by_key(|&i| row[i]);
                let place = match smallest {
                    Some(i) if row.len() == 4 => (row[i] < stamp).then_some(i),
                    _ => Some(row.len()),
                };
                if let Some(place) = place {
                    flat::store(&mut expected, flat::row_chunk(j, place), digests, block);
                }
            }
        }
        if lent.rows != expected {
            let at = lent.rows.iter().zip(&expected).position(|(a, b)| a != b).unwrap();
            return Err(format!("rows area, chunk {}", at / CHUNK));
        }
        self.compare(&answer, other, before, (&out, &to, &value))?;
        Ok(answer)
    }
}
