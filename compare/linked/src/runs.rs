//! Whole adversarial runs: every call on an honest party is made on the proved library too, and on its twin, the second
//! implementation on lent areas. Answers, records and areas of the two are compared byte by byte; the run itself compares what they
//! say with the clear style.

use crate::{bits, calls, same_answer, same_bytes, Difference, Seen};
use register::flat::{self, Done, Outcome};
use register::layout::{
    client_in, put_client, put_server, put_stamp, put_step, server_in, stamp_in, CLIENT, SERVER, STAMP,
};
use register::{Params, Refusal};
use simulate::run::{parameters_of, run, Options, Summary};
use simulate::style::{Answer, Ended, Handed, OtherClient, OtherServer, Sending, Style, Told};

pub const LINKED: Style = Style { name: "linked", server: fresh_server, client: fresh_client };

/// What an answer tells, once it is the twin's; stamp has a read's stamp.
fn told(answer: u64, twin: Result<Done, Refusal>, stamp: &[u8]) -> Answer {
    same_answer(answer, bits(twin))?;
    if let Err(refusal) = twin {
        return Ok(Err(refusal));
    }
    let ended = match answer >> 8 & 0xff {
        1 => Ended::Written,
        2 => Ended::OutOfStamps,
        3 => Ended::Value(stamp_in(stamp)),
        4 => Ended::Disagreement,
        _ => Ended::Nothing,
    };
    Ok(Ok(Told { frames: (answer >> 16) as usize, ended }))
}

/// The twin's copies of the areas lent for what a call sends.
fn copies(sending: &Sending) -> (Vec<u8>, Vec<u8>) {
    (sending.out.to_vec(), sending.to.to_vec())
}

fn same_sent(sending: &Sending, copies: &(Vec<u8>, Vec<u8>)) -> Result<(), Difference> {
    same_bytes("out", sending.out, &copies.0)?;
    same_bytes("to", sending.to, &copies.1)
}

struct Server {
    state: [u8; SERVER],
    twin: flat::Server,
    twin_area: Vec<u8>,
}

fn fresh_server(
    p: &Params,
    own: usize,
    value: &[u8],
    initial: &mut [u8],
    area: &mut [u8],
) -> Box<dyn OtherServer> {
    let (mut twin_initial, mut twin_area) = (initial.to_vec(), area.to_vec());
    let twin =
        flat::Server::fresh(p, own, value, &mut twin_initial, &mut twin_area).expect("sound parameters");
    let mut state = [0xee; SERVER];
    let answer = calls::server_fresh(p, own, value, area, initial, &mut state);
    assert_eq!(answer, 0, "a fresh server of {p:?}");
    assert!(initial == twin_initial, "initial area of a fresh server of {p:?}");
    let server = Server { state, twin, twin_area };
    server.compare(area).unwrap_or_else(|difference| panic!("a fresh server of {p:?}: {difference}"));
    Box::new(server)
}

impl Server {
    /// Runs make canonical records only: the whole record is the twin's.
    fn compare(&self, area: &[u8]) -> Result<(), Difference> {
        let mut expected = [0; SERVER];
        put_server(&self.twin, &mut expected);
        same_bytes("state", &self.state, &expected)?;
        same_bytes("area", area, &self.twin_area)
    }
}

impl OtherServer for Server {
    fn deliver(&mut self, handed: Handed, initial: &[u8], area: &mut [u8], sending: Sending) -> Answer {
        let Handed { p, own, from, frame } = handed;
        let (mut sent, mut expected) = (copies(&sending), self.state);
        let (out, to) = (&mut *sending.out, &mut *sending.to);
        let answer = calls::server_deliver(p, own, from, frame, area, initial, &mut self.state, out, to);
        let (out, to) = (&mut sent.0[..], &mut sent.1[..]);
        let twin = self.twin.deliver(p, own, initial, &mut self.twin_area, from, frame, out, to);
        let told = told(answer, twin, &[])?;
        same_sent(&sending, &sent)?;
        if let Ok(done) = twin {
            put_step(&self.twin, from, frame, done.outcome, &mut expected);
        }
        same_bytes("state", &self.state, &expected)?;
        self.compare(area)?;
        Ok(told)
    }

    fn record(&self) -> flat::Server {
        server_in(&self.state)
    }
}

struct Client {
    state: [u8; CLIENT],
    twin: flat::Client,
}

fn fresh_client() -> Box<dyn OtherClient> {
    let mut state = [0xee; CLIENT];
    assert_eq!(calls::client_fresh(&mut state), 0, "a fresh client");
    let client = Client { state, twin: flat::Client::fresh() };
    client.compare().unwrap_or_else(|difference| panic!("a fresh client: {difference}"));
    Box::new(client)
}

impl Client {
    fn compare(&self) -> Result<(), Difference> {
        let mut expected = [0; CLIENT];
        put_client(&self.twin, &mut expected);
        same_bytes("state", &self.state, &expected)
    }
}

impl OtherClient for Client {
    fn begin_read(&mut self, p: &Params, own: usize, sending: Sending) -> Answer {
        let mut sent = copies(&sending);
        let answer = calls::begin_read(p, own, &mut self.state, sending.out, sending.to);
        let told = told(answer, self.twin.begin_read(p, own, &mut sent.0, &mut sent.1), &[])?;
        same_sent(&sending, &sent)?;
        self.compare()?;
        Ok(told)
    }

    fn begin_write(&mut self, p: &Params, own: usize, value: &[u8], sending: Sending) -> Answer {
        let mut sent = copies(&sending);
        let answer = calls::begin_write(p, own, &mut self.state, value, sending.out, sending.to);
        let told = told(answer, self.twin.begin_write(p, own, value, &mut sent.0, &mut sent.1), &[])?;
        same_sent(&sending, &sent)?;
        self.compare()?;
        Ok(told)
    }

    fn deliver(
        &mut self,
        handed: Handed,
        written: &[u8],
        rows: &mut [u8],
        value: &mut [u8],
        sending: Sending,
    ) -> Answer {
        let Handed { p, own, from, frame } = handed;
        let (mut sent, mut twin_rows, mut twin_value) = (copies(&sending), rows.to_vec(), value.to_vec());
        let (out, to) = (&mut *sending.out, &mut *sending.to);
        let (mut stamp, mut twin_stamp) = ([0xee; STAMP + 2], [0xee; STAMP + 2]);
        let answer = calls::client_deliver(
            p,
            own,
            from,
            written,
            frame,
            rows,
            value,
            &mut stamp,
            &mut self.state,
            out,
            to,
        );
        let (out, to) = (&mut sent.0[..], &mut sent.1[..]);
        let twin = self.twin.deliver(p, own, written, &mut twin_rows, from, frame, out, to, &mut twin_value);
        if let Ok(Done { outcome: Outcome::Value(x), .. }) = &twin {
            put_stamp(x, &mut twin_stamp);
        }
        let told = told(answer, twin, &stamp)?;
        same_sent(&sending, &sent)?;
        same_bytes("stamp", &stamp, &twin_stamp)?;
        same_bytes("rows", rows, &twin_rows)?;
        same_bytes("result", value, &twin_value)?;
        self.compare()?;
        Ok(told)
    }

    fn record(&self) -> flat::Client {
        client_in(&self.state)
    }
}

/// The run of a seed, as simulate makes it; one in eight with n − t or more false servers.
pub fn lockstep(seed: u64) -> Result<Seen, Difference> {
    let options = Options { style: Some(LINKED), many: seed % 8 == 7, ..Options::RIGHT };
    let summary =
        run(seed, options).map_err(|violation| format!("{:?}: {violation}", parameters_of(seed)))?;
    let mut refusals = Seen::default().refusals;
    refusals[..summary.refusals.len()].copy_from_slice(&summary.refusals);
    let Summary { steps, writes, closed, reads, disagreements, .. } = summary;
    Ok(Seen { refusals, outcomes: [steps, writes, closed, reads, disagreements] })
}
