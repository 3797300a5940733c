//! What is measured of an implementation, and the three that are: plain Rust with its records in memory, the same with its records
//! as the bytes that a host lends, and the proved static library.

use crate::system::{fresh, Host};
use linked::calls;
use register::flat::{Client, Done, Outcome, Server, STATE_AREA};
use register::layout::{client_in, put_client, put_server, put_step, scope_in, CLIENT, SERVER, STAMP};
use register::params::MAX_SERVERS;
use register::{accession, blocks, sha256, Params, Party, Refusal};

/// A frame handed to a party, and the areas lent for what it sends.
pub struct Handed<'a> {
    pub p: &'a Params,
    pub own: usize,
    pub from: Party,
    pub frame: &'a [u8],
    pub out: &'a mut [u8],
    pub to: &'a mut [u8],
}

/// What a step tells: frames sent, and whether an operation ended. A refusal is none.
pub type Told = Option<(usize, bool)>;

pub trait Side: 'static {
    const NAME: &'static str;
    type Server: Copy + 'static;
    type Client: Copy + 'static;

    fn server(record: &Server) -> Self::Server;
    fn client(record: &Client) -> Self::Client;

    /// A fresh server with its areas.
    fn host(p: &Params, own: usize, value: &[u8]) -> Host<Self::Server> {
        let Host { server, area, initial } = fresh(p, own, value);
        Host { server: Self::server(&server), area, initial }
    }

    /// A fresh client.
    fn fresh_client() -> Self::Client {
        Self::client(&Client::fresh())
    }

    fn to_server(server: &mut Self::Server, handed: Handed, initial: &[u8], area: &mut [u8]) -> Told;
    fn to_client(
        client: &mut Self::Client,
        handed: Handed,
        written: &[u8],
        rows: &mut [u8],
        value: &mut [u8],
    ) -> Told;
    /// Begins a write of a value, or a read.
    fn begin(
        client: &mut Self::Client,
        p: &Params,
        own: usize,
        write: Option<&[u8]>,
        out: &mut [u8],
        to: &mut [u8],
    ) -> Told;

    // The coding of plain Rust, unless the side has its own.

    fn digest(message: &[u8], out: &mut [u8; 32]) {
        *out = sha256::digest(message);
    }

    fn encode(p: &Params, value: &[u8], out: &mut [u8]) {
        blocks::encode(p, value, out).unwrap();
    }

    /// The index of accession numbers; both give the place, 0 for none or a refusal.
    fn insert(value: &[u8], index: &mut [u8]) -> u8 {
        accession::insert(value, index).unwrap_or(0)
    }

    fn search(number: u64, index: &[u8]) -> u8 {
        accession::search(number, index).ok().flatten().unwrap_or(0)
    }

    /// Blocks lie end to end.
    fn decode(p: &Params, numbers: &[u8], parts: &[u8], out: &mut [u8]) {
        let mut given: [(usize, &[u8]); MAX_SERVERS] = [(0, &[]); MAX_SERVERS];
        for (i, part) in parts.chunks(p.block()).enumerate() {
            given[i] = (numbers[i] as usize, part);
        }
        blocks::decode(p, &given[..numbers.len()], out).unwrap();
    }
}

fn told(answer: Result<Done, Refusal>) -> Told {
    let done = answer.ok()?;
    Some((done.frames, !matches!(done.outcome, Outcome::Going | Outcome::Accepted(_))))
}

/// Plain Rust, records in memory.
pub struct Plain;

impl Side for Plain {
    const NAME: &'static str = "plain";
    type Server = Server;
    type Client = Client;

    fn server(record: &Server) -> Server {
        *record
    }

    fn client(record: &Client) -> Client {
        *record
    }

    fn to_server(server: &mut Server, h: Handed, initial: &[u8], area: &mut [u8]) -> Told {
        told(server.deliver(h.p, h.own, initial, area, h.from, h.frame, h.out, h.to))
    }

    fn to_client(client: &mut Client, h: Handed, written: &[u8], rows: &mut [u8], value: &mut [u8]) -> Told {
        told(client.deliver(h.p, h.own, written, rows, h.from, h.frame, h.out, h.to, value))
    }

    fn begin(
        client: &mut Client,
        p: &Params,
        own: usize,
        write: Option<&[u8]>,
        out: &mut [u8],
        to: &mut [u8],
    ) -> Told {
        told(match write {
            Some(value) => client.begin_write(p, own, value, out, to),
            None => client.begin_read(p, own, out, to),
        })
    }
}

/// Plain Rust, records as bytes: read before a step, written after it, of a server's only what the step needs and what it may change.
pub struct Bytes;

impl Side for Bytes {
    const NAME: &'static str = "plain, bytes";
    type Server = [u8; SERVER];
    type Client = [u8; CLIENT];

    fn server(record: &Server) -> [u8; SERVER] {
        let mut bytes = [0; SERVER];
        put_server(record, &mut bytes);
        bytes
    }

    fn client(record: &Client) -> [u8; CLIENT] {
        let mut bytes = [0; CLIENT];
        put_client(record, &mut bytes);
        bytes
    }

    fn to_server(bytes: &mut [u8; SERVER], handed: Handed, initial: &[u8], area: &mut [u8]) -> Told {
        let h = handed;
        let frame = Server::admit(h.p, h.own, initial, area, h.frame, h.out, h.to).ok()?;
        let accepts = matches!(frame.body.kind(), 4 | 5 | 13);
        let mut server = scope_in(bytes, frame.client as usize, accepts);
        let done = server.step(h.p, h.own, initial, area, h.from, frame, h.out, h.to).ok()?;
        put_step(&server, h.from, h.frame, done.outcome, bytes);
        told(Ok(done))
    }

    fn to_client(
        bytes: &mut [u8; CLIENT],
        handed: Handed,
        written: &[u8],
        rows: &mut [u8],
        value: &mut [u8],
    ) -> Told {
        let mut client = client_in(bytes);
        let told = Plain::to_client(&mut client, handed, written, rows, value)?;
        put_client(&client, bytes);
        Some(told)
    }

    fn begin(
        bytes: &mut [u8; CLIENT],
        p: &Params,
        own: usize,
        write: Option<&[u8]>,
        out: &mut [u8],
        to: &mut [u8],
    ) -> Told {
        let mut client = client_in(bytes);
        let told = Plain::begin(&mut client, p, own, write, out, to)?;
        put_client(&client, bytes);
        Some(told)
    }
}

/// The proved static library.
pub struct Proved;

fn bits(answer: u64) -> Told {
    (answer & 0xff == 0).then_some(((answer >> 16) as usize, answer & 0xff00 != 0))
}

/// The library's calls, on records of any length.
fn library_server(state: &mut [u8], h: Handed, initial: &[u8], area: &mut [u8]) -> Told {
    bits(calls::server_deliver(h.p, h.own, h.from, h.frame, area, initial, state, h.out, h.to))
}

fn library_client(state: &mut [u8], h: Handed, written: &[u8], rows: &mut [u8], value: &mut [u8]) -> Told {
    let (from, frame, mut stamp) = (h.from, h.frame, [0; STAMP]);
    bits(calls::client_deliver(h.p, h.own, from, written, frame, rows, value, &mut stamp, state, h.out, h.to))
}

fn library_begin(
    state: &mut [u8],
    p: &Params,
    own: usize,
    write: Option<&[u8]>,
    out: &mut [u8],
    to: &mut [u8],
) -> Told {
    bits(match write {
        Some(value) => calls::begin_write(p, own, state, value, out, to),
        None => calls::begin_read(p, own, state, out, to),
    })
}

impl Side for Proved {
    const NAME: &'static str = "proved";
    type Server = [u8; SERVER];
    type Client = [u8; CLIENT];

    fn server(record: &Server) -> [u8; SERVER] {
        Bytes::server(record)
    }

    fn client(record: &Client) -> [u8; CLIENT] {
        Bytes::client(record)
    }

    fn to_server(state: &mut [u8; SERVER], h: Handed, initial: &[u8], area: &mut [u8]) -> Told {
        library_server(state, h, initial, area)
    }

    fn to_client(
        state: &mut [u8; CLIENT],
        h: Handed,
        written: &[u8],
        rows: &mut [u8],
        value: &mut [u8],
    ) -> Told {
        library_client(state, h, written, rows, value)
    }

    fn begin(
        state: &mut [u8; CLIENT],
        p: &Params,
        own: usize,
        write: Option<&[u8]>,
        out: &mut [u8],
        to: &mut [u8],
    ) -> Told {
        library_begin(state, p, own, write, out, to)
    }

    fn insert(value: &[u8], index: &mut [u8]) -> u8 {
        (calls::index_insert(value, index) >> 16) as u8
    }

    fn search(number: u64, index: &[u8]) -> u8 {
        (calls::index_search(number, index) >> 16) as u8
    }

    fn digest(message: &[u8], out: &mut [u8; 32]) {
        assert_eq!(calls::digest(message, out), 0);
    }

    fn encode(p: &Params, value: &[u8], out: &mut [u8]) {
        assert_eq!(calls::encode(p, value, out), 0);
    }

    fn decode(p: &Params, numbers: &[u8], parts: &[u8], out: &mut [u8]) {
        assert_eq!(calls::decode(p, numbers, parts, out), 0);
    }
}

/// Room for a record of any layout.
const RECORD: usize = 4096;

/// The linked library of any state of the repository: it makes its records itself.
pub struct Library;

impl Side for Library {
    const NAME: &'static str = "library";
    type Server = [u8; RECORD];
    type Client = [u8; RECORD];

    fn server(_: &Server) -> [u8; RECORD] {
        unreachable!("its records are its own")
    }

    fn client(_: &Client) -> [u8; RECORD] {
        unreachable!("its records are its own")
    }

    fn host(p: &Params, own: usize, value: &[u8]) -> Host<[u8; RECORD]> {
        let (mut area, mut initial, mut server) = (vec![0; STATE_AREA], vec![0; p.block()], [0; RECORD]);
        assert_eq!(calls::server_fresh(p, own, value, &mut area, &mut initial, &mut server), 0);
        Host { server, area, initial }
    }

    fn fresh_client() -> [u8; RECORD] {
        let mut client = [0; RECORD];
        assert_eq!(calls::client_fresh(&mut client), 0);
        client
    }

    fn to_server(state: &mut [u8; RECORD], h: Handed, initial: &[u8], area: &mut [u8]) -> Told {
        library_server(state, h, initial, area)
    }

    fn to_client(
        state: &mut [u8; RECORD],
        h: Handed,
        written: &[u8],
        rows: &mut [u8],
        value: &mut [u8],
    ) -> Told {
        library_client(state, h, written, rows, value)
    }

    fn begin(
        state: &mut [u8; RECORD],
        p: &Params,
        own: usize,
        write: Option<&[u8]>,
        out: &mut [u8],
        to: &mut [u8],
    ) -> Told {
        library_begin(state, p, own, write, out, to)
    }
}
