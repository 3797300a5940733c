//! Random calls of any kind: any parameters, own numbers, senders, frames and lent sizes, mostly one thing wrong.

use crate::blocks::encoded;
use crate::client::KEPT;
use crate::flat::{
    self, Client, Operation, Reader, Server, Slot, BLOCK_AT, CHUNK, ROWS_AREA, SEATS, STATE_AREA,
};
use crate::frame::{build, Body, Stage, Stamp};
use crate::params::{Params, Party, CLIENTS, DIGEST, MAX_VALUE};
use crate::random::Random;
use crate::server::digest_list;
use crate::sha256::digest;

pub(crate) fn some_params(random: &mut Random) -> Params {
    let mut p = random.pick(&Params::all(5));
    p.l = random.range(1, 20);
    let wild = [0, 1, 2, 3, 5, 9, 10, 11, 12, 256, 257, usize::MAX];
    if random.chance(1, 4) {
        let field = random.pick(&wild);
        match random.below(4) {
            0 => p.n = field,
            1 => p.t = field,
            2 => p.k = field,
            _ => p.l = field,
        }
    }
    p
}

/// Refusals 1 to 3, from the words of the table.
pub fn bounds(p: &Params, own: usize, most: usize) -> Option<u8> {
    let (n, t) = (p.n as u128, p.t as u128);
    if !(4..=10).contains(&n) || t < 1 || n <= 3 * t || own < 1 || own > most {
        return Some(1);
    }
    if p.k < 1 || p.k as u128 > n - 2 * t {
        return Some(2);
    }
    (p.l < 1 || p.l > 256).then_some(3)
}

pub(crate) fn some_frame(p: &Params, client: usize, random: &mut Random) -> Vec<u8> {
    let (list, block) = if bounds(p, 1, 1).is_none() { (p.list(), p.block()) } else { (128, 3) };
    let block = random.bytes(block);
    // In half of the frames the block fits its digest, whoever sends it.
    let digests = if random.chance(1, 2) { digest(&block).repeat(list / DIGEST) } else { random.bytes(list) };
    let time = random.below(3) as u64;
    let mut stamp = Stamp { time, writer: random.below(3) as u8, sequence: random.below(3) as u32 };
    if random.chance(1, 2) {
        stamp = Stamp::default();
    }
    let stage = random.pick(&[Stage::Send, Stage::Echo, Stage::Ready]);
    let body = match random.below(10) {
        0 => Body::GetStamp,
        1 => Body::Stamp { time },
        2 | 3 => Body::Block { stage, time, digests: &digests, block: &block },
        4 => Body::Ack,
        5 => Body::Read,
        6 => Body::ReadComplete,
        7 => Body::Report { time: random.pick(&[0, 1, 2, 2, 3, u64::MAX]) },
        _ => Body::Value { stamp, digests: &digests, block: &block },
    };
    let client = if random.chance(1, 10) { random.range(0, 9) } else { client };
    let mut frame = build(client as u8, random.pick(&[0, 1, 1, 1, 1, 1, 2, 2]), body);
    if random.chance(1, 4) {
        let i = random.below(frame.len().min(12));
        frame[i] = random.below(16) as u8;
    }
    if random.chance(1, 10) {
        frame.truncate(random.below(frame.len()));
    }
    frame
}

pub(crate) fn some_party(client: usize, random: &mut Random) -> Party {
    if random.chance(2, 3) {
        let server = Party::Server(random.range(1, 4));
        return random.pick(&[server, Party::Client(client)]);
    }
    let number = random.pick(&[0, 1, 2, 3, 4, 8, 9, 10, 11, 255, 256, usize::MAX]);
    if random.chance(1, 2) {
        Party::Server(number)
    } else {
        Party::Client(number)
    }
}

/// Enough, one too few, or none.
pub(crate) fn some_size(enough: usize, random: &mut Random) -> usize {
    match random.below(40) {
        0 => enough - 1,
        1 => 0,
        _ => enough + random.below(2),
    }
}

fn some_flags(random: &mut Random) -> [bool; SEATS] {
    std::array::from_fn(|_| random.chance(1, 2))
}

fn some_times(random: &mut Random) -> [u64; SEATS] {
    std::array::from_fn(|_| random.pick(&[0, 1, 2, 2, 2, u64::MAX]))
}

fn some_stamp(random: &mut Random) -> Stamp {
    match random.below(3) as u64 {
        0 => Stamp::default(),
        time => Stamp { time, writer: random.range(1, 8) as u8, sequence: random.range(1, 3) as u32 },
    }
}

/// Gives a server any flags and times, of a run or of none.
fn scramble_server(server: &mut Server, random: &mut Random) {
    server.stamp = some_stamp(random);
    server.reports = some_times(random);
    for slot in &mut server.slots {
        slot.open = random.pick(&[1, 1, 2, u32::MAX as u64, flat::NONE_OPEN, u64::MAX]);
        for flag in [&mut slot.sent, &mut slot.ready, &mut slot.complete] {
            *flag = random.chance(1, 2);
        }
        slot.time = random.pick(&[0, 1, 2, u64::MAX]);
        (slot.echoes, slot.readies) = (some_flags(random), some_flags(random));
        (slot.echo_times, slot.ready_times) = (some_times(random), some_times(random));
    }
    for reader in &mut server.readers {
        *reader = Reader {
            newest: random.below(3) as u32,
            listening: random.chance(1, 2),
            noted: some_stamp(random),
        };
    }
}

/// Gives a client any counts, times, reports and rows; the stamps of a row differ.
fn scramble_client(client: &mut Client, random: &mut Random) {
    (client.counted, client.times) = (some_flags(random), some_times(random));
    client.reports = some_times(random);
    for (kept, row) in client.kept.iter_mut().zip(&mut client.stamps) {
        *kept = random.range(0, KEPT) as u64;
        let first = random.range(1, 2) as u64;
        *row = std::array::from_fn(|i| Stamp { time: first + i as u64, writer: 1, sequence: 1 });
    }
}

/// A rows area: one list and block in all chunks, which are blocks of one value, or one of two lists or of two blocks in each.
fn some_rows(length: usize, random: &mut Random) -> Vec<u8> {
    let (differ, foreign) = (random.chance(1, 2), random.chance(1, 4));
    let mut rows = vec![2; length];
    for chunk in rows.chunks_mut(CHUNK) {
        if differ && random.chance(1, 3) {
            let at = random.below(chunk.len());
            chunk[at] = 7;
        }
        if foreign && random.chance(1, 8) && chunk.len() == CHUNK {
            chunk[BLOCK_AT] = 7;
        }
    }
    rows
}

/// Lays echoes and readies of a value's blocks in a client's slot and chunks, at the places of most servers, some of another value's
/// or of another time, in a quarter of the cases one server's with the block of the other value, and gives an echo or a ready of that
/// value and time with its sender.
fn lay_group(
    p: &Params,
    client: usize,
    slot: &mut Slot,
    area: &mut [u8],
    random: &mut Random,
) -> (Party, Vec<u8>) {
    let values: [Vec<Vec<u8>>; 2] = std::array::from_fn(|_| encoded(p, &random.bytes(p.l)));
    let lists = [digest_list(&values[0]), digest_list(&values[1])];
    let time = random.pick(&[0, 1, 2, u64::MAX - 1, u64::MAX]);
    slot.complete = random.chance(1, 4);
    let foreign = if random.chance(1, 4) { random.range(1, p.n) } else { 0 };
    for j in 1..=p.n {
        for chunk in [flat::echo_chunk(client, j), flat::ready_chunk(client, j)] {
            let v = random.chance(1, 8) as usize;
            let block = if j == foreign { 1 - v } else { v };
            flat::store(area, chunk, &lists[v], &values[block][j - 1]);
        }
        (slot.echoes[j], slot.readies[j]) = (random.chance(3, 4), random.chance(3, 4));
        let mut kept = || if random.chance(7, 8) { time } else { time ^ 1 };
        (slot.echo_times[j], slot.ready_times[j]) = (kept(), kept());
    }
    let (j, stage) = (random.range(1, p.n), random.pick(&[Stage::Echo, Stage::Ready]));
    (slot.echoes[j], slot.readies[j]) = (stage == Stage::Ready, stage == Stage::Echo);
    let body = Body::Block { stage, time, digests: &lists[0], block: &values[0][j - 1] };
    (Party::Server(j), build(client as u8, random.pick(&[1, 1, 1, 2]), body))
}

/// Lays complete writes in most clients' slots, some of which the server's time or its reports vouch for, and gives a report.
fn lay_waiting(p: &Params, client: usize, server: &mut Server, random: &mut Random) -> (Party, Vec<u8>) {
    let time = random.range(0, 3) as u64;
    server.stamp = Stamp { time, writer: (time > 0) as u8, sequence: (time > 0) as u32 };
    server.reports = std::array::from_fn(|_| random.below(8) as u64);
    for slot in &mut server.slots {
        slot.open = random.pick(&[1, 1, 1, 2, 9, u32::MAX as u64, flat::NONE_OPEN, u64::MAX]);
        slot.complete = random.chance(2, 3);
        slot.time = random.pick(&[0, 1, 2, 3, 4, 5, 6, u64::MAX - 1, u64::MAX]);
    }
    let (time, j) = (random.pick(&[0, 1, 2, 3, 4, 5, 6, 7, u64::MAX]), random.range(1, p.n));
    (Party::Server(j), build(client as u8, random.pick(&[1, 1, 2, 7]), Body::Report { time }))
}

/// A frame handed to a server, with everything lent.
#[derive(Clone, Debug, PartialEq, Eq)]
pub struct ServerCall {
    pub p: Params,
    pub own: usize,
    pub from: Party,
    pub frame: Vec<u8>,
    pub server: Server,
    pub initial: Vec<u8>,
    pub area: Vec<u8>,
    pub out: Vec<u8>,
    pub to: Vec<u8>,
    /// Refusals 1 to 3, and whether an area is short.
    pub bounds: Option<u8>,
    pub short: bool,
}

pub fn server_call(random: &mut Random) -> ServerCall {
    let p = some_params(random);
    let own = random.pick(&[1, 1, 1, 2, 2, 3, 4, 4, 0, 7, 10, 11, 255, 257, 260, usize::MAX]);
    let bounds = bounds(&p, own, p.n);
    let sane = if bounds.is_none() { p } else { Params::new(10, 1, 1, 256) };
    let (mut initial, mut area) = (vec![1; sane.block()], vec![2; STATE_AREA]);
    let mut server = Server::fresh(&sane, 1, &vec![3; sane.l], &mut initial, &mut area).unwrap();
    if random.chance(1, 2) {
        scramble_server(&mut server, random);
    }
    let client = random.range(1, CLIENTS);
    server.readers[client].newest = random.below(2) as u32;
    server.slots[client].open = random.pick(&[1, 1, 2]);
    let (from, frame) = if bounds.is_none() && random.chance(1, 3) {
        lay_group(&p, client, &mut server.slots[client], &mut area, random)
    } else if bounds.is_none() && random.chance(1, 6) {
        lay_waiting(&p, client, &mut server, random)
    } else {
        (some_party(client, random), some_frame(&p, client, random))
    };
    initial.truncate(some_size(sane.block(), random));
    area.resize(some_size(STATE_AREA, random), 9);
    let out = vec![4; some_size(sane.server_room(), random)];
    let to = vec![5; some_size(2 * sane.server_frames(), random)];
    let short = initial.len() < sane.block()
        || area.len() < STATE_AREA
        || out.len() < sane.server_room()
        || to.len() < 2 * sane.server_frames();
    ServerCall { p, own, from, frame, server, initial, area, out, to, bounds, short }
}

/// Opens a client's read and lays values of one stamp and list in the rows of most servers, their blocks those of one value, or with one of
/// another value or with a padding that is not zero; and gives that value from a further server.
fn lay_rows(
    p: &Params,
    own: usize,
    client: &mut Client,
    rows: &mut [u8],
    random: &mut Random,
) -> (Party, Vec<u8>) {
    let mut blocks = encoded(p, &random.bytes(p.l));
    match random.below(4) {
        0 => {
            let j = random.below(p.n);
            blocks[j] = random.bytes(p.block());
        }
        1 if p.k * p.block() <= MAX_VALUE => {
            let padded = Params { l: p.k * p.block(), ..*p };
            blocks = encoded(&padded, &random.bytes(padded.l));
        }
        _ => {}
    }
    let digests = digest_list(&blocks);
    let stamp = Stamp { time: random.range(1, 3) as u64, writer: 1, sequence: 1 };
    let from = random.range(1, p.n);
    client.operation = Operation::Read;
    client.reads = 1;
    for j in 1..=p.n {
        client.kept[j] = (j != from && random.chance(7, 8)) as u64;
        client.stamps[j][0] = stamp;
        flat::store(rows, flat::row_chunk(j, 0), &digests, &blocks[j - 1]);
    }
    let body = Body::Value { stamp, digests: &digests, block: &blocks[from - 1] };
    (Party::Server(from), build(own as u8, 1, body))
}

/// Opens a client's write in its first part with replies of most servers and reports of all, and gives a stamp or a report of a further one.
fn lay_stamps(p: &Params, own: usize, client: &mut Client, random: &mut Random) -> (Party, Vec<u8>) {
    let top = random.pick(&[3, 3, 3, u64::MAX]);
    let some = |random: &mut Random| random.pick(&[0, 1, 2, top - 1, top]);
    client.operation = Operation::Stamps;
    client.writes = 1;
    let from = random.range(1, p.n);
    let (stamp, time) = (random.chance(1, 2), some(random));
    for j in 1..=p.n {
        client.counted[j] = (j != from || !stamp) && random.chance(3, 4);
        (client.times[j], client.reports[j]) = (some(random), some(random));
        if random.chance(3, 4) {
            client.reports[j] = client.reports[j].max(client.times[j]);
        }
    }
    let body = if stamp { Body::Stamp { time } } else { Body::Report { time } };
    let owner = if stamp || random.chance(1, 2) { own } else { random.range(1, CLIENTS) };
    (Party::Server(from), build(owner as u8, random.pick(&[1, 1, 1, 2]), body))
}

/// What a client is to do.
#[derive(Clone, Copy, Debug, PartialEq, Eq)]
pub enum ClientAct {
    Read,
    Write,
    Deliver,
}

/// A call on a client, with everything lent.
#[derive(Clone, Debug, PartialEq, Eq)]
pub struct ClientCall {
    pub p: Params,
    pub own: usize,
    pub act: ClientAct,
    pub from: Party,
    pub frame: Vec<u8>,
    pub client: Client,
    pub written: Vec<u8>,
    pub rows: Vec<u8>,
    pub value: Vec<u8>,
    pub out: Vec<u8>,
    pub to: Vec<u8>,
    /// Refusals 1 to 3, and parameters within their bounds by which the areas were made.
    pub bounds: Option<u8>,
    pub sane: Params,
}

pub fn client_call(random: &mut Random) -> ClientCall {
    let p = some_params(random);
    let own = random.pick(&[3, 3, 3, 3, 3, 3, 3, 3, 1, 8, 0, 9, 255, 259, usize::MAX]);
    let bounds = bounds(&p, own, 8);
    let sane = if bounds.is_none() { p } else { Params::new(10, 1, 1, 256) };
    let mut client = Client::fresh();
    client.operation = random.pick(&[Operation::None, Operation::Stamps, Operation::Acks, Operation::Read]);
    client.writes = random.pick(&[1, 1, 1, u32::MAX]);
    client.reads = random.pick(&[1, 1, 1, u32::MAX]);
    client.out_of_stamps = random.chance(1, 5);
    if random.chance(1, 2) {
        scramble_client(&mut client, random);
    }
    let length = if random.chance(1, 8) { some_size(sane.l, random) } else { sane.l };
    let written = vec![1; length];
    let mut rows = some_rows(some_size(ROWS_AREA, random), random);
    let out = vec![3; some_size(sane.client_room(), random)];
    let to = vec![4; some_size(2 * sane.n, random)];
    let value = vec![5; some_size(sane.l, random)];
    let act = random.pick(&[ClientAct::Read, ClientAct::Write, ClientAct::Deliver, ClientAct::Deliver]);
    let (from, frame) = if bounds.is_none() && rows.len() >= ROWS_AREA && random.chance(1, 16) {
        lay_rows(&p, own, &mut client, &mut rows, random)
    } else if bounds.is_none() && random.chance(1, 10) {
        lay_stamps(&p, own, &mut client, random)
    } else {
        (some_party(3, random), some_frame(&p, 3, random))
    };
    if random.chance(1, 4) {
        // All servers are counted but the sender: a stamp or an ack may end something.
        client.counted = std::array::from_fn(|j| from != Party::Server(j));
    }
    ClientCall { p, own, act, from, frame, client, written, rows, value, out, to, bounds, sane }
}
