//! Single calls with anything in them, against the second implementation on lent areas.

use crate::calls::{raw::VERSION, Sender};
use crate::{bits, calls, pattern, same_answer, same_bytes, Difference, Seen};
use register::any::{bounds, client_call, server_call, ClientAct, ClientCall};
use register::flat::{self, Done, Operation, Outcome, STATE_AREA};
use register::frame::open;
use register::layout::{
    client_in, put_client, put_server, put_stamp, put_step, server_in, CLIENT, SERVER, STAMP,
};
use register::random::Random;
use register::{Party, Refusal};
use std::sync::LazyLock;

/// How long the record's area is: sometimes short, sometimes longer.
fn record_length(size: usize, random: &mut Random) -> usize {
    match random.below(20) {
        0 => random.below(size),
        1 => size - 1,
        _ => size + random.below(3),
    }
}

/// The record's bytes in an area of that length.
fn record_bytes(size: usize, length: usize, put: impl FnOnce(&mut [u8])) -> Vec<u8> {
    let mut bytes = vec![0; size];
    put(&mut bytes);
    bytes.resize(length, 0xdd);
    bytes
}

/// Where the flags of a record lie: the bytes of which 1 and 2 say the same.
fn flags_of<R: PartialEq>(size: usize, read: impl Fn(&[u8]) -> R) -> Vec<usize> {
    let with = |i: usize, byte| {
        let mut bytes = vec![0; size];
        bytes[i] = byte;
        read(&bytes)
    };
    (0..size).filter(|&i| with(i, 1) == with(i, 2)).collect()
}

static SERVER_FLAGS: LazyLock<Vec<usize>> = LazyLock::new(|| flags_of(SERVER, server_in));
static CLIENT_FLAGS: LazyLock<Vec<usize>> = LazyLock::new(|| flags_of(CLIENT, client_in));

/// Where a client's record has its open operation, and its rows, each with a count first.
const OPERATION: usize = 9;
const ROWS: usize = 109;
const ROW: usize = 60;

/// Makes a set flag any byte but 0.
fn loosen(flags: &[usize], bytes: &mut [u8], random: &mut Random) {
    for &i in flags {
        if bytes[i] != 0 {
            bytes[i] = random.range(1, 255) as u8;
        }
    }
}

/// Writes a server, in half of the cases in no canonical form.
fn put_loose_server(server: &flat::Server, bytes: &mut [u8], random: &mut Random) {
    put_server(server, bytes);
    if random.chance(1, 2) {
        loosen(&SERVER_FLAGS, bytes, random);
    }
}

/// Writes a client, in half of the cases in no canonical form: flags as any byte, no operation as a byte above 3, and four places
/// of a row as a larger number. What is then read is the client, but for those numbers.
fn put_loose_client(client: &mut flat::Client, bytes: &mut [u8], random: &mut Random) {
    put_client(client, bytes);
    if random.chance(1, 2) {
        loosen(&CLIENT_FLAGS, bytes, random);
        if client.operation == Operation::None && random.chance(1, 2) {
            bytes[OPERATION] = random.range(4, 255) as u8;
        }
        for j in 0..client.kept.len() {
            if client.kept[j] == 4 && random.chance(1, 4) {
                client.kept[j] = random.word().max(5);
                bytes[ROWS + ROW * j..][..8].copy_from_slice(&client.kept[j].to_be_bytes());
            }
        }
    }
    assert!(client_in(bytes) == *client, "a client in loose form");
}

/// A sender as the host names it, and as the rules see it: one in ten has a class that is no party's.
fn some_sender(from: Party, random: &mut Random) -> (Sender, Party) {
    if random.chance(9, 10) {
        return (from.into(), from);
    }
    let class = random.pick(&[2, 3, 255, 256, 257, 1 << 32, usize::MAX]);
    (Sender { class, ..from.into() }, Party::Client(usize::MAX))
}

/// How long the area of a stamp is: sometimes short.
fn stamp_length(random: &mut Random) -> usize {
    match random.below(30) {
        0 => random.below(STAMP),
        _ => STAMP + random.below(3),
    }
}

pub fn server(seed: u64) -> Result<Seen, Difference> {
    let mut random = Random::new(seed);
    let mut c = server_call(&mut random);
    let (sender, from) = some_sender(c.from, &mut random);
    c.from = from;
    let mut d = c.clone();
    let length = record_length(SERVER, &mut random);
    let mut state = record_bytes(SERVER, length, |bytes| put_loose_server(&c.server, bytes, &mut random));
    let mut expected_state = state.clone();
    let expected = if length < SERVER {
        c.bounds.unwrap_or_else(|| open(&c.p, &c.frame).err().map_or(10, Refusal::number)) as u64
    } else {
        let answer =
            c.server.deliver(&c.p, c.own, &c.initial, &mut c.area, c.from, &c.frame, &mut c.out, &mut c.to);
        if let Ok(done) = answer {
            put_step(&c.server, c.from, &c.frame, done.outcome, &mut expected_state);
        }
        bits(answer)
    };
    let me = d.own;
    let answer = calls::server_deliver(
        &d.p,
        me,
        sender,
        &d.frame,
        &mut d.area,
        &d.initial,
        &mut state,
        &mut d.out,
        &mut d.to,
    );
    let at = |difference| format!("{:?}, server {me}: {difference}", d.p);
    same_answer(answer, expected).map_err(at)?;
    same_bytes("state", &state, &expected_state).map_err(at)?;
    same_bytes("area", &d.area, &c.area).map_err(at)?;
    same_bytes("out", &d.out, &c.out).map_err(at)?;
    same_bytes("to", &d.to, &c.to).map_err(at)?;
    Ok(Seen::of(answer))
}

/// A fresh server, with a value of any length.
pub fn fresh(seed: u64) -> Result<Seen, Difference> {
    let mut random = Random::new(seed);
    let c = server_call(&mut random);
    let length = record_length(SERVER, &mut random);
    let right = if bounds(&c.p, 1, 1).is_none() { c.p.l } else { 4 };
    let size = if random.chance(1, 10) { right + 1 } else { right };
    let value = random.bytes(size);
    let (mut area, mut initial, mut state) = (c.area.clone(), c.initial.clone(), vec![0xdd; length]);
    let (mut expected_area, mut expected_initial, mut expected_state) =
        (area.clone(), initial.clone(), state.clone());
    let made = flat::Server::fresh(&c.p, c.own, &value, &mut expected_initial, &mut expected_area);
    let expected = match made {
        Ok(_) if length < SERVER => {
            (expected_area, expected_initial) = (area.clone(), initial.clone());
            10
        }
        Ok(server) => {
            put_server(&server, &mut expected_state);
            0
        }
        Err(refusal) => refusal.number() as u64,
    };
    let me = c.own;
    let answer = calls::server_fresh(&c.p, me, &value, &mut area, &mut initial, &mut state);
    let at = |difference| format!("{:?}, server {me}: {difference}", c.p);
    same_answer(answer, expected).map_err(at)?;
    same_bytes("state", &state, &expected_state).map_err(at)?;
    same_bytes("area", &area, &expected_area).map_err(at)?;
    same_bytes("initial", &initial, &expected_initial).map_err(at)?;
    Ok(Seen::of(answer))
}

/// The answer where the record's area is short, or that of a stamp: the lowest number up to 10 that the rest shows. Only a record
/// tells whether a write is open, whose value has a right length.
fn short_client(c: &ClientCall, record: bool) -> u64 {
    let writing = record && matches!(c.client.operation, Operation::Stamps | Operation::Acks);
    let lower = match c.act {
        ClientAct::Read => None,
        ClientAct::Write => (c.written.len() != c.p.l).then_some(3),
        ClientAct::Deliver if writing && c.written.len() != c.p.l => Some(3),
        ClientAct::Deliver if c.bounds.is_none() => open(&c.p, &c.frame).err().map(Refusal::number),
        ClientAct::Deliver => None,
    };
    c.bounds.or(lower).unwrap_or(10) as u64
}

fn plain_client(c: &mut ClientCall) -> Result<flat::Done, Refusal> {
    match c.act {
        ClientAct::Read => c.client.begin_read(&c.p, c.own, &mut c.out, &mut c.to),
        ClientAct::Write => c.client.begin_write(&c.p, c.own, &c.written, &mut c.out, &mut c.to),
        ClientAct::Deliver => c.client.deliver(
            &c.p,
            c.own,
            &c.written,
            &mut c.rows,
            c.from,
            &c.frame,
            &mut c.out,
            &mut c.to,
            &mut c.value,
        ),
    }
}

pub fn client(seed: u64) -> Result<Seen, Difference> {
    let mut random = Random::new(seed);
    let mut c = client_call(&mut random);
    let (sender, from) = some_sender(c.from, &mut random);
    c.from = from;
    let mut d = c.clone();
    let length = record_length(CLIENT, &mut random);
    let mut state = record_bytes(CLIENT, length, |bytes| put_loose_client(&mut c.client, bytes, &mut random));
    let mut expected_state = state.clone();
    let room = stamp_length(&mut random);
    let (mut stamp, mut expected_stamp) = (pattern(room, seed), pattern(room, seed));
    let me = d.own;
    let answer = match d.act {
        ClientAct::Read => calls::begin_read(&d.p, me, &mut state, &mut d.out, &mut d.to),
        ClientAct::Write => calls::begin_write(&d.p, me, &mut state, &d.written, &mut d.out, &mut d.to),
        ClientAct::Deliver => calls::client_deliver(
            &d.p,
            me,
            sender,
            &d.written,
            &d.frame,
            &mut d.rows,
            &mut d.value,
            &mut stamp,
            &mut state,
            &mut d.out,
            &mut d.to,
        ),
    };
    let expected = if length < CLIENT {
        short_client(&c, false)
    } else if c.act == ClientAct::Deliver && room < STAMP {
        short_client(&c, true)
    } else {
        let result = plain_client(&mut c);
        if result.is_ok() {
            put_client(&c.client, &mut expected_state);
        }
        if let Ok(Done { outcome: Outcome::Value(x), .. }) = &result {
            put_stamp(x, &mut expected_stamp);
        }
        bits(result)
    };
    let at = |difference| format!("{:?}, client {me}, {:?}: {difference}", d.p, d.act);
    same_answer(answer, expected).map_err(at)?;
    same_bytes("state", &state, &expected_state).map_err(at)?;
    same_bytes("rows", &d.rows, &c.rows).map_err(at)?;
    same_bytes("result", &d.value, &c.value).map_err(at)?;
    same_bytes("stamp", &stamp, &expected_stamp).map_err(at)?;
    same_bytes("out", &d.out, &c.out).map_err(at)?;
    same_bytes("to", &d.to, &c.to).map_err(at)?;
    Ok(Seen::of(answer))
}

/// What a host may ask of a record, of any bytes: what is open at a client, or which stamp a server holds and on which write of a
/// client it works.
pub fn asked(seed: u64) -> Result<Seen, Difference> {
    let mut random = Random::new(seed);
    let size = random.pick(&[CLIENT, SERVER, SERVER]);
    let length = record_length(size, &mut random);
    let mut state = random.bytes(length);
    if let Some(operation) = state.get_mut(OPERATION) {
        *operation = random.pick(&[0, 1, 2, 3, *operation]);
    }
    let (short, given) = (length < size, state.clone());
    let mut seen = Seen::default();
    let mut compare = |answer, expected| {
        seen = seen.and(Seen::of(answer));
        same_answer(answer, expected)
    };
    if size == CLIENT {
        let expected = if short { 10 } else { open_bits(&client_in(&state)) };
        compare(calls::client_open(&state), expected)?;
    } else {
        let room = stamp_length(&mut random);
        let (mut stamp, mut expected_stamp) = (pattern(room, seed), pattern(room, seed));
        if !short && room >= STAMP {
            put_stamp(&server_in(&state).stamp, &mut expected_stamp);
        }
        compare(calls::server_stamp(&state, &mut stamp), if short || room < STAMP { 10 } else { 0 })?;
        same_bytes("stamp", &stamp, &expected_stamp)?;
        let client = random.pick(&[0, 1, 2, 3, 4, 5, 6, 7, 8, 9, 255, 257, usize::MAX]);
        let expected = match client {
            1..=8 if short => 10,
            1..=8 => server_in(&state).slots[client].open << 16,
            _ => 7,
        };
        compare(calls::server_open(client, &state), expected)?;
    }
    same_bytes("state", &state, &given)?;
    compare(calls::version().wrapping_sub(VERSION), 0)?;
    Ok(seen)
}

/// A server's present block, of any record and areas.
pub fn block(seed: u64) -> Result<Seen, Difference> {
    let mut random = Random::new(seed);
    let c = server_call(&mut random);
    let length = record_length(SERVER, &mut random);
    let state = record_bytes(SERVER, length, |bytes| put_loose_server(&c.server, bytes, &mut random));
    let within = bounds(&c.p, 1, 1);
    let size = if within.is_none() { c.p.block() } else { 4 };
    let room = if random.chance(1, 20) { random.below(size) } else { size + random.below(3) };
    let (mut block, mut expected_block) = (pattern(room, seed), pattern(room, seed));
    let short = length < SERVER || c.area.len() < STATE_AREA || c.initial.len() < size || room < size;
    let expected = match within {
        Some(number) => number as u64,
        None if short => 10,
        None => {
            expected_block[..size].copy_from_slice(c.server.present(&c.p, &c.initial, &c.area));
            0
        }
    };
    let answer = calls::server_block(&c.p, &c.area, &c.initial, &state, &mut block);
    let at = |difference| format!("{:?}: {difference}", c.p);
    same_answer(answer, expected).map_err(at)?;
    same_bytes("block", &block, &expected_block).map_err(at)?;
    Ok(Seen::of(answer))
}

/// What is open at a client, in the bits of include/semduoli.h.
fn open_bits(client: &flat::Client) -> u64 {
    let (open, sequence) = match client.operation {
        Operation::None => (0, 0),
        Operation::Stamps => (1, client.writes),
        Operation::Acks => (2, client.writes),
        Operation::Read => (3, client.reads),
    };
    open << 8 | (sequence as u64) << 16
}
