//! The rows of the benchmark, for any side.

use crate::lean;
use crate::side::{Handed, Plain, Side};
use crate::system::{fresh, Host, System, CLIENT};
use register::accession::{self, INDEX, VALUES};
use register::blocks::encoded;
use register::flat::{Outcome, Server};
use register::frame::{build, Body};
use register::random::Random;
use register::{Params, Party};
use std::hint::black_box;
use std::time::{Duration, Instant};

pub struct Row {
    pub name: String,
    /// Does the thing so many times and gives the time of that.
    pub work: Box<dyn FnMut(u64) -> Duration>,
}

fn row(name: String, mut once: impl FnMut() + 'static) -> Row {
    let work = move |times| {
        let begun = Instant::now();
        (0..times).for_each(|_| once());
        begun.elapsed()
    };
    Row { name, work: Box::new(work) }
}

fn name(what: &str, p: &Params) -> String {
    format!("{what}, n = {}, t = {}, k = {}, L = {}", p.n, p.t, p.k, p.l)
}

pub fn digest<S: Side>(length: usize) -> Row {
    let message = Random::new(length as u64).bytes(length);
    let mut out = [0; 32];
    row(format!("digest of {length} bytes"), move || {
        S::digest(black_box(&message), &mut out);
        black_box(&out);
    })
}

pub fn encode<S: Side>(p: Params) -> Row {
    let value = Random::new(1).bytes(p.l);
    let mut out = vec![0; p.n * p.block()];
    row(name("encode", &p), move || {
        S::encode(black_box(&p), black_box(&value), &mut out);
        black_box(&out);
    })
}

/// Decoding from the last m blocks, by the decoder of a side.
fn decode_by(p: Params, m: usize, decode: fn(&Params, &[u8], &[u8], &mut [u8])) -> Row {
    let value = Random::new(1).bytes(p.l);
    let parts = encoded(&p, &value)[p.n - m..].concat();
    let numbers: Vec<u8> = (p.n - m + 1..=p.n).map(|j| j as u8).collect();
    let mut out = vec![0; p.l];
    decode(&p, &numbers, &parts, &mut out);
    assert_eq!(out, value);
    row(name(&format!("decode of {m} blocks"), &p), move || {
        decode(black_box(&p), black_box(&numbers), black_box(&parts), &mut out);
        black_box(&out);
    })
}

/// Of as few blocks as there may be, or of all n.
pub fn decode<S: Side>((p, all): (Params, bool)) -> Row {
    decode_by(p, if all { p.n } else { p.k }, S::decode)
}

pub fn least_decode((p, all): (Params, bool)) -> Row {
    decode_by(p, if all { p.n } else { p.k }, lean::decode)
}

/// So many numbers, and the index of as many values of them as are named.
fn index_of(numbers: usize, values: usize) -> (Vec<u64>, Vec<u8>) {
    let mut random = Random::new(4);
    let numbers: Vec<u64> = (0..numbers).map(|_| random.word()).collect();
    let mut index = vec![0; INDEX];
    for number in &numbers[..values] {
        accession::insert(&number.to_be_bytes(), &mut index).expect("room");
    }
    (numbers, index)
}

/// So many numbers in turn that the processor does not learn which way each search goes.
const NUMBERS: usize = 8192;

/// Searches of the numbers of 64 values, in any order, or of numbers that none of them has.
pub fn search<S: Side>(present: bool) -> Row {
    let (numbers, index) = index_of(VALUES + NUMBERS, VALUES);
    let mut random = Random::new(5);
    let wanted: Vec<u64> = if present {
        (0..NUMBERS).map(|_| numbers[random.below(VALUES)]).collect()
    } else {
        numbers[VALUES..].to_vec()
    };
    let mut turn = 0;
    row(format!("search among 64 values, {}", if present { "found" } else { "none" }), move || {
        turn = (turn + 1) % wanted.len();
        black_box(S::search(black_box(wanted[turn]), black_box(&index)));
    })
}

/// The insertion of the 64th value: indexes of 63 are put back before each turn, outside the measured time.
pub fn insert<S: Side>(_: ()) -> Row {
    let (numbers, index) = index_of(VALUES + NUMBERS, VALUES - 1);
    let values: Vec<[u8; 8]> = numbers[VALUES..].iter().map(|number| number.to_be_bytes()).collect();
    let mut indexes = vec![index.clone(); TURN];
    let mut turn = 0;
    let work = move |times: u64| {
        let mut spent = Duration::ZERO;
        for _ in 0..times.div_ceil(TURN as u64) {
            indexes.iter_mut().for_each(|other| other.copy_from_slice(&index));
            black_box(&indexes);
            let begun = Instant::now();
            for other in &mut indexes {
                turn = (turn + 1) % values.len();
                black_box(S::insert(black_box(&values[turn]), other));
            }
            spent += begun.elapsed();
        }
        spent.mul_f64(times as f64 / (times.div_ceil(TURN as u64) * TURN as u64) as f64)
    };
    Row { name: "insertion of the 64th value".to_string(), work: Box::new(work) }
}

/// 64 insertions into an empty index, of other values each time.
pub fn fill<S: Side>(_: ()) -> Row {
    let (numbers, mut index) = index_of(NUMBERS, 0);
    let values: Vec<[u8; 8]> = numbers.iter().map(|number| number.to_be_bytes()).collect();
    let mut turn = 0;
    row("64 insertions".to_string(), move || {
        index[0] = 0;
        turn = (turn + 1) % (NUMBERS / VALUES);
        values[turn * VALUES..][..VALUES].iter().for_each(|value| {
            black_box(S::insert(black_box(value), &mut index));
        });
    })
}

pub fn whole_write<S: Side>(p: Params) -> Row {
    let mut random = Random::new(2);
    let mut system = System::<S>::new(p, &random.bytes(p.l));
    let value = random.bytes(p.l);
    row(name("whole write", &p), move || system.write(&value, |_, _, _, _| ()))
}

pub fn whole_read<S: Side>(p: Params) -> Row {
    let mut random = Random::new(2);
    let mut system = System::<S>::new(p, &random.bytes(p.l));
    let value = random.bytes(p.l);
    system.write(&value, |_, _, _, _| ());
    row(name("whole read", &p), move || assert_eq!(system.read(|_, _, _, _| ()), &value[..]))
}

/// How many frames are handed in for a whole write, or for a whole read, and their bytes.
pub fn counted<S: Side>(p: Params, write: bool) -> (usize, usize) {
    let mut system = System::<S>::new(p, &vec![0; p.l]);
    let (mut frames, mut bytes) = (0, 0);
    let count = |_: &System<S>, _, _, frame: &[u8]| {
        frames += 1;
        bytes += frame.len();
    };
    if write {
        system.write(&vec![1; p.l], count);
    } else {
        system.read(count);
    }
    (frames, bytes)
}

/// Server 1 before a delivery, as plain Rust has it.
struct Moment {
    what: &'static str,
    host: Host<Server>,
    from: Party,
    frame: Vec<u8>,
}

/// What a frame does to server 1, in words.
fn what(p: &Params, host: &Host<Server>, from: Party, frame: &[u8]) -> Option<&'static str> {
    let (mut out, mut to) = (vec![0; p.server_room()], vec![0; 2 * p.server_frames()]);
    let (mut server, mut area) = (host.server, host.area.clone());
    let done = server.deliver(p, 1, &host.initial, &mut area, from, frame, &mut out, &mut to).ok()?;
    Some(match (frame[3], done.frames > 0) {
        (1, _) => "kind 1",
        (3, _) => "kind 3, echo sent",
        (4, false) => "kind 4, kept",
        (4, true) => "kind 4, ready sent",
        (13, _) => "kind 13, kept",
        _ if matches!(done.outcome, Outcome::Accepted(_)) => "kind 5, accepted",
        (_, false) => "kind 5, kept",
        (_, true) => "kind 5, ready sent",
    })
}

/// Server 1 before each kind of step of a write, at the last frame of its kind and at those that make it send or accept.
fn moments(p: Params) -> Vec<Moment> {
    let mut random = Random::new(3);
    let mut system = System::<Plain>::new(p, &random.bytes(p.l));
    let value = random.bytes(p.l);
    let mut moments: Vec<Moment> = Vec::new();
    system.write(&value, |system, from, receiver, frame| {
        let host = &system.hosts[0];
        let Some(what) = (receiver == Party::Server(1)).then(|| what(&p, host, from, frame)).flatten() else {
            return;
        };
        let host = Host { server: host.server, area: host.area.clone(), initial: host.initial.clone() };
        moments.retain(|moment| moment.what != what);
        moments.push(Moment { what, host, from, frame: frame.to_vec() });
    });
    let mut direct = |what, frame: Vec<u8>| {
        let host = fresh(&p, 1, &value);
        moments.push(Moment { what, host, from: Party::Client(CLIENT), frame });
    };
    direct("kind 10", build(CLIENT as u8, 1, Body::Read));
    direct("kind 12", build(CLIENT as u8, 1, Body::ReadComplete));
    direct("refused, kind 14", vec![0, 7, 1, 14, 1, 0, 0, 0, 1]);
    moments.sort_by_key(|moment| moment.frame[3]);
    moments
}

/// Records are put back before each turn of so many deliveries, outside the measured time. What a delivery leaves in the state area
/// stays: it means nothing to the record that is put back.
const TURN: usize = 16;

pub fn server_steps<S: Side>(p: Params) -> Vec<Row> {
    let step = |mut m: Moment| {
        let (mut out, mut to) = (vec![0; p.server_room()], vec![0; 2 * p.server_frames()]);
        let record = S::server(&m.host.server);
        let mut servers = vec![record; TURN];
        let name = name(m.what, &p);
        let work = move |times: u64| {
            let mut spent = Duration::ZERO;
            for _ in 0..times.div_ceil(TURN as u64) {
                servers.fill(record);
                black_box(&servers);
                let begun = Instant::now();
                for server in &mut servers {
                    let frame = black_box(&m.frame[..]);
                    let handed =
                        Handed { p: black_box(&p), own: 1, from: m.from, frame, out: &mut out, to: &mut to };
                    black_box(S::to_server(server, handed, &m.host.initial, &mut m.host.area));
                }
                spent += begun.elapsed();
            }
            spent.mul_f64(times as f64 / (times.div_ceil(TURN as u64) * TURN as u64) as f64)
        };
        Row { name, work: Box::new(work) }
    };
    moments(p).into_iter().map(step).collect()
}
