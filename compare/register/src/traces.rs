//! Random traces: frames of writes and reads that a server may have been handed, others between them, and damage.

use crate::any::{some_frame, some_params, some_party, some_size};
use crate::blocks::encoded;
use crate::flat::STATE_AREA;
use crate::frame::{build, Body, Stage};
use crate::layout::SERVER;
use crate::params::{Params, Party, CLIENTS};
use crate::playback::{entries, need, play_lent, write_entry, Areas, Kept};
use crate::random::Random;
use crate::server::digest_list;

type Handed = (Party, Vec<u8>);

/// The frames of a write to server `own` in any order: kind 3, and the echoes and readies of most servers.
fn some_write(p: &Params, own: usize, client: u8, sequence: u32, random: &mut Random) -> Vec<Handed> {
    let blocks = encoded(p, &random.bytes(p.l));
    let digests = digest_list(&blocks);
    let time = random.pick(&[0, 1, 5, u64::MAX - 1, u64::MAX]);
    let frame = |stage, j: usize| {
        build(client, sequence, Body::Block { stage, time, digests: &digests, block: &blocks[j - 1] })
    };
    let mut frames = vec![(Party::Client(client as usize), frame(Stage::Send, own))];
    for j in 1..=p.n {
        for stage in [Stage::Echo, Stage::Ready] {
            if random.chance(7, 8) {
                frames.push((Party::Server(j), frame(stage, j)));
            }
        }
    }
    for i in (1..frames.len()).rev() {
        frames.swap(i, random.below(i + 1));
    }
    frames
}

/// Frames that a server is handed, at most about four writes.
fn some_handed(p: &Params, own: usize, random: &mut Random) -> Vec<Handed> {
    let mut handed: Vec<Handed> = Vec::new();
    let mut sequences = [1u32; CLIENTS + 1];
    for _ in 0..random.range(0, 8) {
        let client = random.range(1, 3);
        let number = random.pick(&[1, 1, 2, 3]);
        let from = Party::Client(client);
        match random.below(9) {
            0..=2 => {
                handed.extend(some_write(p, own, client as u8, sequences[client], random));
                sequences[client] += 1;
            }
            3 => handed.push((from, build(client as u8, number, Body::GetStamp))),
            4 => handed.push((from, build(client as u8, number, Body::Read))),
            5 => handed.push((from, build(client as u8, number, Body::ReadComplete))),
            6 => handed.push((some_party(client, random), some_frame(p, client, random))),
            7 => {
                // Most servers report a time: it may free writes that wait.
                let time = random.pick(&[0, 1, 2, 5, 6, u64::MAX - 1, u64::MAX]);
                for j in (1..=p.n).filter(|_| random.chance(2, 3)) {
                    handed.push((Party::Server(j), build(client as u8, number, Body::Report { time })));
                }
            }
            _ if !handed.is_empty() => handed.push(handed[random.below(handed.len())].clone()),
            _ => {}
        }
    }
    handed
}

/// Damages a trace: cut, a byte changed, or bytes behind it.
fn damage(trace: &mut Vec<u8>, random: &mut Random) {
    match random.below(4) {
        0 if !trace.is_empty() => trace.truncate(random.below(trace.len())),
        1 if !trace.is_empty() => {
            let at = random.below(trace.len());
            trace[at] = random.pick(&[0, 1, 2, 3, 4, 255]);
        }
        2 => {
            // Behind the last entry, a head that is no whole entry's.
            let head = [
                random.pick(&[0, 0, 255]),
                random.pick(&[0, 2, 3, 4, 255]),
                random.pick(&[0, 1, 1, 2]),
                random.pick(&[0, 1, 2]),
                random.byte(),
            ];
            trace.extend(&head[..random.range(1, 5)]);
        }
        _ => {
            // The head of an entry, changed.
            let ends = entries(trace).0.iter().map(|entry| 5 + entry.frame.len()).collect::<Vec<_>>();
            if !ends.is_empty() {
                let at = ends[..random.below(ends.len())].iter().sum::<usize>() + random.below(5);
                trace[at] = random.pick(&[0, 1, 2, 255]);
            }
        }
    }
}

/// A trace of server `own`, in two of five cases damaged, or in one of twelve of any bytes.
pub fn some_trace(p: &Params, own: usize, random: &mut Random) -> Vec<u8> {
    if random.chance(1, 12) {
        let length = random.below(40);
        return (0..length).map(|_| random.pick(&[0, 0, 0, 1, 1, 2, 3, 4, 5, 255])).collect();
    }
    let handed = some_handed(p, own, random);
    let mut trace: Vec<u8> = handed.iter().flat_map(|(from, frame)| write_entry(*from, frame)).collect();
    if random.chance(2, 5) {
        damage(&mut trace, random);
    }
    trace
}

/// A playback with everything lent.
#[derive(Clone, Debug, PartialEq, Eq)]
pub struct PlaybackCall {
    pub p: Params,
    pub own: usize,
    pub value: Vec<u8>,
    pub trace: Vec<u8>,
    pub lent: Areas,
}

pub fn playback_call(random: &mut Random) -> PlaybackCall {
    let p = some_params(random);
    let within = p.check_server(1).is_ok();
    let sane = if within { p } else { Params::new(10, 1, 1, 256) };
    let own = match random.below(12) {
        0 => random.pick(&[0, 10, 11, 255, 257, 260, usize::MAX]),
        _ => random.range(1, sane.n),
    };
    let trace = some_trace(&sane, own.clamp(1, sane.n), random);
    let length = if random.chance(1, 20) { some_size(sane.l, random) } else { sane.l };
    let most = need(&sane) * entries(&trace).0.len();
    let room = match random.below(12) {
        0 => most.saturating_sub(1),
        1 => random.below(most + 1),
        2 => most + random.below(need(&sane)),
        _ => most,
    };
    let lent = Areas {
        state: vec![0xee; some_size(SERVER, random)],
        area: vec![0xdd; some_size(STATE_AREA, random)],
        initial: vec![0xcc; some_size(sane.block(), random)],
        out: (0..room).map(|i| i as u8 ^ 0xbb).collect(),
    };
    PlaybackCall { p, own, value: random.bytes(length), trace, lent }
}

/// A resumption with everything lent: the record is what the first entries of a trace leave, or in one of four cases any bytes; `trace` is the rest.
#[derive(Clone, Debug, PartialEq, Eq)]
pub struct ResumeCall {
    pub p: Params,
    pub own: usize,
    pub initial: Vec<u8>,
    pub trace: Vec<u8>,
    pub kept: Kept,
}

/// Splits a trace after some of its entries.
fn split(mut trace: Vec<u8>, random: &mut Random) -> (Vec<u8>, Vec<u8>) {
    let lengths: Vec<usize> = entries(&trace).0.iter().map(|entry| 5 + entry.frame.len()).collect();
    let first = random.below(lengths.len() + 1);
    let rest = trace.split_off(lengths[..first].iter().sum());
    (trace, rest)
}

pub fn resume_call(random: &mut Random) -> ResumeCall {
    let PlaybackCall { p, own, trace, .. } = playback_call(random);
    let sane = if p.check_server(1).is_ok() { p } else { Params::new(10, 1, 1, 256) };
    let (first, trace) = split(trace, random);
    let mut made = Areas {
        state: random.bytes(SERVER),
        area: random.bytes(STATE_AREA),
        initial: vec![0xcc; sane.block()],
        out: vec![0; need(&sane) * entries(&first).0.len()],
    };
    if random.chance(3, 4) {
        let value = random.bytes(sane.l);
        play_lent(&sane, own.clamp(1, sane.n), &value, &first, &mut made)
            .expect("areas that are long enough");
    }
    made.state.resize(some_size(SERVER, random), 0xdd);
    made.area.resize(some_size(STATE_AREA, random), 0xdd);
    made.initial.resize(some_size(sane.block(), random), 0xdd);
    let out = (0..some_size(sane.server_room(), random)).map(|i| i as u8 ^ 0xbb).collect();
    let to = vec![0xaa; some_size(2 * sane.server_frames(), random)];
    let kept = Kept { state: made.state, area: made.area, out, to };
    ResumeCall { p, own, initial: made.initial, trace, kept }
}
