//! The same server and client on fixed arrays and lent areas, without allocation: the plain
//! Rust side of comparisons byte by byte and of benchmarks.
//!
//! An area of dispersed values is cut in chunks of 576 bytes: digest list at 0, block at 320. In
//! the state area chunk 0 is the present value; for client c chunk 21c − 20 is the complete
//! write, 21c − 20 + j the echo and 21c − 10 + j the ready of server j. In the rows area chunk
//! 4(j − 1) + i is place i of server j's row. Chunks that are not in use keep their bytes.
//! The out area gets frames end to end, the to area two bytes a frame: class (0 client, 1
//! server) and number of the receiver.

mod client;
mod server;

pub use client::{Client, Operation};
pub use server::{Reader, Server, Slot};

use crate::client::KEPT;
use crate::frame::{write, Frame, Stamp};
use crate::params::{Params, CLIENTS, MAX_SERVERS};
use std::ops::RangeInclusive;

pub const CHUNK: usize = 576;
pub const BLOCK_AT: usize = 320;
pub const STATE_AREA: usize = 169 * CHUNK;
pub const ROWS_AREA: usize = MAX_SERVERS * KEPT * CHUNK;

/// No sequence is open.
pub const NONE_OPEN: u64 = 1 << 32;

pub const SEATS: usize = MAX_SERVERS + 1;
pub const DESKS: usize = CLIENTS + 1;

pub fn complete_chunk(client: usize) -> usize {
    21 * client - 20
}

pub fn echo_chunk(client: usize, server: usize) -> usize {
    21 * client - 20 + server
}

pub fn ready_chunk(client: usize, server: usize) -> usize {
    21 * client - 10 + server
}

pub fn row_chunk(server: usize, place: usize) -> usize {
    KEPT * (server - 1) + place
}

pub fn list_in<'a>(p: &Params, area: &'a [u8], chunk: usize) -> &'a [u8] {
    &area[chunk * CHUNK..chunk * CHUNK + p.list()]
}

pub fn block_in<'a>(p: &Params, area: &'a [u8], chunk: usize) -> &'a [u8] {
    let start = chunk * CHUNK + BLOCK_AT;
    &area[start..start + p.block()]
}

pub fn store(area: &mut [u8], chunk: usize, digests: &[u8], block: &[u8]) {
    let start = chunk * CHUNK;
    area[start..start + digests.len()].copy_from_slice(digests);
    area[start + BLOCK_AT..start + BLOCK_AT + block.len()].copy_from_slice(block);
}

/// What a call did: frames sent, bytes of the out area used.
#[derive(Clone, Copy, Debug, PartialEq, Eq)]
pub struct Done {
    pub frames: usize,
    pub bytes: usize,
    pub outcome: Outcome,
}

#[derive(Clone, Copy, Debug, PartialEq, Eq)]
pub enum Outcome {
    Going,
    /// A server accepted writes of these clients; place c is client c's.
    Accepted([bool; DESKS]),
    /// A read ended; its value is in the value area.
    Value(Stamp),
    /// A read ended, since the blocks found disagree.
    Disagreement,
    Written,
    OutOfStamps,
}

/// t + 1 of servers 1 to n have reported this time or more.
fn vouched(p: &Params, reports: &[u64; SEATS], time: u64) -> bool {
    reports[1..=p.n].iter().filter(|&&report| report >= time).count() > p.t
}

/// Frames written so far.
struct Out<'a> {
    out: &'a mut [u8],
    to: &'a mut [u8],
    bytes: usize,
    frames: usize,
}

impl Out<'_> {
    fn send(&mut self, class: u8, number: usize, frame: &Frame) {
        self.bytes += write(frame, &mut self.out[self.bytes..]);
        self.to[2 * self.frames] = class;
        self.to[2 * self.frames + 1] = number as u8;
        self.frames += 1;
    }

    fn send_client(&mut self, frame: &Frame) {
        self.send(0, frame.client as usize, frame);
    }

    /// One frame to servers 1 to n: written once and copied.
    fn send_servers(&mut self, n: usize, frame: &Frame) {
        let start = self.bytes;
        self.send(1, 1, frame);
        self.copies(start, 1, 2..=n);
    }

    /// The last frame, which begins at `start`, to further receivers of a class.
    fn copies(&mut self, start: usize, class: u8, numbers: RangeInclusive<usize>) {
        let length = self.bytes - start;
        for number in numbers {
            self.out.copy_within(start..start + length, self.bytes);
            self.bytes += length;
            self.to[2 * self.frames] = class;
            self.to[2 * self.frames + 1] = number as u8;
            self.frames += 1;
        }
    }

    /// A report to servers 1 to n and then to all clients.
    fn send_report(&mut self, n: usize, frame: &Frame) {
        let mut start = self.bytes;
        self.send(1, 1, frame);
        self.copies(start, 1, 2..=n);
        start = self.bytes;
        self.send(0, 1, frame);
        self.copies(start, 0, 2..=CLIENTS);
    }
}
