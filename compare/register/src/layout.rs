//! The records of `flat` as bytes of a fixed layout, as the static library's hosts lend them. Numbers are big-endian, a flag is one
//! byte, a stamp is time (8), writer (1) and sequence (4).
//!
//! A server: its stamp, 9 slots, 9 readers, 11 reports (8 each). A slot: the open sequence (8); the flags sent, ready, complete; the time of the complete
//! write (8); 11 flags of echoes and 11 of readies; the times of both (11 of 8 each). A reader: the newest sequence (4), listening, the
//! noted stamp.
//!
//! A client: writes and reads (4 each), out of stamps, the open operation (0 none, 1 awaits stamps, 2 awaits acks, 3 read), 11 flags
//! of servers counted, their 11 times, 11 rows, each a count (8) and 4 stamps, and 11 reports (8 each).
//!
//! A client's scope in a server's record is the stamp, that client's slot and its reader. A server's step changes one report, or the scope of the
//! client that its frame names; and the stamp and the slots of the clients whose writes it accepts.

use crate::client::KEPT;
use crate::flat::{Client, Operation, Outcome, Reader, Server, Slot, DESKS, SEATS};
use crate::frame::{client_named, Stamp, KIND_AT, REPORT};
use crate::params::Party;

pub const SERVER: usize = report_at(SEATS);
pub const CLIENT: usize = 857;
pub const STAMP: usize = 13;
const SLOT: usize = 8 + 3 + 8 + 2 * SEATS + 2 * 8 * SEATS;
const READER: usize = 4 + 1 + STAMP;
/// Where a slot has the flag of its complete write, whose time is behind it.
const COMPLETE_AT: usize = 8 + 2;

/// Where a client's slot begins in a server's record: behind the stamp.
const fn slot_at(client: usize) -> usize {
    STAMP + SLOT * client
}

/// Where a client's reader begins: behind all slots.
const fn reader_at(client: usize) -> usize {
    slot_at(DESKS) + READER * client
}

/// Where a server's report begins: behind all readers.
const fn report_at(server: usize) -> usize {
    reader_at(DESKS) + 8 * server
}

/// What is still to be read.
struct Source<'a>(&'a [u8]);

impl Source<'_> {
    fn take<const N: usize>(&mut self) -> [u8; N] {
        let (first, rest) = self.0.split_first_chunk().expect("a whole record");
        self.0 = rest;
        *first
    }

    fn flag(&mut self) -> bool {
        self.take::<1>()[0] != 0
    }

    fn four(&mut self) -> u32 {
        u32::from_be_bytes(self.take())
    }

    fn eight(&mut self) -> u64 {
        u64::from_be_bytes(self.take())
    }

    fn flags(&mut self) -> [bool; SEATS] {
        self.take::<SEATS>().map(|byte| byte != 0)
    }

    fn times(&mut self) -> [u64; SEATS] {
        std::array::from_fn(|_| self.eight())
    }

    fn stamp(&mut self) -> Stamp {
        Stamp { time: self.eight(), writer: self.take::<1>()[0], sequence: self.four() }
    }

    fn slot(&mut self) -> Slot {
        Slot {
            open: self.eight(),
            sent: self.flag(),
            ready: self.flag(),
            complete: self.flag(),
            time: self.eight(),
            echoes: self.flags(),
            readies: self.flags(),
            echo_times: self.times(),
            ready_times: self.times(),
        }
    }

    fn readers(&mut self) -> [Reader; DESKS] {
        std::array::from_fn(|_| Reader { newest: self.four(), listening: self.flag(), noted: self.stamp() })
    }
}

/// What is still to be written.
struct Target<'a>(&'a mut [u8]);

impl Target<'_> {
    fn put<const N: usize>(&mut self, bytes: [u8; N]) {
        let (first, rest) = std::mem::take(&mut self.0).split_first_chunk_mut().expect("room for a record");
        *first = bytes;
        self.0 = rest;
    }

    fn flag(&mut self, flag: bool) {
        self.put([flag as u8]);
    }

    fn flags(&mut self, flags: &[bool; SEATS]) {
        self.put(flags.map(|flag| flag as u8));
    }

    fn times(&mut self, times: &[u64; SEATS]) {
        times.iter().for_each(|time| self.put(time.to_be_bytes()));
    }

    fn stamp(&mut self, stamp: &Stamp) {
        self.put(stamp.time.to_be_bytes());
        self.put([stamp.writer]);
        self.put(stamp.sequence.to_be_bytes());
    }

    fn slot(&mut self, slot: &Slot) {
        self.put(slot.open.to_be_bytes());
        self.put([slot.sent as u8, slot.ready as u8, slot.complete as u8]);
        self.put(slot.time.to_be_bytes());
        self.flags(&slot.echoes);
        self.flags(&slot.readies);
        self.times(&slot.echo_times);
        self.times(&slot.ready_times);
    }

    fn reader(&mut self, reader: &Reader) {
        self.put(reader.newest.to_be_bytes());
        self.flag(reader.listening);
        self.stamp(&reader.noted);
    }
}

/// The server that the first bytes say.
pub fn server_in(bytes: &[u8]) -> Server {
    let mut source = Source(bytes);
    Server {
        stamp: source.stamp(),
        slots: std::array::from_fn::<Slot, DESKS, _>(|_| source.slot()),
        readers: source.readers(),
        reports: source.times(),
    }
}

/// All zeros, as a constant: its copy is quicker than the same slots made one by one.
const EMPTY: Server = {
    let stamp = Stamp { time: 0, writer: 0, sequence: 0 };
    let reader = Reader { newest: 0, listening: false, noted: stamp };
    Server { stamp, slots: [Slot::fresh(0); DESKS], readers: [reader; DESKS], reports: [0; SEATS] }
};

/// What a step for a client (0 to 8) needs of the server that the first bytes say; one that may accept writes (kinds 4, 5 and 13) also the reports,
/// and of the other slots which write is complete.
pub fn scope_in(bytes: &[u8], client: usize, accepts: bool) -> Server {
    let mut server = EMPTY;
    server.stamp = Source(bytes).stamp();
    server.slots[client] = Source(&bytes[slot_at(client)..]).slot();
    server.readers = Source(&bytes[reader_at(0)..]).readers();
    if accepts {
        put_waiting(&mut server, bytes, client);
    }
    server
}

/// Reads the reports, and the complete writes of the other clients.
fn put_waiting(server: &mut Server, bytes: &[u8], client: usize) {
    for (c, slot) in server.slots.iter_mut().enumerate().filter(|(c, _)| *c != client) {
        let at = &bytes[slot_at(c)..slot_at(c + 1)];
        if at[COMPLETE_AT] != 0 {
            let (open, time) = (Source(at).eight(), Source(&at[COMPLETE_AT + 1..]).eight());
            *slot = Slot { complete: true, time, ..Slot::fresh(open) };
        }
    }
    server.reports = Source(&bytes[report_at(0)..]).times();
}

/// Writes a server to the first bytes.
pub fn put_server(server: &Server, bytes: &mut [u8]) {
    let mut target = Target(bytes);
    target.stamp(&server.stamp);
    server.slots.iter().for_each(|slot| target.slot(slot));
    server.readers.iter().for_each(|reader| target.reader(reader));
    target.times(&server.reports);
}

/// Writes a server's stamp and a client's slot. Other bytes stay.
fn put_slot(server: &Server, client: usize, bytes: &mut [u8]) {
    Target(bytes).stamp(&server.stamp);
    Target(&mut bytes[slot_at(client)..]).slot(&server.slots[client]);
}

/// Writes a client's scope of a server: its stamp, and the client's slot and reader. Other bytes stay.
fn put_scope(server: &Server, client: usize, bytes: &mut [u8]) {
    put_slot(server, client, bytes);
    Target(&mut bytes[reader_at(client)..]).reader(&server.readers[client]);
}

/// Writes what a step may have changed of a server: one report, if the frame is a report, or else the scope of the client that it names;
/// and the stamp and the slots of the clients whose writes it accepted. Other bytes stay.
pub fn put_step(server: &Server, from: Party, frame: &[u8], outcome: Outcome, bytes: &mut [u8]) {
    match from {
        Party::Server(j) if frame[KIND_AT] == REPORT => {
            Target(&mut bytes[report_at(j)..]).put(server.reports[j].to_be_bytes());
        }
        _ => put_scope(server, client_named(frame), bytes),
    }
    if let Outcome::Accepted(clients) = outcome {
        (0..DESKS).filter(|&c| clients[c]).for_each(|c| put_slot(server, c, bytes));
    }
}

/// The client that the first bytes say; an unknown operation is none.
pub fn client_in(bytes: &[u8]) -> Client {
    let mut source = Source(bytes);
    let (writes, reads, out_of_stamps) = (source.four(), source.four(), source.flag());
    let operation = match source.take::<1>()[0] {
        1 => Operation::Stamps,
        2 => Operation::Acks,
        3 => Operation::Read,
        _ => Operation::None,
    };
    let (counted, times) = (source.flags(), source.times());
    let (mut kept, mut stamps) = ([0; SEATS], [[Stamp::default(); KEPT]; SEATS]);
    for (count, row) in kept.iter_mut().zip(&mut stamps) {
        *count = source.eight();
        *row = std::array::from_fn(|_| source.stamp());
    }
    let reports = source.times();
    Client { operation, writes, reads, out_of_stamps, counted, times, kept, stamps, reports }
}

/// Writes a stamp to the first bytes.
pub fn put_stamp(stamp: &Stamp, bytes: &mut [u8]) {
    Target(bytes).stamp(stamp);
}

/// The stamp that the first bytes say.
pub fn stamp_in(bytes: &[u8]) -> Stamp {
    Source(bytes).stamp()
}

/// Writes a client to the first bytes.
pub fn put_client(client: &Client, bytes: &mut [u8]) {
    let mut target = Target(bytes);
    target.put(client.writes.to_be_bytes());
    target.put(client.reads.to_be_bytes());
    target.flag(client.out_of_stamps);
    let operation = match client.operation {
        Operation::None => 0,
        Operation::Stamps => 1,
        Operation::Acks => 2,
        Operation::Read => 3,
    };
    target.put([operation]);
    target.flags(&client.counted);
    target.times(&client.times);
    for (count, row) in client.kept.iter().zip(&client.stamps) {
        target.put(count.to_be_bytes());
        row.iter().for_each(|stamp| target.stamp(stamp));
    }
    target.times(&client.reports);
}

#[cfg(test)]
mod tests {
    use super::*;
    use crate::random::Random;

    /// The sizes that docs/PROTOCOL.md names.
    #[test]
    fn sizes() {
        assert_eq!((SLOT, READER, SERVER), (217, 18, 2216));
    }

    /// Bytes that a record wrote are read back to it and written again, and a record's bytes fill its size.
    #[test]
    fn written_and_read() {
        let mut random = Random::new(1);
        for _ in 0..100 {
            let mut bytes: Vec<u8> = (0..SERVER).map(|_| random.below(2) as u8).collect();
            let server = server_in(&bytes);
            let given = bytes.clone();
            bytes.fill(9);
            put_server(&server, &mut bytes);
            assert_eq!(bytes, given);
            let mut bytes = random.bytes(CLIENT);
            let client = client_in(&bytes);
            bytes.fill(9);
            put_client(&client, &mut bytes);
            assert_eq!(client_in(&bytes), client);
            assert!(bytes[CLIENT - 52..] != [9; 52]);
        }
    }

    /// Of any bytes a scope is what the whole record has there, and is written as that; all other bytes stay.
    #[test]
    fn scopes() {
        let mut random = Random::new(2);
        for client in (0..DESKS).cycle().take(100) {
            let given = random.bytes(SERVER);
            let (whole, scope) = (server_in(&given), scope_in(&given, client, true));
            assert_eq!(scope.stamp, whole.stamp);
            assert_eq!(scope.slots[client], whole.slots[client]);
            assert_eq!((scope.readers, scope.reports), (whole.readers, whole.reports));
            for (a, b) in scope.slots.iter().zip(&whole.slots).filter(|(_, whole)| whole.complete) {
                assert_eq!((a.open, a.complete, a.time), (b.open, b.complete, b.time));
            }
            let (mut canonical, mut bytes) = (vec![0; SERVER], given.clone());
            put_server(&whole, &mut canonical);
            put_scope(&scope, client, &mut bytes);
            let (slot, reader) = (13 + 217 * client, 1966 + 18 * client);
            for i in 0..SERVER {
                let own = i < 13 || (slot..slot + 217).contains(&i) || (reader..reader + 18).contains(&i);
                assert_eq!(bytes[i], if own { canonical[i] } else { given[i] }, "client {client}, byte {i}");
            }
        }
    }
}
