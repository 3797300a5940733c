//! Every example of document 01's table of refusals, the order of the tests, and single steps, in
//! both styles.

use register::client::{Client, Outcome};
use register::flat;
use register::frame::{build, Body, Stage, Stamp};
use register::history;
use register::server::{digest_list, Server};
use register::{blocks, Params, Party, Refusal};

const P: Params = Params { n: 4, t: 1, k: 2, l: 3 };
const INITIAL: [u8; 3] = [1, 2, 3];
const GET_STAMP: [u8; 9] = [0, 7, 1, 1, 2, 0, 0, 0, 5];

/// A flat server with its areas.
struct Lent {
    server: flat::Server,
    area: Vec<u8>,
    initial: Vec<u8>,
}

fn lent(own: usize) -> Lent {
    let mut area = vec![0xaa; flat::STATE_AREA];
    let mut initial = vec![0xbb; P.block()];
    let server = flat::Server::fresh(&P, own, &INITIAL, &mut initial, &mut area).unwrap();
    Lent { server, area, initial }
}

impl Lent {
    fn deliver(
        &mut self,
        p: Params,
        own: usize,
        from: Party,
        frame: &[u8],
        room: usize,
    ) -> Result<usize, u8> {
        let mut out = vec![0; room];
        let mut to = vec![0; 2 * (9 * 10 + 136)];
        self.server
            .deliver(&p, own, &self.initial, &mut self.area, from, frame, &mut out, &mut to)
            .map(|done| done.frames)
            .map_err(Refusal::number)
    }
}

/// One delivery to server 1 in both styles, which agree on the number.
fn to_server(from: Party, frame: &[u8]) -> Result<usize, u8> {
    let mut server = Server::fresh(P, 1, &INITIAL).unwrap();
    let one =
        server.deliver(from, frame, P.server_room()).map(|step| step.sends.len()).map_err(Refusal::number);
    let two = lent(1).deliver(P, 1, from, frame, P.server_room());
    assert_eq!(one, two);
    one
}

fn with(change: impl Fn(&mut Vec<u8>)) -> Vec<u8> {
    let mut frame = GET_STAMP.to_vec();
    change(&mut frame);
    frame
}

#[test]
fn examples_of_the_table() {
    let owner = Party::Client(2);
    let room = P.server_room();
    assert_eq!(to_server(owner, &GET_STAMP), Ok(1));
    // 1 to 3: parameters and own number.
    let params = |n, t, k, l| lent(1).deliver(Params::new(n, t, k, l), 1, owner, &[], room);
    assert_eq!(params(6, 2, 1, 1), Err(1));
    assert_eq!(params(3, 0, 0, 0), Err(1));
    assert_eq!(params(11, 1, 0, 0), Err(1));
    assert_eq!(params(4, 1, 3, 1), Err(2));
    assert_eq!(params(4, 1, 0, 0), Err(2));
    assert_eq!(params(4, 1, 2, 257), Err(3));
    assert_eq!(params(4, 1, 2, 0), Err(3));
    assert_eq!(params(7, 2, 1, 1), Err(4));
    assert_eq!(params(4, 1, 2, 1), Err(4));
    assert_eq!(lent(1).deliver(P, 0, owner, &GET_STAMP, room), Err(1));
    assert_eq!(lent(1).deliver(P, 5, owner, &GET_STAMP, room), Err(1));
    assert_eq!(Client::fresh(P, 9).err(), Some(Refusal::Parties));
    assert_eq!(Client::fresh(P, 1).unwrap().begin_write(&[1, 2], 0), Err(Refusal::ValueLength));
    // 4 to 9: the opening.
    assert_eq!(to_server(owner, &[0, 7, 1]), Err(4));
    assert_eq!(to_server(owner, &[]), Err(4));
    assert_eq!(to_server(owner, &with(|f| f[1] = 8)), Err(4));
    assert_eq!(to_server(owner, &with(|f| f[2] = 2)), Err(5));
    assert_eq!(to_server(owner, &with(|f| f[3] = 0x0e)), Err(6));
    assert_eq!(to_server(owner, &with(|f| f[3] = 0x0d)), Err(8));
    assert_eq!(to_server(owner, &with(|f| f[3] = 0)), Err(6));
    // Retired kinds are 6 before 7 and 8, from anybody.
    for kind in 6..=8 {
        for change in [|_: &mut Vec<u8>| (), |f: &mut Vec<u8>| f[4] = 9, |f: &mut Vec<u8>| f[8] = 0] {
            let frame = with(|f| {
                f[3] = kind;
                change(f);
            });
            for from in [owner, Party::Client(9), Party::Server(2)] {
                assert_eq!(to_server(from, &frame), Err(6));
            }
        }
    }
    assert_eq!(to_server(owner, &with(|f| f[4] = 0)), Err(7));
    assert_eq!(to_server(owner, &with(|f| f[4] = 9)), Err(7));
    assert_eq!(to_server(owner, &with(|f| f[8] = 0)), Err(7));
    let longer = with(|f| {
        f[1] = 8;
        f.push(0);
    });
    assert_eq!(to_server(owner, &longer), Err(8));
    let value = |time, writer, sequence| {
        let stamp = Stamp { time, writer, sequence };
        build(2, 5, Body::Value { stamp, digests: &[0; 128], block: &[0; 2] })
    };
    for (time, writer, sequence) in [(3, 0, 0), (3, 0, 1), (0, 1, 1), (3, 1, 0), (3, 9, 1), (0, 0, 1)] {
        assert_eq!(to_server(owner, &value(time, writer, sequence)), Err(9));
    }
    assert_eq!(to_server(owner, &value(0, 0, 0)), Err(11));
    assert_eq!(to_server(owner, &value(3, 8, 1)), Err(11));
    // 10: room, before 11.
    assert_eq!(lent(1).deliver(P, 1, owner, &GET_STAMP, 0), Err(10));
    assert_eq!(lent(1).deliver(P, 1, owner, &GET_STAMP, room - 1), Err(10));
    assert_eq!(lent(1).deliver(P, 1, Party::Client(3), &GET_STAMP, room - 1), Err(10));
    // 11.
    assert_eq!(to_server(Party::Client(3), &GET_STAMP), Err(11));
    assert_eq!(to_server(Party::Server(2), &GET_STAMP), Err(11));
    let initial = blocks::encoded(&P, &INITIAL);
    let digests = digest_list(&initial);
    let block = |stage, j: usize| {
        build(2, 1, Body::Block { stage, time: 4, digests: &digests, block: &initial[j - 1] })
    };
    assert_eq!(to_server(owner, &block(Stage::Echo, 2)), Err(11));
    assert_eq!(to_server(Party::Server(5), &block(Stage::Echo, 2)), Err(11));
    assert_eq!(to_server(Party::Server(0), &block(Stage::Echo, 2)), Err(11));
    assert_eq!(to_server(Party::Server(2), &block(Stage::Send, 2)), Err(11));
    // 13 before 14, 14.
    let later = build(2, 2, Body::Block { stage: Stage::Send, time: 4, digests: &digests, block: &[9; 2] });
    assert_eq!(to_server(owner, &later), Err(13));
    assert_eq!(to_server(owner, &block(Stage::Send, 1)), Ok(4));
    assert_eq!(to_server(owner, &block(Stage::Send, 2)), Err(14));
    let mut changed = block(Stage::Send, 1);
    *changed.last_mut().unwrap() ^= 1;
    assert_eq!(to_server(owner, &changed), Err(14));
    assert_eq!(to_server(Party::Server(2), &block(Stage::Echo, 2)), Ok(0));
    assert_eq!(to_server(Party::Server(3), &block(Stage::Echo, 2)), Err(14));
    // 18 and 19.
    assert_eq!(history::report(b"R 6 6 0 0 0 0\n"), "refused 18\n");
    assert_eq!(history::report(b"R 1 2 7 1 1 0\n"), "refused 19\n");
}

#[test]
fn old_frames_at_a_server() {
    let room = P.server_room();
    let mut server = Server::fresh(P, 1, &INITIAL).unwrap();
    let mut deliver = |body: Body, sequence: u32| {
        let frame = build(2, sequence, body);
        server.deliver(Party::Client(2), &frame, room).map(|step| step.sends.len())
    };
    let old = Err(Refusal::Old);
    // Get-stamp is never 12.
    for _ in 0..3 {
        assert_eq!(deliver(Body::GetStamp, 5), Ok(1));
    }
    assert_eq!(deliver(Body::Read, 3), Ok(1));
    assert_eq!(deliver(Body::Read, 3), old);
    assert_eq!(deliver(Body::Read, 2), old);
    assert_eq!(deliver(Body::ReadComplete, 2), old);
    assert_eq!(deliver(Body::Read, 4), Ok(1));
    assert_eq!(deliver(Body::ReadComplete, 3), old);
    assert_eq!(deliver(Body::ReadComplete, 4), Ok(0));
    assert_eq!(deliver(Body::ReadComplete, 4), old);
    assert_eq!(deliver(Body::Read, 4), old);
    // Also before its read arrives.
    assert_eq!(deliver(Body::ReadComplete, 6), Ok(0));
    assert_eq!(deliver(Body::Read, 6), old);
    assert_eq!(deliver(Body::Read, 5), old);
    assert_eq!(deliver(Body::Read, 7), Ok(1));
    let initial = blocks::encoded(&P, &INITIAL);
    let digests = digest_list(&initial);
    let send = |time| Body::Block { stage: Stage::Send, time, digests: &digests, block: &initial[0] };
    assert_eq!(deliver(send(7), 2), Err(Refusal::Early));
    assert_eq!(deliver(send(7), 1), Ok(4));
    assert_eq!(deliver(send(8), 1), old);
}

fn deliver(client: &mut Client, server: usize, body: Body, sequence: u32) -> Result<Outcome, Refusal> {
    let frame = build(3, sequence, body);
    let step = client.deliver(Party::Server(server), &frame, &[7, 8, 9], P.client_room())?;
    Ok(step.outcome)
}

#[test]
fn a_clients_write() {
    let room = P.client_room();
    let mut client = Client::fresh(P, 3).unwrap();
    let old = Err(Refusal::Old);
    assert_eq!(client.begin_write(&[7, 8, 9], room - 1), Err(Refusal::Room));
    let step = client.begin_write(&[7, 8, 9], room).unwrap();
    assert_eq!(step.sends.len(), 4);
    assert_eq!(client.begin_read(room), Err(Refusal::Open));
    assert_eq!(client.begin_write(&[7, 8, 9], room), Err(Refusal::Open));
    let stamp = |time| Body::Stamp { time };
    assert_eq!(deliver(&mut client, 1, Body::Ack, 1), old);
    assert_eq!(deliver(&mut client, 1, stamp(4), 2), old);
    assert_eq!(deliver(&mut client, 1, stamp(4), 1), Ok(Outcome::Going));
    assert_eq!(deliver(&mut client, 1, stamp(5), 1), old);
    assert_eq!(deliver(&mut client, 5, stamp(5), 1), Err(Refusal::Sender));
    assert_eq!(deliver(&mut client, 2, Body::GetStamp, 1), Err(Refusal::Sender));
    assert_eq!(deliver(&mut client, 2, stamp(9), 1), Ok(Outcome::Going));
    let frame = build(3, 1, stamp(2));
    assert_eq!(client.deliver(Party::Server(4), &frame, &[7, 8], room), Err(Refusal::ValueLength));
    assert_eq!(client.deliver(Party::Client(4), &frame, &[7, 8, 9], room), Err(Refusal::Sender));
    // Three have replied, and t + 1 = 2 servers have reported each time but 9.
    let step = client.deliver(Party::Server(4), &frame, &[7, 8, 9], room).unwrap();
    assert!(step.sends.is_empty());
    // A report of 9 is what is missing, of anybody's write and of a server that has not replied.
    let report = |time| build(6, 3, Body::Report { time });
    for (from, frame) in [(Party::Server(5), report(9)), (Party::Client(3), report(9))] {
        assert_eq!(client.deliver(from, &frame, &[7, 8, 9], room), Err(Refusal::Sender));
    }
    for (from, time) in [(1, 4), (1, 3), (2, 9), (3, 0)] {
        assert_eq!(client.deliver(Party::Server(from), &report(time), &[7, 8, 9], room), Err(Refusal::Old));
    }
    assert!(client.deliver(Party::Server(3), &report(8), &[7, 8, 9], room).unwrap().sends.is_empty());
    assert_eq!(client.deliver(Party::Server(3), &report(9), &[7, 8], room), Err(Refusal::ValueLength));
    let step = client.deliver(Party::Server(3), &report(9), &[7, 8, 9], room).unwrap();
    let blocks = blocks::encoded(&P, &[7, 8, 9]);
    let digests = digest_list(&blocks);
    assert_eq!(step.sends.len(), 4);
    for j in 1..=4 {
        let block = Body::Block { stage: Stage::Send, time: 9, digests: &digests, block: &blocks[j - 1] };
        assert_eq!(step.sends[j - 1].to, Party::Server(j));
        assert_eq!(step.sends[j - 1].frame, build(3, 1, block));
    }
    assert_eq!(deliver(&mut client, 3, stamp(4), 1), old);
    assert_eq!(deliver(&mut client, 3, Body::Ack, 1), Ok(Outcome::Going));
    assert_eq!(deliver(&mut client, 3, Body::Ack, 1), old);
    assert_eq!(deliver(&mut client, 1, Body::Ack, 1), Ok(Outcome::Going));
    assert_eq!(deliver(&mut client, 4, Body::Ack, 1), Ok(Outcome::Written));
    assert_eq!(deliver(&mut client, 2, Body::Ack, 1), old);
}

#[test]
fn out_of_stamps_and_used_up() {
    let room = P.client_room();
    let mut client = Client::fresh(P, 3).unwrap().with_numbers(u32::MAX - 1, u32::MAX);
    assert_eq!(client.begin_read(room), Err(Refusal::UsedUp));
    assert_eq!(client.begin_write(&[7, 8, 9], room).unwrap().sends.len(), 4);
    for server in 1..=2 {
        let stamp = Body::Stamp { time: u64::MAX };
        assert_eq!(deliver(&mut client, server, stamp, u32::MAX), Ok(Outcome::Going));
    }
    let last = deliver(&mut client, 3, Body::Stamp { time: 0 }, u32::MAX);
    assert_eq!(last, Ok(Outcome::OutOfStamps));
    // Both 16 and 17 apply: the lower number is given.
    assert_eq!(client.begin_write(&[7, 8, 9], room), Err(Refusal::UsedUp));
    let mut client = Client::fresh(P, 3).unwrap();
    client.begin_write(&[7, 8, 9], room).unwrap();
    for server in 1..=3 {
        deliver(&mut client, server, Body::Stamp { time: u64::MAX }, 1).unwrap();
    }
    assert_eq!(client.begin_write(&[7, 8, 9], room), Err(Refusal::OutOfStamps));
    assert_eq!(client.begin_write(&[7, 8], room), Err(Refusal::ValueLength));
    assert_eq!(client.begin_read(room).unwrap().sends.len(), 4);
}

/// Of five stamps from one server the smallest goes; a kept stamp is not taken again.
#[test]
fn rows_keep_the_four_largest() {
    let room = P.client_room();
    let mut client = Client::fresh(P, 3).unwrap();
    client.begin_read(room).unwrap();
    let blocks = blocks::encoded(&P, &[7, 8, 9]);
    let digests = digest_list(&blocks);
    let mut value = |server: usize, time: u64| {
        let stamp = Stamp { time, writer: (time > 0) as u8, sequence: (time > 0) as u32 };
        let body = Body::Value { stamp, digests: &digests, block: &blocks[server - 1] };
        deliver(&mut client, server, body, 1)
    };
    for time in [5, 3, 9, 4] {
        assert_eq!(value(1, time), Ok(Outcome::Going));
        assert_eq!(value(1, time), Err(Refusal::Old));
    }
    assert_eq!(value(1, 2), Ok(Outcome::Going));
    assert_eq!(value(1, 2), Ok(Outcome::Going));
    assert_eq!(value(1, 6), Ok(Outcome::Going));
    // 3 has gone.
    assert_eq!(value(2, 3), Ok(Outcome::Going));
    assert_eq!(value(3, 3), Ok(Outcome::Going));
    assert_eq!(value(2, 6), Ok(Outcome::Going));
    let stamp = Stamp { time: 6, writer: 1, sequence: 1 };
    assert_eq!(value(4, 6), Ok(Outcome::Value(stamp, vec![7, 8, 9])));
    assert_eq!(value(3, 6), Err(Refusal::Old));
}

/// A write as servers echo and confirm it: its blocks with their digest list.
struct Spread {
    blocks: Vec<Vec<u8>>,
    digests: Vec<u8>,
}

fn spread(p: &Params, value: &[u8]) -> Spread {
    let blocks = blocks::encoded(p, value);
    Spread { digests: digest_list(&blocks), blocks }
}

impl Spread {
    /// Server j's frame of client 2's write.
    fn frame(&self, stage: Stage, j: usize, sequence: u32, time: u64) -> Vec<u8> {
        let body = Body::Block { stage, time, digests: &self.digests, block: &self.blocks[j - 1] };
        build(2, sequence, body)
    }
}

/// The frames of an acceptance without listeners that raises the time, at n = 4.
const ACK_AND_REPORTS: usize = 1 + 4 + 8;

/// A server in both styles, which agree on the frames sent.
struct Both {
    p: Params,
    own: usize,
    clear: Server,
    flat: flat::Server,
    area: Vec<u8>,
    initial: Vec<u8>,
}

impl Both {
    fn fresh(p: Params, own: usize) -> Both {
        let value = vec![0; p.l];
        let (mut area, mut initial) = (vec![0xaa; flat::STATE_AREA], vec![0xbb; p.block()]);
        let flat = flat::Server::fresh(&p, own, &value, &mut initial, &mut area).unwrap();
        Both { p, own, clear: Server::fresh(p, own, &value).unwrap(), flat, area, initial }
    }

    /// The frames that a frame makes the server send, or the refusal's number.
    fn deliver(&mut self, from: Party, frame: &[u8]) -> Result<Vec<(Party, Vec<u8>)>, u8> {
        let (room, p) = (self.p.server_room(), self.p);
        let (mut out, mut to) = (vec![0; room], vec![0; 2 * p.server_frames()]);
        let (initial, area) = (&self.initial, &mut self.area);
        let flat = self.flat.deliver(&p, self.own, initial, area, from, frame, &mut out, &mut to);
        let clear = self.clear.deliver(from, frame, room).map_err(Refusal::number);
        let sends = clear.map(|step| step.sends.into_iter().map(|s| (s.to, s.frame)).collect::<Vec<_>>());
        assert_eq!(flat.map(|done| done.frames).map_err(Refusal::number), sends.clone().map(|s| s.len()));
        let bytes: Vec<u8> = sends.iter().flatten().flat_map(|(_, frame)| frame.clone()).collect();
        assert_eq!(out[..bytes.len()], bytes);
        sends
    }

    /// Servers 3 and 4 report a time: t + 1 where t is 1.
    fn vouch(&mut self, time: u64) {
        for j in 3..=4 {
            assert_eq!(self.from(j, &build(5, 1, Body::Report { time })), 0);
        }
    }

    /// How many frames server j's frame makes the server send.
    fn from(&mut self, j: usize, frame: &[u8]) -> usize {
        self.deliver(Party::Server(j), frame).unwrap().len()
    }

    /// The open sequence of client 2's slot, and the time if its write is complete.
    fn slot(&self) -> (u64, Option<u64>) {
        let (clear, flat) = (&self.clear.slots[1], &self.flat.slots[2]);
        let complete = clear.complete.as_ref().map(|c| c.time);
        assert_eq!((clear.open, complete), (flat.open, flat.complete.then_some(flat.time)));
        (clear.open, complete)
    }
}

/// A completed time of 2^64 − 1 is never accepted, and the server goes on counting; one less is, with the largest stamp.
#[test]
fn largest_times() {
    for (time, accepted) in [(u64::MAX - 1, true), (u64::MAX, false)] {
        let mut server = Both::fresh(P, 1);
        let write = spread(&P, &[7, 8, 9]);
        server.vouch(time);
        for (j, sent) in [(2, 0), (3, 4), (4, accepted as usize * ACK_AND_REPORTS)] {
            assert_eq!(server.from(j, &write.frame(Stage::Ready, j, 1, time)), sent);
        }
        assert_eq!(server.clear.stamp.time, if accepted { u64::MAX } else { 0 });
        assert_eq!(server.slot(), if accepted { (2, None) } else { (1, Some(u64::MAX)) });
        if accepted {
            continue;
        }
        // Echoes, readies and the kind 3 of that sequence still count, of any group; completion stands.
        let other = spread(&P, &[1, 1, 1]);
        for j in 1..=4 {
            assert_eq!(server.from(j, &other.frame(Stage::Echo, j, 1, 5)), 0);
        }
        assert_eq!(server.from(1, &other.frame(Stage::Ready, 1, 1, 5)), 0);
        assert_eq!(server.from(2, &build(2, 1, Body::Report { time })), 0);
        assert_eq!(server.deliver(Party::Client(2), &other.frame(Stage::Send, 1, 1, 5)).unwrap().len(), 4);
        assert_eq!(server.deliver(Party::Client(2), &other.frame(Stage::Send, 1, 1, 5)), Err(12));
        assert_eq!(server.deliver(Party::Server(1), &write.frame(Stage::Ready, 1, 1, time)), Err(12));
        assert_eq!(server.deliver(Party::Client(2), &other.frame(Stage::Send, 1, 2, 5)), Err(13));
        assert_eq!(server.slot(), (1, Some(u64::MAX)));
    }
}

/// A group is frames of equal time and digest list.
#[test]
fn groups() {
    let (write, other) = (spread(&P, &[7, 8, 9]), spread(&P, &[7, 8, 1]));
    for stage in [Stage::Echo, Stage::Ready] {
        // Equal lists, other times.
        let mut server = Both::fresh(P, 1);
        for j in 1..=4 {
            assert_eq!(server.from(j, &write.frame(stage, j, 1, j as u64)), 0);
        }
        // Equal times, other lists: two servers each, which makes a group of readies and none of echoes.
        let mut server = Both::fresh(P, 1);
        let sent: Vec<usize> = (1..=4)
            .map(|j| server.from(j, &if j % 2 == 1 { &write } else { &other }.frame(stage, j, 1, 5)))
            .collect();
        assert_eq!(sent, if stage == Stage::Echo { [0, 0, 0, 0] } else { [0, 0, 4, 0] });
        // Both equal: a ready at n - t echoes or q readies, acceptance at q + t readies.
        let mut server = Both::fresh(P, 1);
        server.vouch(5);
        let sent: Vec<usize> = (1..=3).map(|j| server.from(j, &write.frame(stage, j, 1, 5))).collect();
        assert_eq!(sent, if stage == Stage::Echo { [0, 0, 4] } else { [0, 4, ACK_AND_REPORTS] });
    }
}

/// An echo and a ready of one server in different groups both count.
#[test]
fn echo_and_ready_in_two_groups() {
    let (write, other) = (spread(&P, &[7, 8, 9]), spread(&P, &[7, 8, 1]));
    let mut server = Both::fresh(P, 1);
    server.vouch(6);
    for j in 2..=3 {
        assert_eq!(server.from(j, &other.frame(Stage::Ready, j, 1, 6)), if j == 3 { 4 } else { 0 });
    }
    // The echoes of the first group are kept beside: with all of them the comparison is made, but the ready is out.
    for j in 2..=4 {
        assert_eq!(server.from(j, &write.frame(Stage::Echo, j, 1, 5)), 0);
    }
    assert_eq!(server.slot(), (1, None));
    assert_eq!(server.from(4, &other.frame(Stage::Ready, 4, 1, 6)), ACK_AND_REPORTS);
    assert_eq!(server.clear.stamp, Stamp { time: 7, writer: 2, sequence: 1 });
    // The other way round: echoes of one group send the ready, readies of the other complete it.
    let mut server = Both::fresh(P, 1);
    server.vouch(6);
    let sent: Vec<usize> = (2..=4).map(|j| server.from(j, &write.frame(Stage::Echo, j, 1, 5))).collect();
    assert_eq!(sent, [0, 0, 4]);
    let sent: Vec<usize> = (2..=4).map(|j| server.from(j, &other.frame(Stage::Ready, j, 1, 6))).collect();
    assert_eq!(sent, [0, 0, ACK_AND_REPORTS]);
    assert_eq!(server.clear.present.digests, other.digests);
    assert_eq!(server.clear.stamp.time, 7);
}

/// The accepted time is the group's, not that of the kind 3 that came.
#[test]
fn time_of_the_group() {
    let write = spread(&P, &[7, 8, 9]);
    let mut server = Both::fresh(P, 1);
    server.vouch(5);
    let echo = server.deliver(Party::Client(2), &write.frame(Stage::Send, 1, 1, 9)).unwrap();
    assert_eq!(echo[0].1, write.frame(Stage::Echo, 1, 1, 9));
    for j in 2..=4 {
        server.from(j, &write.frame(Stage::Ready, j, 1, 5));
    }
    assert_eq!(server.clear.stamp, Stamp { time: 6, writer: 2, sequence: 1 });
}

/// Completion needs q + t readies of the group: more than 2t + 1 where k is large.
#[test]
fn completion_at_q_and_t() {
    // n = 10, t = 1, k = 8: q = 8, so 9 readies, where 2t + 1 = 3.
    let p = Params::new(10, 1, 8, 20);
    let write = spread(&p, &[5; 20]);
    let mut server = Both::fresh(p, 10);
    let sent: Vec<usize> = (1..=9).map(|j| server.from(j, &write.frame(Stage::Ready, j, 1, 0))).collect();
    assert_eq!(sent, [0, 0, 0, 0, 0, 0, 0, 10, 1 + 10 + 8]);
    assert_eq!(server.slot(), (2, None));
}

/// After the last sequence was accepted none is open.
#[test]
fn last_sequence() {
    let mut server = Both::fresh(P, 1);
    (server.clear.slots[1].open, server.flat.slots[2].open) = (u32::MAX as u64, u32::MAX as u64);
    let write = spread(&P, &[7, 8, 9]);
    for j in 2..=4 {
        server.from(j, &write.frame(Stage::Ready, j, u32::MAX, 0));
    }
    assert_eq!(server.slot(), (flat::NONE_OPEN, None));
    for stage in [Stage::Echo, Stage::Ready] {
        let frame = write.frame(stage, 2, u32::MAX, 0);
        assert_eq!(server.deliver(Party::Server(2), &frame), Err(12));
    }
    assert_eq!(server.deliver(Party::Client(2), &write.frame(Stage::Send, 1, u32::MAX, 0)), Err(12));
}

/// The reports of a server whose time grew to `time` by a client's write, with their receivers.
fn reports(p: &Params, client: u8, sequence: u32, time: u64) -> Vec<(Party, Vec<u8>)> {
    let frame = build(client, sequence, Body::Report { time });
    let receivers = (1..=p.n).map(Party::Server).chain((1..=8).map(Party::Client));
    receivers.map(|to| (to, frame.clone())).collect()
}

/// The order of the frames of an acceptance: values by rising client, the ack, reports to servers and then to clients.
#[test]
fn frames_of_an_acceptance() {
    // n = 7, t = 2, k = 3: completion needs q + t = 5 readies, the own ready goes at 3.
    let p = Params::new(7, 2, 3, 5);
    let mut server = Both::fresh(p, 4);
    for reader in [8, 1, 5] {
        server.deliver(Party::Client(reader as usize), &build(reader, 1, Body::Read)).unwrap();
    }
    server.deliver(Party::Client(5), &build(5, 1, Body::ReadComplete)).unwrap();
    let write = spread(&p, &[1, 2, 3, 4, 5]);
    let sent: Vec<usize> = (1..=4).map(|j| server.from(j, &write.frame(Stage::Ready, j, 1, 0))).collect();
    assert_eq!(sent, [0, 0, 7, 0]);
    let stamp = Stamp { time: 1, writer: 2, sequence: 1 };
    let value = Body::Value { stamp, digests: &write.digests, block: &write.blocks[3] };
    let mut expected = vec![
        (Party::Client(1), build(1, 1, value)),
        (Party::Client(8), build(8, 1, value)),
        (Party::Client(2), build(2, 1, Body::Ack)),
    ];
    expected.extend(reports(&p, 2, 1, 1));
    assert_eq!(server.deliver(Party::Server(5), &write.frame(Stage::Ready, 5, 1, 0)), Ok(expected));
    assert_eq!((server.clear.stamp, server.slot().0), (stamp, 2));
}

/// A complete write waits until t + 1 servers have reported its time, and not for less.
#[test]
fn a_write_waits_for_reports() {
    let p = Params::new(7, 2, 3, 5);
    let write = spread(&p, &[1, 2, 3, 4, 5]);
    let mut server = Both::fresh(p, 4);
    let report = |time| build(6, 9, Body::Report { time });
    for j in 1..=5 {
        server.from(j, &write.frame(Stage::Ready, j, 1, 3));
    }
    assert_eq!(server.slot(), (1, Some(3)));
    // Not from a client, not of nobody; a time 0, an equal and a lower one are old.
    for from in [Party::Client(6), Party::Client(1), Party::Server(0), Party::Server(8)] {
        assert_eq!(server.deliver(from, &report(3)), Err(11));
    }
    assert_eq!(server.deliver(Party::Server(1), &report(0)), Err(12));
    // Reports below the time do not count, a server counts once, and the server itself only by its own report.
    for (j, time) in [(1, 2), (2, 2), (3, 2), (5, 2), (1, 3), (1, 9), (6, u64::MAX)] {
        assert_eq!(server.from(j, &report(time)), 0);
    }
    for (j, time) in [(1, 9), (1, 8), (1, 3), (6, 3), (2, 2)] {
        assert_eq!(server.deliver(Party::Server(j), &report(time)), Err(12));
    }
    assert_eq!(server.slot(), (1, Some(3)));
    // A later sequence is too early while this one waits; its own frames still count.
    assert_eq!(server.deliver(Party::Client(2), &write.frame(Stage::Send, 4, 2, 3)), Err(13));
    assert_eq!(server.deliver(Party::Client(2), &write.frame(Stage::Send, 4, 1, 3)).unwrap().len(), 7);
    let mut expected = vec![(Party::Client(2), build(2, 1, Body::Ack))];
    expected.extend(reports(&p, 2, 1, 4));
    assert_eq!(server.deliver(Party::Server(4), &report(3)), Ok(expected));
    assert_eq!((server.clear.stamp.time, server.slot()), (4, (2, None)));
}

/// What a report frees is accepted from the lowest client on, and from there again: the write of a lower client that a higher one's frees
/// is accepted before the writes of still higher ones.
#[test]
fn the_scan_begins_anew() {
    let mut server = Both::fresh(P, 1);
    let frame = |client, j: usize, time| {
        let write = spread(&P, &[client, 8, 9]);
        let body =
            Body::Block { stage: Stage::Ready, time, digests: &write.digests, block: &write.blocks[j - 1] };
        build(client, 1, body)
    };
    // Incoming times; client 8's is vouched by nobody.
    for (client, time) in [(1, 4), (3, 3), (5, 3), (8, 9)] {
        for j in 2..=4 {
            server.from(j, &frame(client, j, time));
        }
    }
    let report = build(6, 9, Body::Report { time: 3 });
    assert_eq!(server.from(2, &report), 0);
    let mut expected = vec![(Party::Client(3), build(3, 1, Body::Ack))];
    expected.extend(reports(&P, 3, 1, 4));
    expected.push((Party::Client(1), build(1, 1, Body::Ack)));
    expected.extend(reports(&P, 1, 1, 5));
    // The time does not grow by client 5's write: no report.
    expected.push((Party::Client(5), build(5, 1, Body::Ack)));
    assert_eq!(server.deliver(Party::Server(3), &report), Ok(expected));
    assert_eq!(server.clear.stamp, Stamp { time: 5, writer: 1, sequence: 1 });
    // Of equal times the stamp of the higher client is larger, and nothing is reported.
    for j in 2..=4 {
        server.from(j, &frame(7, j, 4));
    }
    assert_eq!(server.clear.stamp, Stamp { time: 5, writer: 7, sequence: 1 });
    assert_eq!(server.clear.slots[7].complete.as_ref().map(|said| said.time), Some(9));
}
