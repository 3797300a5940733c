// A host in Rust: the same calls as host.c. include/semduoli.rs declares them; each wrapper passes a slice as its pointer and length.
use std::collections::VecDeque;

#[path = "../include/semduoli.rs"]
mod raw;

#[link(name = "semduoli", kind = "static")]
extern "C" {}

mod semduoli {
    use crate::raw;
    pub use crate::raw::{AREA, CLIENT, DIGEST, ENTRY_HEAD, HAS_TIME, INDEX, LINES, ORDERED, PAGE, RECEIVER, REFUSED_AHEAD, REPLY_HEAD, ROWS, SENT};
    pub use crate::raw::{SERVER, STAMP, TIME, TRACE_WHOLE, VALUE, VERSION, WRITTEN};

    pub struct Params {
        pub n: usize,
        pub t: usize,
        pub k: usize,
        pub size: usize,
    }

    impl Params {
        pub fn block(&self) -> usize {
            self.size.div_ceil(self.k)
        }

        pub fn frame(&self) -> usize {
            22 + DIGEST * self.n + self.block()
        }

        // The frames of a server's step at most.
        pub fn server_frames(&self) -> usize {
            9 * self.n + 136
        }

        // How many bytes the out area needs to play back this many entries.
        pub fn playback_out(&self, entries: usize) -> usize {
            entries * (REPLY_HEAD + self.server_frames() * (self.frame() + RECEIVER))
        }
    }

    // A party: its class, and its number.
    #[derive(Clone, Copy)]
    pub struct Party(pub usize, pub usize);

    pub const CLASS_CLIENT: usize = raw::CLASS_CLIENT as usize;
    pub const CLASS_SERVER: usize = raw::CLASS_SERVER as usize;

    // The length of a frame, by the two bytes that it begins with.
    pub fn frame_length(frame: &[u8]) -> usize {
        2 + 256 * frame[0] as usize + frame[1] as usize
    }

    // The parts of a stamp: time, writer and sequence.
    pub fn stamp_parts(stamp: &[u8; STAMP]) -> (u64, u8, u64) {
        let number = |bytes: &[u8]| bytes.iter().fold(0, |sum, byte| sum << 8 | u64::from(*byte));
        (number(&stamp[..TIME]), stamp[TIME], number(&stamp[TIME + 1..]))
    }

    // The parts of an answer: a refusal's number or 0, what happened, and how many.
    pub struct Answer(pub u64);

    impl Answer {
        pub fn refusal(&self) -> u8 {
            self.0 as u8
        }

        pub fn outcome(&self) -> u8 {
            (self.0 >> 8) as u8
        }

        pub fn count(&self) -> usize {
            (self.0 >> 16 & 0xffff) as usize
        }

        pub fn sequence(&self) -> u64 {
            self.0 >> 16
        }

        // The entries that were played back.
        pub fn entries(&self) -> u64 {
            self.0 >> 24
        }

        // The kind of a frame, the client that it names, and its sequence.
        pub fn header(&self) -> (u8, u64, u64) {
            (self.outcome(), self.0 >> 16 & 0xff, self.0 >> 24 & 0xffffffff)
        }

        // An entry that was read: its sender, and the bytes of the whole entry.
        pub fn entry_read(&self) -> (Party, usize) {
            (Party((self.0 >> 16 & 0xff) as usize, (self.0 >> 24 & 0xff) as usize), (self.0 >> 32) as usize)
        }

        // The bytes of an entry that was written.
        pub fn entry_written(&self) -> usize {
            (self.0 >> 16) as usize
        }

        // The lines of an offending pair: that of the operation that precedes, and that of the other.
        pub fn pair(&self) -> (u64, u64) {
            (self.0 >> 16 & 0xff, self.0 >> 24 & 0xff)
        }
    }

    pub fn digest(m: &[u8], out: &mut [u8]) -> Answer {
        Answer(unsafe { raw::semduoli_digest(m.as_ptr(), m.len(), out.as_mut_ptr(), out.len()) })
    }

    pub fn encode(g: &Params, v: &[u8], out: &mut [u8]) -> Answer {
        Answer(unsafe { raw::semduoli_encode(g.n, g.t, g.k, g.size, v.as_ptr(), v.len(), out.as_mut_ptr(), out.len()) })
    }

    pub fn decode(g: &Params, js: &[u8], bs: &[u8], out: &mut [u8]) -> Answer {
        Answer(unsafe { raw::semduoli_decode(g.n, g.t, g.k, g.size, js.as_ptr(), js.len(), bs.as_ptr(), bs.len(), out.as_mut_ptr(), out.len()) })
    }

    pub fn judge(text: &[u8], lines: &mut [u8]) -> Answer {
        Answer(unsafe { raw::semduoli_judge(text.as_ptr(), text.len(), lines.as_mut_ptr(), lines.len()) })
    }

    pub fn sheet(text: &[u8], out: &mut [u8]) -> Answer {
        Answer(unsafe { raw::semduoli_sheet(text.as_ptr(), text.len(), out.as_mut_ptr(), out.len()) })
    }

    pub fn index_fresh(index: &mut [u8]) -> Answer {
        Answer(unsafe { raw::semduoli_index_fresh(index.as_mut_ptr(), index.len()) })
    }

    pub fn index_insert(v: &[u8], index: &mut [u8]) -> Answer {
        Answer(unsafe { raw::semduoli_index_insert(v.as_ptr(), v.len(), index.as_mut_ptr(), index.len()) })
    }

    pub fn index_search(number: u64, index: &[u8]) -> Answer {
        Answer(unsafe { raw::semduoli_index_search(number, index.as_ptr(), index.len()) })
    }

    pub fn server_fresh(g: &Params, me: usize, v: &[u8], area: &mut [u8], initial: &mut [u8], state: &mut [u8]) -> Answer {
        Answer(unsafe {
            raw::semduoli_server_fresh(
                g.n, g.t, g.k, g.size, me, v.as_ptr(), v.len(), area.as_mut_ptr(), area.len(), initial.as_mut_ptr(), initial.len(), state.as_mut_ptr(),
                state.len(),
            )
        })
    }

    #[allow(clippy::too_many_arguments)]
    pub fn server_deliver(
        g: &Params, me: usize, from: Party, f: &[u8], area: &mut [u8], initial: &[u8], state: &mut [u8], out: &mut [u8], to: &mut [u8],
    ) -> Answer {
        Answer(unsafe {
            raw::semduoli_server_deliver(
                g.n, g.t, g.k, g.size, me, from.0, from.1, f.as_ptr(), f.len(), area.as_mut_ptr(), area.len(), initial.as_ptr(),
                initial.len(), state.as_mut_ptr(), state.len(), out.as_mut_ptr(), out.len(), to.as_mut_ptr(), to.len(),
            )
        })
    }

    #[allow(clippy::too_many_arguments)]
    pub fn playback(
        g: &Params, me: usize, v: &[u8], trace: &[u8], area: &mut [u8], initial: &mut [u8], state: &mut [u8], out: &mut [u8],
    ) -> Answer {
        Answer(unsafe {
            raw::semduoli_playback(
                g.n, g.t, g.k, g.size, me, v.as_ptr(), v.len(), trace.as_ptr(), trace.len(), area.as_mut_ptr(), area.len(),
                initial.as_mut_ptr(), initial.len(), state.as_mut_ptr(), state.len(), out.as_mut_ptr(), out.len(),
            )
        })
    }

    #[allow(clippy::too_many_arguments)]
    pub fn server_resume(
        g: &Params, me: usize, trace: &[u8], area: &mut [u8], initial: &[u8], state: &mut [u8], out: &mut [u8], to: &mut [u8],
    ) -> Answer {
        Answer(unsafe {
            raw::semduoli_server_resume(
                g.n, g.t, g.k, g.size, me, trace.as_ptr(), trace.len(), area.as_mut_ptr(), area.len(), initial.as_ptr(), initial.len(),
                state.as_mut_ptr(), state.len(), out.as_mut_ptr(), out.len(), to.as_mut_ptr(), to.len(),
            )
        })
    }

    pub fn version() -> u64 {
        unsafe { raw::semduoli_version() }
    }

    pub fn server_stamp(state: &[u8], stamp: &mut [u8]) -> Answer {
        Answer(unsafe { raw::semduoli_server_stamp(state.as_ptr(), state.len(), stamp.as_mut_ptr(), stamp.len()) })
    }

    pub fn server_open(client: usize, state: &[u8]) -> Answer {
        Answer(unsafe { raw::semduoli_server_open(client, state.as_ptr(), state.len()) })
    }

    pub fn frame_header(g: &Params, f: &[u8]) -> Answer {
        Answer(unsafe { raw::semduoli_frame_header(g.n, g.t, g.k, g.size, f.as_ptr(), f.len()) })
    }

    pub fn frame_time(g: &Params, f: &[u8], time: &mut [u8]) -> Answer {
        Answer(unsafe { raw::semduoli_frame_time(g.n, g.t, g.k, g.size, f.as_ptr(), f.len(), time.as_mut_ptr(), time.len()) })
    }

    pub fn entry_write(from: Party, f: &[u8], out: &mut [u8]) -> Answer {
        Answer(unsafe { raw::semduoli_entry_write(from.0, from.1, f.as_ptr(), f.len(), out.as_mut_ptr(), out.len()) })
    }

    pub fn entry_read(trace: &[u8]) -> Answer {
        Answer(unsafe { raw::semduoli_entry_read(trace.as_ptr(), trace.len()) })
    }

    pub fn server_block(g: &Params, area: &[u8], initial: &[u8], state: &[u8], block: &mut [u8]) -> Answer {
        Answer(unsafe {
            raw::semduoli_server_block(
                g.n, g.t, g.k, g.size, area.as_ptr(), area.len(), initial.as_ptr(), initial.len(), state.as_ptr(), state.len(), block.as_mut_ptr(),
                block.len(),
            )
        })
    }

    pub fn client_open(state: &[u8]) -> Answer {
        Answer(unsafe { raw::semduoli_client_open(state.as_ptr(), state.len()) })
    }

    pub fn client_fresh(state: &mut [u8]) -> Answer {
        Answer(unsafe { raw::semduoli_client_fresh(state.as_mut_ptr(), state.len()) })
    }

    pub fn begin_read(g: &Params, me: usize, state: &mut [u8], out: &mut [u8], to: &mut [u8]) -> Answer {
        Answer(unsafe {
            raw::semduoli_begin_read(
                g.n, g.t, g.k, g.size, me, state.as_mut_ptr(), state.len(), out.as_mut_ptr(), out.len(), to.as_mut_ptr(), to.len(),
            )
        })
    }

    pub fn begin_write(g: &Params, me: usize, state: &mut [u8], v: &[u8], out: &mut [u8], to: &mut [u8]) -> Answer {
        Answer(unsafe {
            raw::semduoli_begin_write(
                g.n, g.t, g.k, g.size, me, state.as_mut_ptr(), state.len(), v.as_ptr(), v.len(), out.as_mut_ptr(), out.len(), to.as_mut_ptr(), to.len(),
            )
        })
    }

    #[allow(clippy::too_many_arguments)]
    pub fn client_deliver(
        g: &Params, me: usize, from: Party, v: &[u8], f: &[u8], rows: &mut [u8], result: &mut [u8], stamp: &mut [u8], state: &mut [u8], out: &mut [u8],
        to: &mut [u8],
    ) -> Answer {
        Answer(unsafe {
            raw::semduoli_client_deliver(
                g.n, g.t, g.k, g.size, me, from.0, from.1, v.as_ptr(), v.len(), f.as_ptr(), f.len(), rows.as_mut_ptr(), rows.len(),
                result.as_mut_ptr(), result.len(), stamp.as_mut_ptr(), stamp.len(), state.as_mut_ptr(), state.len(), out.as_mut_ptr(), out.len(),
                to.as_mut_ptr(), to.len(),
            )
        })
    }
}

fn show(name: &str, bytes: &[u8]) {
    let text: String = bytes.iter().map(|b| format!(" {b:02x}")).collect();
    println!("{name}{text}");
}

// The frames of an answer, each with its receiver.
fn show_sent(answer: &semduoli::Answer, out: &[u8], to: &[u8]) {
    let mut at = 0;
    for receiver in to.chunks_exact(semduoli::RECEIVER).take(answer.count()) {
        let length = semduoli::frame_length(&out[at..]);
        print!("to {} {}", if receiver[0] == 0 { "client" } else { "server" }, receiver[1]);
        show(":", &out[at..at + length]);
        at += length;
    }
}

// What a frame says: its kind, client and sequence, and the time that it carries.
fn show_frame(g: &semduoli::Params, name: &str, frame: &[u8]) {
    let mut time = [0; semduoli::TIME];
    let (answer, timed) = (semduoli::frame_header(g, frame), semduoli::frame_time(g, frame, &mut time));
    let (kind, client, sequence) = answer.header();
    print!("{name}: refusal {}, kind {kind}, client {client}, sequence {sequence}", answer.refusal());
    if timed.refusal() == 0 && timed.outcome() == semduoli::HAS_TIME {
        print!(", time {}", u64::from_be_bytes(time));
    }
    println!();
}

fn ask_of_frames(g: &semduoli::Params) {
    let stamp = [0, 15, 1, 2, 8, 0xff, 0xff, 0xff, 0xff, 0xff, 0xff, 0xff, 0xff, 0xff, 0xff, 0xff, 0xfe];
    show_frame(g, "stamp", &stamp);
    show_frame(g, "stamp, cut", &stamp[..16]);
    show_frame(g, "retired kind", &[0, 7, 1, 6, 2, 0, 0, 0, 5]);
    show_frame(g, "report", &[0, 15, 1, 13, 2, 0, 0, 0, 5, 0, 0, 0, 0, 0, 0, 0, 9]);
    println!("time, area short: {}", semduoli::frame_time(g, &stamp, &mut [0; semduoli::TIME - 1]).0);
    println!("header, n = 3: {}", semduoli::frame_header(&semduoli::Params { n: 3, ..*g }, &stamp).0);
}

// What is at the front of a trace, and how many bytes it takes.
fn read_entry(trace: &[u8]) -> usize {
    let answer = semduoli::entry_read(trace);
    let (sender, bytes) = answer.entry_read();
    if answer.refusal() != 0 {
        println!("entry: refusal {}", answer.refusal());
    } else if answer.outcome() == semduoli::TRACE_WHOLE {
        println!("entry: none left");
    } else {
        println!("entry of class {}, number {}, bytes {bytes}", sender.0, sender.1);
    }
    bytes
}

// A trace of two entries, written and read back.
fn keep_trace() {
    let frame = [0, 7, 1, 1, 2, 0, 0, 0, 5];
    let (client, server) = (semduoli::Party(semduoli::CLASS_CLIENT, 2), semduoli::Party(semduoli::CLASS_SERVER, 255));
    let mut trace = [0; 2 * (semduoli::ENTRY_HEAD + 9)];
    let mut at = semduoli::entry_write(client, &frame, &mut trace).entry_written();
    at += semduoli::entry_write(server, &frame, &mut trace[at..]).entry_written();
    show("trace:", &trace[..at]);
    println!("write, area short: {}", semduoli::entry_write(client, &frame, &mut trace[..13]).0);
    println!("write, third class: {}", semduoli::entry_write(semduoli::Party(2, 2), &frame, &mut trace).0);
    println!("write, number 256: {}", semduoli::entry_write(semduoli::Party(semduoli::CLASS_SERVER, 256), &frame, &mut trace).0);
    at = read_entry(&trace);
    at += read_entry(&trace[at..]);
    read_entry(&trace[at..]);
    read_entry(&trace[..9]);
    read_entry(&trace[1..10]);
}

fn judge(text: &str) {
    let mut lines = [0; semduoli::LINES];
    let answer = semduoli::judge(text.as_bytes(), &mut lines);
    if answer.refusal() != 0 {
        println!("history: refused {}", answer.refusal());
    } else if answer.outcome() == semduoli::ORDERED {
        show("history:", &lines[..answer.count()]);
    } else {
        let (earlier, later) = answer.pair();
        println!("history: {earlier} and {later} offend");
    }
}

// The first line of a history's sheet, and its page number, at the right of the last line; the area has room bytes.
fn lay(text: &str, room: usize) {
    let mut sheet = [0; 2 * semduoli::PAGE];
    let answer = semduoli::sheet(text.as_bytes(), &mut sheet[..room]);
    if answer.refusal() != 0 {
        println!("sheet: refused {}", answer.refusal());
    } else if answer.outcome() == semduoli::ORDERED {
        let (line, number) = (String::from_utf8_lossy(&sheet[..63]), sheet[semduoli::PAGE - 2] as char);
        println!("sheet: pages {}, {line}, page {number}", answer.count());
    } else {
        let (earlier, later) = answer.pair();
        println!("sheet: {earlier} and {later} offend");
    }
}

fn insert(value: &str, index: &mut [u8]) {
    let answer = semduoli::index_insert(value.as_bytes(), index);
    println!("insert {value}: refusal {}, place {}", answer.refusal(), answer.count());
}

fn search(number: u64, index: &[u8]) {
    let answer = semduoli::index_search(number, index);
    println!("search: refusal {}, place {}", answer.refusal(), answer.count());
}

fn find_lots() {
    let mut index = [0xff; semduoli::INDEX];
    println!("index: {}", semduoli::index_fresh(&mut index).0);
    insert("LOT-0005 rye", &mut index);
    insert("LOT-0003 oats", &mut index);
    insert("LOT-0005 rye, again", &mut index);
    insert("LOT-6", &mut index);
    insert("LOT-6", &mut index[..semduoli::INDEX - 1]);
    search(u64::from_be_bytes(*b"LOT-0005"), &index);
    search(u64::from_be_bytes(*b"LOT-0004"), &index);
    show("rows:", &index[..1 + 3 * 9]);
}

// ---- a whole run: the parties, each with what the host keeps of it, and the frames under way, first in, first out

struct Server {
    state: Vec<u8>,
    area: Vec<u8>,
    initial: Vec<u8>,
}

// The value is that of its open write, or empty.
struct Client {
    state: Vec<u8>,
    rows: Vec<u8>,
    value: Vec<u8>,
}

struct Parcel {
    from: semduoli::Party,
    to: semduoli::Party,
    frame: Vec<u8>,
}

struct Run {
    g: semduoli::Params,
    servers: Vec<Server>,
    clients: Vec<Client>,
    waiting: VecDeque<Parcel>,
    taken: usize,
    refused: usize,
}

impl Run {
    fn fresh(g: semduoli::Params, clients: usize, initial: &[u8]) -> Run {
        let server = |_| Server { state: vec![0; semduoli::SERVER], area: vec![0; semduoli::AREA], initial: vec![0; g.block()] };
        let client = |_| Client { state: vec![0; semduoli::CLIENT], rows: vec![0; semduoli::ROWS], value: vec![] };
        let mut servers: Vec<Server> = (0..=g.n).map(server).collect();
        let mut clients: Vec<Client> = (0..=clients).map(client).collect();
        for (j, s) in servers.iter_mut().enumerate().skip(1) {
            let answer = semduoli::server_fresh(&g, j, initial, &mut s.area, &mut s.initial, &mut s.state);
            println!("server {j} afresh: {}", answer.0);
        }
        for c in &mut clients {
            semduoli::client_fresh(&mut c.state);
        }
        Run { g, servers, clients, waiting: VecDeque::new(), taken: 0, refused: 0 }
    }

    // Areas for the frames of a step, and for their receivers.
    fn areas(&self, frames: usize) -> (Vec<u8>, Vec<u8>) {
        (vec![0; frames * self.g.frame()], vec![0; semduoli::RECEIVER * frames])
    }

    // Puts the frames that a party sent after those that wait, but for reports to clients that are not there.
    fn add_sent(&mut self, from: semduoli::Party, answer: &semduoli::Answer, out: &[u8], to: &[u8]) {
        let mut at = 0;
        for receiver in to.chunks_exact(semduoli::RECEIVER).take(answer.count()) {
            let length = semduoli::frame_length(&out[at..]);
            let to = semduoli::Party(receiver[0].into(), receiver[1].into());
            if to.0 == semduoli::CLASS_SERVER || to.1 < self.clients.len() {
                self.waiting.push_back(Parcel { from, to, frame: out[at..at + length].to_vec() });
            }
            at += length;
        }
    }

    fn hand_to_server(&mut self, p: &Parcel) -> semduoli::Answer {
        let (mut out, mut to) = self.areas(self.g.server_frames());
        let s = &mut self.servers[p.to.1];
        let answer = semduoli::server_deliver(&self.g, p.to.1, p.from, &p.frame, &mut s.area, &s.initial, &mut s.state, &mut out, &mut to);
        self.add_sent(p.to, &answer, &out, &to);
        answer
    }

    fn hand_to_client(&mut self, p: &Parcel) -> semduoli::Answer {
        let (mut out, mut to) = self.areas(self.g.n);
        let (mut result, mut stamp) = (vec![0; self.g.size], [0; semduoli::STAMP]);
        let (me, c) = (p.to.1, &mut self.clients[p.to.1]);
        let answer = semduoli::client_deliver(
            &self.g, me, p.from, &c.value, &p.frame, &mut c.rows, &mut result, &mut stamp, &mut c.state, &mut out, &mut to,
        );
        self.add_sent(p.to, &answer, &out, &to);
        match answer.outcome() {
            semduoli::SENT if answer.count() > 0 => show_frame(&self.g, "a write goes out", &out[..semduoli::frame_length(&out)]),
            semduoli::WRITTEN => println!("client {} has written", p.to.1),
            semduoli::VALUE => {
                let (time, writer, sequence) = semduoli::stamp_parts(&stamp);
                println!("client {me} has read {}, stamp {time} {writer} {sequence}", String::from_utf8_lossy(&result));
            }
            _ => {}
        }
        answer
    }

    // Hands in each frame that waits, until none does; one that came too early waits again.
    fn carry(&mut self) {
        while let Some(p) = self.waiting.pop_front() {
            self.taken += 1;
            let answer = if p.to.0 == semduoli::CLASS_SERVER { self.hand_to_server(&p) } else { self.hand_to_client(&p) };
            if answer.refusal() != 0 {
                self.refused += 1;
            }
            if answer.refusal() == semduoli::REFUSED_AHEAD {
                self.waiting.push_back(p);
            }
        }
        println!("frames handed in so far: {}, of them refused: {}", self.taken, self.refused);
    }

    // A client begins the write of a value, or a read if the value is empty.
    fn begin(&mut self, me: usize, value: &[u8]) {
        let (mut out, mut to) = self.areas(self.g.n);
        let c = &mut self.clients[me];
        c.value = value.to_vec();
        let answer = if value.is_empty() {
            semduoli::begin_read(&self.g, me, &mut c.state, &mut out, &mut to)
        } else {
            semduoli::begin_write(&self.g, me, &mut c.state, value, &mut out, &mut to)
        };
        println!("client {me} begins: refusal {}, frames {}", answer.refusal(), answer.count());
        self.add_sent(semduoli::Party(semduoli::CLASS_CLIENT, me), &answer, &out, &to);
    }

    // What is open at a client, and what a server holds and works on for client 1.
    fn show_open(&self, client: usize, server: usize) {
        let (mut stamp, state) = ([0; semduoli::STAMP], &self.servers[server].state);
        let open = semduoli::client_open(&self.clients[client].state);
        println!("client {client}: open {}, sequence {}", open.outcome(), open.sequence());
        let (held, works) = (semduoli::server_stamp(state, &mut stamp), semduoli::server_open(1, state));
        print!("server {server}: {}, works on write {} of client 1, holds", held.0, works.sequence());
        show(" stamp", &stamp);
    }

    // The block that a server holds, into an area that is so much short.
    fn show_block(&self, server: usize, short_by: usize) {
        let (mut block, s) = (vec![0; self.g.block()], &self.servers[server]);
        let room = block.len() - short_by;
        let answer = semduoli::server_block(&self.g, &s.area, &s.initial, &s.state, &mut block[..room]);
        println!("server {server}, block: {}", answer.0);
        if answer.refusal() == 0 {
            show("block:", &block);
        }
    }

    // What server 1 answers to client 1's get-stamp from this sender, with only the first bytes of the frame and of the record lent.
    fn hand_get_stamp(&mut self, name: &str, class: usize, sender: usize, frame: usize, state: usize) {
        let (mut out, mut to) = self.areas(self.g.server_frames());
        let f = [0, 7, 1, 1, 1, 0, 0, 0, 1];
        let from = semduoli::Party(class, sender);
        let s = &mut self.servers[1];
        let answer = semduoli::server_deliver(&self.g, 1, from, &f[..frame], &mut s.area, &s.initial, &mut s.state[..state], &mut out, &mut to);
        println!("get-stamp, {name}: refusal {}, frames {}", answer.refusal(), answer.count());
    }

    // Plays back, at server 3, the first bytes of a trace: client 2's get-stamp, the same as server 2's, and a malformed entry; the out area lacks short_by.
    fn play_back(&mut self, trace: usize, short_by: usize) {
        let asked = [0, 7, 1, 1, 2, 0, 0, 0, 5];
        let whole = [&[0, 12, 1, 0, 2], &asked[..], &[0, 12, 1, 1, 2], &asked, &[0, 2]].concat();
        let room = self.g.playback_out(2);
        let (mut out, s) = (vec![0; room], &mut self.servers[3]);
        let lent = &mut out[..room - short_by];
        let answer = semduoli::playback(&self.g, 3, b"first", &whole[..trace], &mut s.area, &mut s.initial, &mut s.state, lent);
        println!("playback: refusal {}, closed by {}, entries {}", answer.refusal(), answer.outcome(), answer.entries());
        let first = semduoli::REPLY_HEAD + semduoli::RECEIVER; // one frame was sent, to the first entry
        if answer.refusal() == 0 {
            show("replies:", &out[..first + semduoli::frame_length(&out[first..]) + semduoli::REPLY_HEAD]);
        }
    }

    // Hands client 2's next get-stamp, the first bytes of an entry, to server 3, which goes on from its record; the to area lacks short_by.
    fn go_on(&mut self, trace: usize, short_by: usize) {
        let entry = [0, 12, 1, 0, 2, 0, 7, 1, 1, 2, 0, 0, 0, 6];
        let (mut out, mut to) = self.areas(self.g.server_frames());
        let (s, lent) = (&mut self.servers[3], to.len() - short_by);
        let answer = semduoli::server_resume(&self.g, 3, &entry[..trace], &mut s.area, &s.initial, &mut s.state, &mut out, &mut to[..lent]);
        println!("resume: refusal {}, closed by {}, entries {}", answer.refusal(), answer.outcome(), answer.entries());
        if answer.entries() > 0 {
            show("sent last:", &out[..semduoli::frame_length(&out)]);
        }
    }
}

fn main() {
    let g = semduoli::Params { n: 4, t: 1, k: 2, size: 5 };
    let value = b"hello";

    let largest = semduoli::Params { n: 10, t: 3, k: 1, size: 256 };
    println!("out of 200000 entries played back: {} bytes", largest.playback_out(200000));

    let mut digest = [0; semduoli::DIGEST];
    println!("digest: {}", semduoli::digest(b"abc", &mut digest).0);
    show("digest:", &digest);
    println!("digest of nothing: {}", semduoli::digest(b"", &mut digest).0);
    show("digest:", &digest);
    println!("digest, area short: {}", semduoli::digest(value, &mut digest[..31]).0);

    let mut blocks = [0; 12];
    println!("encode: {}", semduoli::encode(&g, value, &mut blocks).0);
    show("blocks:", &blocks);
    let numbers = [4, 2];
    let chosen: Vec<u8> = numbers.iter().flat_map(|&j| blocks[(j as usize - 1) * 3..j as usize * 3].to_vec()).collect();
    let mut back = [0; 5];
    println!("decode: {}", semduoli::decode(&g, &numbers, &chosen, &mut back).0);
    println!("value: {}", String::from_utf8_lossy(&back));
    println!("decode of one block: {}", semduoli::decode(&g, &numbers[..1], &chosen[..3], &mut back).0);
    println!("decode of all blocks: {}", semduoli::decode(&g, &[1, 2, 3, 4], &blocks, &mut back).0);
    blocks[0] ^= 1;
    println!("decode with a foreign block: {}", semduoli::decode(&g, &[1, 2, 3, 4], &blocks, &mut back).0);

    judge("R 5 6 1 1 1 0\nW 1 2 1 1 1 0\n");
    judge("W 1 2 5 1 1 0\nW 3 4 4 2 1 0\n");
    judge("W 1 4 1 2 1 2\nR 4 6 0 0 0 2\n");
    judge("W 1 4 1 2 1 2\nR 4 6 0 0 0 3\n");
    judge("W 1 2 5 1 1\n");
    lay("R 5 6 1 1 1 0\nW 1 7 1 1 1 3\n", semduoli::PAGE);
    lay("R 5 6 1 1 1 0\nW 1 7 1 1 1 3\n", semduoli::PAGE - 1);
    lay("W 1 2 5 1 1 0\nW 3 4 4 2 1 0\n", 0);
    lay("W 1 2 5 1 1\n", 0);
    find_lots();
    ask_of_frames(&g);
    keep_trace();

    let mut state = [0xff; semduoli::CLIENT];
    let mut out = vec![0; g.n * g.frame()];
    let mut to = vec![0; semduoli::RECEIVER * g.n];
    println!("fresh: {}", semduoli::client_fresh(&mut state).0);
    let answer = semduoli::begin_write(&g, 3, &mut state, value, &mut out, &mut to);
    println!("write: refusal {}, outcome {}, frames {}", answer.refusal(), answer.outcome(), answer.count());
    show_sent(&answer, &out, &to);
    show("record:", &state[..10]);
    println!("read meanwhile: refusal {}", semduoli::begin_read(&g, 3, &mut state, &mut out, &mut to).refusal());
    let three = semduoli::Params { n: 3, ..g };
    println!("read of three servers: refusal {}", semduoli::begin_read(&three, 3, &mut [], &mut [], &mut []).refusal());

    let mut run = Run::fresh(g, 2, b"first");
    run.begin(2, b"");
    run.carry();
    run.show_block(3, 0);
    run.begin(1, value);
    run.show_open(1, 1);
    run.carry();
    run.begin(2, b"");
    run.show_open(2, 1);
    run.carry();
    run.show_open(2, 1);
    run.show_block(3, 0);
    run.show_block(3, 1);
    run.hand_get_stamp("from client 1", semduoli::CLASS_CLIENT, 1, 9, semduoli::SERVER);
    run.hand_get_stamp("from client 257", semduoli::CLASS_CLIENT, 257, 9, semduoli::SERVER);
    run.hand_get_stamp("from a third class", 2, 1, 9, semduoli::SERVER);
    run.hand_get_stamp("record short", semduoli::CLASS_CLIENT, 1, 9, 0);
    run.hand_get_stamp("record and frame short", semduoli::CLASS_CLIENT, 1, 3, 0);

    println!("version: {}", (semduoli::version() == semduoli::VERSION) as u8);
    println!("read of client 257: refusal {}", semduoli::begin_read(&run.g, 257, &mut state, &mut out, &mut to).refusal());
    println!("open, record short: {}", semduoli::client_open(&state[..semduoli::CLIENT - 1]).0);
    println!("stamp, area short: {}", semduoli::server_stamp(&run.servers[1].state, &mut digest[..semduoli::STAMP - 1]).0);
    println!("open of client 9: {}", semduoli::server_open(9, &run.servers[1].state).0);
    run.play_back(28, 0);
    run.play_back(30, 0);
    run.play_back(29, 0);
    run.play_back(28, 1);
    run.go_on(14, 0);
    run.go_on(13, 0);
    run.go_on(14, 1);
}
