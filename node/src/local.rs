//! The local socket: who may open it asks the node, one JSON object a line, and is answered the same way. Of one connection one ask is carried out at a
//! time; its answer may have two lines, `begun` and the end.

use nix::poll::PollFlags;
use semduoli::bytes::{hex, unhex};
use semduoli::events::{Ask, AskId, Ended, Outcome, Response, Stamp};
use serde::{Deserialize, Serialize};
use serde_json::{json, Value};
use std::collections::BTreeMap;
use std::fs::{self, File, Permissions};
use std::io::{self, BufRead, BufReader, Read, Write};
use std::os::unix::fs::PermissionsExt;
use std::os::unix::io::{AsRawFd, RawFd};
use std::os::unix::net::{UnixListener, UnixStream};
use std::path::Path;
use std::time::Duration;

const SOCKET: &str = "socket";
const CONNECTIONS: usize = 64;
/// The longest line that is taken: a write of the largest value is far shorter.
const LINE: usize = 4096;
/// What waits for one who asked and does not read.
const OUTPUT: usize = 1 << 20;

/// A line that asks.
#[derive(Serialize, Deserialize, Debug, PartialEq)]
#[serde(tag = "ask", rename_all = "lowercase", deny_unknown_fields)]
pub enum Request {
    Read { client: u8, register: u8 },
    Write { client: u8, register: u8, value: String },
    Wait { client: u8, register: u8, operation: u64 },
    Status {},
    Snapshot {},
}

impl Request {
    fn ask(self) -> Result<Ask, String> {
        Ok(match self {
            Request::Read { client, register } => Ask::Read { client, register },
            Request::Write { client, register, value } => {
                let value = unhex(&value).ok_or("the value is not an even number of hexadecimal digits")?;
                Ask::Write { client, register, value }
            }
            Request::Wait { client, register, operation } => Ask::Wait { client, register, operation },
            Request::Status {} => Ask::Status,
            Request::Snapshot {} => Ask::Snapshot,
        })
    }
}

pub fn stamp_json(stamp: &Stamp) -> Value {
    json!({ "time": stamp.time, "writer": stamp.writer, "sequence": stamp.sequence })
}

fn ended_json(e: &Ended) -> Value {
    let mut object = json!({
        "answer": "ended", "client": e.client, "register": e.register, "operation": e.operation,
        "begin_tick": e.begin_tick, "end_tick": e.end_tick, "begin_wall": e.begin_wall, "end_wall": e.end_wall,
    });
    match &e.outcome {
        Outcome::Written { stamp } => {
            object["outcome"] = json!("written");
            object["stamp"] = stamp_json(stamp);
        }
        Outcome::Value { value, stamp } => {
            object["outcome"] = json!("value");
            object["value"] = json!(hex(value));
            object["stamp"] = stamp_json(stamp);
        }
        Outcome::OutOfStamps => object["outcome"] = json!("out of stamps"),
        Outcome::Disagreement => object["outcome"] = json!("disagreement"),
    }
    object
}

fn error_json(why: &str) -> Value {
    json!({ "answer": "error", "why": why })
}

/// The socket's address. By the folder's descriptor, since an address has room for 107 bytes only, and a path may be longer.
fn address(folder: &File) -> String {
    format!("/proc/self/fd/{}/{SOCKET}", folder.as_raw_fd())
}

struct Connection {
    stream: UnixStream,
    input: Vec<u8>,
    output: Vec<u8>,
    asked: Option<AskId>,
    /// Nothing more comes: it is dropped once its answers are out.
    ended: bool,
}

/// The node's side.
pub struct Local {
    listener: UnixListener,
    connections: BTreeMap<u64, Connection>,
    askers: BTreeMap<AskId, u64>,
    /// The connections in the order of the last `interests`; some may have gone since.
    polled: Vec<u64>,
    next: u64,
}

/// What comes from the local socket.
#[derive(Debug, PartialEq)]
pub enum Asked {
    Ask(AskId, Ask),
    Gone(AskId),
}

impl Local {
    /// Opens the socket in a folder that is locked: what an earlier run left there is removed.
    pub fn open(folder: &Path) -> io::Result<Local> {
        let path = folder.join(SOCKET);
        match fs::remove_file(&path) {
            Err(e) if e.kind() != io::ErrorKind::NotFound => return Err(e),
            _ => {}
        }
        let listener = UnixListener::bind(address(&File::open(folder)?))?;
        fs::set_permissions(&path, Permissions::from_mode(0o660))?;
        listener.set_nonblocking(true)?;
        Ok(Local { listener, connections: BTreeMap::new(), askers: BTreeMap::new(), polled: vec![], next: 0 })
    }

    /// What `poll` is to look at: the listener first, then the connections. Lines are read only while the node takes them.
    pub fn interests(&mut self, taking: bool) -> Vec<(RawFd, PollFlags)> {
        self.polled = self.connections.keys().copied().collect();
        let mut all = vec![(self.listener.as_raw_fd(), PollFlags::POLLIN)];
        for c in self.connections.values() {
            let mut flags = PollFlags::empty();
            flags.set(PollFlags::POLLIN, taking && c.asked.is_none() && !c.ended);
            flags.set(PollFlags::POLLOUT, !c.output.is_empty());
            all.push((c.stream.as_raw_fd(), flags));
        }
        all
    }

    /// Goes on with those that are ready, in the order of the last `interests`.
    pub fn take(&mut self, ready: &[PollFlags]) -> Vec<Asked> {
        let mut asked = vec![];
        for (id, flags) in std::mem::take(&mut self.polled).into_iter().zip(ready.iter().skip(1)) {
            if !flags.is_empty() {
                self.go_on(id, *flags, &mut asked);
            }
        }
        if ready.first().is_some_and(|r| !r.is_empty()) {
            self.accept();
        }
        asked
    }

    fn accept(&mut self) {
        while let Ok((mut stream, _)) = self.listener.accept() {
            if stream.set_nonblocking(true).is_err() {
                continue;
            }
            if self.connections.len() >= CONNECTIONS {
                let _ = writeln!(stream, "{}", error_json("too many ask at once: try again"));
                continue;
            }
            self.next += 1;
            self.connections.insert(self.next, Connection { stream, input: vec![], output: vec![], asked: None, ended: false });
        }
    }

    fn go_on(&mut self, id: u64, flags: PollFlags, asked: &mut Vec<Asked>) {
        let Some(c) = self.connections.get_mut(&id) else { return };
        let mut gone = flags.intersects(PollFlags::POLLERR | PollFlags::POLLHUP | PollFlags::POLLNVAL) && !flags.contains(PollFlags::POLLIN);
        if flags.contains(PollFlags::POLLIN) && c.asked.is_none() {
            let mut room = [0; LINE];
            match c.stream.read(&mut room) {
                Ok(0) => c.ended = true,
                Ok(n) => c.input.extend_from_slice(&room[..n]),
                Err(e) => gone |= e.kind() != io::ErrorKind::WouldBlock,
            }
        }
        if gone {
            self.drop_connection(id, asked);
        } else {
            self.next_line(id, asked);
            self.flush(id, asked);
        }
    }

    /// Carries the next line out, if none is under way.
    fn next_line(&mut self, id: u64, asked: &mut Vec<Asked>) {
        let Some(c) = self.connections.get_mut(&id) else { return };
        while c.asked.is_none() {
            let Some(end) = c.input.iter().position(|b| *b == b'\n') else { break };
            let line: Vec<u8> = c.input.drain(..=end).collect();
            let request = serde_json::from_slice::<Request>(&line).map_err(|e| format!("no line that asks: {e}"));
            match request.and_then(Request::ask) {
                Ok(ask) => {
                    self.next += 1;
                    c.asked = Some(self.next);
                    self.askers.insert(self.next, id);
                    asked.push(Asked::Ask(self.next, ask));
                }
                Err(why) => put(c, &error_json(&why)),
            }
        }
        if c.asked.is_none() && c.input.len() >= LINE {
            put(c, &error_json("the line is too long"));
            c.input.clear();
            c.ended = true;
        }
    }

    fn flush(&mut self, id: u64, asked: &mut Vec<Asked>) {
        let Some(c) = self.connections.get_mut(&id) else { return };
        while !c.output.is_empty() {
            match c.stream.write(&c.output) {
                Ok(n) => drop(c.output.drain(..n)),
                Err(e) if e.kind() == io::ErrorKind::WouldBlock => break,
                Err(_) => return self.drop_connection(id, asked),
            }
        }
        if c.output.len() > OUTPUT || c.ended && c.asked.is_none() && c.output.is_empty() {
            self.drop_connection(id, asked);
        }
    }

    fn drop_connection(&mut self, id: u64, asked: &mut Vec<Asked>) {
        let ask = self.connections.remove(&id).and_then(|c| c.asked);
        if let Some(ask) = ask {
            self.askers.remove(&ask);
            asked.push(Asked::Gone(ask));
        }
    }

    /// Answers; what was asked behind an ask that has its last answer comes back. `more` is added to a status.
    pub fn answer(&mut self, ask: AskId, response: Response, more: impl FnOnce() -> Value) -> Vec<Asked> {
        let mut asked = vec![];
        let last = !matches!(response, Response::Begun { .. });
        let object = match response {
            Response::Begun { operation } => json!({ "answer": "begun", "operation": operation }),
            Response::Ended(e) => ended_json(&e),
            Response::Refused { number, why } => json!({ "answer": "refused", "number": number, "why": why }),
            Response::SnapshotDone { batch } => json!({ "answer": "snapshot", "batch": batch }),
            Response::Status(status) => json!({ "answer": "status", "status": *status, "program": more() }),
        };
        let Some(id) = self.askers.get(&ask).copied() else { return asked };
        if let Some(c) = self.connections.get_mut(&id) {
            put(c, &object);
            if last {
                c.asked = None;
            }
        }
        if last {
            self.askers.remove(&ask);
            self.next_line(id, &mut asked);
        }
        self.flush(id, &mut asked);
        asked
    }
}

fn put(c: &mut Connection, object: &Value) {
    c.output.extend_from_slice(object.to_string().as_bytes());
    c.output.push(b'\n');
}

/// The side of who asks.
pub struct Caller(BufReader<UnixStream>);

impl Caller {
    pub fn new(folder: &Path) -> io::Result<Caller> {
        Ok(Caller(BufReader::new(UnixStream::connect(address(&File::open(folder)?))?)))
    }

    pub fn ask(&mut self, request: &Request) -> io::Result<()> {
        let mut line = serde_json::to_string(request)?;
        line.push('\n');
        self.0.get_mut().write_all(line.as_bytes())
    }

    /// The next line, or none if it has not come in time.
    pub fn answer(&mut self, line: &mut Vec<u8>, wait: Option<Duration>) -> io::Result<Option<Value>> {
        // a wait of no time would mean for ever
        self.0.get_ref().set_read_timeout(wait.map(|w| w.max(Duration::from_millis(1))))?;
        match self.0.read_until(b'\n', line) {
            Ok(0) => Err(io::ErrorKind::UnexpectedEof.into()),
            Ok(_) if line.last() != Some(&b'\n') => Err(io::ErrorKind::UnexpectedEof.into()),
            Ok(_) => {
                let value = serde_json::from_slice(line)?;
                line.clear();
                Ok(Some(value))
            }
            Err(e) if matches!(e.kind(), io::ErrorKind::WouldBlock | io::ErrorKind::TimedOut) => Ok(None),
            Err(e) => Err(e),
        }
    }
}

#[cfg(test)]
mod tests {
    use super::*;
    use nix::poll::{poll, PollFd};

    fn turn(local: &mut Local) -> Vec<Asked> {
        let mut fds: Vec<PollFd> = local.interests(true).into_iter().map(|(fd, flags)| PollFd::new(fd, flags)).collect();
        poll(&mut fds, 1000).unwrap();
        local.take(&fds.iter().map(|f| f.revents().unwrap()).collect::<Vec<_>>())
    }

    #[test]
    fn asks_of_one_connection_are_carried_out_one_after_the_other() {
        let folder = std::env::temp_dir().join(format!("semduoli-local-{}", std::process::id()));
        fs::create_dir_all(&folder).unwrap();
        let mut local = Local::open(&folder).unwrap();
        let mut caller = Caller::new(&folder).unwrap();
        let mut line = vec![];
        caller.ask(&Request::Read { client: 1, register: 0 }).unwrap();
        caller.ask(&Request::Status {}).unwrap();
        caller.0.get_mut().write_all(b"{\"ask\":\"dance\"}\n").unwrap();
        assert_eq!(turn(&mut local), []);
        let Asked::Ask(id, Ask::Read { client: 1, register: 0 }) = turn(&mut local)[0] else { panic!() };
        assert_eq!(local.answer(id, Response::Begun { operation: 5 }, || Value::Null), []);
        assert_eq!(caller.answer(&mut line, None).unwrap().unwrap(), json!({"answer": "begun", "operation": 5}));
        let next = local.answer(id, Response::Refused { number: 3, why: "short".into() }, || Value::Null);
        let [Asked::Ask(second, Ask::Status)] = next[..] else { panic!("{next:?}") };
        assert_eq!(caller.answer(&mut line, None).unwrap().unwrap()["number"], 3);
        assert_eq!(local.answer(second, Response::SnapshotDone { batch: 7 }, || Value::Null), []);
        assert_eq!(caller.answer(&mut line, None).unwrap().unwrap()["batch"], 7);
        let wrong = caller.answer(&mut line, None).unwrap().unwrap();
        assert!(wrong["why"].as_str().unwrap().contains("unknown variant `dance`"), "{wrong}");
        assert_eq!(caller.answer(&mut line, Some(Duration::from_millis(10))).unwrap(), None);
        caller.ask(&Request::Read { client: 1, register: 0 }).unwrap();
        let Asked::Ask(third, _) = turn(&mut local)[0] else { panic!() };
        drop(caller);
        assert_eq!(turn(&mut local), [Asked::Gone(third)]);
        assert!(local.connections.is_empty() && local.askers.is_empty());
        fs::remove_dir_all(&folder).unwrap();
    }
}
