//! Nodes as real processes in a temporary folder: servers s1 to sn, and a node `desk` with all eight clients. Everything that waits gives up in time.
#![allow(dead_code)] // each test uses some of it

use serde_json::{json, Value};
use std::collections::BTreeMap;
use std::fs::{self, File};
use std::io::{BufRead, BufReader, Write};
use std::net::TcpListener;
use std::os::unix::net::UnixStream;
use std::path::{Path, PathBuf};
use std::process::{Child, Command, Output, Stdio};
use std::time::{Duration, Instant};

pub const PROGRAM: &str = env!("CARGO_BIN_EXE_semduoli");
pub const CLIENTS: u8 = 8;
const PATIENCE: Duration = Duration::from_secs(30);
const LOOK: Duration = Duration::from_millis(20);

/// Runs the program with these words, to its end.
pub fn semduoli(words: &[&str]) -> Output {
    Command::new(PROGRAM).args(words).stdin(Stdio::null()).output().expect("the program runs")
}

pub fn code(output: &Output) -> i32 {
    output.status.code().unwrap_or(-1)
}

pub fn said(output: &Output) -> String {
    String::from_utf8_lossy(&output.stderr).into_owned()
}

pub fn printed(output: &Output) -> String {
    String::from_utf8_lossy(&output.stdout).into_owned()
}

pub fn temporary(name: &str) -> PathBuf {
    let folder = std::env::temp_dir().join(format!("semduoli-test-{name}-{}", std::process::id()));
    let _ = fs::remove_dir_all(&folder);
    fs::create_dir_all(&folder).expect("a temporary folder");
    folder
}

pub struct Nodes {
    pub folder: PathBuf,
    pub n: usize,
    pub length: usize,
    pub ports: Vec<u16>,
    /// Further words of `serve`, and variables of its environment.
    pub words: Vec<String>,
    pub environment: Vec<(&'static str, String)>,
    processes: BTreeMap<String, Child>,
}

impl Nodes {
    /// Keys and cluster files.
    pub fn new(name: &str, (n, t, k, length): (usize, usize, usize, usize)) -> Nodes {
        let folder = temporary(name);
        let held: Vec<TcpListener> = (0..n).map(|_| TcpListener::bind("127.0.0.1:0").expect("a port")).collect();
        let ports = held.iter().map(|l| l.local_addr().expect("an address").port()).collect();
        let mut nodes = Nodes { folder, n, length, ports, words: vec![], environment: vec![], processes: BTreeMap::new() };
        for name in nodes.names() {
            let made = semduoli(&["keygen", nodes.at(&name).to_str().expect("text")]);
            assert_eq!(code(&made), 0, "{}", said(&made));
        }
        nodes.write_clusters((n, t, k, length), &nodes.ports.clone());
        nodes
    }

    pub fn names(&self) -> Vec<String> {
        (1..=self.n).map(|j| format!("s{j}")).chain(["desk".to_string()]).collect()
    }

    pub fn at(&self, name: &str) -> PathBuf {
        self.folder.join(name)
    }

    pub fn path(&self, name: &str) -> String {
        self.at(name).to_str().expect("text").to_string()
    }

    /// Writes each node's cluster file; the others are called at `called`.
    pub fn write_clusters(&mut self, (n, t, k, length): (usize, usize, usize, usize), called: &[u16]) {
        let names = self.names();
        for own in &names {
            let initial = "00".repeat(length);
            let mut text = format!("cluster = \"test\"\nn = {n}\nt = {t}\nk = {k}\nlength = {length}\ninitial = \"{initial}\"\n");
            for (at, name) in names.iter().enumerate() {
                let print = print_of(&self.at(name));
                text += &format!("\n[[node]]\nname = \"{name}\"\nfingerprints = [\"{print}\"]\n");
                text += &match at < n {
                    true => {
                        let port = if name == own { self.ports[at] } else { called[at] };
                        format!("address = \"127.0.0.1:{port}\"\nserver = {}\n", at + 1)
                    }
                    false => format!("clients = {:?}\n", (1..=CLIENTS).collect::<Vec<_>>()),
                };
            }
            fs::write(self.at(own).join("cluster.toml"), text).expect("a cluster file");
        }
    }

    pub fn start(&mut self, name: &str) {
        self.start_with(name, &[]);
    }

    pub fn start_with(&mut self, name: &str, environment: &[(&'static str, String)]) {
        let notes = File::options().create(true).append(true).open(self.at(name).join("notes")).expect("notes");
        let mut command = Command::new(PROGRAM);
        command.arg("serve").arg(self.at(name)).args(&self.words).stdin(Stdio::null()).stdout(Stdio::null()).stderr(notes);
        for (key, value) in self.environment.iter().chain(environment) {
            command.env(key, value);
        }
        self.processes.insert(name.into(), command.spawn().expect("a node starts"));
    }

    pub fn start_all(&mut self) {
        for name in self.names() {
            self.start(&name);
        }
        for name in self.names() {
            self.wait_until(&name, "is open", |s| s["open"] == true);
        }
    }

    pub fn pid(&self, name: &str) -> u32 {
        self.processes[name].id()
    }

    pub fn signal(&self, name: &str, signal: &str) {
        let sent = Command::new("kill").arg(format!("-{signal}")).arg(self.pid(name).to_string()).status();
        assert!(sent.expect("kill runs").success());
    }

    pub fn kill(&mut self, name: &str) {
        if let Some(mut process) = self.processes.remove(name) {
            let _ = process.kill();
            let _ = process.wait();
        }
    }

    /// Whether the node's process has ended by itself.
    pub fn has_ended(&mut self, name: &str) -> bool {
        self.processes.get_mut(name).is_none_or(|p| p.try_wait().expect("a process").is_some())
    }

    /// The exit code with which a node ends by itself.
    pub fn exit_code(&mut self, name: &str) -> i32 {
        let until = Instant::now() + PATIENCE;
        let mut process = self.processes.remove(name).expect("a process");
        loop {
            if let Some(status) = process.try_wait().expect("a process") {
                return status.code().unwrap_or(-1);
            }
            if Instant::now() > until {
                let _ = process.kill();
                panic!("{name} goes on; its notes:\n{}", self.notes(name));
            }
            std::thread::sleep(LOOK);
        }
    }

    pub fn notes(&self, name: &str) -> String {
        fs::read_to_string(self.at(name).join("notes")).unwrap_or_default()
    }

    pub fn status(&self, name: &str) -> Option<Value> {
        let answer = Desk::new(&self.at(name)).ok()?.ask(&json!({ "ask": "status" }))?;
        Some(answer["status"].clone())
    }

    pub fn wait_until(&self, name: &str, what: &str, holds: impl Fn(&Value) -> bool) -> Value {
        let until = Instant::now() + PATIENCE;
        loop {
            let status = self.status(name);
            if let Some(status) = status.clone().filter(|s| holds(s)) {
                return status;
            }
            assert!(Instant::now() < until, "{name} never {what}: {status:?}; its notes:\n{}", self.notes(name));
            std::thread::sleep(LOOK);
        }
    }

    /// Bytes of memory that a node's process has.
    pub fn memory(&self, name: &str) -> u64 {
        let status = fs::read_to_string(format!("/proc/{}/status", self.pid(name))).expect("a process");
        let kb = status.lines().find_map(|l| l.strip_prefix("VmRSS:")?.trim().strip_suffix(" kB")?.trim().parse::<u64>().ok());
        kb.expect("its memory") << 10
    }

    /// So many writes by each client, side by side.
    pub fn write_by_all(&self, count: u32) {
        let clients = (1..=CLIENTS).map(|client| {
            let (folder, length) = (self.at("desk"), self.length);
            std::thread::spawn(move || {
                let mut desk = Desk::new(&folder).expect("the desk's socket");
                for i in 0..count {
                    let mut value = vec![client; length];
                    value[..4].copy_from_slice(&i.to_be_bytes());
                    let answer = desk.write(client, &value);
                    assert_eq!(answer["outcome"], "written", "{answer}");
                }
            })
        });
        clients.collect::<Vec<_>>().into_iter().for_each(|c| c.join().expect("a client"));
    }

    pub fn desk(&self) -> Desk {
        Desk::new(&self.at("desk")).expect("the desk's socket")
    }

    /// Waits until nothing is open, owed or held anywhere, and all servers hold the same; what differs is said.
    pub fn wait_for_rest(&self) -> Vec<Value> {
        let until = Instant::now() + PATIENCE;
        loop {
            let all: Vec<Value> = self.names().iter().map(|name| self.status(name).unwrap_or(Value::Null)).collect();
            let unrest = unrest(&all);
            if unrest.is_empty() {
                return all;
            }
            assert!(Instant::now() < until, "no rest: {unrest:?}\n{all:#?}");
            std::thread::sleep(5 * LOOK);
        }
    }
}

fn list(value: &Value) -> impl Iterator<Item = &Value> {
    value.as_array().into_iter().flatten()
}

fn unrest(all: &[Value]) -> Vec<String> {
    let mut found = vec![];
    for status in all {
        let name = &status["name"];
        if status["open"] != true {
            found.push(format!("{name} waits"));
        }
        found.extend(list(&status["desks"]).filter(|d| !d["open"].is_null()).map(|d| format!("{name}: {d} open")));
        let left = list(&status["partners"]).filter(|p| p["owed_frames"] != 0 || p["held"] != 0 || p["linked"] != true && !is_desk(p));
        found.extend(left.map(|p| format!("{name}: {p}")));
    }
    let servers: Vec<&Value> = all.iter().flat_map(|s| list(&s["servers"])).collect();
    let differs = |s: &&&Value| s["stamp"] != servers[0]["stamp"] || s["sequences"] != servers[0]["sequences"];
    found.extend(servers.iter().filter(differs).map(|s| format!("differs: {s}")));
    found
}

fn is_desk(partner: &Value) -> bool {
    partner["name"] == "desk"
}

fn print_of(folder: &Path) -> String {
    let pem = fs::read(folder.join("node.crt")).expect("a certificate");
    let certificate = openssl::x509::X509::from_pem(&pem).expect("a certificate");
    let print = certificate.digest(openssl::hash::MessageDigest::sha256()).expect("a digest");
    print.iter().map(|b| format!("{b:02x}")).collect()
}

impl Drop for Nodes {
    fn drop(&mut self) {
        for name in self.names() {
            self.kill(&name);
        }
        if std::thread::panicking() {
            eprintln!("the nodes' folders stay in {}", self.folder.display());
        } else {
            let _ = fs::remove_dir_all(&self.folder);
        }
    }
}

/// A connection to a node's local socket.
pub struct Desk(BufReader<UnixStream>);

impl Desk {
    pub fn new(folder: &Path) -> std::io::Result<Desk> {
        let stream = UnixStream::connect(folder.join("socket"))?;
        stream.set_read_timeout(Some(PATIENCE))?;
        Ok(Desk(BufReader::new(stream)))
    }

    pub fn line(&mut self) -> Option<Value> {
        let mut line = String::new();
        self.0.read_line(&mut line).ok().filter(|n| *n > 0)?;
        serde_json::from_str(&line).ok()
    }

    pub fn tell(&mut self, request: &Value) -> Option<()> {
        self.tell_line(&request.to_string())
    }

    pub fn tell_line(&mut self, line: &str) -> Option<()> {
        self.0.get_mut().write_all(format!("{line}\n").as_bytes()).ok()
    }

    /// Asks, and takes the last answer.
    pub fn ask(&mut self, request: &Value) -> Option<Value> {
        self.tell(request)?;
        loop {
            let answer = self.line()?;
            if answer["answer"] != "begun" {
                return Some(answer);
            }
        }
    }

    pub fn read(&mut self, client: u8) -> Value {
        self.ask(&json!({ "ask": "read", "client": client, "register": 0 })).expect("an answer to a read")
    }

    pub fn write(&mut self, client: u8, value: &[u8]) -> Value {
        let value: String = value.iter().map(|b| format!("{b:02x}")).collect();
        self.ask(&json!({ "ask": "write", "client": client, "register": 0, "value": value })).expect("an answer to a write")
    }
}
