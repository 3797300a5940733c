//! The demonstration: four banks on this machine, each a process with its own key and folder. Results are written and read, one bank is killed and comes
//! back, and in the end all servers hold the same.

use crate::failure::{code, Failure};
use crate::keys;
use crate::local::{Caller, Request};
use crate::out;
use semduoli::bytes::{hex, unhex};
use semduoli::events::Stamp;
use semduoli::judge::{self, Line, Verdict};
use serde_json::{json, Value};
use std::fs::{self, File};
use std::net::TcpListener;
use std::path::{Path, PathBuf};
use std::process::{Child, Command, Stdio};
use std::time::{Duration, Instant};

const BANKS: [&str; 4] = ["north", "east", "south", "west"];
const LENGTH: usize = 64;
const STARTING: Duration = Duration::from_secs(20);
const ANSWERING: Duration = Duration::from_secs(10);
const LOOK: Duration = Duration::from_millis(20);

struct Bank {
    name: &'static str,
    client: u8,
    folder: PathBuf,
    process: Option<Child>,
}

struct Demo {
    banks: Vec<Bank>,
    folder: PathBuf,
    keep: bool,
    as_json: bool,
    started: Instant,
    history: Vec<Line>,
}

fn failed(line: impl Into<String>) -> Failure {
    Failure::new(code::NO_NODE, line)
}

pub fn demo(keep: Option<PathBuf>, as_json: bool) -> Result<(), Failure> {
    let temporary = std::env::temp_dir().join(format!("semduoli-demo-{}", std::process::id()));
    let folder = keep.clone().unwrap_or(temporary);
    if folder.exists() {
        return Err(Failure::new(code::USE, format!("{} is there already, and stays as it is", folder.display())));
    }
    let mut demo = Demo { banks: vec![], folder, keep: keep.is_some(), as_json, started: Instant::now(), history: vec![] };
    demo.set_up()?;
    demo.play()
}

impl Demo {
    fn say(&self, line: &str) -> Result<(), Failure> {
        let s = self.started.elapsed().as_secs_f64();
        match self.as_json {
            true => out::line(json!({ "seconds": (s * 1000.0).round() / 1000.0, "says": line })),
            false => out::line(format!("{s:5.2} s  {line}")),
        }
    }

    fn set_up(&mut self) -> Result<(), Failure> {
        let in_folder = |e: std::io::Error| failed(format!("{}: {e}", self.folder.display()));
        let initial = hex(&[b' '; LENGTH]);
        let mut text = format!("cluster = \"demo\"\nn = 4\nt = 1\nk = 2\nlength = {LENGTH}\ninitial = \"{initial}\"\n");
        // the ports are free now; they are taken when the nodes start
        let ports: Result<Vec<TcpListener>, _> = BANKS.iter().map(|_| TcpListener::bind("127.0.0.1:0")).collect();
        for (at, (name, port)) in BANKS.into_iter().zip(ports.map_err(in_folder)?).enumerate() {
            let folder = self.folder.join(name);
            let print = keys::generate(&folder).map_err(failed)?;
            let (number, address) = (at + 1, port.local_addr().map_err(in_folder)?);
            text += &format!("\n[[node]]\nname = \"{name}\"\naddress = \"{address}\"\nfingerprints = [\"{}\"]\n", hex(&print));
            text += &format!("server = {number}\nclients = [{number}]\n");
            self.banks.push(Bank { name, client: number as u8, folder, process: None });
        }
        for bank in &self.banks {
            fs::write(bank.folder.join("cluster.toml"), &text).map_err(in_folder)?;
        }
        self.say("four banks on this machine: north, east, south and west, each with its own key, folder and process")?;
        self.say("one of the four may fail or lie; any two of them have enough to rebuild a result")
    }

    fn play(&mut self) -> Result<(), Failure> {
        for at in 0..BANKS.len() {
            self.start(at)?;
        }
        for at in 0..BANKS.len() {
            self.wait_for(at, "started", |status| status["open"] == true)?;
        }
        self.say("they have found each other and checked each other's keys")?;
        self.write(0, "lot 4711, rye: 92 of 100 seeds germinate")?;
        self.read(1)?;
        self.write(2, "lot 4711, rye: 88 of 100 seeds germinate")?;
        self.read(3)?;
        self.say("south is killed (kill -9), as if its power had failed")?;
        self.stop(2);
        self.read(0)?;
        self.write(3, "lot 4711, rye: 90 of 100 seeds germinate")?;
        self.read(1)?;
        self.say("the three others went on without it; south starts again, and catches up by itself")?;
        self.start(2)?;
        self.wait_for(2, "back", |status| status["open"] == true)?;
        self.read(2)?;
        self.compare()?;
        self.judge()?;
        self.say("done: every result that was acknowledged is there, at every bank")
    }

    fn start(&mut self, at: usize) -> Result<(), Failure> {
        let bank = &mut self.banks[at];
        let own = std::env::current_exe().map_err(|e| failed(format!("the own program is not found: {e}")))?;
        let notes = File::options().create(true).append(true).open(bank.folder.join("notes"));
        let notes = notes.map_err(|e| failed(format!("{}: {e}", bank.folder.display())))?;
        let child = Command::new(own).arg("serve").arg(&bank.folder).stdin(Stdio::null()).stdout(Stdio::null()).stderr(notes).spawn();
        bank.process = Some(child.map_err(|e| failed(format!("{} does not start: {e}", bank.name)))?);
        Ok(())
    }

    fn stop(&mut self, at: usize) {
        if let Some(mut process) = self.banks[at].process.take() {
            let _ = process.kill();
            let _ = process.wait();
        }
    }

    fn status(&self, at: usize) -> Option<Value> {
        let mut caller = Caller::new(&self.banks[at].folder).ok()?;
        caller.ask(&Request::Status {}).ok()?;
        let answer = caller.answer(&mut vec![], Some(ANSWERING)).ok()??;
        Some(answer["status"].clone())
    }

    fn wait_for(&mut self, at: usize, what: &str, holds: impl Fn(&Value) -> bool) -> Result<(), Failure> {
        let until = Instant::now() + STARTING;
        while !self.status(at).is_some_and(|s| holds(&s)) {
            let bank = &mut self.banks[at];
            let ended = bank.process.as_mut().and_then(|p| p.try_wait().ok()).flatten();
            if ended.is_some() || Instant::now() > until {
                let notes = fs::read_to_string(bank.folder.join("notes")).unwrap_or_default();
                let last = notes.lines().last().unwrap_or("it says nothing");
                return Err(failed(format!("{} has not {what}: {last}", bank.name)));
            }
            std::thread::sleep(LOOK);
        }
        Ok(())
    }

    fn write(&mut self, at: usize, text: &str) -> Result<(), Failure> {
        let mut value = text.as_bytes().to_vec();
        value.resize(LENGTH, b' ');
        let client = self.banks[at].client;
        self.operate(at, &Request::Write { client, register: 0, value: hex(&value) })?;
        self.say(&format!("{} writes  \"{text}\": acknowledged", self.banks[at].name))
    }

    fn read(&mut self, at: usize) -> Result<(), Failure> {
        let client = self.banks[at].client;
        let ended = self.operate(at, &Request::Read { client, register: 0 })?;
        let value = ended["value"].as_str().and_then(unhex).unwrap_or_default();
        self.say(&format!("{} reads   \"{}\"", self.banks[at].name, String::from_utf8_lossy(&value).trim_end()))
    }

    /// An operation of a bank's desk; it is put into the history with the demonstration's own clock.
    fn operate(&mut self, at: usize, request: &Request) -> Result<Value, Failure> {
        let bank = &self.banks[at];
        let lost = |e: std::io::Error| failed(format!("{}: {e}", bank.name));
        let tick = || self.started.elapsed().as_micros() as u32;
        let start = tick();
        let mut caller = Caller::new(&bank.folder).map_err(lost)?;
        caller.ask(request).map_err(lost)?;
        let mut line = vec![];
        loop {
            let answer = caller.answer(&mut line, Some(ANSWERING)).map_err(lost)?;
            let answer = answer.ok_or_else(|| failed(format!("{} has not answered in {} s", bank.name, ANSWERING.as_secs())))?;
            match answer["answer"].as_str() {
                Some("begun") => {}
                Some("ended") => {
                    let part = |name: &str| answer["stamp"][name].as_u64().unwrap_or(0);
                    let stamp = Stamp { time: part("time"), writer: part("writer") as u8, sequence: part("sequence") as u32 };
                    let write = matches!(request, Request::Write { .. });
                    let line = Line { write, start, end: tick().max(start + 1), stamp, caller: bank.client };
                    self.history.push(line);
                    return Ok(answer);
                }
                _ => return Err(failed(format!("{} answers {answer}", bank.name))),
            }
        }
    }

    /// Waits until nothing is owed or held any more and all servers hold the same stamp.
    fn compare(&mut self) -> Result<(), Failure> {
        let until = Instant::now() + STARTING;
        loop {
            let all: Vec<Value> = (0..BANKS.len()).filter_map(|at| self.status(at)).collect();
            let stamps: Vec<&Value> = all.iter().map(|s| &s["servers"][0]["stamp"]).collect();
            let partners = all.iter().flat_map(|s| s["partners"].as_array().into_iter().flatten());
            let at_rest = partners.into_iter().all(|p| p["owed_frames"] == 0 && p["held"] == 0);
            let equal = stamps.len() == BANKS.len() && stamps.iter().all(|s| *s == stamps[0] && s.is_array());
            if at_rest && equal {
                let s = stamps[0];
                return self.say(&format!("all four servers hold the same: time {}, written by client {}, its write {}", s[0], s[1], s[2]));
            }
            if Instant::now() > until {
                return Err(failed(format!("the servers are not equal: {stamps:?}")));
            }
            std::thread::sleep(LOOK);
        }
    }

    fn judge(&self) -> Result<(), Failure> {
        let mut lines = self.history.clone();
        judge::add_writes(&mut lines);
        match judge::history(&lines, &mut |_, _| {}) {
            Verdict::Order { .. } => self.say(&format!("the proved judge: these {} reads and writes stand in one order", self.history.len())),
            other => Err(Failure::new(code::NO_ORDER, format!("the reads and writes have no order: {other:?}"))),
        }
    }
}

impl Drop for Demo {
    fn drop(&mut self) {
        for at in 0..self.banks.len() {
            self.stop(at);
        }
        if !self.keep && Path::new(&self.folder).exists() {
            let _ = fs::remove_dir_all(&self.folder);
        }
    }
}
