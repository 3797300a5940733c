//! Traces: what this node's server took, played back by the proved playback, and the whole log checked with it.

use super::desk::ask_once;
use super::files::read_log;
use super::folder::{read_cluster, read_own};
use super::{use_error, NodeFolder};
use crate::failure::{code, Failure};
use crate::local::Request;
use crate::out;
use semduoli::bytes::hex;
use semduoli::cluster::Cluster;
use semduoli::events::exit;
use semduoli::records::{self, Record};
use semduoli::sem::{Parameters, Party, Played, Room, Server, TRACE_CUT, TRACE_WHOLE};
use serde_json::{json, Value};
use std::fs::OpenOptions;
use std::io::{BufWriter, Write};
use std::path::Path;

/// What was read of the log: steps and begins of all parties, steps of the server, batches and their bytes.
#[derive(Default)]
struct Counts {
    steps: u64,
    entries: u64,
    batches: u64,
    bytes: u64,
}

/// A step of the server: its sender, its frame, and what it sent, as the log says.
struct Logged<'a> {
    from: Party,
    frame: &'a [u8],
    sent: &'a [u8],
}

fn own_server(cluster: &Cluster, me: usize) -> Result<u8, Failure> {
    cluster.nodes[me].server.ok_or_else(|| use_error(format!("node {} has no server, and so no trace", cluster.nodes[me].name)))
}

/// Takes the steps of the server in a batch, and their entries of the trace end to end.
type Each<'a> = dyn FnMut(&[Logged], &[u8]) -> Result<(), &'static str> + 'a;

/// Hands the server's steps to `each`, batch by batch.
fn walk(node: &NodeFolder, cluster: &Cluster, server: Option<u8>, each: &mut Each) -> Result<Counts, Failure> {
    let to = server.map(Party::server);
    let mut counts = Counts::default();
    let whole = read_log(&node.folder, cluster.register_digest(), &mut |batch| {
        let (mut logged, mut trace) = (vec![], vec![]);
        for record in records::read(batch.payload) {
            match record.map_err(|_| "the batch has bytes that are no record")? {
                Record::Step { stream, entry, frame, sent, .. } => {
                    counts.steps += 1;
                    if Some(stream.to) == to {
                        logged.push(Logged { from: stream.from, frame, sent });
                        trace.extend_from_slice(entry);
                    }
                }
                Record::Begin { .. } => counts.steps += 1,
                _ => {}
            }
        }
        counts.entries += logged.len() as u64;
        each(&logged, &trace)
    })?;
    if !whole.from_start {
        return Err(use_error("the log's first segments were removed, and a trace begins at a fresh server"));
    }
    (counts.batches, counts.bytes) = (whole.batches, whole.bytes);
    Ok(counts)
}

pub fn trace(node: &NodeFolder, file: &Path, as_json: bool) -> Result<(), Failure> {
    let (cluster, me) = read_own(&node.folder, node.cluster.as_deref())?;
    let server = own_server(&cluster, me)?;
    if file.exists() {
        return Err(use_error(format!("{} is there already, and stays as it is", file.display())));
    }
    let failed = |e: std::io::Error| use_error(format!("{}: {e}", file.display()));
    let mut out = BufWriter::new(OpenOptions::new().write(true).create_new(true).open(file).map_err(failed)?);
    let (mut bytes, mut written) = (0, Ok(()));
    let walked = walk(node, &cluster, Some(server), &mut |_, trace| {
        bytes += trace.len();
        written = out.write_all(trace);
        written.as_ref().map_err(|_| "the trace can't be written").map(|_| ())
    });
    let counts = match written.and_then(|()| out.flush()).map_err(failed).and(walked) {
        Ok(counts) => counts,
        Err(failure) => {
            // a part of a trace is none
            let _ = std::fs::remove_file(file);
            return Err(failure);
        }
    };
    let entries = counts.entries;
    match as_json {
        true => out::line(json!({ "server": server, "entries": entries, "bytes": bytes })),
        false => out::line(format!("server {server}: {entries} entries, {bytes} bytes")),
    }
}

fn no_server(number: u8) -> Failure {
    Failure::new(code::REFUSED, format!("refused {number}: no server of this register"))
}

/// The stamp that a server holds, and the digest of its record.
fn end_of(server: &Server) -> (Value, String) {
    let stamp = server.stamp();
    (json!([stamp.time, stamp.writer, stamp.sequence]), hex(&openssl::sha::sha256(&server.state)))
}

pub fn play(file: &Path, cluster: &Path, server: u8, as_json: bool) -> Result<(), Failure> {
    let cluster = read_cluster(cluster)?;
    let p = &cluster.parameters;
    let trace = std::fs::read(file).map_err(|e| use_error(format!("{}: {e}", file.display())))?;
    let mut end = Server::fresh(p, server, &cluster.initial).map_err(no_server)?;
    let Played { closed, entries } = end.resume(p, &mut Room::new(p), &trace).map_err(no_server)?;
    let (stamp, record) = end_of(&end);
    if closed != TRACE_WHOLE {
        let how = if closed == TRACE_CUT { "ends inside an entry" } else { "has an entry of another form" };
        return Err(Failure::new(code::REFUSED, format!("refused {closed}: {} {how}, behind {entries} entries", file.display())));
    }
    match as_json {
        true => out::line(json!({ "server": server, "entries": entries, "stamp": stamp, "record": record })),
        false => out::line(format!("{entries} entries played; server {server} then holds stamp {stamp} (time, client, write), record {record}")),
    }
}

/// A server that takes the log's steps twice: one by one, so that what each sends is seen, and by the proved playback.
struct Checked<'a> {
    p: &'a Parameters,
    room: Room,
    stepped: Server,
    played: Server,
}

impl<'a> Checked<'a> {
    fn new(cluster: &'a Cluster, server: u8) -> Result<Checked<'a>, Failure> {
        let p = &cluster.parameters;
        let fresh = Server::fresh(p, server, &cluster.initial).map_err(no_server)?;
        Ok(Checked { p, room: Room::new(p), stepped: fresh.clone(), played: fresh })
    }

    fn batch(&mut self, logged: &[Logged], trace: &[u8]) -> Result<(), &'static str> {
        for l in logged {
            let step = self.stepped.deliver(self.p, &mut self.room, l.from, l.frame).map_err(|_| "a step of the log is refused now")?;
            let sent = records::sent_read(l.sent).ok_or("what a step sent can't be read")?;
            let same = sent.len() == step.sent.len() && sent.iter().zip(&step.sent).all(|((to, _, frame), s)| *to == s.to && **frame == *s.frame);
            if !same {
                return Err("a step sends something else than the log says");
            }
        }
        let whole = Played { closed: TRACE_WHOLE, entries: logged.len() as u64 };
        if self.played.resume(self.p, &mut self.room, trace) != Ok(whole) || self.played != self.stepped {
            return Err("the playback comes to another state than the steps");
        }
        Ok(())
    }
}

pub fn verify(node: &NodeFolder, as_json: bool) -> Result<(), Failure> {
    let (cluster, me) = read_own(&node.folder, node.cluster.as_deref())?;
    let server = cluster.nodes[me].server;
    // before the log is read: a node that is at rest has the same afterwards
    let live = ask_once(&node.folder, &Request::Status {}).ok();
    let mut checked = server.map(|s| Checked::new(&cluster, s)).transpose()?;
    let counts = walk(node, &cluster, server, &mut |logged, trace| checked.as_mut().map_or(Ok(()), |c| c.batch(logged, trace)))?;
    let mut compared = "no node runs here, so its state was not compared";
    if let (Some(server), Some(checked), Some(status)) = (server, checked, live.map(|l| l["status"].clone())) {
        let (stamp, record) = end_of(&checked.played);
        let found = status["servers"].as_array().into_iter().flatten().find(|s| s["number"] == server);
        let same = found.is_some_and(|s| s["stamp"] == stamp && s["record"] == record.as_str());
        compared = match (status["log"]["steps"] == counts.steps, same) {
            (true, true) => "the running node's state is the same",
            (true, false) => return Err(Failure::new(exit::DAMAGED, format!("the running server {server} has another state than its log"))),
            (false, _) => "the node is at work, so its state was not compared",
        };
    }
    let Counts { steps, entries, batches, bytes } = counts;
    match as_json {
        true => out::line(json!({ "batches": batches, "bytes": bytes, "steps": steps, "played": entries, "state": compared })),
        false => out::line(format!(
            "{batches} batches, {bytes} bytes, {steps} steps; {entries} steps of the server played back, each sends what the log says; {compared}"
        )),
    }
}
