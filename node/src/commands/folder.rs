//! A node's folder: its key, its cluster file, and the node itself.

use super::Budget;
use crate::disk::{Fault, FAULT_VARIABLE};
use crate::failure::{code, Failure};
use crate::keys;
use crate::note::note;
use crate::out;
use crate::run::{self, Setup};
use semduoli::bytes::hex;
use semduoli::cluster::Cluster;
use semduoli::events::Level;
use semduoli::settings::{Settings, BLOCK};
use serde_json::json;
use std::fs::{File, OpenOptions, TryLockError};
use std::path::{Path, PathBuf};

const CLUSTER_FILE: &str = "cluster.toml";
const LOCK: &str = "lock";
/// With less space the node does not start: a segment, snapshots and what is made beside them need it.
const SPACE_LEAST: u64 = 64 << 20;
/// For tests: bytes of log between snapshots, and bytes of a segment, so that short runs have some.
const SNAPSHOT_VARIABLE: &str = "SEMDUOLI_TEST_SNAPSHOT";
const SEGMENT_VARIABLE: &str = "SEMDUOLI_TEST_SEGMENT";
/// A batch takes at most such a part of a segment, and the log by default such a part of the disk: what is kept anyway, and what is kept for who is away.
const BATCH_PART: u64 = 4;
const DISK_PART: u64 = 4;

fn wrong(line: impl Into<String>) -> Failure {
    Failure::new(code::CLUSTER, line)
}

pub fn keygen(folder: &Path, as_json: bool) -> Result<(), Failure> {
    let print = keys::generate(folder).map_err(wrong)?;
    if as_json {
        out::line(json!({ "folder": folder, "fingerprint": hex(&print) }))
    } else {
        out::line(hex(&print))
    }
}

pub fn check_config(file: &Path, as_json: bool) -> Result<(), Failure> {
    let c = read_cluster(file)?;
    let p = &c.parameters;
    if as_json {
        let nodes = c.nodes.iter().map(|n| json!({ "name": n.name, "address": n.address, "server": n.server, "clients": n.clients }));
        let nodes: Vec<_> = nodes.collect();
        return out::line(json!({ "cluster": c.name, "generation": c.generation, "n": p.n, "t": p.t, "k": p.k, "length": p.size, "nodes": nodes }));
    }
    out::line(format!("{}: good. {} servers, of which {} may be false; any {} rebuild a value of {} bytes.", c.name, p.n, p.t, p.k, p.size))?;
    for n in &c.nodes {
        let server = n.server.map_or("no server".to_string(), |s| format!("server {s}"));
        out::line(format!("  {}: {server}, clients {:?}, {}", n.name, n.clients, n.address.as_deref().unwrap_or("calls only")))?;
    }
    Ok(())
}

pub fn read_cluster(file: &Path) -> Result<Cluster, Failure> {
    let text = std::fs::read_to_string(file).map_err(|e| wrong(format!("{}: {e}", file.display())))?;
    Cluster::parse(&text).map_err(|e| wrong(format!("{}: {e}", file.display())))
}

/// The cluster file of a node's folder, and which of its nodes the folder is.
pub fn read_own(folder: &Path, cluster: Option<&Path>) -> Result<(Cluster, usize), Failure> {
    if !folder.is_dir() {
        return Err(wrong(format!("{}: no such folder; `semduoli keygen FOLDER` makes one, with a key", folder.display())));
    }
    let file = cluster.map_or_else(|| folder.join(CLUSTER_FILE), Path::to_path_buf);
    let print = hex(&keys::fingerprint(folder).map_err(wrong)?);
    let c = read_cluster(&file)?;
    let me = c.node_with(&print);
    let me = me.ok_or_else(|| wrong(format!("{}: no node has the fingerprint of this folder's certificate, {print}", file.display())))?;
    Ok((c, me))
}

/// Holds the folder for this process alone, as long as the file is open.
fn lock(folder: &Path) -> Result<File, Failure> {
    let path = folder.join(LOCK);
    let open = OpenOptions::new().write(true).create(true).truncate(false).open(&path);
    let file = open.map_err(|e| wrong(format!("{}: {e}", path.display())))?;
    match file.try_lock() {
        Ok(()) => Ok(file),
        Err(TryLockError::WouldBlock) => Err(wrong(format!("{}: a node runs in this folder already", folder.display()))),
        Err(TryLockError::Error(e)) => Err(wrong(format!("{}: {e}", path.display()))),
    }
}

/// A number that a test has set.
fn set_for_test(variable: &str) -> Option<u64> {
    let number = std::env::var(variable).ok().and_then(|n| n.parse().ok())?;
    note(Level::Warning, &format!("{variable}={number} is set, for a test"));
    Some(number)
}

fn settings(folder: &Path, budget: &Budget) -> Settings {
    let mut settings = Settings::default();
    settings.snapshot_every = set_for_test(SNAPSHOT_VARIABLE).unwrap_or(settings.snapshot_every);
    if let Some(bytes) = set_for_test(SEGMENT_VARIABLE).map(|b| b.max(BATCH_PART * BLOCK).next_multiple_of(BLOCK)) {
        settings.segment = bytes;
        settings.batch_most = settings.batch_most.min((bytes / BATCH_PART) as usize);
    }
    let usual = run::disk_size(folder).map_or(u64::MAX, |bytes| bytes / DISK_PART);
    let bytes = |mib: Option<u32>| mib.map_or(usual, |m| u64::from(m) << 20);
    (settings.keep, settings.owed) = (bytes(budget.keep), bytes(budget.owed));
    settings
}

fn fault() -> Result<Option<Fault>, Failure> {
    let Ok(text) = std::env::var(FAULT_VARIABLE) else { return Ok(None) };
    let fault = Fault::parse(&text).ok_or_else(|| wrong(format!("{FAULT_VARIABLE}={text}: no such fault")))?;
    note(Level::Warning, &format!("{FAULT_VARIABLE}={text} is set, for a test: this node will fail"));
    Ok(Some(fault))
}

/// Runs the node; comes back only when it ends.
pub fn serve(folder: PathBuf, cluster: Option<PathBuf>, rate: u32, budget: &Budget) -> Failure {
    let prepared = (|| {
        let (cluster, me) = read_own(&folder, cluster.as_deref())?;
        let lock = lock(&folder)?;
        if let Some(free) = run::free_space(&folder).filter(|f| *f < SPACE_LEAST) {
            let line = format!("{}: {} MiB are free on its disk, and a node needs {}", folder.display(), free >> 20, SPACE_LEAST >> 20);
            return Err(Failure::new(code::DISK, line));
        }
        let settings = settings(&folder, budget);
        Ok((Setup { folder: folder.clone(), cluster, me, settings, rate: rate.max(1).into(), fault: fault()? }, lock))
    })();
    match prepared {
        Ok((setup, _lock)) => run::run(setup),
        Err(failure) => failure,
    }
}
