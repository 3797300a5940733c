//! What happens to a node and its folder, with real processes: a partner away, failing disks, torn and damaged logs, folders from a backup, a key used
//! twice, traces.
mod common;

use common::{code, printed, said, semduoli, Nodes};
use semduoli::log::{batch_at, segment_read, BATCH_HEAD};
use semduoli::settings::BLOCK;
use serde_json::Value;
use std::fs;
use std::path::Path;
use std::process::Command;

const SIZE: (usize, usize, usize, usize) = (4, 1, 2, 32);
const DAMAGED: i32 = 10;
const DISK: i32 = 11;
const LOST: i32 = 12;

fn writes(nodes: &Nodes, count: u8) {
    let mut desk = nodes.desk();
    for i in 0..count {
        let answer = desk.write(1 + i % 8, &[i; 32]);
        assert_eq!(answer["outcome"], "written", "{answer}");
    }
}

/// Starts a node that fails at a later commit, and writes until it has.
fn fail(nodes: &mut Nodes, name: &str, fault: &str) -> i32 {
    nodes.start_with(name, &[("SEMDUOLI_TEST_FAULT", format!("{fault}:30"))]);
    for _ in 0..50 {
        writes(nodes, 10);
        if nodes.has_ended(name) {
            break;
        }
    }
    nodes.exit_code(name)
}

fn copy(from: &Path, to: &Path) {
    fs::create_dir_all(to).expect("a folder");
    for entry in fs::read_dir(from).expect("a folder").map(|e| e.expect("an entry")) {
        if entry.file_type().expect("a type").is_file() {
            fs::copy(entry.path(), to.join(entry.file_name())).expect("a copy");
        }
    }
}

#[test]
fn a_partner_that_was_away_catches_up() {
    let mut nodes = Nodes::new("away", SIZE);
    nodes.start_all();
    writes(&nodes, 5);
    nodes.kill("s4");
    writes(&nodes, 100);
    let owed = nodes.wait_until("s1", "owes", |s| {
        let partners = s["partners"].as_array().expect("partners");
        partners.iter().any(|p| p["name"] == "s4" && p["linked"] == false && p["owed_frames"].as_u64() > Some(100))
    });
    assert_eq!(owed["servers"][0]["stamp"][0], 105);
    nodes.start("s4");
    let all = nodes.wait_for_rest();
    assert_eq!(all[3]["servers"][0]["stamp"], all[0]["servers"][0]["stamp"]);
}

/// What a node's status says of a partner.
fn partner(status: &Value, name: &str) -> Value {
    status["partners"].as_array().into_iter().flatten().find(|p| p["name"] == name).cloned().unwrap_or_default()
}

/// Bytes of the segments in a node's folder.
fn log_files(folder: &Path) -> u64 {
    let entries = fs::read_dir(folder).expect("a folder").map(|e| e.expect("an entry"));
    let segments = entries.filter(|e| e.file_name().to_string_lossy().starts_with("log-"));
    segments.filter_map(|e| e.metadata().ok()).map(|m| m.len()).sum()
}

const MEMORY_MOST: u64 = 2 << 20;

/// Small segments and snapshots, so that a short run has many.
fn small_segments(nodes: &mut Nodes) {
    nodes.environment = vec![("SEMDUOLI_TEST_SEGMENT", (256 << 10).to_string()), ("SEMDUOLI_TEST_SNAPSHOT", (700 << 10).to_string())];
}

#[test]
fn what_a_partner_is_owed_costs_disk_and_no_memory() {
    let mut nodes = Nodes::new("owed", SIZE);
    nodes.words = ["--rate", "1000000", "--keep", "1"].map(str::to_string).into();
    small_segments(&mut nodes);
    nodes.start_all();
    nodes.kill("s4");
    nodes.write_by_all(50);
    let up = ["s1", "s2", "s3", "desk"];
    let before = up.map(|name| nodes.memory(name));
    nodes.write_by_all(200);
    for (name, before) in up.iter().zip(before) {
        let after = nodes.memory(name);
        assert!(after < before + MEMORY_MOST, "{name}: {before} bytes before, {after} after");
    }
    let owed = |nodes: &Nodes| partner(&nodes.wait_until("s1", "is open", |s| s["open"] == true), "s4");
    // an echo and a ready of each write; the log is longer than it would be kept, for s4's sake
    let first = owed(&nodes);
    assert!(first["owed_frames"].as_u64() >= Some(2 * 8 * 250) && first["owed_log"].as_u64() > Some(2 << 20), "{first}");
    assert!(log_files(&nodes.at("s1")) > 2 << 20);
    nodes.kill("s1");
    nodes.start("s1");
    assert_eq!(owed(&nodes)["owed_frames"], first["owed_frames"]);
    nodes.start("s4");
    nodes.wait_for_rest();
    // nobody is owed anything: with the next snapshots the log becomes short
    nodes.write_by_all(60);
    nodes.wait_for_rest();
    let status = nodes.wait_until("s1", "has removed segments", |s| s["log"]["first_segment"].as_u64() > Some(5));
    assert_eq!(partner(&status, "s4")["given_up"], false);
    let files = log_files(&nodes.at("s1"));
    assert!(files < 4 << 20 && status["log"]["bytes"].as_u64() <= Some(files), "{files}: {}", status["log"]);
    nodes.kill("s1");
    nodes.start("s1");
    nodes.wait_for_rest();
}

#[test]
fn a_partner_that_stays_away_is_given_up_at_the_limit() {
    let mut nodes = Nodes::new("given-up", SIZE);
    nodes.words = ["--rate", "1000000", "--keep", "1", "--owed", "2"].map(str::to_string).into();
    small_segments(&mut nodes);
    nodes.start_all();
    writes(&nodes, 5);
    nodes.wait_for_rest();
    nodes.kill("s4");
    let up = ["s1", "s2", "s3", "desk"];
    let given_up = |nodes: &Nodes, name: &str| nodes.status(name).is_some_and(|s| partner(&s, "s4")["given_up"] == true);
    for _ in 0..60 {
        nodes.write_by_all(20);
        if up.iter().all(|name| given_up(&nodes, name)) {
            break;
        }
    }
    for name in up {
        nodes.wait_until(name, "gives s4 up", |s| partner(s, "s4")["given_up"] == true && partner(s, "s4")["owed_frames"] == 0);
        assert!(nodes.notes(name).contains("server 4 (s4) is given up"), "{}", nodes.notes(name));
    }
    nodes.write_by_all(100);
    for name in up {
        let files = log_files(&nodes.at(name));
        assert!(files < 6 << 20, "{name}: {files} bytes of log");
        nodes.kill(name);
        nodes.start(name);
    }
    // it is remembered, and the register goes on; the one that was given up does no harm
    nodes.start("s4");
    for name in up {
        nodes.wait_until(name, "remembers", |s| s["open"] == true && partner(s, "s4")["given_up"] == true && partner(s, "s4")["linked"] == true);
    }
    write_and_read(&nodes, &[7; 32]);
    nodes.write_by_all(20);
}

#[test]
fn an_operation_outlives_its_node_and_who_asked() {
    let mut nodes = Nodes::new("outlives", SIZE);
    nodes.start_all();
    writes(&nodes, 1);
    nodes.kill("s1");
    nodes.kill("s2");
    let desk = nodes.path("desk");
    let waited = semduoli(&["write", "--folder", &desk, "--client", "2", "--wait", "1", "--hex", &"ab".repeat(32)]);
    assert_eq!(code(&waited), 5, "{}", said(&waited));
    assert!(said(&waited).contains("semduoli wait 1 --client 2"), "{}", said(&waited));
    nodes.kill("desk");
    nodes.start("desk");
    nodes.start("s1");
    nodes.start("s2");
    nodes.wait_until("desk", "is open", |s| s["open"] == true);
    let ended = semduoli(&["wait", "--folder", &desk, "--client", "2", "1"]);
    assert_eq!((code(&ended), printed(&ended).starts_with("written")), (0, true), "{}", said(&ended));
    let read = semduoli(&["read", "--folder", &desk, "--client", "3", "--hex"]);
    assert_eq!(printed(&read).trim(), "ab".repeat(32), "{}", said(&read));
}

#[test]
fn a_failed_sync_ends_the_node_and_is_not_tried_again() {
    let mut nodes = Nodes::new("sync", SIZE);
    nodes.start_all();
    nodes.kill("s2");
    assert_eq!(fail(&mut nodes, "s2", "sync-fails"), DISK, "{}", nodes.notes("s2"));
    nodes.start("s2");
    assert_eq!(nodes.exit_code("s2"), DISK, "{}", nodes.notes("s2"));
    let last = nodes.notes("s2").lines().last().unwrap_or_default().to_string();
    assert!(last.contains("restart the machine"), "{last}");
    writes(&nodes, 5);
}

#[test]
fn a_full_disk_ends_the_node_and_nothing_is_lost() {
    let mut nodes = Nodes::new("full", SIZE);
    nodes.start_all();
    nodes.kill("s2");
    assert_eq!(fail(&mut nodes, "s2", "full"), DISK, "{}", nodes.notes("s2"));
    nodes.start("s2");
    nodes.wait_for_rest();
}

#[test]
fn a_folder_from_a_backup_is_recognized() {
    let mut nodes = Nodes::new("backup", SIZE);
    nodes.start_all();
    writes(&nodes, 10);
    nodes.wait_for_rest();
    nodes.kill("s3");
    let (folder, backup) = (nodes.at("s3"), nodes.folder.join("backup"));
    copy(&folder, &backup);
    nodes.start("s3");
    nodes.wait_until("s3", "is open", |s| s["open"] == true);
    writes(&nodes, 10);
    nodes.wait_for_rest();
    nodes.kill("s3");
    fs::remove_dir_all(&folder).expect("removed");
    copy(&backup, &folder);
    for _ in 0..2 {
        nodes.start("s3");
        assert_eq!(nodes.exit_code("s3"), LOST, "{}", nodes.notes("s3"));
    }
    writes(&nodes, 5);
}

#[test]
fn a_key_used_twice_is_recognized() {
    let mut nodes = Nodes::new("twice", SIZE);
    nodes.start_all();
    writes(&nodes, 10);
    nodes.wait_for_rest();
    let twin = nodes.at("twin");
    fs::create_dir_all(&twin).expect("a folder");
    for file in ["node.key", "node.crt"] {
        fs::copy(nodes.at("s4").join(file), twin.join(file)).expect("a copy");
    }
    // the twin opens another port
    let text = fs::read_to_string(nodes.at("s4").join("cluster.toml")).expect("a cluster file");
    let own = format!("127.0.0.1:{}", nodes.ports[3]);
    assert!(text.contains(&own));
    fs::write(twin.join("cluster.toml"), text.replace(&own, "127.0.0.1:0")).expect("written");
    nodes.start("twin");
    assert_eq!(nodes.exit_code("twin"), LOST, "{}", nodes.notes("twin"));
    writes(&nodes, 10);
    nodes.wait_for_rest();
}

/// Where each batch of a segment begins, and its bytes without the zeros behind it.
fn batches(segment: &[u8]) -> Vec<(usize, usize)> {
    let log = segment_read(segment, 1).expect("a segment");
    let mut found = vec![];
    let mut at = BLOCK as usize;
    while let Some(batch) = batch_at(&log.id, segment, at) {
        found.push((at, BATCH_HEAD + batch.payload.len()));
        at += batch.bytes.len();
    }
    found
}

/// A segment with the front of a batch after its last whole one, as if some of its bytes came to the disk.
fn torn(segment: &[u8], end: usize, part: &[u8]) -> Vec<u8> {
    let mut torn = segment.to_vec();
    torn[end..end + part.len()].copy_from_slice(part);
    torn
}

#[test]
fn a_torn_log_is_cut_and_a_damaged_one_stops_the_node() {
    let mut nodes = Nodes::new("torn", SIZE);
    nodes.start_all();
    writes(&nodes, 10);
    nodes.wait_for_rest();
    // the node is tried alone: its partners would see that it goes back
    nodes.names().iter().for_each(|name| nodes.kill(name));
    let (folder, kept) = (nodes.at("s2"), nodes.folder.join("kept"));
    copy(&folder, &kept);
    let segment = fs::read(kept.join("log-00000001")).expect("a segment");
    let found = batches(&segment);
    assert!(found.len() > 10, "{} batches", found.len());
    let put_back = |segment: &[u8]| {
        fs::remove_dir_all(&folder).expect("removed");
        copy(&kept, &folder);
        fs::write(folder.join("log-00000001"), segment).expect("written");
    };
    let ((earlier, length), (last, taken)) = (found[found.len() / 2], found[found.len() - 1]);
    let end = last + taken.next_multiple_of(BLOCK as usize);
    // the rest of the segment is zeros: a batch is torn if a byte is lost that is none
    let told = segment[earlier..earlier + length].iter().rposition(|byte| *byte != 0).expect("bytes");
    for part in (1..=told).step_by(told / 20 + 1) {
        put_back(&torn(&segment, end, &segment[earlier..earlier + part]));
        nodes.start("s2");
        nodes.wait_until("s2", "is ready", |_| true);
        nodes.kill("s2");
    }
    for (i, (at, length)) in found.iter().enumerate().take(found.len() - 1).step_by(3) {
        let mut damaged = segment.clone();
        damaged[at + (i * 37) % length] ^= 1 << (i % 8);
        put_back(&damaged);
        nodes.start("s2");
        assert_eq!(nodes.exit_code("s2"), DAMAGED, "batch {i}: {}", nodes.notes("s2"));
        let checked = semduoli(&["verify", "--folder", &nodes.path("s2")]);
        assert_eq!(code(&checked), DAMAGED, "{}", said(&checked));
    }
    put_back(&segment);
    nodes.start_all();
    nodes.wait_for_rest();
}

#[test]
fn a_trace_is_played_back_to_the_servers_state() {
    let mut nodes = Nodes::new("trace", SIZE);
    nodes.start_all();
    writes(&nodes, 30);
    let status = nodes.wait_for_rest();
    let (own, file) = (nodes.path("s1"), nodes.folder.join("trace"));
    let path = file.to_str().expect("text");
    let cluster = nodes.at("s1").join("cluster.toml");
    let made = semduoli(&["trace", "--folder", &own, path]);
    assert_eq!(code(&made), 0, "{}", said(&made));
    let play = |path: &str| semduoli(&["play", path, "--cluster", cluster.to_str().expect("text"), "--server", "1", "--json"]);
    let played: Value = serde_json::from_str(&printed(&play(path))).expect("an object");
    let server = &status[0]["servers"][0];
    assert_eq!((&played["stamp"], &played["record"]), (&server["stamp"], &server["record"]));
    let again = semduoli(&["trace", "--folder", &own, path]);
    assert_eq!(code(&again), 1, "{}", said(&again));
    let bytes = fs::read(&file).expect("a trace");
    fs::write(&file, &bytes[..bytes.len() - 1]).expect("written");
    assert_eq!(code(&play(path)), 4);
    let sheet = semduoli(&["sheet", "--folder", &nodes.path("desk")]);
    assert_eq!((code(&sheet), printed(&sheet).lines().count()), (0, 60), "{}", said(&sheet));
    let history = nodes.folder.join("history");
    for clock in ["local", "wall"] {
        let lines = semduoli(&["history", "--folder", &nodes.path("desk"), "--clock", clock]);
        fs::write(&history, printed(&lines)).expect("written");
        let judged = semduoli(&["judge", history.to_str().expect("text")]);
        assert!(printed(&judged).starts_with("30 operations have an order"), "{clock}: {}", said(&judged));
    }
}

/// Writes a value and reads it by another client; the read's answer.
fn write_and_read(nodes: &Nodes, value: &[u8]) -> Value {
    let mut desk = nodes.desk();
    assert_eq!(desk.write(1, value)["outcome"], "written");
    let read = desk.read(2);
    let wanted: String = value.iter().map(|b| format!("{b:02x}")).collect();
    assert_eq!((&read["outcome"], &read["value"]), (&"value".into(), &wanted.into()));
    read
}

#[test]
fn values_that_were_read_are_found_by_their_accession_numbers() {
    let mut nodes = Nodes::new("find", SIZE);
    nodes.start_all();
    let value = |number: u64, rest: u8| [&number.to_be_bytes()[..], &[rest; 24]].concat();
    // an index takes 64 values; the first four numbers come twice
    let mut reads: Vec<Value> = (0..35).map(|i| write_and_read(&nodes, &value(i.into(), i))).collect();
    nodes.kill("desk");
    nodes.start("desk");
    nodes.wait_until("desk", "is open", |s| s["open"] == true);
    reads.extend((35..70).map(|i| write_and_read(&nodes, &value(u64::from(i) % 66, i))));
    assert_eq!(nodes.desk().write(3, &value(999, 1))["outcome"], "written");
    let path = nodes.path("desk");
    let find = |words: &[&str]| semduoli(&[&["find", "--folder", &path], words].concat());
    let found = |number: u64| -> Value {
        let output = find(&[&number.to_string(), "--json"]);
        assert_eq!(code(&output), 0, "{}", said(&output));
        serde_json::from_str(&printed(&output)).expect("an object")
    };
    let all = || {
        for (number, at) in [(0, 66), (3, 69), (4, 4), (40, 40), (63, 63), (64, 64), (65, 65)] {
            let (object, read) = (found(number), &reads[at]);
            assert_eq!((&object["number"], &object["place"]), (&number.into(), &(at + 1).into()));
            for name in ["value", "stamp", "client", "register", "end_tick", "end_wall"] {
                assert_eq!(object[name], read[name], "{name} of {number}");
            }
        }
        // what was written and not read, and what was neither
        for number in [999, 66] {
            assert_eq!(found(number), serde_json::json!({ "number": number, "place": 0 }));
        }
    };
    all();
    // the log has it all, whether the node runs or not
    nodes.kill("desk");
    all();
    fs::remove_file(nodes.at("desk").join("log-00000001")).expect("removed");
    let cut = find(&["3"]);
    assert_eq!(code(&cut), 1, "{}", said(&cut));
    assert!(said(&cut).contains("first segments were removed"), "{}", said(&cut));
}

#[test]
fn a_value_is_found_by_the_text_that_it_begins_with() {
    let mut nodes = Nodes::new("find-text", SIZE);
    nodes.start_all();
    write_and_read(&nodes, b"lot 4711, rye: 92 of 100        ");
    write_and_read(&nodes, b"lot 4712, oats: 71 of 100       ");
    let path = nodes.path("desk");
    let find = |words: &[&str]| semduoli(&[&["find", "--folder", &path], words].concat());
    let output = find(&["--text", "lot 4711"]);
    assert_eq!((code(&output), printed(&output).as_str()), (0, "lot 4711, rye: 92 of 100\n"), "{}", said(&output));
    assert_eq!(said(&output), "value 1 of those read here, by client 2; stamp: time 1, client 1, write 1\n");
    let number = u64::from_be_bytes(*b"lot 4712").to_string();
    assert!(printed(&find(&[&number, "--hex"])).starts_with("6c6f742034373132"));
    let none = find(&["--text", "lot 4713"]);
    assert_eq!((code(&none), printed(&none).as_str()), (0, ""));
    assert!(said(&none).starts_with("no value that this node's desks have read"), "{}", said(&none));
}

/// A folder on a small disk of its own, in memory; none where this user may not mount one.
struct SmallDisk(std::path::PathBuf);

impl SmallDisk {
    fn new(folder: &Path, mib: u32) -> Option<SmallDisk> {
        fs::create_dir_all(folder).expect("a folder");
        let size = format!("size={mib}m");
        let mounted = Command::new("mount").args(["-t", "tmpfs", "-o", &size, "none"]).arg(folder).status();
        mounted.is_ok_and(|s| s.success()).then(|| SmallDisk(folder.to_path_buf()))
    }
}

impl Drop for SmallDisk {
    fn drop(&mut self) {
        let _ = Command::new("umount").args(["-l"]).arg(&self.0).status();
    }
}

#[test]
fn a_disk_with_no_space_stops_taking_and_goes_on_after_room_is_made() {
    let mut nodes = Nodes::new("space", SIZE);
    let own = nodes.at("s4");
    let kept = nodes.folder.join("kept");
    copy(&own, &kept);
    let Some(_disk) = SmallDisk::new(&own, 60) else {
        println!("not tried: this user may not mount a small disk");
        return;
    };
    copy(&kept, &own);
    nodes.start("s4");
    assert_eq!(nodes.exit_code("s4"), DISK, "{}", nodes.notes("s4"));
    assert!(nodes.notes("s4").contains("MiB are free"), "{}", nodes.notes("s4"));
    let grown = Command::new("mount").args(["-o", "remount,size=100m"]).arg(&own).status();
    assert!(grown.expect("mount runs").success());
    nodes.start_all();
    writes(&nodes, 3);
    nodes.wait_for_rest();
    // the first segment and the one made ahead are there; nothing is left for a third
    let filler = own.join("filler");
    let mut left = free_space(&own);
    let mut bytes = vec![];
    while left > 0 {
        bytes.resize(bytes.len() + left as usize, 1);
        fs::write(&filler, &bytes).unwrap_or_default();
        left = free_space(&own);
    }
    for _ in 0..12 {
        writes(&nodes, 250);
        if nodes.status("s4").is_some_and(|s| !s["alarm"].is_null()) {
            break;
        }
    }
    let alarmed = nodes.wait_until("s4", "says that there is no space", |s| !s["alarm"].is_null());
    println!("alarm: {}", alarmed["alarm"]);
    fs::remove_file(&filler).expect("removed");
    nodes.wait_until("s4", "goes on", |s| s["alarm"].is_null());
    nodes.wait_for_rest();
}

fn free_space(folder: &Path) -> u64 {
    let s = nix::sys::statvfs::statvfs(folder).expect("a disk");
    s.blocks_available() * s.fragment_size()
}
