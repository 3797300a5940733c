//! Bad input: each gets one clear line, the exit code of the table, and nothing is altered.
mod common;

use common::{code, printed, said, semduoli, temporary, Nodes};
use std::fs;
use std::path::Path;

const SMALL: (usize, usize, usize, usize) = (4, 1, 2, 8);

/// Runs the words, and checks the exit code and that what is said is one line with these words in it.
fn fails(words: &[&str], wanted: i32, says: &str) {
    let output = semduoli(words);
    let line = said(&output);
    assert_eq!(code(&output), wanted, "{words:?}: {line}");
    assert!(line.contains(says), "{words:?}: {line}");
    assert!(line.starts_with("semduoli: ") && line.trim_end().lines().count() == 1, "{words:?}: {line}");
    let with_json = semduoli(&[words, &["--json"]].concat());
    let object: serde_json::Value = serde_json::from_str(&printed(&with_json)).expect("an object");
    assert_eq!((object["code"].as_i64(), code(&with_json)), (Some(wanted.into()), wanted));
}

/// All names and bytes below a folder.
fn contents(folder: &Path) -> Vec<(String, Vec<u8>)> {
    let mut all = vec![];
    for entry in fs::read_dir(folder).expect("a folder").map(|e| e.expect("an entry")) {
        match entry.path() {
            p if p.is_dir() => all.extend(contents(&p)),
            p => all.push((p.display().to_string(), fs::read(&p).unwrap_or_default())),
        }
    }
    all.sort();
    all
}

#[test]
fn wrong_words_are_wrong_use() {
    for words in [&[][..], &["dance"], &["serve"], &["write"], &["read", "--client", "x"], &["judge"], &["find"], &["wait", "--client", "1", "x"]] {
        let output = semduoli(words);
        assert_eq!(code(&output), 1, "{words:?}: {}", said(&output));
        assert!(said(&output).contains("--help") || said(&output).contains("Usage"), "{words:?}: {}", said(&output));
    }
    for words in [&["--help"][..], &["--version"], &["help", "write"]] {
        assert_eq!(code(&semduoli(words)), 0, "{words:?}");
    }
}

#[test]
fn wrong_folders_and_files_are_told_apart() {
    let nodes = Nodes::new("input", SMALL);
    let (own, cluster) = (nodes.path("s1"), nodes.at("s1").join("cluster.toml"));
    let file = cluster.to_str().expect("text");
    assert_eq!(code(&semduoli(&["check-config", file])), 0);

    let before = contents(&nodes.folder);
    fails(&["keygen", &own], 2, "is there already, and stays as it is");
    fails(&["serve", "/nonexistent/folder"], 2, "no such folder");
    fails(&["serve", &own, "--cluster", "/nonexistent"], 2, "No such file");
    fails(&["check-config", "/nonexistent"], 2, "No such file");
    fails(&["serve", &nodes.path("s2"), "--cluster", &own], 2, "Is a directory");
    fails(&["read", "--folder", &own], 3, "no node answers");
    fails(&["status", "--folder", "/nonexistent"], 3, "no node answers");
    fails(&["history", "--folder", &own], 2, "has not run yet");
    fails(&["verify", "--folder", &own], 2, "has not run yet");
    fails(&["find", "--folder", &own, "1"], 2, "has no desk");
    fails(&["find", "--folder", &nodes.path("desk"), "1"], 2, "has not run yet");
    fails(&["find", "--folder", "/nonexistent", "1"], 2, "no such folder");
    fails(&["judge", "/nonexistent"], 1, "No such file");
    fails(&["play", "/nonexistent", "--cluster", file, "--server", "1"], 1, "No such file");
    fails(&["trace", "--folder", &nodes.path("desk"), "/tmp/none"], 1, "has no server");
    assert_eq!(contents(&nodes.folder), before, "nothing is altered");
}

#[test]
fn wrong_cluster_files_are_told_apart() {
    let nodes = Nodes::new("clusters", SMALL);
    let (own, cluster) = (nodes.path("s1"), nodes.at("s1").join("cluster.toml"));
    let good = fs::read_to_string(&cluster).expect("a cluster file");
    let file = cluster.to_str().expect("text");
    for (old, new, says) in [
        ("n = 4", "n = 5", "server 5 of n = 5"),
        ("n = 4", "n = 3", "refused 1"),
        ("k = 2", "k = 9", "refused 2"),
        ("length = 8", "length = 9", "refused 3"),
    ] {
        fs::write(&cluster, good.replacen(old, new, 1)).expect("written");
        fails(&["check-config", file], 2, says);
        fails(&["serve", &own], 2, says);
    }
    fs::write(&cluster, [0xff, 0xfe, 0]).expect("written");
    fails(&["check-config", file], 2, "UTF-8");
}

#[test]
fn wrong_keys_are_told_apart() {
    let nodes = Nodes::new("keys", SMALL);
    let (own, cluster) = (nodes.path("s1"), nodes.at("s1").join("cluster.toml"));
    let file = cluster.to_str().expect("text");
    let certificate = fs::read(nodes.at("s1").join("node.crt")).expect("a certificate");
    fs::write(nodes.at("s1").join("node.crt"), fs::read(nodes.at("s2").join("node.crt")).expect("another")).expect("written");
    fails(&["serve", &own], 2, "is not the key of");
    fs::write(nodes.at("s1").join("node.crt"), b"nothing").expect("written");
    fails(&["serve", &own], 2, "no certificate");
    fs::write(nodes.at("s1").join("node.crt"), certificate).expect("written");
    let stranger = temporary("stranger");
    let made = semduoli(&["keygen", stranger.join("x").to_str().expect("text")]);
    assert_eq!(code(&made), 0, "{}", said(&made));
    fails(&["serve", stranger.join("x").to_str().expect("text"), "--cluster", file], 2, "no node has the fingerprint");
    fs::remove_dir_all(&stranger).expect("removed");
}

#[test]
fn wrong_histories_and_traces_are_told_apart() {
    let folder = temporary("histories");
    let file = folder.join("h");
    let path = file.to_str().expect("text");
    let judged = |text: &str| fs::write(&file, text).expect("written");
    judged("W 1 2 1 1 1 1\nR 3 4 1 1 1 2\n");
    assert_eq!(printed(&semduoli(&["judge", path])), "2 operations have an order (1 windows judged)\n");
    judged("W 1 2 1 1 1 1\nR 3 4 0 0 0 2\n");
    fails(&["judge", path], 7, "`W 1 2 1 1 1 1`");
    judged("W 1 2 1 1 1 1\nW 3 4 1 1 1 1\n");
    fails(&["judge", path], 4, "refused 18");
    judged("W 1 2 1 1 1 1\nhello\n");
    fails(&["judge", path], 4, "line 2");
    judged("W 5 2 1 1 1 1\n");
    fails(&["judge", path], 4, "refused 18");
    fs::remove_dir_all(&folder).expect("removed");
}

#[test]
fn wrong_accession_numbers_are_told_apart() {
    let nodes = Nodes::new("numbers", (4, 1, 2, 7));
    let desk = nodes.path("desk");
    for word in ["x", "", "+1", "1.0", "18446744073709551616", "\n"] {
        fails(&["find", "--folder", &desk, word], 1, "a number from 0 to 18446744073709551615 is wanted");
    }
    for word in ["lot 471", "lot 47110", ""] {
        fails(&["find", "--folder", &desk, "--text", word], 1, "the 8 bytes that a value begins with");
    }
    fails(&["find", "--folder", &desk, "1"], 4, "refused 26: a value of this register has 7 bytes");
}

#[test]
fn wrong_asks_are_refused_and_nothing_is_lost() {
    let mut nodes = Nodes::new("asks", SMALL);
    nodes.start_all();
    let desk = nodes.path("desk");
    let write = |more: &[&str]| semduoli(&[&["write", "--folder", &desk, "--client", "1"], more].concat());
    let good = write(&["12345678"]);
    assert_eq!(code(&good), 0, "{}", said(&good));
    fails(&["write", "--folder", &desk, "--client", "1", "123"], 4, "refused 3");
    fails(&["write", "--folder", &desk, "--client", "1", "123456789"], 4, "refused 3");
    fails(&["write", "--folder", &desk, "--client", "1", "--hex", "123"], 1, "hexadecimal");
    fails(&["write", "--folder", &desk, "--client", "9", "12345678"], 2, "refused 1");
    fails(&["write", "--folder", &nodes.path("s1"), "--client", "1", "12345678"], 2, "refused 1");
    fails(&["read", "--folder", &nodes.path("s1")], 2, "no desk");
    fails(&["read", "--folder", &desk], 1, "--client");
    fails(&["read", "--folder", &desk, "--client", "1", "--register", "3"], 4, "refused 7");
    fails(&["read", "--folder", &desk, "--client", "1", "--wait=-1"], 1, "seconds");
    fails(&["wait", "--folder", &desk, "--client", "1", "77"], 4, "refused 0");
    fails(&["write", "--folder", &desk, "--client", "1", "--file", "/nonexistent"], 1, "No such file");
    fails(&["write", "--folder", &desk, "--client", "1", "--file", "/dev/zero"], 4, "refused 3");
    fails(&["serve", &desk], 2, "a node runs in this folder already");
    assert!(printed(&write(&["--pad", "short"])).contains("written"));
    let read = semduoli(&["read", "--folder", &desk, "--client", "2"]);
    assert_eq!((code(&read), printed(&read).as_str()), (0, "short\n"), "{}", said(&read));
    let mut raw = nodes.desk();
    for line in ["{}", "[1]", "nothing", "{\"ask\":\"read\"}", "{\"ask\":\"read\",\"client\":300,\"register\":0}", "{\"ask\":\"status\",\"x\":1}"] {
        raw.tell_line(line).expect("sent");
        assert_eq!(raw.line().expect("an answer")["answer"], "error", "{line}");
    }
    let history = semduoli(&["history", "--folder", &desk]);
    assert_eq!(printed(&history).lines().count(), 3, "{}", printed(&history));
}
