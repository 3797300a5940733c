//! What a node says of itself.

use super::desk::ask_once;
use crate::failure::Failure;
use crate::local::Request;
use crate::out;
use serde_json::{json, Value};
use std::path::Path;

pub fn snapshot(folder: &Path, as_json: bool) -> Result<(), Failure> {
    let answer = ask_once(folder, &Request::Snapshot {})?;
    match as_json {
        true => out::line(json!({ "batch": answer["batch"] })),
        false => out::line(format!("snapshot made; the log goes on from batch {}", answer["batch"])),
    }
}

pub fn status(folder: &Path, as_json: bool) -> Result<(), Failure> {
    let answer = ask_once(folder, &Request::Status {})?;
    if as_json {
        return out::line(json!({ "status": answer["status"], "program": answer["program"] }));
    }
    out::bytes(words(&answer["status"], &answer["program"]).as_bytes())
}

fn list(value: &Value) -> impl Iterator<Item = &Value> {
    value.as_array().into_iter().flatten()
}

fn plain(value: &Value) -> String {
    value.as_str().map_or_else(|| value.to_string(), str::to_string)
}

fn numbers(value: &Value) -> String {
    list(value).map(plain).collect::<Vec<_>>().join(", ")
}

/// Milliseconds in words.
fn age(ms: &Value) -> String {
    let s = ms.as_u64().unwrap_or(0) / 1000;
    match s {
        0..=119 => format!("{s} s"),
        120..=7199 => format!("{} min", s / 60),
        7200..=172_799 => format!("{} h", s / 3600),
        _ => format!("{} days", s / 86_400),
    }
}

fn words(status: &Value, program: &Value) -> String {
    let mut lines = vec![format!("node {}, version {}, up {} s", plain(&status["name"]), plain(&program["version"]), program["up"])];
    if status["open"] == false {
        lines.push("  WAITS until enough servers have greeted it since its start".into());
    }
    if list(&status["signs"]).next().is_some() {
        lines.push(format!("  WARNING: {} say that this node has lost state", numbers(&status["signs"])));
    }
    if let Some(alarm) = status["alarm"].as_str() {
        lines.push(format!("  ALARM: {alarm}"));
    }
    for s in list(&status["servers"]) {
        let (stamp, sequences) = (&s["stamp"], numbers(&s["sequences"]));
        let held = format!("stamp {}.{}.{}", stamp[0], stamp[1], stamp[2]);
        lines.push(format!(
            "  server {}, register {}: {held} (time.client.write); open writes of clients 1 to 8: {sequences}",
            s["number"], s["register"]
        ));
    }
    for d in list(&status["desks"]) {
        let open = match d["open"].as_str() {
            Some(kind) => format!("{kind} {} open for {}, awaits servers {}", d["operation"], age(&d["age"]), numbers(&d["awaited"])),
            None => "nothing open".into(),
        };
        let waiting = d["waiting"].as_u64().filter(|w| *w > 0).map_or(String::new(), |w| format!("; {w} wait their turn"));
        lines.push(format!("  client {}, register {}: {open}{waiting}", d["client"], d["register"]));
    }
    for p in list(&status["partners"]) {
        lines.push(partner(p));
    }
    let log = &status["log"];
    lines.push(format!(
        "  log: batch {}, segments {} to {}, {} steps, {} bytes; snapshot to batch {}; the last start replayed {} records",
        log["batch"], log["first_segment"], log["segment"], log["steps"], log["bytes"], log["snapshot"], log["replayed"]
    ));
    lines.push(format!("  strangers turned away: {}", program["turned_away"]));
    lines.extend(list(&program["strangers"]).map(|s| format!("    {}", plain(s))));
    lines.join("\n") + "\n"
}

fn partner(p: &Value) -> String {
    let link = match (p["linked"].as_bool(), p["why"].as_str()) {
        (Some(true), _) => "linked".to_string(),
        (_, Some(why)) if !why.is_empty() => format!("NO LINK ({why})"),
        _ => "NO LINK".into(),
    };
    let mut line = format!("  partner {}: {link}", plain(&p["name"]));
    if p["owed_frames"].as_u64().unwrap_or(0) > 0 {
        let mib = p["owed_log"].as_u64().unwrap_or(0) >> 20;
        line += &format!("; owed {} frames, in {mib} MiB of log, for {}", p["owed_frames"], age(&p["owed_age"]));
    }
    if p["given_up"] == true {
        line += "; GIVEN UP: nothing is owed to its server any more";
    }
    if p["held"].as_u64().unwrap_or(0) > 0 {
        line += &format!("; {} of its frames are held", p["held"]);
    }
    for r in list(&p["refused"]) {
        line += &format!("; refused {}: {} times", r[0], r[1]);
    }
    line
}

#[cfg(test)]
mod tests {
    use super::*;

    #[test]
    fn words_name_what_is_wrong() {
        let status = json!({
            "name": "north", "open": false, "signs": ["south"], "alarm": "no space",
            "servers": [{"number": 1, "register": 0, "stamp": [3, 1, 2], "sequences": [3, 1]}],
            "desks": [{"client": 2, "register": 0, "open": "read", "operation": 7, "age": 5000, "awaited": [2, 3], "waiting": 1}],
            "partners": [{"name": "south", "linked": false, "why": "refused", "owed_frames": 4, "owed_log": 9_000_000, "owed_age": 7_300_000, "held": 1,
                "given_up": true, "refused": [[12, 5]]}],
            "log": {},
        });
        let text = words(&status, &json!({"strangers": ["192.0.2.9:5: no certificate"]}));
        for part in [
            "WAITS until",
            "south say that",
            "ALARM: no space",
            "stamp 3.1.2",
            "read 7 open for 5 s, awaits servers 2, 3; 1 wait",
            "partner south: NO LINK (refused); owed 4 frames, in 8 MiB of log, for 2 h; GIVEN UP: nothing is owed to its server any more; 1 of its",
            "frames are held; refused 12: 5 times",
            "no certificate",
        ] {
            assert!(text.contains(part), "{part}: {text}");
        }
    }
}
