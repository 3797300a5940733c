//! Operations of a desk: read, write, wait for one.

use super::{use_error, Desk};
use crate::failure::{code, Failure};
use crate::local::{Caller, Request};
use crate::out;
use crate::progress::Progress;
use semduoli::bytes::{hex, unhex};
use serde_json::Value;
use std::fs::OpenOptions;
use std::io::{Read, Write};
use std::path::Path;
use std::time::{Duration, Instant};

/// How often the servers that are awaited are looked at.
const LOOK: Duration = Duration::from_millis(500);
const VALUE_MOST: u64 = 256;

pub fn connect(folder: &Path) -> Result<Caller, Failure> {
    Caller::new(folder).map_err(|e| Failure::new(code::NO_NODE, format!("no node answers in {}: {e}; `semduoli serve` starts it", folder.display())))
}

fn gone(e: std::io::Error) -> Failure {
    Failure::new(code::NO_NODE, format!("the node stopped before it answered: {e}"))
}

/// Asks what is answered at once.
pub fn ask_once(folder: &Path, request: &Request) -> Result<Value, Failure> {
    let mut caller = connect(folder)?;
    caller.ask(request).map_err(gone)?;
    let mut line = vec![];
    let answer = caller.answer(&mut line, None).map_err(gone)?.unwrap_or(Value::Null);
    match answer["answer"].as_str() {
        Some("refused") => Err(refused(&answer)),
        Some("error") => Err(use_error(answer["why"].as_str().unwrap_or_default())),
        _ => Ok(answer),
    }
}

fn refused(answer: &Value) -> Failure {
    let (number, why) = (answer["number"].as_u64().unwrap_or(0), answer["why"].as_str().unwrap_or_default());
    let code = if number == 1 { code::CLUSTER } else { code::REFUSED };
    Failure::new(code, format!("refused {number}: {why}"))
}

/// The client that is meant: the one that is named, or the only one.
fn client(desk: &Desk) -> Result<u8, Failure> {
    if let Some(client) = desk.client {
        return Ok(client);
    }
    let status = ask_once(&desk.folder, &Request::Status {})?;
    let mut clients: Vec<u64> = status["status"]["desks"].as_array().into_iter().flatten().filter_map(|d| d["client"].as_u64()).collect();
    clients.dedup();
    match clients[..] {
        [only] => Ok(only as u8),
        [] => Err(Failure::new(code::CLUSTER, "this node has no desk: the cluster file lists no clients under it")),
        _ => Err(use_error(format!("this node has clients {clients:?}: --client says which"))),
    }
}

pub fn read(desk: &Desk, as_hex: bool, file: Option<&Path>, as_json: bool) -> Result<(), Failure> {
    if let Some(file) = file.filter(|f| f.exists()) {
        return Err(use_error(format!("{} is there already, and stays as it is", file.display())));
    }
    let client = client(desk)?;
    let ended = carry_out(desk, client, &Request::Read { client, register: desk.register })?;
    show(&ended, as_hex, file, as_json)
}

pub fn write(desk: &Desk, value: Option<String>, as_hex: bool, file: Option<&Path>, pad: bool, as_json: bool) -> Result<(), Failure> {
    let mut bytes = match (value, file) {
        (Some(text), _) if as_hex => unhex(&text).ok_or_else(|| use_error("the value is not an even number of hexadecimal digits"))?,
        (Some(text), _) => text.into_bytes(),
        (None, Some(file)) => contents(file)?,
        (None, None) => return Err(use_error("no value")),
    };
    if pad {
        let status = ask_once(&desk.folder, &Request::Status {})?;
        let length = status["program"]["length"].as_u64().unwrap_or(0) as usize;
        bytes.resize(bytes.len().max(length), b' ');
    }
    let client = client(desk)?;
    let ended = carry_out(desk, client, &Request::Write { client, register: desk.register, value: hex(&bytes) })?;
    show(&ended, false, None, as_json)
}

/// A file's bytes; of one that is far too long for a value no more than shows it.
fn contents(file: &Path) -> Result<Vec<u8>, Failure> {
    let mut bytes = vec![];
    let read = std::fs::File::open(file).and_then(|f| f.take(VALUE_MOST + 1).read_to_end(&mut bytes));
    read.map_err(|e| use_error(format!("{}: {e}", file.display())))?;
    if bytes.len() as u64 > VALUE_MOST {
        return Err(Failure::new(code::REFUSED, format!("refused 3: {} has more than {VALUE_MOST} bytes", file.display())));
    }
    Ok(bytes)
}

pub fn wait(desk: &Desk, operation: u64, as_hex: bool, as_json: bool) -> Result<(), Failure> {
    let client = client(desk)?;
    let ended = carry_out(desk, client, &Request::Wait { client, register: desk.register, operation })?;
    show(&ended, as_hex, None, as_json)
}

/// Asks for an operation and waits for its end.
fn carry_out(desk: &Desk, client: u8, request: &Request) -> Result<Value, Failure> {
    let until = match desk.wait {
        Some(s) => {
            let wait = Duration::try_from_secs_f64(s).map_err(|_| use_error(format!("--wait {s}: a number of seconds is wanted")))?;
            Some(Instant::now() + wait.min(Duration::from_secs(u32::MAX.into())))
        }
        None => None,
    };
    let mut caller = connect(&desk.folder)?;
    caller.ask(request).map_err(gone)?;
    let (mut line, mut progress, mut begun) = (vec![], Progress::new(), None);
    loop {
        let left = until.map(|u| u.saturating_duration_since(Instant::now()));
        let answer = caller.answer(&mut line, Some(left.unwrap_or(LOOK).min(LOOK))).map_err(|e| stopped(e, begun, client))?;
        let Some(answer) = answer else {
            if left.is_some_and(|l| l.is_zero()) {
                return Err(still_open(desk, client, begun));
            }
            progress.tell(|| awaited(&desk.folder, client));
            continue;
        };
        match answer["answer"].as_str() {
            Some("begun") => begun = answer["operation"].as_u64(),
            Some("ended") => return Ok(answer),
            Some("refused") => return Err(refused(&answer)),
            _ => return Err(use_error(answer["why"].as_str().unwrap_or("the node answers something else"))),
        }
    }
}

fn stopped(e: std::io::Error, begun: Option<u64>, client: u8) -> Failure {
    match begun {
        Some(operation) => Failure::new(
            code::NO_NODE,
            format!("the node stopped; operation {operation} goes on when it runs again: `semduoli wait {operation} --client {client}`"),
        ),
        None => gone(e),
    }
}

fn still_open(desk: &Desk, client: u8, begun: Option<u64>) -> Failure {
    let line = match begun {
        Some(operation) => {
            format!("still open, and goes on: {}; `semduoli wait {operation} --client {client}`", awaited(&desk.folder, client))
        }
        None => "not begun yet: it waits its turn behind other operations of this desk".into(),
    };
    Failure::new(code::OPEN, line)
}

/// Whom the client's open operation waits for, in words.
fn awaited(folder: &Path, client: u8) -> String {
    let Ok(status) = ask_once(folder, &Request::Status {}) else { return "waiting".into() };
    let desks = status["status"]["desks"].as_array();
    let desk = desks.into_iter().flatten().find(|d| d["client"] == client);
    let servers: Vec<String> = desk.and_then(|d| d["awaited"].as_array()).into_iter().flatten().map(|s| s.to_string()).collect();
    match (servers.is_empty(), status["status"]["open"].as_bool()) {
        (_, Some(false)) => "waiting until enough servers have greeted this node".into(),
        (true, _) => "waiting".into(),
        (false, _) => format!("waiting for servers {}", servers.join(", ")),
    }
}

fn show(ended: &Value, as_hex: bool, file: Option<&Path>, as_json: bool) -> Result<(), Failure> {
    let outcome = ended["outcome"].as_str().unwrap_or_default();
    let without = |line: &str| Failure::new(code::NO_VALUE, line);
    match outcome {
        "disagreement" => return Err(without("the read has ended without a value: the servers' blocks are not all of one value")),
        "out of stamps" => return Err(without("the write has closed: no stamp is left above the largest one; this client writes no more")),
        _ => {}
    }
    let value = ended["value"].as_str().and_then(unhex);
    if let (Some(file), Some(value)) = (file, &value) {
        let put = OpenOptions::new().write(true).create_new(true).open(file).and_then(|mut f| f.write_all(value).and_then(|()| f.sync_all()));
        put.map_err(|e| use_error(format!("{}: {e}", file.display())))?;
    }
    if as_json {
        let mut object = ended.clone();
        object.as_object_mut().map(|o| o.remove("answer"));
        return out::line(object);
    }
    let s = &ended["stamp"];
    let stamp = format!("time {}, client {}, write {}", s["time"], s["writer"], s["sequence"]);
    match value {
        Some(value) => {
            if file.is_none() {
                out::line(if as_hex { hex(&value) } else { text(&value) })?;
            }
            eprintln!("stamp: {stamp}");
            Ok(())
        }
        None => out::line(format!("written, stamp: {stamp}")),
    }
}

/// A value as text, without the spaces or zeros that fill it; as hexadecimal digits if it is none.
pub fn text(value: &[u8]) -> String {
    let end = value.iter().rposition(|b| *b != 0 && *b != b' ').map_or(0, |at| at + 1);
    match std::str::from_utf8(&value[..end]) {
        Ok(text) if end > 0 && !text.chars().any(char::is_control) => text.into(),
        _ => hex(value),
    }
}

#[cfg(test)]
mod tests {
    use super::*;
    use serde_json::json;

    #[test]
    fn values_are_shown_as_text_where_they_are_text() {
        assert_eq!(text(b"rye 92 %  "), "rye 92 %");
        assert_eq!(text("Gerste é\0\0".as_bytes()), "Gerste é");
        assert_eq!(text(&[0, 0]), "0000");
        assert_eq!(text(b"a\nb"), "610a62");
        assert_eq!(text(&[0xff, b' ']), "ff20");
    }

    #[test]
    fn a_refusal_of_the_client_is_one_of_the_cluster_file() {
        assert_eq!(refused(&json!({"number": 1, "why": "x"})).code, code::CLUSTER);
        assert_eq!(refused(&json!({"number": 3, "why": "x"})), Failure::new(code::REFUSED, "refused 3: x"));
    }
}
