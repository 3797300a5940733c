//! A node's page as a process, and requests to it.
#![allow(dead_code)] // each test uses some of it

use crate::common::PROGRAM;
use std::io::{BufRead, BufReader, Read, Write};
use std::net::TcpStream;
use std::process::{Child, Command, Stdio};
use std::time::{Duration, Instant};

const PATIENCE: Duration = Duration::from_secs(30);

/// The process `semduoli page`, and where it answers.
pub struct Page {
    process: Child,
    pub address: String,
}

impl Page {
    pub fn start(folder: &str) -> Page {
        let mut command = Command::new(PROGRAM);
        command.args(["page", folder, "--listen", "127.0.0.1:0"]).stdin(Stdio::null()).stdout(Stdio::piped()).stderr(Stdio::null());
        let mut process = command.spawn().expect("the page starts");
        let mut line = String::new();
        BufReader::new(process.stdout.as_mut().expect("output")).read_line(&mut line).expect("a line");
        let address = line.trim().strip_prefix("http://").and_then(|l| l.strip_suffix('/')).expect("an address").to_string();
        Page { process, address }
    }

    pub fn connect(&self) -> TcpStream {
        let stream = TcpStream::connect(&self.address).expect("a connection");
        stream.set_read_timeout(Some(PATIENCE)).expect("a time");
        stream
    }

    /// Sends these bytes, and takes the status, the head and the body of the answer.
    pub fn send(&self, request: &[u8]) -> (u16, String, String) {
        let mut stream = self.connect();
        stream.write_all(request).expect("sent");
        let mut bytes = vec![];
        stream.read_to_end(&mut bytes).expect("an answer");
        let text = String::from_utf8(bytes).expect("text");
        let (head, body) = text.split_once("\r\n\r\n").expect("a head");
        let status = head.split(' ').nth(1).and_then(|s| s.parse().ok()).expect("a status");
        (status, head.to_string(), body.to_string())
    }

    pub fn get(&self, path: &str) -> (u16, String, String) {
        self.send(format!("GET {path} HTTP/1.1\r\nHost: {}\r\n\r\n", self.address).as_bytes())
    }

    pub fn body(&self, path: &str) -> String {
        let (status, _, body) = self.get(path);
        assert_eq!(status, 200, "{path}: {body}");
        body
    }

    /// Waits until the page says something.
    pub fn wait_for(&self, part: &str) -> String {
        let until = Instant::now() + PATIENCE;
        loop {
            let body = self.body("/");
            if body.contains(part) {
                return body;
            }
            assert!(Instant::now() < until, "never {part}: {body}");
            std::thread::sleep(Duration::from_millis(50));
        }
    }
}

impl Drop for Page {
    fn drop(&mut self) {
        let _ = self.process.kill();
        let _ = self.process.wait();
    }
}
