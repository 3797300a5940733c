//! Debian's chromium without a window, asked by its debugging protocol.

use crate::common::temporary;
use serde_json::{json, Value};
use std::fs;
use std::io::{Read, Write};
use std::net::TcpStream;
use std::path::PathBuf;
use std::process::{Child, Command, Stdio};
use std::time::{Duration, Instant};

const PATIENCE: Duration = Duration::from_secs(60);
const LOOK: Duration = Duration::from_millis(50);
/// Whether all pictures of the page have come.
const DRAWN: &str = "[...document.images].every(i => i.complete && i.naturalWidth > 0)";

pub struct Browser {
    _process: Process,
    socket: TcpStream,
    asked: u64,
    /// What the browser told meanwhile.
    events: Vec<Value>,
}

pub fn wait<T>(what: &str, mut look: impl FnMut() -> Option<T>) -> T {
    let until = Instant::now() + PATIENCE;
    loop {
        if let Some(found) = look() {
            return found;
        }
        assert!(Instant::now() < until, "never {what}");
        std::thread::sleep(LOOK);
    }
}

/// The address of the browser's first tab, on its debugging port.
fn tab(port: &str) -> Option<String> {
    let mut stream = TcpStream::connect(format!("127.0.0.1:{port}")).ok()?;
    stream.set_read_timeout(Some(PATIENCE)).ok()?;
    write!(stream, "GET /json/list HTTP/1.1\r\nHost: 127.0.0.1:{port}\r\n\r\n").ok()?;
    let head = head_of(&mut stream);
    let length = head.lines().find_map(|l| l.strip_prefix("Content-Length:"))?.trim().parse().ok()?;
    let mut body = vec![0; length];
    stream.read_exact(&mut body).ok()?;
    let tabs: Value = serde_json::from_slice(&body).ok()?;
    let tab = tabs.as_array()?.iter().find(|t| t["type"] == "page")?;
    Some(tab["webSocketDebuggerUrl"].as_str()?.split_once("//")?.1.split_once('/')?.1.to_string())
}

/// The head of an answer of HTTP.
fn head_of(stream: &mut TcpStream) -> String {
    let mut head = vec![];
    while !head.ends_with(b"\r\n\r\n") {
        let mut byte = [0];
        stream.read_exact(&mut byte).expect("an answer");
        head.push(byte[0]);
    }
    String::from_utf8(head).expect("text")
}

/// A process that is ended with the test, however that ends.
struct Process(Child, PathBuf);

impl Drop for Process {
    fn drop(&mut self) {
        let _ = self.0.kill();
        let _ = self.0.wait();
        let _ = fs::remove_dir_all(&self.1);
    }
}

impl Browser {
    pub fn start() -> Browser {
        let folder = temporary("browser");
        let mut command = Command::new("chromium");
        command.args(["--headless", "--no-sandbox", "--disable-gpu", "--disable-lcd-text", "--hide-scrollbars", "--remote-debugging-port=0"]);
        command.arg(format!("--user-data-dir={}", folder.display())).arg("about:blank");
        command.stdin(Stdio::null()).stdout(Stdio::null()).stderr(Stdio::null());
        let process = Process(command.spawn().expect("chromium runs; node/browser installs it"), folder.clone());
        let port = wait("a port", || fs::read_to_string(folder.join("DevToolsActivePort")).ok()?.lines().next().map(str::to_string));
        let path = wait("a tab", || tab(&port));
        let mut socket = TcpStream::connect(format!("127.0.0.1:{port}")).expect("a connection");
        socket.set_read_timeout(Some(PATIENCE)).expect("a time");
        let request = "Upgrade: websocket\r\nConnection: Upgrade\r\nSec-WebSocket-Key: AAAAAAAAAAAAAAAAAAAAAA==\r\nSec-WebSocket-Version: 13";
        write!(socket, "GET /{path} HTTP/1.1\r\nHost: 127.0.0.1:{port}\r\n{request}\r\n\r\n").expect("sent");
        assert!(head_of(&mut socket).starts_with("HTTP/1.1 101 "));
        let mut browser = Browser { _process: process, socket, asked: 0, events: vec![] };
        for domain in ["Page", "Runtime", "Log"] {
            browser.call(&format!("{domain}.enable"), json!({}));
        }
        browser
    }

    /// A message of the socket: its frames, put together.
    fn receive(&mut self) -> Value {
        let mut message = vec![];
        loop {
            let [first, second] = self.take::<2>();
            let length = match second & 0x7f {
                126 => u16::from_be_bytes(self.take()).into(),
                127 => u64::from_be_bytes(self.take()),
                short => short.into(),
            };
            let mut piece = vec![0; length as usize];
            self.socket.read_exact(&mut piece).expect("a frame");
            message.extend(piece);
            if first & 0x80 != 0 {
                return serde_json::from_slice(&message).expect("an object");
            }
        }
    }

    fn take<const N: usize>(&mut self) -> [u8; N] {
        let mut bytes = [0; N];
        self.socket.read_exact(&mut bytes).expect("a frame");
        bytes
    }

    pub fn call(&mut self, method: &str, parameters: Value) -> Value {
        self.asked += 1;
        let text = json!({ "id": self.asked, "method": method, "params": parameters }).to_string();
        // a frame of text with a mask of zeros
        let mut frame = vec![0x81, 0x80 | 127];
        frame.extend((text.len() as u64).to_be_bytes());
        frame.extend([0; 4]);
        frame.extend(text.as_bytes());
        self.socket.write_all(&frame).expect("sent");
        loop {
            let message = self.receive();
            if message["id"] == self.asked {
                assert!(message["error"].is_null(), "{method}: {message}");
                return message["result"].clone();
            }
            self.events.push(message);
        }
    }

    pub fn script(&mut self, expression: &str) -> Value {
        self.call("Runtime.evaluate", json!({ "expression": expression, "returnByValue": true }))["result"]["value"].clone()
    }

    /// Waits until an expression has a value.
    pub fn wait_for(&mut self, expression: &str, wanted: Value) {
        let until = Instant::now() + PATIENCE;
        loop {
            let found = self.script(expression);
            if found == wanted {
                return;
            }
            assert!(Instant::now() < until, "{expression}: {found}, never {wanted}");
            std::thread::sleep(LOOK);
        }
    }

    /// Loads a page, with all its pictures.
    pub fn open(&mut self, address: &str) {
        self.call("Page.navigate", json!({ "url": format!("http://{address}/") }));
        self.wait_for(&format!("location.host === '{address}' && document.readyState"), json!("complete"));
        self.wait_for(DRAWN, json!(true));
    }

    pub fn press_tab(&mut self) -> Value {
        for kind in ["keyDown", "keyUp"] {
            self.call("Input.dispatchKeyEvent", json!({ "type": kind, "key": "Tab", "code": "Tab", "windowsVirtualKeyCode": 9 }));
        }
        self.script("document.activeElement.getAttribute('href') ?? document.activeElement.getAttribute('aria-label')")
    }

    /// The screen that pages are laid out for.
    pub fn screen(&mut self, (width, height): (u32, u32), mobile: bool) {
        self.call("Emulation.setDeviceMetricsOverride", json!({ "width": width, "height": height, "deviceScaleFactor": 1, "mobile": mobile }));
    }

    /// A picture (PNG) of the page from its top to the end of a part.
    pub fn picture(&mut self, to: &str) -> Vec<u8> {
        let height = self.script(&format!("Math.ceil(document.querySelector('{to}').getBoundingClientRect().bottom + scrollY) + 8"));
        let width = self.script("document.documentElement.clientWidth");
        let clip = json!({ "x": 0, "y": 0, "width": width, "height": height, "scale": 1 });
        let taken = self.call("Page.captureScreenshot", json!({ "format": "png", "clip": clip, "captureBeyondViewport": true }));
        openssl::base64::decode_block(taken["data"].as_str().expect("a picture")).expect("bytes")
    }

    /// What the browser complained of: refused scripts and styles, missing files, exceptions.
    pub fn complaints(&self) -> Vec<&Value> {
        let bad = |e: &&Value| e["method"] == "Runtime.exceptionThrown" || e["params"]["entry"]["level"] == "error";
        self.events.iter().filter(bad).collect()
    }
}
