//! The page of a node: a process of its own that asks the node by its local socket and reads its log. It changes nothing, and no key is here.

use super::folder::read_own;
use super::recent::recent;
use crate::failure::{code, Failure};
use crate::local::{Caller, Request as Ask};
use crate::note::note;
use crate::{out, run};
use clap::Args;
use semduoli::cluster::Cluster;
use semduoli::draw::history::{self, Found};
use semduoli::draw::run::{Choice, Run};
use semduoli::draw::{bars, chart, Picture};
use semduoli::events::Level;
use semduoli::page::http::{self, Refusal, Response};
use semduoli::page::metrics;
use semduoli::page::view::{self, Pictures, Shown};
use serde_json::{json, Value};
use std::io::{Read, Write};
use std::net::{SocketAddr, TcpListener, TcpStream};
use std::path::PathBuf;
use std::sync::atomic::{AtomicUsize, Ordering};
use std::sync::{Arc, Mutex, PoisonError};
use std::time::{Duration, Instant, SystemTime, UNIX_EPOCH};

/// Requests that are answered at once.
const CONNECTIONS: usize = 16;
/// How long a request may take to come, an answer to go out, and the node to answer.
const PATIENCE: Duration = Duration::from_secs(5);
/// How long is waited for a place, and for what a caller still sends.
const PAUSE: Duration = Duration::from_millis(20);
const DRAIN: Duration = Duration::from_millis(200);
/// For how long what was read of the log is shown again, at least; and so many times as long as reading it took.
const FRESH: Duration = Duration::from_secs(2);
const FRESH_TIMES: u32 = 20;

#[derive(Args)]
pub struct Page {
    /// The node's folder
    folder: PathBuf,
    /// Where browsers call it; from other machines only if an address of this machine's network is named
    #[arg(long, default_value = "127.0.0.1:7071")]
    listen: SocketAddr,
    /// A name by which browsers may call it, beside the address itself; may be given more than once
    #[arg(long)]
    host: Vec<String>,
    /// The cluster file [default: cluster.toml in the folder]
    #[arg(long)]
    cluster: Option<PathBuf>,
}

/// What was read of the log, and drawn.
struct Drawn {
    history: Picture,
    run: Run,
    pictures: Pictures,
    /// The number of the last batch.
    batch: Option<u64>,
}

type Reading = Arc<Result<Drawn, String>>;

/// What was read, and until when it is shown without a look at the log.
struct Kept {
    until: Instant,
    reading: Reading,
}

struct Site {
    folder: PathBuf,
    cluster: Cluster,
    /// The node's place in the cluster file.
    me: usize,
    hosts: Vec<String>,
    busy: AtomicUsize,
    drawn: Mutex<Option<Kept>>,
}

/// Serves the page; comes back only if that can't begin.
pub fn page(page: Page, as_json: bool) -> Result<(), Failure> {
    let (cluster, me) = read_own(&page.folder, page.cluster.as_deref())?;
    let failed = |e: std::io::Error| Failure::new(code::CLUSTER, format!("{}: {e}", page.listen));
    let listener = TcpListener::bind(page.listen).map_err(failed)?;
    let address = listener.local_addr().map_err(failed)?;
    if !address.ip().is_loopback() {
        note(Level::Warning, &format!("whoever reaches {address} sees this page"));
    }
    match as_json {
        true => out::line(json!({ "page": format!("http://{address}/") }))?,
        false => out::line(format!("http://{address}/"))?,
    }
    let site = Site { folder: page.folder, cluster, me, hosts: page.host, busy: AtomicUsize::new(0), drawn: Mutex::new(None) };
    let site = Arc::new(site);
    loop {
        match listener.accept() {
            Ok((stream, _)) => site.take(stream),
            // no more files, or a caller that has gone: neither ends the page
            Err(_) => std::thread::sleep(PAUSE),
        }
    }
}

impl Site {
    /// Answers a connection in a thread of its own. While there are too many, further ones wait to be accepted.
    fn take(self: &Arc<Site>, mut stream: TcpStream) {
        while self.busy.load(Ordering::Acquire) >= CONNECTIONS {
            std::thread::sleep(PAUSE);
        }
        self.busy.fetch_add(1, Ordering::AcqRel);
        let site = self.clone();
        let begun = std::thread::Builder::new().spawn(move || {
            site.serve(&mut stream);
            site.busy.fetch_sub(1, Ordering::AcqRel);
        });
        if begun.is_err() {
            self.busy.fetch_sub(1, Ordering::AcqRel);
        }
    }

    fn serve(&self, stream: &mut TcpStream) {
        let Ok(local) = stream.local_addr() else { return };
        let response = receive(stream).and_then(|head| http::parse(&head)).map_or_else(Response::from, |request| self.respond(&request, local));
        let _ = stream.set_write_timeout(Some(PATIENCE));
        if stream.write_all(&response.bytes()).is_ok() && stream.shutdown(std::net::Shutdown::Write).is_ok() {
            drain(stream);
        }
    }

    fn respond(&self, request: &http::Request, local: SocketAddr) -> Response {
        if !http::is_own_host(&request.host, local, &self.hosts) {
            return http::OTHER_HOST.into();
        }
        match request.path.as_str() {
            "/" => self.view(),
            "/page.css" => Response::good(http::CSS, view::CSS),
            "/icon.svg" => Response::good(http::SVG, view::ICON),
            "/page.js" => Response::good(http::SCRIPT, view::SCRIPT),
            "/status.json" => self.status().map_or_else(|why| Response::refused(503, &why), |answer| Response::good(http::JSON, answer.to_string())),
            "/metrics" => Response::good(http::METRICS, metrics::metrics(self.status().ok().as_ref(), run::free_space(&self.folder))),
            "/history.svg" => self.picture(|d| d.history.svg.clone()),
            "/run.svg" => self.picture(|d| chart::draw(&d.run, &Choice { from: None, rows: rows(&request.query) }).svg),
            _ => http::NOT_THERE.into(),
        }
    }

    /// The node's answer to `status`, or why there is none.
    fn status(&self) -> Result<Value, String> {
        let failed = |e: std::io::Error| format!("no node answers in this folder ({e}); `semduoli serve` starts it");
        let mut caller = Caller::new(&self.folder).map_err(failed)?;
        caller.ask(&Ask::Status {}).map_err(failed)?;
        let answer = caller.answer(&mut vec![], Some(PATIENCE)).map_err(failed)?;
        let answer = answer.ok_or_else(|| format!("it has not answered for {} s", PATIENCE.as_secs()))?;
        match answer["answer"] == "status" {
            true => Ok(json!({ "status": answer["status"], "program": answer["program"] })),
            false => Err(answer["why"].as_str().unwrap_or("another answer than asked for").to_string()),
        }
    }

    fn view(&self) -> Response {
        let answer = self.status();
        let drawn = self.drawn(answer.as_ref().ok().and_then(|a| a["status"]["log"]["batch"].as_u64()));
        let shown = Shown {
            answer: answer.as_ref().map_err(String::as_str),
            pictures: (*drawn).as_ref().map(|d| &d.pictures).map_err(String::as_str),
            free: run::free_space(&self.folder),
            now: SystemTime::now().duration_since(UNIX_EPOCH).map_or(0, |d| d.as_millis() as u64),
            name: &self.cluster.nodes[self.me].name,
        };
        Response::good(http::HTML, view::page(&shown))
    }

    fn picture(&self, svg: impl Fn(&Drawn) -> String) -> Response {
        match &*self.drawn(None) {
            Ok(drawn) => Response::good(http::SVG, svg(drawn)),
            Err(why) => Response::refused(503, why),
        }
    }

    /// What the log says, read anew if it is not fresh, and has gone on to another batch than this. One thread reads, the others wait for it.
    fn drawn(&self, batch: Option<u64>) -> Reading {
        let mut kept = self.drawn.lock().unwrap_or_else(PoisonError::into_inner);
        let began = Instant::now();
        if let Some(Kept { until, reading }) = &*kept {
            let same = batch.is_some() && matches!(&**reading, Ok(drawn) if drawn.batch == batch);
            if began < *until || same {
                return reading.clone();
            }
        }
        let reading = Arc::new(self.read());
        let until = Instant::now() + FRESH.max(began.elapsed() * FRESH_TIMES);
        *kept = Some(Kept { until, reading: reading.clone() });
        reading
    }

    fn read(&self) -> Result<Drawn, String> {
        let recent = recent(&self.folder, &self.cluster).map_err(|f| f.line)?;
        let count = recent.lines.len();
        let mut history = history::of_lines(recent.lines, &mut |_, _| {}).map_err(|w| w.what)?;
        history.of =
            format!("The last {count} operations of this node's desks that have ended, by the node's own clock, which counts begins and ends.");
        let run = chart::draw(&recent.run, &Choice { from: None, rows: chart::ROWS });
        let no_order = history.found != Found::Order;
        let history = bars::draw(&history);
        let pictures = Pictures { history: history.line.clone(), run: run.line, no_order, last_batch: recent.last_batch.map(|(_, wall)| wall) };
        Ok(Drawn { history, run: recent.run, pictures, batch: recent.last_batch.map(|(number, _)| number) })
    }
}

/// How many steps are asked for: `rows=N`.
fn rows(query: &str) -> usize {
    let asked = query.split('&').find_map(|part| part.strip_prefix("rows=")?.parse().ok());
    asked.unwrap_or(chart::ROWS).clamp(1, chart::ROWS_MOST)
}

/// Takes what a caller still sends, for a moment: a connection that is closed before would be reset, and its answer lost.
fn drain(stream: &mut TcpStream) {
    let until = Instant::now() + DRAIN;
    let mut room = [0; http::HEAD_MOST];
    while stream.set_read_timeout(Some(DRAIN)).is_ok() && Instant::now() < until {
        if !matches!(stream.read(&mut room), Ok(n) if n > 0) {
            return;
        }
    }
}

/// The head of a request, all of it in time.
fn receive(stream: &mut TcpStream) -> Result<Vec<u8>, Refusal> {
    let until = Instant::now() + PATIENCE;
    let (mut head, mut room) = (vec![], [0; 1024]);
    loop {
        match http::head_length(&head) {
            Some(length) if length <= http::HEAD_MOST => {
                head.truncate(length);
                return Ok(head);
            }
            None if head.len() < http::HEAD_MOST => {}
            _ => return Err(http::TOO_LONG),
        }
        let left = until.saturating_duration_since(Instant::now());
        if left.is_zero() || stream.set_read_timeout(Some(left)).is_err() {
            return Err(http::TOO_LATE);
        }
        match stream.read(&mut room) {
            Ok(0) | Err(_) => return Err(http::TOO_LATE),
            Ok(n) => head.extend_from_slice(&room[..n]),
        }
    }
}

#[cfg(test)]
mod tests {
    use super::*;

    #[test]
    fn the_number_of_steps_is_bounded() {
        for (query, wanted) in [("", 64), ("9", 64), ("rows=200", 200), ("rows=100000", 200), ("rows=0", 1), ("rows=x", 64), ("a=1&rows=7", 7)] {
            assert_eq!(rows(query), wanted, "{query}");
        }
    }
}
