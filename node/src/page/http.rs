//! As much of HTTP as a page needs that is only looked at: one GET on a connection, whose `Host` is the own; everything else is refused.

use std::net::SocketAddr;

/// The longest head of a request that is taken.
pub const HEAD_MOST: usize = 8192;
const TARGET_MOST: usize = 200;
const HEADERS_MOST: usize = 64;
const HTTP_PORT: u16 = 80;
/// Only what this server serves is loaded; nothing inline; the page is not framed.
const HEADERS: &str = "Content-Security-Policy: default-src 'none'; img-src 'self'; style-src 'self'; script-src 'self'; connect-src 'self'; \
base-uri 'none'; form-action 'none'; frame-ancestors 'none'\r\n\
X-Content-Type-Options: nosniff\r\nReferrer-Policy: no-referrer\r\nCross-Origin-Resource-Policy: same-origin\r\nCache-Control: no-store\r\n\
Connection: close\r\n";

/// What is asked for.
#[derive(Clone, Debug, PartialEq, Eq)]
pub struct Request {
    pub path: String,
    pub query: String,
    pub host: String,
}

/// Why nothing is given: HTTP's number, and a line.
#[derive(Clone, Copy, Debug, PartialEq, Eq)]
pub struct Refusal {
    pub status: u16,
    pub why: &'static str,
}

const fn refusal(status: u16, why: &'static str) -> Refusal {
    Refusal { status, why }
}

pub const TOO_LATE: Refusal = refusal(408, "the request did not come in time");
pub const TOO_LONG: Refusal = refusal(431, "the request is too long");
pub const OTHER_HOST: Refusal = refusal(421, "this is not the host that was asked for");
pub const NOT_THERE: Refusal = refusal(404, "there is no such page");
const MALFORMED: Refusal = refusal(400, "no request of HTTP");

/// How many bytes the head of a request has, once all of it has come.
pub fn head_length(bytes: &[u8]) -> Option<usize> {
    bytes.windows(4).position(|w| w == b"\r\n\r\n").map(|at| at + 4)
}

/// Reads the head of a request.
pub fn parse(head: &[u8]) -> Result<Request, Refusal> {
    let text = std::str::from_utf8(head).ok().filter(|t| t.is_ascii()).ok_or(MALFORMED)?;
    let mut lines = text.strip_suffix("\r\n\r\n").ok_or(MALFORMED)?.split("\r\n");
    let (method, target) = match lines.next().unwrap_or_default().split(' ').collect::<Vec<_>>()[..] {
        [method, target, "HTTP/1.1" | "HTTP/1.0"] => (method, target),
        _ => return Err(MALFORMED),
    };
    if target.len() > TARGET_MOST || !target.starts_with('/') || !target.bytes().all(|b| b.is_ascii_graphic()) {
        return Err(MALFORMED);
    }
    let mut hosts = vec![];
    for (count, line) in lines.enumerate() {
        let (name, value) = line.split_once(':').ok_or(MALFORMED)?;
        if count >= HEADERS_MOST || name.is_empty() || !name.bytes().all(|b| b.is_ascii_alphanumeric() || b == b'-' || b == b'_') {
            return Err(MALFORMED);
        }
        let value = value.trim_matches([' ', '\t']);
        match name.to_ascii_lowercase().as_str() {
            "host" => hosts.push(value),
            "transfer-encoding" => return Err(MALFORMED),
            "content-length" if value != "0" => return Err(MALFORMED),
            _ => {}
        }
    }
    let [host] = hosts[..] else { return Err(refusal(400, "one Host is wanted")) };
    if method != "GET" {
        return Err(refusal(405, "only GET is answered"));
    }
    let (path, query) = target.split_once('?').unwrap_or((target, ""));
    Ok(Request { path: path.into(), query: query.into(), host: host.to_ascii_lowercase() })
}

/// Whether a request's host is this server: the address that the connection came to, `localhost` for the machine itself, or a name that was given. Another
/// name that leads here is a trick to let a foreign page read this one.
pub fn is_own_host(host: &str, local: SocketAddr, names: &[String]) -> bool {
    let port = local.port();
    let bare = match local.ip() {
        std::net::IpAddr::V4(ip) => ip.to_string(),
        std::net::IpAddr::V6(ip) => format!("[{ip}]"),
    };
    let localhost = local.ip().is_loopback().then(|| "localhost".to_string());
    let mut own = [bare].into_iter().chain(localhost).chain(names.iter().map(|n| n.to_ascii_lowercase()));
    own.any(|name| host == format!("{name}:{port}") || port == HTTP_PORT && host == name)
}

/// An answer.
#[derive(Clone, Debug, PartialEq, Eq)]
pub struct Response {
    pub status: u16,
    pub kind: &'static str,
    pub body: Vec<u8>,
}

pub const HTML: &str = "text/html; charset=utf-8";
pub const CSS: &str = "text/css; charset=utf-8";
pub const SCRIPT: &str = "text/javascript; charset=utf-8";
pub const JSON: &str = "application/json";
pub const SVG: &str = "image/svg+xml";
pub const METRICS: &str = "text/plain; version=0.0.4; charset=utf-8";
const TEXT: &str = "text/plain; charset=utf-8";

impl Response {
    pub fn good(kind: &'static str, body: impl Into<Vec<u8>>) -> Response {
        Response { status: 200, kind, body: body.into() }
    }

    /// An answer of text that says why there is nothing else.
    pub fn refused(status: u16, why: &str) -> Response {
        Response { status, kind: TEXT, body: format!("{why}\n").into_bytes() }
    }

    pub fn bytes(&self) -> Vec<u8> {
        let reason = match self.status {
            200 => "OK",
            400 => "Bad Request",
            404 => "Not Found",
            405 => "Method Not Allowed",
            408 => "Request Timeout",
            421 => "Misdirected Request",
            431 => "Request Header Fields Too Large",
            _ => "Service Unavailable",
        };
        let allow = if self.status == 405 { "Allow: GET\r\n" } else { "" };
        let length = self.body.len();
        let mut bytes =
            format!("HTTP/1.1 {} {reason}\r\nContent-Type: {}\r\nContent-Length: {length}\r\n{allow}{HEADERS}\r\n", self.status, self.kind)
                .into_bytes();
        bytes.extend_from_slice(&self.body);
        bytes
    }
}

impl From<Refusal> for Response {
    fn from(r: Refusal) -> Response {
        Response::refused(r.status, r.why)
    }
}

#[cfg(test)]
mod tests {
    use super::*;
    use crate::random::Random;

    const GOOD: &[u8] = b"GET /run.svg?rows=200 HTTP/1.1\r\nHost: LOCALHOST:7071\r\nAccept: */*\r\n\r\n";

    #[test]
    fn one_get_is_taken_and_nothing_else() {
        let request = Request { path: "/run.svg".into(), query: "rows=200".into(), host: "localhost:7071".into() };
        assert_eq!(parse(GOOD), Ok(request));
        assert_eq!(head_length(GOOD), Some(GOOD.len()));
        for (head, status) in [
            ("", 400),
            ("GET / HTTP/1.1\r\n", 400),
            ("GET / HTTP/1.1\r\n\r\n", 400),
            ("GET / HTTP/2\r\nHost: a\r\n\r\n", 400),
            ("GET  / HTTP/1.1\r\nHost: a\r\n\r\n", 400),
            ("GET http://a/ HTTP/1.1\r\nHost: a\r\n\r\n", 400),
            ("GET / HTTP/1.1\r\nHost: a\r\nHost: a\r\n\r\n", 400),
            ("GET / HTTP/1.1\r\nHost: a\r\n folded\r\n\r\n", 400),
            ("GET / HTTP/1.1\r\nHost : a\r\n\r\n", 400),
            ("GET / HTTP/1.1\r\nHost: a\r\nContent-Length: 3\r\n\r\n", 400),
            ("GET / HTTP/1.1\r\nHost: a\r\nTransfer-Encoding: chunked\r\n\r\n", 400),
            ("POST / HTTP/1.1\r\nHost: a\r\n\r\n", 405),
            ("HEAD / HTTP/1.1\r\nHost: a\r\n\r\n", 405),
        ] {
            assert_eq!(parse(head.as_bytes()).unwrap_err().status, status, "{head:?}");
        }
    }

    #[test]
    fn only_the_own_host_is_answered() {
        let local: SocketAddr = "127.0.0.1:7071".parse().unwrap();
        let outer: SocketAddr = "192.0.2.1:80".parse().unwrap();
        for (host, at, own) in [
            ("127.0.0.1:7071", local, true),
            ("localhost:7071", local, true),
            ("north.example:7071", local, true),
            ("127.0.0.1", local, false),
            ("127.0.0.1:80", local, false),
            ("127.0.0.1:7071.evil.example", local, false),
            ("evil.example:7071", local, false),
            ("", local, false),
            ("192.0.2.1", outer, true),
            ("192.0.2.1:80", outer, true),
            ("localhost", outer, false),
            ("[::1]:7071", "[::1]:7071".parse().unwrap(), true),
        ] {
            assert_eq!(is_own_host(host, at, &["North.example".into()]), own, "{host} at {at}");
        }
    }

    #[test]
    fn no_bytes_make_a_panic() {
        let mut random = Random::new(7);
        for _ in 0..20_000 {
            let mut head = GOOD.to_vec();
            for _ in 0..1 + random.below(4) {
                let at = random.below(head.len() as u64) as usize;
                head[at] = random.next() as u8;
            }
            head.truncate(random.below(head.len() as u64 + 1) as usize);
            let _ = (parse(&head), head_length(&head));
        }
    }

    #[test]
    fn an_answer_says_what_may_be_loaded() {
        let text = String::from_utf8(Response::good(HTML, "x").bytes()).unwrap();
        assert!(
            text.starts_with("HTTP/1.1 200 OK\r\nContent-Type: text/html; charset=utf-8\r\nContent-Length: 1\r\n") && text.ends_with("\r\n\r\nx")
        );
        assert!(text.contains("default-src 'none'") && !text.contains("unsafe"));
        assert!(String::from_utf8(Response::refused(405, "no").bytes()).unwrap().contains("\r\nAllow: GET\r\n"));
    }
}
