//! The page of a node as a browser gets it: what is on it is what the node says, and nothing but a GET to the own host is answered.
mod common;
#[path = "common/site.rs"]
mod site;

use common::{code, said, semduoli, Nodes};
use serde_json::Value;
use site::Page;
use std::io::Read;
use std::net::{TcpListener, TcpStream};

const SMALL: (usize, usize, usize, usize) = (4, 1, 2, 8);
/// Requests that the page answers at once.
const CONNECTIONS: usize = 16;

fn list(value: &Value) -> impl Iterator<Item = &Value> {
    value.as_array().into_iter().flatten()
}

/// Of a metric's sample the value.
fn sample(metrics: &str, name: &str) -> f64 {
    let line = metrics.lines().find_map(|l| l.strip_prefix(name)?.strip_prefix(' '));
    line.unwrap_or_else(|| panic!("no {name}: {metrics}")).parse().expect("a number")
}

#[test]
fn what_is_on_the_page_is_what_the_node_says() {
    let mut nodes = Nodes::new("page", SMALL);
    nodes.start_all();
    let (page, desks) = (Page::start(&nodes.path("s1")), Page::start(&nodes.path("desk")));
    let mut desk = nodes.desk();
    for value in [b"one.....", b"two.....", b"three..."] {
        assert_eq!(desk.write(1, value)["outcome"], "written");
        assert_eq!(desk.read(2)["outcome"], "value");
    }
    nodes.wait_for_rest();
    page.wait_for("Nothing: all partners are linked");
    let told: Value = serde_json::from_str(&page.body("/status.json")).expect("an object");
    assert_eq!(told["status"]["servers"], nodes.status("s1").expect("a status")["servers"]);
    let (html, metrics) = (page.body("/"), page.body("/metrics"));
    let stamp = &told["status"]["servers"][0]["stamp"];
    assert!(html.contains(&format!(">{}.{}.{}<", stamp[0], stamp[1], stamp[2])), "{stamp}: {html}");
    for partner in list(&told["status"]["partners"]) {
        let name = partner["name"].as_str().expect("a name");
        assert!(html.contains(&format!("<th scope=\"row\">{name}</th><td data-label=\"link\">linked</td>")), "{name}: {html}");
        assert_eq!(sample(&metrics, &format!("semduoli_partner_linked{{partner=\"{name}\"}}")), 1.0);
    }
    assert_eq!(sample(&metrics, "semduoli_server_stamp_time{server=\"1\",register=\"0\"}"), 3.0);
    assert_eq!(sample(&metrics, "semduoli_up"), 1.0);
    assert_eq!(list(&told["status"]["partners"]).count(), 4);

    let history = desks.body("/history.svg");
    assert!(history.starts_with("<svg ") && history.contains(">6 operations have an order, found by the proved judge.<"), "{history}");
    let (run, long) = (page.body("/run.svg"), page.body("/run.svg?rows=200"));
    assert!(run.contains(">get-stamp<") && run.contains(">read-complete<") && long.len() >= run.len(), "{run}");
}

#[test]
fn who_has_gone_and_who_has_not_answered_is_said() {
    let mut nodes = Nodes::new("page-gone", SMALL);
    nodes.start_all();
    let (page, desks) = (Page::start(&nodes.path("s1")), Page::start(&nodes.path("desk")));
    let mut desk = nodes.desk();
    nodes.kill("s2");
    page.wait_for("▲ There is no link to s2.");
    nodes.kill("s3");
    nodes.kill("s4");
    desk.tell(&serde_json::json!({ "ask": "read", "client": 3, "register": 0 })).expect("asked");
    let open = desks.wait_for("read 1 open for");
    assert!(open.contains("servers 2, 3, 4") || open.contains("servers 1, 2, 3, 4"), "{open}");
    nodes.kill("s1");
    let down = page.wait_for("The node does not answer");
    assert!(down.contains("<title>(1) Node s1</title>"), "{down}");
    assert_eq!((page.get("/status.json").0, sample(&page.body("/metrics"), "semduoli_up")), (503, 0.0));
}

#[test]
fn only_a_get_to_the_own_host_is_answered() {
    let nodes = Nodes::new("page-http", SMALL);
    let page = Page::start(&nodes.path("s1"));
    let host = &page.address;
    let port = host.rsplit(':').next().expect("a port");
    for (request, status) in [
        (format!("GET / HTTP/1.1\r\nHost: localhost:{port}\r\n\r\n"), 200),
        (format!("GET / HTTP/1.1\r\nHost: evil.example:{port}\r\n\r\n"), 421),
        ("GET / HTTP/1.1\r\nHost: 127.0.0.1\r\n\r\n".to_string(), 421),
        ("GET / HTTP/1.1\r\n\r\n".to_string(), 400),
        (format!("POST / HTTP/1.1\r\nHost: {host}\r\n\r\n"), 405),
        (format!("GET /../node.key HTTP/1.1\r\nHost: {host}\r\n\r\n"), 404),
        (format!("GET /node.key HTTP/1.1\r\nHost: {host}\r\n\r\n"), 404),
        (format!("GET /history.svg HTTP/1.1\r\nHost: {host}\r\n\r\n"), 503),
        ("\u{1}\r\n\r\n".to_string(), 400),
        (format!("GET / HTTP/1.1\r\nHost: {host}\r\nX: {}\r\n\r\n", "x".repeat(9000)), 431),
    ] {
        let (got, head, _) = page.send(request.as_bytes());
        assert_eq!(got, status, "{}", request.get(..80).unwrap_or(&request));
        assert!(head.contains("default-src 'none'") && head.contains("nosniff") && !head.contains("unsafe-inline"), "{head}");
    }
    assert!(page.body("/page.js").contains("setTimeout(once, every)") && page.body("/page.css").contains("@media print"));

    // callers that say nothing take all places, and hold nobody up for ever
    let mut silent: Vec<TcpStream> = (0..CONNECTIONS).map(|_| page.connect()).collect();
    assert_eq!(page.get("/page.css").0, 200);
    let mut told = String::new();
    silent[0].read_to_string(&mut told).expect("an answer");
    assert!(told.starts_with("HTTP/1.1 408 "), "{told}");
}

#[test]
fn a_page_that_cannot_begin_says_why() {
    let nodes = Nodes::new("page-wrong", SMALL);
    let held = TcpListener::bind("127.0.0.1:0").expect("a port");
    let address = held.local_addr().expect("an address").to_string();
    let own = nodes.path("s1");
    for (words, wanted, says) in [
        (vec!["page", "/nonexistent/folder"], 2, "no such folder"),
        (vec!["page", &own, "--listen", &address], 2, "in use"),
        (vec!["page", &own, "--listen", "here"], 1, "invalid"),
        (vec!["page"], 1, "Usage"),
    ] {
        let output = semduoli(&words);
        assert!(code(&output) == wanted && said(&output).contains(says), "{words:?}: {}", said(&output));
    }
}
