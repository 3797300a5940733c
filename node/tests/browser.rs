//! The page in a browser: Debian's chromium without a window. `node/browser` installs it and runs this; `node/test` does so where chromium is there.
//! With SEMDUOLI_PICTURES the pictures of docs/NODE.md are put into that folder.
#[path = "common/chromium.rs"]
mod chromium;
mod common;
#[path = "common/site.rs"]
mod site;
#[path = "common/tricks.rs"]
mod tricks;

use chromium::{wait, Browser};
use common::{Desk, Nodes};
use serde_json::{json, Value};
use site::Page;
use std::fs;
use std::path::Path;
use tricks::{forget_what_was_read, frame, FalsePartner};

const SMALL: (usize, usize, usize, usize) = (4, 1, 2, 8);
const SCREEN: (u32, u32) = (740, 600);
const PHONE: (u32, u32) = (360, 740);
/// The least contrast of text that is easily read: WCAG's level AA.
const CONTRAST: f64 = 4.5;

const STAMP: &str = "document.querySelector('td[data-label=stamp]').textContent";
const LINKS: &str = "[...document.querySelectorAll('td[data-label=link]')].map(c => c.previousSibling.textContent + ' ' + c.textContent)";
const WIDTH: &str = "document.documentElement.scrollWidth";

/// Whether the page says something under "What needs attention".
fn attention(line: &str) -> String {
    format!("document.getElementById('attention-part').textContent.includes({})", json!(line))
}

/// The least contrast between text and what is behind it, of all elements that have text of their own.
const LEAST_CONTRAST: &str = "(() => {
    const linear = v => v <= 0.04045 ? v / 12.92 : ((v + 0.055) / 1.055) ** 2.4;
    const light = colour => {
        const [r, g, b] = colour.match(/[\\d.]+/g).slice(0, 3).map(v => linear(v / 255));
        return 0.2126 * r + 0.7152 * g + 0.0722 * b;
    };
    const contrast = (a, b) => (Math.max(a, b) + 0.05) / (Math.min(a, b) + 0.05);
    const paper = light(getComputedStyle(document.body).backgroundColor);
    const texts = [...document.body.querySelectorAll('*')].filter(e => [...e.childNodes].some(n => n.nodeType === 3 && n.data.trim()));
    return Math.min(...texts.map(e => contrast(light(getComputedStyle(e).color), paper)));
})()";

/// By keyboard, on a phone, in the dark, on paper.
fn looked_at_in_other_ways(browser: &mut Browser) {
    // by keyboard, round the page: the way past the links comes first, then each of them
    let reached: Vec<Value> = (0..20).map(|_| browser.press_tab()).collect();
    let order = ["#main", "#attention", "#partners", "#parties", "#history", "#run", "#log", "/status.json", "/metrics"];
    assert!(reached.windows(order.len()).any(|part| part == order), "{reached:?}");
    // nothing is wider than the screen of a phone
    browser.screen(PHONE, true);
    assert_eq!(browser.script(WIDTH), PHONE.0);
    let mut papers = vec![];
    for scheme in ["light", "dark"] {
        browser.call("Emulation.setEmulatedMedia", json!({ "features": [{ "name": "prefers-color-scheme", "value": scheme }] }));
        let contrast = browser.script(LEAST_CONTRAST).as_f64().expect("a contrast");
        assert!(contrast >= CONTRAST, "{scheme}: {contrast}");
        papers.push(browser.script("getComputedStyle(document.body).backgroundColor"));
    }
    assert!(papers[0] == "rgb(255, 255, 255)" && papers[1] != papers[0], "{papers:?}");
    // on paper it is black on white also where the screen is dark
    browser.call("Emulation.setEmulatedMedia", json!({ "media": "print", "features": [{ "name": "prefers-color-scheme", "value": "dark" }] }));
    assert_eq!(browser.script("getComputedStyle(document.body).backgroundColor"), papers[0]);
    let printed = browser.call("Page.printToPDF", json!({ "preferCSSPageSize": true }));
    assert!(printed["data"].as_str().is_some_and(|pdf| pdf.starts_with("JVBERi")), "no PDF");
}

#[test]
#[ignore = "needs Debian's chromium: run node/browser"]
fn a_browser_shows_what_the_node_says_and_goes_on_by_itself() {
    let mut nodes = Nodes::new("browser-nodes", SMALL);
    nodes.start_all();
    let mut desk = nodes.desk();
    assert_eq!(desk.write(1, b"one.....")["outcome"], "written");
    nodes.wait_for_rest();
    let page = Page::start(&nodes.path("s1"));
    let mut browser = Browser::start();
    browser.open(&page.address);

    let told: Value = serde_json::from_str(&page.body("/status.json")).expect("an object");
    let links: Vec<String> =
        told["status"]["partners"].as_array().expect("partners").iter().map(|p| format!("{} linked", p["name"].as_str().unwrap())).collect();
    assert_eq!(links.len(), 4);
    browser.wait_for(LINKS, json!(links));
    assert_eq!((browser.script(STAMP), &told["status"]["servers"][0]["stamp"]), (json!("1.1.1"), &json!([1, 1, 1])));

    // what changes is put in, and the page is not loaded anew
    browser.script("window.mark = 7; document.querySelector('[tabindex]').focus()");
    assert_eq!(desk.write(2, b"two.....")["outcome"], "written");
    browser.wait_for(STAMP, json!("2.2.1"));
    nodes.kill("s2");
    browser.wait_for(&attention("There is no link to s2."), json!(true));
    assert_eq!(browser.script("window.mark"), 7);
    assert_eq!(browser.script("document.activeElement.getAttribute('aria-label')"), "History of the desks, a picture");

    looked_at_in_other_ways(&mut browser);
    assert!(browser.complaints().is_empty(), "{:?}", browser.complaints());
    // all that was loaded is the page's own
    let loaded = browser.script("performance.getEntriesByType('resource').every(r => new URL(r.name).host === location.host)");
    assert_eq!(loaded, true);

    drop(page);
    browser.wait_for("document.getElementById('state').className", json!("state stale"));
}

/// Gives the nodes names as banks have them, and two of them desks.
fn as_banks(nodes: &Nodes) {
    for folder in nodes.names() {
        let path = nodes.at(&folder).join("cluster.toml");
        let mut text = fs::read_to_string(&path).expect("a cluster file");
        let changes =
            [("s1", "north"), ("s2", "south"), ("s3", "east"), ("s4", "west")].map(|(old, new)| (format!("\"{old}\""), format!("\"{new}\"")));
        let desks = [("server = 1\n", "server = 1\nclients = [1, 2]\n"), ("server = 3\n", "server = 3\nclients = [3, 4]\n")];
        let rest = [("clients = [1, 2, 3, 4, 5, 6, 7, 8]", "clients = [5, 6, 7, 8]")];
        for (old, new) in rest.iter().chain(&desks).map(|(a, b)| (a.to_string(), b.to_string())).chain(changes) {
            assert!(text.contains(&old), "{old}");
            text = text.replace(&old, &new);
        }
        fs::write(&path, text).expect("a cluster file");
    }
}

/// Waits for a line of attention, and takes a picture of the page up to the end of a part.
fn pictured(browser: &mut Browser, name: &str, line: &str, to: &str) {
    browser.wait_for(&attention(line), json!(true));
    let picture = browser.picture(to);
    assert!(picture.starts_with(b"\x89PNG"), "{name}");
    if let Some(folder) = std::env::var_os("SEMDUOLI_PICTURES") {
        fs::write(Path::new(&folder).join(format!("{name}.png")), picture).expect("a picture");
    }
}

/// Writes and reads of a bank's two desks.
fn a_season(folder: &Path, [one, two]: [u8; 2]) {
    let mut desk = Desk::new(folder).expect("the socket");
    for value in [b"rye 92 %", b"rye 88 %", b"rye 90 %"] {
        assert_eq!(desk.write(one, value)["outcome"], "written");
        assert_eq!(desk.read(two)["outcome"], "value");
    }
}

#[test]
#[ignore = "needs Debian's chromium: run node/browser"]
fn what_staff_must_see_is_on_the_page_in_words() {
    let mut nodes = Nodes::new("browser-banks", SMALL);
    as_banks(&nodes);
    nodes.start_all();
    a_season(&nodes.at("s1"), [1, 2]);
    a_season(&nodes.at("s3"), [3, 4]);
    nodes.wait_for_rest();
    let mut browser = Browser::start();
    browser.screen(SCREEN, false);
    let page = Page::start(&nodes.path("s1"));
    browser.open(&page.address);
    pictured(&mut browser, "healthy", "Nothing: all partners are linked", "section.history");

    nodes.kill("s2");
    let mut desk = Desk::new(&nodes.at("s1")).expect("the socket");
    assert_eq!(desk.write(1, b"oat 75 %")["outcome"], "written");
    let owed = "[...document.querySelectorAll('td[data-label=\"owed to it\"]')].map(c => c.textContent !== 'nothing')";
    browser.wait_for(owed, json!([true, false, false, false]));
    pictured(&mut browser, "away", "There is no link to south.", "section.partners");

    for name in ["s3", "s4"] {
        nodes.kill(name);
    }
    desk.tell(&json!({ "ask": "read", "client": 2, "register": 0 })).expect("asked");
    pictured(&mut browser, "open", "A read of client 2 has been open for 10 s or more; servers 2, 3, 4 have not answered.", "section.parties");
    for name in ["s2", "s3", "s4"] {
        nodes.start(name);
    }
    browser.wait_for(&attention("Nothing: all partners are linked"), json!(true));

    // server 4 is false from here on: an echo with a block that does not fit its digests, and an ack, which is for clients
    nodes.kill("s4");
    let mut partner = FalsePartner::new(&nodes, 4);
    let body = [&1u64.to_be_bytes()[..], &[7; 4 * 32], &[1, 2, 3, 4]].concat();
    partner.send(7, &frame(4, 7, 1, &body));
    partner.send(0, &frame(9, 7, 1, &[]));
    browser.wait_for("document.querySelectorAll('li.bad').length", json!(2));
    pictured(&mut browser, "false", "west has sent what no honest machine sends, 2 times: it may be a false machine.", "section.partners");

    // until the node rests, its own next batch does not fit the altered ones
    let east = wait("a history without order", || {
        forget_what_was_read(&nodes.at("s3"));
        Some(Page::start(&nodes.path("s3"))).filter(|page| page.body("/").contains("has no order"))
    });
    browser.open(&east.address);
    pictured(&mut browser, "offending", "The history of this node's desks has no order", "section.history");
    assert!(browser.complaints().is_empty(), "{:?}", browser.complaints());
}
