//! The page itself, from a node's answer to `status`. All text is escaped; nothing is inline.

use super::times::{age, size, utc};
use crate::draw::svg::escape;
use crate::draw::words::{refusal, sign, Sign};
use serde_json::Value;

pub const CSS: &str = include_str!("page.css");
pub const SCRIPT: &str = include_str!("page.js");
/// What a browser shows beside the title: four blocks, one of them away.
pub const ICON: &str =
    "<svg xmlns=\"http://www.w3.org/2000/svg\" viewBox=\"0 0 8 8\"><path fill=\"#222\" d=\"M0 0h3v3h-3zM5 0h3v3h-3zM0 5h3v3h-3z\"/>\
<path fill=\"none\" stroke=\"#222\" d=\"M5.5 5.5h2v2h-2z\"/></svg>\n";
/// An operation that has been open for so many ms needs attention.
const LONG_OPEN: u64 = 10_000;
const AGES: [u64; 5] = [LONG_OPEN, 60_000, 600_000, 3_600_000, 86_400_000];
/// So few bytes free need attention: a node does not start with fewer than 64 MiB.
const LITTLE_SPACE: u64 = 1 << 30;

/// What the pictures say, in words, and what is read of the log.
#[derive(Clone, Debug, Default, PartialEq)]
pub struct Pictures {
    pub history: String,
    pub run: String,
    /// Whether the history has no order.
    pub no_order: bool,
    /// When the last batch was made, in ms since 1970.
    pub last_batch: Option<u64>,
}

/// All that is shown.
pub struct Shown<'a> {
    /// The node's answer to `status`, or why there is none.
    pub answer: Result<&'a Value, &'a str>,
    pub pictures: Result<&'a Pictures, &'a str>,
    pub free: Option<u64>,
    /// ms since 1970.
    pub now: u64,
    /// The node's name by the cluster file: it has one also while it does not answer.
    pub name: &'a str,
}

fn list(value: &Value) -> impl Iterator<Item = &Value> {
    value.as_array().into_iter().flatten()
}

/// A value as text, not escaped.
fn plain(value: &Value) -> String {
    value.as_str().map_or_else(|| value.to_string(), str::to_string)
}

fn joined(value: &Value) -> String {
    list(value).map(plain).collect::<Vec<_>>().join(", ")
}

fn count(value: &Value) -> u64 {
    value.as_u64().unwrap_or(0)
}

fn times(n: u64) -> String {
    if n == 1 {
        "once".into()
    } else {
        format!("{n} times")
    }
}

/// What a person should look at, most pressing first.
pub fn attention(shown: &Shown) -> Vec<String> {
    let mut all = vec![];
    if shown.pictures.is_ok_and(|p| p.no_order) {
        all.push("The history of this node's desks has no order: something is wrong with more than t servers. Keep everything.".into());
    }
    match shown.answer {
        Ok(answer) => of_status(&answer["status"], &mut all),
        Err(why) => all.push(format!("The node does not answer: {why}")),
    }
    if let Some(free) = shown.free.filter(|f| *f < LITTLE_SPACE) {
        all.push(format!("Little space is left on the disk: {}.", size(free)));
    }
    all
}

fn of_status(status: &Value, all: &mut Vec<String>) {
    if list(&status["signs"]).next().is_some() {
        all.push(format!("{} say that this node has lost state.", joined(&status["signs"])));
    }
    if let Some(alarm) = status["alarm"].as_str() {
        all.push(format!("Nothing new is taken: {alarm}"));
    }
    if status["open"] == false {
        all.push("The node waits until enough servers have greeted it since its start.".into());
    }
    for p in list(&status["partners"]) {
        let name = plain(&p["name"]);
        let bad: u64 = list(&p["refused"]).filter(|r| sign(count(&r[0]) as u8) == Sign::False).map(|r| count(&r[1])).sum();
        if bad > 0 {
            all.push(format!("{name} has sent what no honest machine sends, {}: it may be a false machine.", times(bad)));
        }
        if p["given_up"] == true {
            all.push(format!("{name} is given up: nothing is owed to its server any more."));
        }
        if p["linked"] == false {
            all.push(format!("There is no link to {name}."));
        }
    }
    for d in list(&status["desks"]).filter(|d| d["open"].is_string() && count(&d["age"]) >= LONG_OPEN) {
        let (client, kind, long) = (&d["client"], plain(&d["open"]), at_least(count(&d["age"])));
        all.push(format!("A {kind} of client {client} has been open for {long}; servers {} have not answered.", joined(&d["awaited"])));
    }
}

/// How long at least, in few steps: what needs attention is read out anew whenever its words change.
fn at_least(ms: u64) -> String {
    let step = AGES.iter().rev().find(|step| **step <= ms).unwrap_or(&LONG_OPEN);
    format!("{} or more", age(*step))
}

/// The whole page.
pub fn page(shown: &Shown) -> String {
    let attention = attention(shown);
    let mark = if attention.is_empty() { String::new() } else { format!("({}) ", attention.len()) };
    let parts = [
        live_part("attention", "What needs attention", " role=\"status\"", &attention_part(&attention)),
        shown.answer.map_or_else(|_| String::new(), of_answer),
        pictures(shown),
        part("log", "Log and disk", &log_part(shown)),
    ];
    format!(
        "<!DOCTYPE html>\n<html lang=\"en\">\n<head>\n<meta charset=\"utf-8\">\n<title>{mark}Node {0}</title>\n\
         <meta name=\"viewport\" content=\"width=device-width, initial-scale=1\">\n<link rel=\"stylesheet\" href=\"/page.css\">\n\
         <link rel=\"icon\" href=\"/icon.svg\" type=\"image/svg+xml\">\n\
         <script src=\"/page.js\" defer></script>\n</head>\n<body>\n<a class=\"skip\" href=\"#main\">To what is shown</a>\n<header>\n\
         <h1>Node {0}</h1>\n<p class=\"state\" id=\"state\" data-part>{1}</p>\n\
         <noscript><p>This page goes on by itself where scripts are allowed; here it is loaded anew by hand.</p></noscript>\n\
         {NAVIGATION}</header>\n<main id=\"main\">\n{2}</main>\n</body>\n</html>\n",
        escape(shown.name),
        escape(&state(shown)),
        parts.concat()
    )
}

const NAVIGATION: &str = "<nav aria-label=\"Parts of this page\"><ul>\
<li><a href=\"#attention\">Attention</a></li><li><a href=\"#partners\">Partners</a></li><li><a href=\"#parties\">Server and desks</a></li>\
<li><a href=\"#history\">History</a></li><li><a href=\"#run\">Steps</a></li><li><a href=\"#log\">Log</a></li>\
<li><a href=\"/status.json\">status.json</a></li><li><a href=\"/metrics\">metrics</a></li></ul></nav>\n";

fn state(shown: &Shown) -> String {
    let program = shown.answer.map_or(String::new(), |a| {
        format!("version {}, up {}; ", plain(&a["program"]["version"]), age(count(&a["program"]["up"]).saturating_mul(1000)))
    });
    format!("{program}as of {}", utc(shown.now))
}

/// A part of the page, that is put in anew when it has changed.
fn part(id: &str, title: &str, inner: &str) -> String {
    live_part(id, title, "", inner)
}

/// The same with a role: what has one stays on the page, and only its words change, so that they can be read out.
fn live_part(id: &str, title: &str, role: &str, inner: &str) -> String {
    let head = format!("<h2 id=\"{id}\">{title}</h2>");
    format!("<section class=\"{id}\" aria-labelledby=\"{id}\">\n{head}\n<div id=\"{id}-part\" data-part{role}>\n{inner}</div>\n</section>\n")
}

fn attention_part(all: &[String]) -> String {
    match all.is_empty() {
        true => "<p class=\"well\">Nothing: all partners are linked, and no operation has been open for long.</p>\n".into(),
        false => {
            let items: String = all.iter().map(|line| format!("<li>▲ {}</li>\n", escape(line))).collect();
            format!("<ul>\n{items}</ul>\n")
        }
    }
}

fn of_answer(answer: &Value) -> String {
    let status = &answer["status"];
    let partners: String = list(&status["partners"]).map(partner).collect();
    let heads = ["partner", "link", "owed to it", "held", "refused"];
    let partners = table("Links to the other nodes, and what was refused of their frames", &heads, &partners);
    let servers: String = list(&status["servers"]).map(server).collect();
    let servers = match servers.is_empty() {
        true => "<p>This node has no server.</p>\n".into(),
        false => table("What the server holds: stamp as time.client.write", &["server", "stamp", "open writes of clients 1 to 8"], &servers),
    };
    let desks: String = list(&status["desks"]).map(desk).collect();
    let desks = match desks.is_empty() {
        true => "<p>This node has no desks.</p>\n".into(),
        false => table("Desks of this node", &["client", "operation", "has not answered", "waiting"], &desks),
    };
    part("partners", "Partners", &partners) + &part("parties", "Server and desks", &(servers + &desks))
}

fn table(caption: &str, heads: &[&str], rows: &str) -> String {
    let heads: String = heads.iter().map(|h| format!("<th scope=\"col\">{h}</th>")).collect();
    format!("<table><caption>{caption}</caption><thead><tr>{heads}</tr></thead><tbody>\n{rows}</tbody></table>\n")
}

fn row(head: &str, cells: &[(&str, String)]) -> String {
    let cells: String = cells.iter().map(|(label, html)| format!("<td data-label=\"{label}\">{html}</td>")).collect();
    format!("<tr><th scope=\"row\">{}</th>{cells}</tr>\n", escape(head))
}

fn partner(p: &Value) -> String {
    let link = match (p["linked"] == true, plain(&p["why"])) {
        (true, _) => "linked".to_string(),
        (false, why) if why.is_empty() => "<span class=\"bad\">▲ no link</span>".into(),
        (false, why) => format!("<span class=\"bad\">▲ no link</span>: {}", escape(&why)),
    };
    let row_of = [("link", link), ("owed to it", owed(p)), ("held", frames(count(&p["held"]))), ("refused", refusals(&p["refused"]))];
    row(&plain(&p["name"]), &row_of)
}

fn frames(n: u64) -> String {
    match n {
        0 => "nothing".into(),
        1 => "1 frame".into(),
        n => format!("{n} frames"),
    }
}

fn owed(p: &Value) -> String {
    if p["given_up"] == true {
        return "<span class=\"bad\">▲ given up</span>".into();
    }
    let n = count(&p["owed_frames"]);
    if n == 0 {
        return frames(0);
    }
    let bytes = match (p["owed_bytes"].as_u64(), p["owed_log"].as_u64()) {
        (Some(bytes), _) => format!(", {}", size(bytes)),
        (_, Some(log)) => format!(", in {} of log", size(log)),
        _ => String::new(),
    };
    format!("{}{bytes}, for {}", frames(n), age(count(&p["owed_age"])))
}

/// Refusals by number, with what each means.
fn refusals(refused: &Value) -> String {
    let one = |r: &Value| {
        let number = count(&r[0]) as u8;
        let line = format!("{number}, {}: {}", refusal(number), times(count(&r[1])));
        match sign(number) {
            Sign::Usual => format!("<li>{}</li>", escape(&line)),
            Sign::False => format!("<li class=\"bad\">▲ {}: no honest machine sends this</li>", escape(&line)),
        }
    };
    let items: String = list(refused).map(one).collect();
    if items.is_empty() {
        "nothing".into()
    } else {
        format!("<ul class=\"plain\">{items}</ul>")
    }
}

/// Open sequences; none is after the last, 2^32 - 1.
fn sequences(all: &Value) -> String {
    let one = |s: &Value| if count(s) > u64::from(u32::MAX) { "none".to_string() } else { plain(s) };
    list(all).map(one).collect::<Vec<_>>().join(", ")
}

fn server(s: &Value) -> String {
    let stamp = format!("{}.{}.{}", s["stamp"][0], s["stamp"][1], s["stamp"][2]);
    row(
        &name_with_register("server", &s["number"], s),
        &[("stamp", escape(&stamp)), ("open writes of clients 1 to 8", escape(&sequences(&s["sequences"])))],
    )
}

fn name_with_register(word: &str, number: &Value, of: &Value) -> String {
    match count(&of["register"]) {
        0 => format!("{word} {number}"),
        register => format!("{word} {number}, register {register}"),
    }
}

fn desk(d: &Value) -> String {
    let (open, awaited) = match d["open"].as_str() {
        Some(kind) => (format!("{kind} {} open for {}", d["operation"], age(count(&d["age"]))), format!("servers {}", joined(&d["awaited"]))),
        None => ("nothing open".into(), "–".into()),
    };
    let waiting = count(&d["waiting"]).to_string();
    row(&name_with_register("client", &d["client"], d), &[("operation", escape(&open)), ("has not answered", escape(&awaited)), ("waiting", waiting)])
}

/// The two pictures. Their addresses change with the log, so that a browser loads them anew only then.
fn pictures(shown: &Shown) -> String {
    let batch = shown.answer.map_or(0, |a| count(&a["status"]["log"]["batch"]));
    let pictures = match shown.pictures {
        Ok(pictures) => pictures,
        Err(why) => return part("history", "History", &format!("<p>There are no pictures: {}</p>\n", escape(why))),
    };
    let one = |id: &str, title: &str, said: &str, more: &str| {
        format!(
            "<section class=\"{id}\" aria-labelledby=\"{id}\">\n<h2 id=\"{id}\">{title}</h2>\n\
             <div class=\"picture\" role=\"region\" tabindex=\"0\" aria-label=\"{title}, a picture\">\
             <img id=\"{id}-picture\" data-picture src=\"/{id}.svg?{batch}\" alt=\"{}\"></div>\n<p class=\"screen\">{more}</p>\n</section>\n",
            escape(said)
        )
    };
    let history = "<a href=\"/history.svg\">The picture alone</a>";
    let run = "<a href=\"/run.svg\">The picture alone</a>, <a href=\"/run.svg?rows=200\">the last 200 steps</a>";
    one("history", "History of the desks", &pictures.history, history) + &one("run", "The last steps", &pictures.run, run)
}

fn log_part(shown: &Shown) -> String {
    let mut rows = vec![];
    if let Ok(answer) = shown.answer {
        let (log, program) = (&answer["status"]["log"], &answer["program"]);
        rows.push(("last batch", log["batch"].to_string()));
        rows.push(("segments", format!("{} to {}", log["first_segment"], log["segment"])));
        rows.push(("steps", log["steps"].to_string()));
        rows.push(("log", size(count(&log["bytes"]))));
        let snapshot = count(&log["snapshot"]);
        rows.push(("snapshot", if snapshot == 0 { "none yet".into() } else { format!("up to batch {}", snapshot - 1) }));
        rows.push(("last start", format!("replayed {} records", log["replayed"])));
        rows.push(("strangers turned away", program["turned_away"].to_string()));
        rows.extend(list(&program["strangers"]).map(|s| ("", plain(s))));
    }
    if let Some(last) = shown.pictures.ok().and_then(|p| p.last_batch) {
        rows.push(("last batch on the disk", utc(last)));
    }
    rows.push(("free on the disk", shown.free.map_or_else(|| "not known".into(), size)));
    let rows: String = rows.iter().map(|(name, value)| format!("<dt>{name}</dt><dd>{}</dd>\n", escape(value))).collect();
    format!("<dl>\n{rows}</dl>\n")
}

#[cfg(test)]
mod tests {
    use super::*;
    use serde_json::json;

    fn answer() -> Value {
        json!({ "program": { "version": "0.1.0", "up": 7300, "turned_away": 1, "strangers": ["192.0.2.9:5: <no certificate>"] }, "status": {
            "name": "north<1>", "open": true, "signs": [], "alarm": null,
            "servers": [{ "number": 1, "register": 0, "stamp": [3, 1, 2], "sequences": [3, 1, 1, 1, 1, 1, 1, 4_294_967_296u64] }],
            "desks": [{ "client": 2, "register": 0, "open": "read", "operation": 7, "age": 65000, "awaited": [2, 3], "waiting": 1 }],
            "partners": [
                { "name": "south", "linked": false, "why": "refused <b>", "owed_frames": 4, "owed_bytes": 900, "owed_age": 7_300_000, "held": 1,
                    "refused": [[12, 5]] },
                { "name": "east", "linked": true, "why": "", "owed_frames": 0, "owed_bytes": 0, "owed_age": 0, "held": 0, "refused": [[14, 1], [11, 2]] }],
            "log": { "batch": 9, "steps": 20, "bytes": 4096, "segment": 1, "first_segment": 1, "snapshot": 0, "replayed": 3 },
        } })
    }

    fn shown<'a>(answer: &'a Value, pictures: &'a Pictures) -> Shown<'a> {
        Shown { answer: Ok(answer), pictures: Ok(pictures), free: Some(5 << 30), now: 1_700_000_001_000, name: "north<1>" }
    }

    #[test]
    fn what_is_wrong_is_said_in_words() {
        let (answer, pictures) = (answer(), Pictures { no_order: true, ..Pictures::default() });
        let all = attention(&shown(&answer, &pictures));
        for part in [
            "There is no link to south.",
            "east has sent what no honest machine sends, 3 times: it may be a false machine.",
            "A read of client 2 has been open for 60 s or more; servers 2, 3 have not answered.",
            "has no order",
        ] {
            assert!(all.iter().any(|line| line.contains(part)), "{part}: {all:?}");
        }
        let down = Shown { answer: Err("no node"), pictures: Err("no log"), free: Some(1), now: 0, name: "north" };
        assert_eq!(attention(&down).len(), 2);
        assert!(page(&down).contains("The node does not answer: no node") && page(&down).contains("<title>(2) Node north</title>"));
    }

    #[test]
    fn the_page_has_what_status_says_and_nothing_inline() {
        let (answer, pictures) = (answer(), Pictures { last_batch: Some(1_700_000_000_000), ..Pictures::default() });
        let html = page(&shown(&answer, &pictures));
        for part in [
            "Node north&lt;1&gt;",
            "▲ no link</span>: refused &lt;b&gt;",
            "4 frames, 900 bytes, for 2 h",
            "12, late, repeated or not awaited: 5 times",
            "▲ 14, the block does not fit its digest: once: no honest machine sends this",
            ">3.1.2<",
            ">3, 1, 1, 1, 1, 1, 1, none<",
            "read 7 open for 65 s",
            "servers 2, 3",
            "2023-11-14 22:13:20 UTC",
            "&lt;no certificate&gt;",
            "/history.svg?9",
        ] {
            assert!(html.contains(part), "{part}: {html}");
        }
        for inline in ["<style", "style=", "onclick", "onload", "javascript:", "<script>", "<b>"] {
            assert!(!html.contains(inline), "{inline}");
        }
        assert_eq!(html.matches("<script").count(), 1);
    }

    #[test]
    fn any_answer_has_a_page() {
        let nothing = Value::Null;
        assert!(page(&shown(&nothing, &Pictures::default())).ends_with("</html>\n"));
    }
}
