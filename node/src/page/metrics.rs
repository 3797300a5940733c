//! Metrics in the text format of Prometheus. Names end in their unit, counters in `_total`; each has a line of help.

use serde_json::Value;
use std::fmt::Write;

#[derive(Clone, Copy)]
enum Kind {
    Gauge,
    Counter,
}

#[derive(Default)]
struct Metrics(String);

type Labels<'a> = &'a [(&'a str, String)];
/// A metric's name, its help, and its value for one of a list.
type Gauge<'a> = (&'a str, &'a str, &'a dyn Fn(&Value) -> Option<f64>);

/// A label's value as the format writes it.
fn escape(value: &str) -> String {
    value.replace('\\', "\\\\").replace('"', "\\\"").replace('\n', "\\n")
}

impl Metrics {
    /// A metric with its samples; one without samples is left out.
    fn put(&mut self, (name, kind): (&str, Kind), help: &str, samples: Vec<(Vec<(&str, String)>, f64)>) {
        if samples.is_empty() {
            return;
        }
        let kind = match kind {
            Kind::Gauge => "gauge",
            Kind::Counter => "counter",
        };
        let _ = write!(self.0, "# HELP {name} {help}\n# TYPE {name} {kind}\n");
        for (labels, value) in samples {
            let _ = writeln!(self.0, "{name}{} {value}", braces(&labels));
        }
    }

    fn one(&mut self, what: (&str, Kind), help: &str, value: Option<f64>) {
        self.put(what, help, value.map(|v| (vec![], v)).into_iter().collect());
    }
}

fn braces(labels: Labels) -> String {
    match labels.is_empty() {
        true => String::new(),
        false => format!("{{{}}}", labels.iter().map(|(name, value)| format!("{name}=\"{}\"", escape(value))).collect::<Vec<_>>().join(",")),
    }
}

fn list(value: &Value) -> impl Iterator<Item = &Value> {
    value.as_array().into_iter().flatten()
}

fn text(value: &Value) -> String {
    value.as_str().map_or_else(|| value.to_string(), str::to_string)
}

/// A number, a truth as 1 or 0, none where there is neither.
fn number(value: &Value) -> Option<f64> {
    value.as_f64().or_else(|| value.as_bool().map(|b| f64::from(u8::from(b))))
}

fn seconds(ms: &Value) -> Option<f64> {
    number(ms).map(|ms| ms / 1000.0)
}

fn flag(holds: bool) -> Option<f64> {
    Some(f64::from(u8::from(holds)))
}

/// One sample for each of a list, of a field or of something made from it.
fn each<'a>(all: &'a Value, labels: &[(&'a str, &str)], value: impl Fn(&Value) -> Option<f64>) -> Vec<(Vec<(&'a str, String)>, f64)> {
    let label = |one: &Value| labels.iter().map(|(name, field)| (*name, text(&one[*field]))).collect();
    list(all).filter_map(|one| Some((label(one), value(one)?))).collect()
}

/// All metrics of a node, from its answer to `status`; of a node that does not answer, that alone.
pub fn metrics(answer: Option<&Value>, free: Option<u64>) -> String {
    let mut m = Metrics::default();
    m.one(("semduoli_up", Kind::Gauge), "Whether the node answers on its local socket.", flag(answer.is_some()));
    m.one(("semduoli_disk_free_bytes", Kind::Gauge), "Free space on the disk of the node's folder.", free.map(|f| f as f64));
    if let Some(answer) = answer {
        of_node(&mut m, &answer["status"], &answer["program"]);
        of_partners(&mut m, &answer["status"]["partners"]);
        of_parties(&mut m, &answer["status"]);
        of_log(&mut m, &answer["status"]["log"]);
    }
    m.0
}

fn of_node(m: &mut Metrics, status: &Value, program: &Value) {
    let info = vec![("node", text(&status["name"])), ("version", text(&program["version"]))];
    m.put(("semduoli_node_info", Kind::Gauge), "The node's name and its program's version.", vec![(info, 1.0)]);
    m.one(("semduoli_uptime_seconds", Kind::Gauge), "Time since the node's process began.", number(&program["up"]));
    m.one(("semduoli_node_open", Kind::Gauge), "Whether frames may leave: enough servers have greeted the node.", number(&status["open"]));
    let signs = list(&status["signs"]).count() as f64;
    m.one(("semduoli_lost_state_signs", Kind::Gauge), "Nodes that say that this node has lost state.", Some(signs));
    m.one(("semduoli_alarm", Kind::Gauge), "Whether the node takes no new frames, for want of space.", flag(status["alarm"].is_string()));
    let turned_away = ("semduoli_strangers_turned_away_total", Kind::Counter);
    m.one(turned_away, "Callers that were turned away before they were known.", number(&program["turned_away"]));
}

fn of_partners(m: &mut Metrics, partners: &Value) {
    let name = &[("partner", "name")];
    let gauges: [Gauge; 7] = [
        ("semduoli_partner_linked", "Whether there is a link to the partner.", &|p| number(&p["linked"])),
        ("semduoli_partner_owed_frames", "Frames that the partner has not acknowledged.", &|p| number(&p["owed_frames"])),
        ("semduoli_partner_owed_bytes", "Bytes of the frames that the partner has not acknowledged.", &|p| number(&p["owed_bytes"])),
        ("semduoli_partner_owed_log_bytes", "Bytes of log from the first frame on that is owed to the partner.", &|p| number(&p["owed_log"])),
        ("semduoli_partner_owed_age_seconds", "For how long the oldest frame has been owed.", &|p| seconds(&p["owed_age"])),
        ("semduoli_partner_held_frames", "Frames of the partner that wait for their sequence.", &|p| number(&p["held"])),
        ("semduoli_partner_given_up", "Whether the partner's server was given up.", &|p| number(&p["given_up"])),
    ];
    for (metric, help, value) in gauges {
        m.put((metric, Kind::Gauge), help, each(partners, name, value));
    }
    let mut refused = vec![];
    for p in list(partners) {
        for r in list(&p["refused"]) {
            refused.extend(number(&r[1]).map(|count| (vec![("partner", text(&p["name"])), ("number", text(&r[0]))], count)));
        }
    }
    m.put(("semduoli_partner_refused_frames_total", Kind::Counter), "Frames of the partner that were refused, by the library's number.", refused);
}

fn of_parties(m: &mut Metrics, status: &Value) {
    let server = &[("server", "number"), ("register", "register")];
    let stamp = each(&status["servers"], server, |s| number(&s["stamp"][0]));
    m.put(("semduoli_server_stamp_time", Kind::Gauge), "The time of the stamp that the server holds; no clock's.", stamp);
    let mut sequences = vec![];
    for s in list(&status["servers"]) {
        for (at, open) in list(&s["sequences"]).enumerate() {
            let labels = vec![("server", text(&s["number"])), ("register", text(&s["register"])), ("client", (at + 1).to_string())];
            sequences.extend(number(open).map(|open| (labels, open)));
        }
    }
    m.put(("semduoli_server_open_sequence", Kind::Gauge), "The sequence of the client's write that the server works on.", sequences);
    let desk = &[("client", "client"), ("register", "register")];
    let gauges: [Gauge; 4] = [
        ("semduoli_desk_operation_open", "Whether the client has an operation open.", &|d| flag(d["open"].is_string())),
        ("semduoli_desk_operation_age_seconds", "For how long the operation has been open; 0 where none is.", &|d| {
            if d["open"].is_string() {
                seconds(&d["age"])
            } else {
                Some(0.0)
            }
        }),
        ("semduoli_desk_awaited_servers", "Servers that have not answered the open operation.", &|d| Some(list(&d["awaited"]).count() as f64)),
        ("semduoli_desk_waiting_operations", "Operations that wait their turn.", &|d| number(&d["waiting"])),
    ];
    for (metric, help, value) in gauges {
        m.put((metric, Kind::Gauge), help, each(&status["desks"], desk, value));
    }
}

fn of_log(m: &mut Metrics, log: &Value) {
    for (metric, kind, help, field) in [
        ("semduoli_log_batches_total", Kind::Counter, "Batches of the log on the disk.", "batch"),
        ("semduoli_log_steps_total", Kind::Counter, "Steps and begins of all parties in the log.", "steps"),
        ("semduoli_log_size_bytes", Kind::Gauge, "Bytes of the log.", "bytes"),
        ("semduoli_log_segment", Kind::Gauge, "Number of the segment that is written.", "segment"),
        ("semduoli_log_snapshot_batch", Kind::Gauge, "The first batch that is not in the newest snapshot.", "snapshot"),
        ("semduoli_log_replayed_records", Kind::Gauge, "Records that the last start replayed.", "replayed"),
    ] {
        m.one((metric, kind), help, number(&log[field]));
    }
}

#[cfg(test)]
mod tests {
    use super::*;
    use serde_json::json;
    use std::collections::{BTreeMap, BTreeSet};

    fn is_name(name: &str) -> bool {
        !name.is_empty()
            && !name.starts_with(|c: char| c.is_ascii_digit())
            && name.bytes().all(|b| b.is_ascii_alphanumeric() || b == b'_' || b == b':')
    }

    /// The labels between braces, unescaped.
    fn labels(mut rest: &str) -> BTreeMap<String, String> {
        let mut all = BTreeMap::new();
        while !rest.is_empty() {
            let (name, after) = rest.split_once("=\"").expect("a label");
            let mut value = String::new();
            let mut letters = after.char_indices();
            let end = loop {
                match letters.next().expect("a quote") {
                    (at, '"') => break at,
                    (_, '\\') => value.push(match letters.next().expect("an escape").1 {
                        'n' => '\n',
                        c @ ('"' | '\\') => c,
                        c => panic!("\\{c}"),
                    }),
                    (_, c) => value.push(c),
                }
            };
            assert!(is_name(name) && all.insert(name.to_string(), value).is_none(), "{name}");
            rest = after[end + 1..].strip_prefix(',').unwrap_or(&after[end + 1..]);
        }
        all
    }

    /// Reads the text format: each metric has its help and type before its samples, all of them together, no sample twice.
    fn parse(text: &str) -> BTreeMap<(String, BTreeMap<String, String>), f64> {
        let (mut samples, mut seen, mut current, mut helped) = (BTreeMap::new(), BTreeSet::new(), None, None);
        assert!(text.ends_with('\n'));
        for line in text.lines() {
            if let Some(help) = line.strip_prefix("# HELP ") {
                let (name, words) = help.split_once(' ').expect("help");
                assert!(seen.insert(name.to_string()) && is_name(name) && words.ends_with('.'), "{line}");
                helped = Some(name.to_string());
            } else if let Some(kind) = line.strip_prefix("# TYPE ") {
                let (name, kind) = kind.split_once(' ').expect("a type");
                assert_eq!((Some(name), kind == "counter"), (helped.as_deref(), name.ends_with("_total")), "{line}");
                current = Some(name.to_string());
            } else {
                let (front, value) = line.rsplit_once(' ').expect("a value");
                let (name, rest) = front.split_once('{').unwrap_or((front, "}"));
                assert_eq!(Some(name), current.as_deref(), "{line}");
                let labels = labels(rest.strip_suffix('}').expect("a brace"));
                assert!(samples.insert((name.to_string(), labels), value.parse().expect("a number")).is_none(), "{line}");
            }
        }
        samples
    }

    fn example() -> Value {
        json!({ "program": { "version": "0.1.0", "up": 5, "turned_away": 2 }, "status": {
            "name": "a\"b\\c\nd", "open": true, "signs": ["x"], "alarm": null,
            "servers": [{ "number": 1, "register": 0, "stamp": [3, 1, 2], "sequences": [3, 1] }],
            "desks": [{ "client": 2, "register": 0, "open": "read", "operation": 7, "age": 5500, "awaited": [2, 3], "waiting": 1 },
                { "client": 3, "register": 0, "open": null, "operation": 7, "age": 9000, "awaited": [], "waiting": 0 }],
            "partners": [{ "name": "south", "linked": false, "owed_frames": 4, "owed_bytes": 900, "owed_age": 7000, "held": 1, "refused": [[12, 5], [14, 1]] },
                { "name": "east", "linked": true, "owed_frames": 0, "owed_bytes": 0, "owed_age": 0, "held": 0, "refused": [] }],
            "log": { "batch": 9, "steps": 20, "bytes": 4096, "segment": 1, "snapshot": 0, "replayed": 3 },
        } })
    }

    #[test]
    fn every_metric_follows_the_format_and_has_the_status_s_number() {
        let samples = parse(&metrics(Some(&example()), Some(1 << 30)));
        let of = |name: &str, labels: &[(&str, &str)]| {
            samples.get(&(name.to_string(), labels.iter().map(|(n, v)| (n.to_string(), v.to_string())).collect())).copied()
        };
        assert_eq!(of("semduoli_up", &[]), Some(1.0));
        assert_eq!(of("semduoli_node_info", &[("node", "a\"b\\c\nd"), ("version", "0.1.0")]), Some(1.0));
        assert_eq!(of("semduoli_partner_linked", &[("partner", "south")]), Some(0.0));
        assert_eq!(of("semduoli_partner_owed_age_seconds", &[("partner", "south")]), Some(7.0));
        assert_eq!(of("semduoli_partner_refused_frames_total", &[("partner", "south"), ("number", "14")]), Some(1.0));
        assert_eq!(of("semduoli_desk_operation_age_seconds", &[("client", "2"), ("register", "0")]), Some(5.5));
        assert_eq!(of("semduoli_desk_operation_age_seconds", &[("client", "3"), ("register", "0")]), Some(0.0));
        assert_eq!(of("semduoli_desk_awaited_servers", &[("client", "2"), ("register", "0")]), Some(2.0));
        assert_eq!(of("semduoli_server_open_sequence", &[("server", "1"), ("register", "0"), ("client", "1")]), Some(3.0));
        assert_eq!((of("semduoli_log_steps_total", &[]), of("semduoli_disk_free_bytes", &[])), (Some(20.0), Some(1073741824.0)));
        // 8 of the node, 12 of two partners, 3 of the server, 8 of two desks, 6 of the log
        assert_eq!(samples.len(), 37);
    }

    #[test]
    fn a_node_that_does_not_answer_is_down() {
        assert_eq!(parse(&metrics(None, None)).into_values().collect::<Vec<_>>(), [0.0]);
        assert!(parse(&metrics(Some(&Value::Null), None)).len() > 1);
    }
}
