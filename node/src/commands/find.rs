//! Values that this node's desks have read, found by accession number. The log has the frames that the desks took; the library's clients make the values
//! of them again, and its index finds among them.

use super::desk::text;
use super::files::read_log;
use super::folder::read_own;
use super::{use_error, NodeFolder};
use crate::failure::{code, Failure};
use crate::local::stamp_json;
use crate::out;
use semduoli::bytes::hex;
use semduoli::cluster::Cluster;
use semduoli::events::Stamp;
use semduoli::log::Place;
use semduoli::records::{self, outcome, Record};
use semduoli::sem::{self, Client, End, Index, Parameters, Room, CLIENT, INDEX_VALUES};
use serde_json::json;
use std::collections::BTreeMap;

const NUMBER: usize = 8;

/// A value that a desk has read, and when the read ended, on both clocks.
#[derive(Clone, Debug, PartialEq)]
struct Value {
    /// Counts the values that this node's desks have read, from 1 on.
    place: u64,
    bytes: Vec<u8>,
    stamp: Stamp,
    client: u8,
    register: u8,
    tick: u32,
    wall: u64,
}

/// Looks for a number in any count of values. An index takes 64: one that is full is searched and begun anew.
struct Search {
    number: u64,
    index: Index,
    /// The values of the index, by their places.
    shelf: Vec<Value>,
    places: u64,
    found: Option<Value>,
}

impl Search {
    fn new(number: u64) -> Search {
        Search { number, index: Index::fresh(), shelf: vec![], places: 0, found: None }
    }

    fn insert(&mut self, value: Value) -> Result<(), u8> {
        if self.shelf.len() >= INDEX_VALUES {
            self.search_shelf();
        }
        self.index.insert(&value.bytes)?;
        self.places += 1;
        self.shelf.push(Value { place: self.places, ..value });
        Ok(())
    }

    /// What is found on a later shelf is later.
    fn search_shelf(&mut self) {
        let shelf = std::mem::take(&mut self.shelf);
        let place = self.index.search(self.number);
        self.index = Index::fresh();
        if let Some(value) = place.and_then(|p| shelf.into_iter().nth(p - 1)) {
            self.found = Some(value);
        }
    }

    /// The last value with the number.
    fn end(mut self) -> Option<Value> {
        self.search_shelf();
        self.found
    }
}

/// The node's clients, once more, by what the log has of them.
struct Clients {
    parameters: Parameters,
    room: Room,
    clients: BTreeMap<u8, Client>,
    /// Values of reads whose end comes next in the log.
    ending: BTreeMap<u8, (Vec<u8>, Stamp)>,
}

impl Clients {
    fn new(parameters: Parameters) -> Clients {
        Clients { parameters, room: Room::new(&parameters), clients: BTreeMap::new(), ending: BTreeMap::new() }
    }

    /// The value that is read by a record of the log, if one is.
    fn take(&mut self, record: &Record) -> Result<Option<Value>, &'static str> {
        match record {
            Record::Begin { client, value, .. } => {
                let c = self.clients.entry(*client).or_insert_with(|| Client::fresh(*client));
                c.begin(&self.parameters, &mut self.room, *value).map_err(|_| "a begin of the log is refused now")?;
            }
            Record::Step { stream, frame, .. } if stream.to.class == CLIENT => {
                let number = stream.to.number;
                let c = self.clients.entry(number).or_insert_with(|| Client::fresh(number));
                let step = c.deliver(&self.parameters, &mut self.room, stream.from, frame).map_err(|_| "a step of the log is refused now")?;
                if let End::Value(value, stamp) = step.end {
                    self.ending.insert(number, (value, stamp));
                }
            }
            Record::Ended { client, register, tick, wall, outcome: outcome::VALUE, stamp } => {
                let ending = self.ending.remove(client).filter(|e| e.1 == sem::stamp_of(stamp));
                let (bytes, stamp) = ending.ok_or("a read ends in another way now")?;
                return Ok(Some(Value { place: 0, bytes, stamp, client: *client, register: *register, tick: *tick, wall: *wall }));
            }
            _ => {}
        }
        Ok(None)
    }
}

/// The number that is meant: decimal, or the eight bytes that a value begins with.
fn number_of(word: &str, as_text: bool) -> Result<u64, Failure> {
    if as_text {
        let bytes = word.as_bytes().try_into().map(u64::from_be_bytes);
        return bytes.map_err(|_| use_error(format!("--text \"{}\": the {NUMBER} bytes that a value begins with are wanted", word.escape_debug())));
    }
    let number = word.parse().ok().filter(|_| word.bytes().all(|b| b.is_ascii_digit()));
    number.ok_or_else(|| use_error(format!("\"{}\": a number from 0 to {} is wanted; --text takes text", word.escape_debug(), u64::MAX)))
}

fn search(node: &NodeFolder, cluster: &Cluster, number: u64) -> Result<Option<Value>, Failure> {
    let (mut search, mut clients) = (Search::new(number), Clients::new(cluster.parameters));
    let mut from_start = None;
    let whole = read_log(&node.folder, cluster.register_digest(), &mut |batch| {
        if !*from_start.get_or_insert(batch.number == Place::first().number) {
            return Ok(());
        }
        for record in records::read(batch.payload) {
            if let Some(value) = clients.take(&record.map_err(|_| "the batch has bytes that are no record")?)? {
                search.insert(value).map_err(|_| "a value of the log is refused now")?;
            }
        }
        Ok(())
    })?;
    if !whole.from_start {
        return Err(use_error("the log's first segments were removed, and its values are made from a fresh client on"));
    }
    Ok(search.end())
}

pub fn find(node: &NodeFolder, word: &str, as_text: bool, as_hex: bool, as_json: bool) -> Result<(), Failure> {
    let number = number_of(word, as_text)?;
    let (cluster, me) = read_own(&node.folder, node.cluster.as_deref())?;
    if cluster.nodes[me].clients.is_empty() {
        return Err(Failure::new(code::CLUSTER, format!("node {} has no desk, and so has read no values", cluster.nodes[me].name)));
    }
    Index::fresh().insert(&cluster.initial).map_err(|refusal| {
        let length = cluster.initial.len();
        Failure::new(
            code::REFUSED,
            format!("refused {refusal}: a value of this register has {length} bytes, and its accession number is the first {NUMBER}"),
        )
    })?;
    let found = search(node, &cluster, number)?;
    match found {
        None if as_json => out::line(json!({ "number": number, "place": 0 })),
        None => {
            eprintln!("no value that this node's desks have read has accession number {number}");
            Ok(())
        }
        Some(v) if as_json => out::line(json!({ "number": number, "place": v.place, "value": hex(&v.bytes), "stamp": stamp_json(&v.stamp),
            "client": v.client, "register": v.register, "end_tick": v.tick, "end_wall": v.wall })),
        Some(v) => {
            out::line(if as_hex { hex(&v.bytes) } else { text(&v.bytes) })?;
            let Stamp { time, writer, sequence } = v.stamp;
            eprintln!("value {} of those read here, by client {}; stamp: time {time}, client {writer}, write {sequence}", v.place, v.client);
            Ok(())
        }
    }
}

#[cfg(test)]
mod tests {
    use super::*;
    use semduoli::random::Random;

    fn value(number: u64, rest: u8) -> Value {
        let bytes = [&number.to_be_bytes()[..], &[rest]].concat();
        Value { place: 0, bytes, stamp: Stamp::default(), client: 1, register: 0, tick: 0, wall: 0 }
    }

    #[test]
    fn the_last_value_with_a_number_is_found_on_any_shelf() {
        let mut r = Random::new(7);
        for count in [0, 1, 63, 64, 65, 128, 129, 500] {
            let numbers: Vec<u64> = (0..count).map(|_| r.below(90)).collect();
            for number in (0..90).chain([u64::MAX]) {
                let mut search = Search::new(number);
                for (at, n) in numbers.iter().enumerate() {
                    search.insert(value(*n, at as u8)).expect("taken");
                }
                let last = numbers.iter().rposition(|n| *n == number);
                let wanted = last.map(|at| Value { place: at as u64 + 1, ..value(number, at as u8) });
                assert_eq!(search.end(), wanted, "{number} of {count}");
            }
        }
        assert_eq!(Search::new(1).insert(Value { bytes: vec![0; 7], ..value(1, 1) }), Err(26));
    }

    #[test]
    fn a_number_is_decimal_or_eight_bytes() {
        assert_eq!(number_of("0018", false), Ok(18));
        assert_eq!(number_of("18446744073709551615", false), Ok(u64::MAX));
        assert_eq!(number_of("lot 4711", true), Ok(0x6c6f_7420_3437_3131));
        for (word, as_text) in [("18446744073709551616", false), ("+1", false), ("", false), ("-1", false), ("lot 4711", false), ("lot 47", true)] {
            assert_eq!(number_of(word, as_text).map_err(|f| f.code), Err(code::USE), "{word}");
        }
    }
}
