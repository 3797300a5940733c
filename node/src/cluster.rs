//! The cluster file: which register it is, and who is who. A node speaks for the parties that the file lists under it, and for no other.
use crate::bytes::{hex, unhex};
use crate::sem::{Parameters, Party, Server, CLIENTS};
use serde::Deserialize;
use std::collections::BTreeMap;

/// The number of the formats and of what they mean: of the log, the links and the library's frames and records together.
pub const FORMAT: u32 = 3;

#[derive(Clone, Debug)]
pub struct Cluster {
    /// A name of the partners' choice, which no other register of theirs has.
    pub name: String,
    /// Counts the times that the register was begun anew under this name.
    pub generation: u32,
    pub parameters: Parameters,
    pub initial: Vec<u8>,
    pub nodes: Vec<Node>,
    places: BTreeMap<Party, usize>,
}

#[derive(Deserialize, Clone, Debug)]
#[serde(deny_unknown_fields)]
pub struct Node {
    pub name: String,
    /// Where partners call it; a node without one only calls.
    pub address: Option<String>,
    /// SHA-256 of its certificate, 64 digits; two while a key is changed.
    pub fingerprints: Vec<String>,
    pub server: Option<u8>,
    #[serde(default)]
    pub clients: Vec<u8>,
}

/// The file as it is written.
#[derive(Deserialize)]
#[serde(deny_unknown_fields)]
struct Written {
    cluster: String,
    #[serde(default = "first")]
    generation: u32,
    n: usize,
    t: usize,
    k: usize,
    length: usize,
    initial: String,
    node: Vec<Node>,
}

fn first() -> u32 {
    1
}

impl Node {
    pub fn parties(&self) -> impl Iterator<Item = Party> + '_ {
        self.server.map(Party::server).into_iter().chain(self.clients.iter().map(|c| Party::client(*c)))
    }
}

fn sha256(text: &str) -> [u8; 32] {
    openssl::sha::sha256(text.as_bytes())
}

const NAME_MOST: usize = 64;
const FINGERPRINT: usize = 64;

/// A name that may be shown and put into a line.
fn is_name(text: &str) -> bool {
    (1..=NAME_MOST).contains(&text.len()) && text.bytes().all(|b| b.is_ascii_alphanumeric() || b"-_.".contains(&b))
}

impl Cluster {
    /// Reads a cluster file. What is wrong is said in one line.
    pub fn parse(text: &str) -> Result<Cluster, String> {
        let w: Written = toml::from_str(text).map_err(|e| e.to_string().replace('\n', " "))?;
        let parameters = Parameters { n: w.n, t: w.t, k: w.k, size: w.length };
        let initial = unhex(&w.initial).ok_or("initial: not hexadecimal digits, two a byte")?;
        let mut c = Cluster { name: w.cluster, generation: w.generation, parameters, initial, nodes: w.node, places: BTreeMap::new() };
        c.check_register()?;
        for at in 0..c.nodes.len() {
            c.check_node(at)?;
        }
        for server in 1..=c.parameters.n as u8 {
            if !c.places.contains_key(&Party::server(server)) {
                return Err(format!("server {server} of n = {} is under no node", c.parameters.n));
            }
        }
        Ok(c)
    }

    /// The library itself says whether it takes the parameters.
    fn check_register(&self) -> Result<(), String> {
        let p = &self.parameters;
        if !is_name(&self.name) {
            return Err("cluster: a name of 1 to 64 letters, digits, '-', '_' and '.' is wanted".into());
        }
        match Server::fresh(p, 1, &self.initial) {
            Ok(_) => Ok(()),
            Err(1) => Err(format!("n = {}, t = {}: n is 4 to 10, t at least 1, and n above 3t (refused 1)", p.n, p.t)),
            Err(2) => Err(format!("k = {}: k is 1 to n - 2t (refused 2)", p.k)),
            Err(_) if (1..=256).contains(&p.size) => Err(format!("initial has {} bytes, and length is {} (refused 3)", self.initial.len(), p.size)),
            Err(number) => Err(format!("length = {}: 1 to 256 (refused {number})", p.size)),
        }
    }

    fn check_node(&mut self, at: usize) -> Result<(), String> {
        let node = self.nodes[at].clone();
        let checked = self.check_name(at, &node).and_then(|()| self.check_fingerprints(at, &node)).and_then(|()| self.list_parties(at, &node));
        checked.map_err(|what| format!("node {} (\"{}\"): {what}", at + 1, node.name))
    }

    /// What the node is called, and where it is called.
    fn check_name(&self, at: usize, node: &Node) -> Result<(), String> {
        if !is_name(&node.name) {
            return Err("a name of 1 to 64 letters, digits, '-', '_' and '.' is wanted".into());
        }
        if self.nodes[..at].iter().any(|n| n.name == node.name) {
            return Err("an earlier node has this name".into());
        }
        if let Some(address) = &node.address {
            if address.parse::<std::net::SocketAddr>().is_err() {
                return Err(format!("address \"{address}\": a number and a port are wanted, as 192.0.2.1:7070"));
            }
        }
        if node.address.is_none() && self.nodes[at + 1..].iter().any(|n| n.server.is_some()) {
            return Err("has no address, and servers that stand behind it could not call it: put it last".into());
        }
        Ok(())
    }

    fn check_fingerprints(&self, at: usize, node: &Node) -> Result<(), String> {
        if !(1..=2).contains(&node.fingerprints.len()) {
            return Err("one fingerprint is wanted, or two while a key is changed".into());
        }
        for print in &node.fingerprints {
            if print.len() != FINGERPRINT || !print.bytes().all(|b| b.is_ascii_digit() || (b'a'..=b'f').contains(&b)) {
                return Err(format!("fingerprint \"{print}\": 64 hexadecimal digits in lower case are wanted"));
            }
            if self.nodes[..at].iter().any(|n| n.fingerprints.contains(print)) {
                return Err("an earlier node has this fingerprint".into());
            }
        }
        Ok(())
    }

    /// Each party is under one node.
    fn list_parties(&mut self, at: usize, node: &Node) -> Result<(), String> {
        if node.parties().next().is_none() {
            return Err("has neither a server nor clients".into());
        }
        for party in node.parties() {
            let most = if party.class == crate::sem::SERVER { self.parameters.n } else { CLIENTS.into() };
            if party.number == 0 || usize::from(party.number) > most {
                return Err(format!("{party}: numbers are 1 to {most}"));
            }
            if self.places.insert(party, at).is_some() {
                return Err(format!("{party} is listed twice"));
            }
        }
        Ok(())
    }

    /// The node that a party is listed under.
    pub fn node_of(&self, party: Party) -> Option<usize> {
        self.places.get(&party).copied()
    }

    /// The node with a certificate.
    pub fn node_with(&self, fingerprint: &str) -> Option<usize> {
        self.nodes.iter().position(|n| n.fingerprints.iter().any(|f| f == fingerprint))
    }

    /// What a log belongs to, and partners must agree on: the register.
    pub fn register_digest(&self) -> [u8; 32] {
        let p = &self.parameters;
        let initial = hex(&self.initial);
        sha256(&format!("semduoli {FORMAT} {} {} {} {} {} {} {initial}", self.name, self.generation, p.n, p.t, p.k, p.size))
    }

    /// What partners must agree on besides: the nodes' order, names and parties. Addresses and fingerprints may differ while they are changed.
    pub fn members_digest(&self) -> [u8; 32] {
        let mut text = String::from("members");
        for node in &self.nodes {
            text += &format!(" {} {} {:?}", node.name, node.server.unwrap_or(0), node.clients);
        }
        sha256(&text)
    }
}

#[cfg(test)]
mod tests {
    use super::*;

    pub const GOOD: &str = r#"
cluster = "north-sea"
n = 4
t = 1
k = 2
length = 3
initial = "000000"
"#;

    fn file(change: impl Fn(&str) -> String) -> String {
        let mut text = GOOD.to_string();
        for i in 1..=4 {
            let print = format!("{i:064x}");
            text += &format!("[[node]]\nname = \"s{i}\"\naddress = \"127.0.0.1:70{i:02}\"\nfingerprints = [\"{print}\"]\nserver = {i}\n");
        }
        text += &format!("[[node]]\nname = \"desk\"\nfingerprints = [\"{:064x}\"]\nclients = [1, 2]\n", 9);
        change(&text)
    }

    #[test]
    fn a_good_file_is_read() {
        let c = Cluster::parse(&file(str::to_string)).expect("good");
        assert_eq!(c.node_of(Party::client(2)), Some(4));
        assert_eq!(c.node_of(Party::client(3)), None);
        assert_eq!(c.node_with(&format!("{:064x}", 3)), Some(2));
    }

    #[test]
    fn each_wrong_file_is_told_what_is_wrong() {
        let cases = [
            ("n = 4", "n = 3", "refused 1"),
            ("k = 2", "k = 3", "refused 2"),
            ("length = 3", "length = 257", "refused 3"),
            ("length = 3", "length = 4", "initial has 3 bytes"),
            ("\"000000\"", "\"00000\"", "not hexadecimal"),
            ("\"000000\"", "\"0000+1\"", "not hexadecimal"),
            ("server = 2", "server = 1", "server 1 is listed twice"),
            ("server = 4", "server = 5", "numbers are 1 to 4"),
            ("server = 4", "", "has neither a server nor clients"),
            ("server = 4", "clients = [3]", "server 4 of n = 4 is under no node"),
            ("clients = [1, 2]", "clients = [0]", "numbers are 1 to 8"),
            ("clients = [1, 2]", "clients = [2, 2]", "client 2 is listed twice"),
            ("\"s2\"", "\"s1\"", "an earlier node has this name"),
            ("127.0.0.1:7001", "north:7001", "a number and a port"),
            ("address = \"127.0.0.1:7001\"", "", "put it last"),
            ("\"north-sea\"", "\"a b\"", "cluster: a name"),
            ("n = 4", "n = 4\nm = 2", "unknown field `m`"),
            ("t = 1", "t = -1", "invalid value"),
        ];
        for (old, new, said) in cases {
            let text = file(|t| t.replacen(old, new, 1));
            let e = Cluster::parse(&text).expect_err(new);
            assert!(e.contains(said) && !e.contains('\n'), "{new}: {e}");
        }
        let twice = file(|t| t.replace(&format!("{:064x}", 2), &format!("{:064x}", 1)));
        assert!(Cluster::parse(&twice).expect_err("twice").contains("an earlier node has this fingerprint"));
    }

    #[test]
    fn digests_tell_registers_and_members_apart() {
        let of = |old: &str, new: &str| {
            let c = Cluster::parse(&file(|t| t.replacen(old, new, 1))).expect(new);
            (c.register_digest(), c.members_digest())
        };
        let same = of("", "");
        for (old, new) in [("north-sea", "baltic"), ("\"000000\"", "\"000001\""), ("k = 2", "k = 1"), ("n = 4", "n = 4\ngeneration = 2")] {
            let (register, members) = of(old, new);
            assert!(register != same.0 && members == same.1, "{new}");
        }
        for (old, new) in [("\"s1\"", "\"other\""), ("[1, 2]", "[1, 3]")] {
            let (register, members) = of(old, new);
            assert!(register == same.0 && members != same.1, "{new}");
        }
        assert_eq!(of("127.0.0.1:7001", "127.0.0.1:7999"), same);
    }
}
