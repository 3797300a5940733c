//! What a seed draws: the register, the nodes, which of them are false, which faults are on, and the settings.
use crate::cluster::Cluster;
use crate::random::Random;
use crate::settings::{Mutant, Settings, BLOCK};
use crate::streams::Limits;
use std::collections::BTreeSet;
use std::fmt::Write;

/// A server's node that is away for long, and from when to when, in milliseconds.
#[derive(Clone, Copy, Debug)]
pub struct Away {
    pub node: usize,
    pub begins: u64,
    pub ends: u64,
}

/// What the draws of who is away are made from, with the seed.
const AWAY: u64 = 0x6177_6179;
/// Milliseconds that a node is down after a crash, at most.
const DOWN_MOST: u64 = 1_500;

pub struct Plan {
    pub seed: u64,
    pub random: Random,
    pub cluster: Cluster,
    pub settings: Settings,
    /// False nodes, by their place.
    pub evil: BTreeSet<usize>,
    /// One in so many actions a node crashes; 0 for never.
    pub crash: u64,
    /// Whether crashes may be those of the machine.
    pub power: bool,
    pub cuts: bool,
    pub slow: bool,
    pub full: bool,
    pub fail_sync: bool,
    pub clock: bool,
    /// A node is put back from an older copy of its folder.
    pub rollback: bool,
    /// A node's disk says that it has synced, and has not.
    pub lying: bool,
    /// False servers flood readers.
    pub floods: bool,
    /// Who is away so long that it may be given up.
    pub away: Option<Away>,
    /// A node that crashed starts again within so many milliseconds.
    pub down_most: u64,
    /// Operations that each desk asks for.
    pub operations: u64,
}

/// What a seed draws of the register and its nodes: its parameters, and how many nodes have desks alone.
struct Shape {
    n: usize,
    t: usize,
    k: usize,
    size: usize,
    desks: usize,
    /// Whether the first two servers' nodes have desks too.
    own_desks: bool,
}

impl Shape {
    fn draw(r: &mut Random) -> Shape {
        let (n, t) = if r.one_in(4) { (7, 2) } else { (4, 1) };
        let k = 1 + r.below((n - 2 * t) as u64) as usize;
        let size = 1 + r.below(24) as usize;
        let desks = 1 + r.below(2) as usize;
        Shape { n, t, k, size, desks, own_desks: r.one_in(2) }
    }

    /// The cluster file; how many clients a node has is drawn.
    fn cluster(&self, r: &mut Random) -> Cluster {
        let Shape { n, t, k, size, .. } = self;
        let mut text = format!("cluster = \"sim\"\nn = {n}\nt = {t}\nk = {k}\nlength = {size}\ninitial = \"{}\"\n", "00".repeat(*size));
        let mut client = 0;
        for at in 0..n + self.desks {
            let _ = write!(text, "[[node]]\nname = \"n{at}\"\nfingerprints = [\"{at:064x}\"]\n");
            if at < *n {
                let _ = write!(text, "address = \"127.0.0.1:{}\"\nserver = {}\n", 7000 + at, at + 1);
            }
            if at >= *n || (self.own_desks && at < 2) {
                let count = 1 + r.below(2);
                let clients: Vec<String> = (0..count).map(|i| (client + 1 + i).to_string()).collect();
                client += count;
                let _ = writeln!(text, "clients = [{}]", clients.join(", "));
            }
        }
        Cluster::parse(&text).unwrap_or_else(|e| panic!("the simulation's own cluster file: {e}\n{text}"))
    }

    /// Up to t servers' nodes, and of two nodes with desks alone the last.
    fn evil(&self, r: &mut Random) -> BTreeSet<usize> {
        let mut evil = BTreeSet::new();
        if r.one_in(2) {
            for _ in 0..self.t {
                evil.insert(r.below(self.n as u64) as usize);
            }
            if self.desks == 2 && r.one_in(2) {
                evil.insert(self.n + 1);
            }
        }
        evil
    }
}

fn settings(r: &mut Random, mutant: Option<Mutant>) -> Settings {
    let segment = 4096 * (24 + r.below(64));
    let (window, window_owner) = (2 + r.below(16) as usize, 2 + r.below(8) as usize);
    Settings {
        segment,
        batch_most: 4096 * (1 + r.below(8)) as usize,
        snapshot_every: 4096 * (8 + r.below(200)),
        window,
        window_owner,
        limits: Limits { near: window.max(window_owner) + r.below(4) as usize, grain: 1 + r.below(20) as u32 },
        fetch: 4096 * (1 + r.below(8)),
        keep: if r.one_in(2) { segment * r.below(5) } else { u64::MAX },
        ping_every: 500,
        silent_most: 2_000,
        call_first: 20,
        call_most: 500,
        full_wait: 50,
        mutant,
        ..Settings::default()
    }
}

impl Plan {
    /// What a seed means depends on the order of the draws.
    pub fn draw(seed: u64, mutant: Option<Mutant>) -> Plan {
        let mut r = Random::new(seed);
        let shape = Shape::draw(&mut r);
        let cluster = shape.cluster(&mut r);
        let evil = shape.evil(&mut r);
        let settings = settings(&mut r, mutant);
        let mut plan = Plan {
            seed,
            crash: if r.one_in(4) { 0 } else { 100 + r.below(1500) },
            power: !r.one_in(3),
            cuts: r.one_in(2),
            slow: r.one_in(3),
            full: r.one_in(6),
            fail_sync: r.one_in(6),
            clock: r.one_in(3),
            rollback: r.one_in(5),
            lying: r.one_in(8),
            floods: r.one_in(3),
            away: None,
            down_most: DOWN_MOST,
            operations: 2 + r.below(8),
            random: r,
            cluster,
            settings,
            evil,
        };
        plan.draw_away();
        plan
    }

    /// In some runs without false nodes a server's node is away for long, while the log may grow by little. It may be given up and then counts among the
    /// false, so nobody else is out of reach for long. Its numbers are drawn apart: a seed without it means the same as before there was this.
    fn draw_away(&mut self) {
        let mut r = Random::new(self.seed ^ AWAY);
        if !self.evil.is_empty() || self.rollback || self.lying || !r.one_in(3) {
            return;
        }
        let node = r.below(self.cluster.parameters.n as u64) as usize;
        self.away = Some(Away { node, begins: 1_000 + r.below(3_000), ends: 7_000 + r.below(5_000) });
        (self.cuts, self.slow, self.full, self.down_most) = (false, false, false, 50);
        self.operations = 12 + r.below(12);
        // a log grows by the servers' number squared; what a short absence costs must be within its limit
        let (s, servers) = (&mut self.settings, self.cluster.parameters.n as u64);
        s.segment = BLOCK * (3 + r.below(3)) * servers * servers;
        s.snapshot_every = s.segment / (1 + r.below(4));
        s.keep = s.segment * (3 + r.below(3));
        s.owed = s.segment * r.below(3);
    }
}
