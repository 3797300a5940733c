//! One run from a seed: parameters, parties, a schedule that delays, reorders, repeats and drops,
//! the row check, and at the end the delivery of everything.

use crate::adversary::{Adversary, Profile};
use crate::check::{check_row, check_times, check_waiting, Violation};
use crate::recorded::Recorded;
use crate::style::Style;
use crate::world::{Setup, World};
use hall::to_hex;
use register::random::Random;
use register::{Params, Party, Refusal, Variant};
use std::collections::BTreeSet;

#[derive(Clone, Copy, Debug)]
pub struct Options {
    pub variant: Variant,
    /// Run this style beside the clear one and compare every byte.
    pub style: Option<Style>,
    /// Give the calls as a script of the hall program, where no area is short.
    pub script: bool,
    /// Have n − t or more false servers: nothing is asked of what such a run shows, but that the styles say the same.
    pub many: bool,
    /// Record the trace of each honest server.
    pub record: bool,
}

impl Options {
    pub const RIGHT: Options =
        Options { variant: Variant::Right, style: None, script: false, many: false, record: false };
}

/// What happened in a run or in many.
#[derive(Clone, Debug, Default)]
pub struct Summary {
    pub reads: u64,
    pub writes: u64,
    /// Accepted writes of false clients.
    pub foreign: u64,
    pub steps: u64,
    /// Answers by number.
    pub refusals: [u64; 20],
    /// Values that came to a row of four.
    pub overflows: u64,
    /// Writes that closed as out of stamps.
    pub closed: u64,
    /// Steps that accepted several writes, and reports that freed any.
    pub several: u64,
    pub freed: u64,
    /// Reads that ended since their blocks disagree.
    pub disagreements: u64,
    /// The script, if asked for.
    pub script: Vec<String>,
    /// The honest servers' traces, if asked for.
    pub recorded: Vec<Recorded>,
}

impl Summary {
    pub fn add(&mut self, other: &Summary) {
        self.reads += other.reads;
        self.writes += other.writes;
        self.foreign += other.foreign;
        self.steps += other.steps;
        self.overflows += other.overflows;
        self.closed += other.closed;
        self.several += other.several;
        self.freed += other.freed;
        self.disagreements += other.disagreements;
        for (a, b) in self.refusals.iter_mut().zip(other.refusals) {
            *a += b;
        }
    }
}

#[derive(Clone, Copy)]
enum Pick {
    Oldest,
    Newest,
    Any,
}

/// For a while, some frames are held back.
struct Phase {
    /// Frames to or from these.
    held: Vec<Party>,
    /// Frames of kinds 3 to 5 to these.
    lagging: Vec<Party>,
    /// Frames to clients from these.
    slow: Vec<Party>,
    /// Frames to this client.
    starved: Option<usize>,
    /// Frames between servers of different halves.
    halves: Option<u32>,
    kind: Option<(u8, Party)>,
    pick: Pick,
    left: usize,
}

fn some_servers(p: &Params, most: usize, random: &mut Random) -> Vec<Party> {
    (0..random.range(0, most)).map(|_| Party::Server(random.range(1, p.n))).collect()
}

impl Phase {
    fn noisy(p: &Params, random: &mut Random) -> Phase {
        let most = if random.chance(1, 5) { p.n } else { p.t };
        let held = if random.chance(3, 5) { some_servers(p, most, random) } else { Vec::new() };
        let kind = random
            .chance(1, 5)
            .then(|| (random.pick(&[1, 3, 4, 5, 10, 12, 13]), Party::Server(random.range(1, p.n))));
        Phase {
            held,
            lagging: Vec::new(),
            slow: Vec::new(),
            starved: None,
            halves: None,
            kind,
            pick: random.pick(&[Pick::Oldest, Pick::Newest, Pick::Any, Pick::Any]),
            left: random.range(5, 40 * p.n),
        }
    }

    /// Up to t servers lag behind for long; others answer clients late.
    fn cunning(before: Option<&Phase>, p: &Params, clients: &[usize], random: &mut Random) -> Phase {
        let lagging = match before {
            Some(phase) if random.chance(4, 5) => phase.lagging.clone(),
            _ => some_servers(p, p.t, random),
        };
        let starved = match before {
            Some(phase) if random.chance(19, 20) => phase.starved,
            _ => (clients.len() > 1 && random.chance(1, 3)).then(|| random.pick(clients)),
        };
        Phase {
            held: Vec::new(),
            lagging,
            starved,
            slow: some_servers(p, p.t, random),
            halves: None,
            kind: None,
            pick: random.pick(&[Pick::Oldest, Pick::Newest, Pick::Any, Pick::Any]),
            left: random.range(20, 30 * p.n),
        }
    }

    fn holds(&self, world: &World, place: usize) -> bool {
        let sent = &world.log[place];
        let across = match (self.halves, sent.from, sent.to) {
            (Some(halves), Party::Server(i), Party::Server(j)) => (halves >> i ^ halves >> j) & 1 == 1,
            _ => false,
        };
        across
            || self.held.contains(&sent.from)
            || self.held.contains(&sent.to)
            || ((3..=5).contains(&sent.frame[3]) && self.lagging.contains(&sent.to))
            || (matches!(sent.to, Party::Client(_)) && self.slow.contains(&sent.from))
            || self.kind == Some((sent.frame[3], sent.to))
            || matches!(sent.to, Party::Client(c) if self.starved == Some(c))
    }

    /// The place among the pending frames of one that is not held back.
    fn choose(&self, world: &World, random: &mut Random) -> Option<usize> {
        let count = world.pending.len();
        if count == 0 {
            return None;
        }
        let start = match self.pick {
            Pick::Oldest | Pick::Newest => 0,
            Pick::Any => random.below(count),
        };
        (0..count)
            .map(|i| match self.pick {
                Pick::Newest => count - 1 - i,
                _ => (start + i) % count,
            })
            .find(|&i| !self.holds(world, world.pending[i]))
    }
}

/// Every other seed goes through all sets in turn.
fn parameters(seed: u64, random: &mut Random) -> Params {
    let l = match random.below(10) {
        0..=5 => random.range(1, 8),
        6..=8 => random.range(1, 40),
        _ => random.range(1, 256),
    };
    let sets = Params::all(l);
    let small: Vec<Params> = sets.iter().copied().filter(|p| p.n == 4).collect();
    if seed.is_multiple_of(2) {
        random.pick(&small)
    } else {
        sets[(seed / 2) as usize % sets.len()]
    }
}

/// The parameters of a seed's run.
pub fn parameters_of(seed: u64) -> Params {
    parameters(seed, &mut Random::new(seed))
}

fn shuffle(items: &mut [usize], random: &mut Random) {
    for i in (1..items.len()).rev() {
        items.swap(i, random.below(i + 1));
    }
}

/// Shuffles and takes some.
fn some(items: std::ops::RangeInclusive<usize>, count: usize, random: &mut Random) -> Vec<usize> {
    let mut items: Vec<usize> = items.collect();
    shuffle(&mut items, random);
    items.truncate(count);
    items
}

/// Mostly enough room, in a run that is no script sometimes too little.
fn some_room(script: bool, needed: usize, random: &mut Random) -> usize {
    if random.chance(1, 100) && !script {
        random.pick(&[0, needed / 2, needed - 1])
    } else {
        needed + random.below(3)
    }
}

struct Run {
    world: World,
    adversary: Adversary,
    clients: Vec<usize>,
    operations: usize,
    profile: Profile,
    /// One in so many calls repeats a frame.
    repeats: usize,
}

impl Run {
    fn phase(&self, before: Option<&Phase>, random: &mut Random) -> Phase {
        match self.profile {
            Profile::Noisy => Phase::noisy(&self.world.p, random),
            Profile::Cunning => Phase::cunning(before, &self.world.p, &self.clients, random),
            Profile::Splitting => {
                let phase = Phase::cunning(before, &self.world.p, &self.clients, random);
                if random.chance(1, 3) {
                    return phase;
                }
                let halves = Some(self.adversary.halves);
                Phase { halves, lagging: Vec::new(), slow: Vec::new(), starved: None, ..phase }
            }
        }
    }

    fn begin(&mut self, client: usize, random: &mut Random) -> Result<(), Violation> {
        let room = some_room(self.world.script.is_some(), self.world.p.client_room(), random);
        let answer = if random.chance(1, 2) {
            self.world.begin_read(client, room)?
        } else {
            let l = self.world.p.l;
            let length = if random.chance(1, 30) { l + 1 } else { l };
            self.world.begin_write(client, &random.bytes(length), room)?
        };
        if answer.is_none() {
            self.operations -= 1;
        }
        Ok(())
    }

    fn deliver(&mut self, phase: &Phase, random: &mut Random) -> Result<bool, Violation> {
        let Some(i) = phase.choose(&self.world, random) else { return Ok(false) };
        let place = match phase.pick {
            Pick::Any => self.world.pending.swap_remove(i),
            _ => self.world.pending.remove(i),
        };
        let room = some_room(self.world.script.is_some(), self.world.room(self.world.log[place].to), random);
        let answer = self.world.hand_sent(place, room)?;
        if let Some(Refusal::Room | Refusal::Early) = answer {
            self.world.pending.push(place);
        }
        Ok(true)
    }

    /// Hands in again a frame that an honest party once sent to an honest party.
    fn repeat(&mut self, random: &mut Random) -> Result<(), Violation> {
        if self.world.log.is_empty() {
            return Ok(());
        }
        let mut place = random.below(self.world.log.len());
        for _ in 0..random.below(20) {
            // Mostly an answer to a client that awaits one.
            if matches!(self.world.log[place].to, Party::Client(c) if self.world.is_open(c)) {
                break;
            }
            place = random.below(self.world.log.len());
        }
        let to = self.world.log[place].to;
        if self.world.honest(to) {
            let room = some_room(self.world.script.is_some(), self.world.room(to), random);
            self.world.hand_sent(place, room)?;
        }
        Ok(())
    }

    /// The delivery of everything, what is still to be delivered in any order, while the false parties go on for a while.
    fn deliver_all(&mut self, random: &mut Random) -> Result<(), Violation> {
        let Run { world, adversary, .. } = self;
        match random.below(4) {
            0 => world.pending.reverse(),
            1 => shuffle(&mut world.pending, random),
            _ => {}
        }
        let mut actions = random.range(0, 200);
        world.flush(|world| {
            if actions > 0 && adversary.present() && random.chance(1, 4) {
                actions -= 1;
                adversary.act(world, random)?;
            }
            Ok(())
        })
    }

    fn step(&mut self, phase: &mut Phase, random: &mut Random) -> Result<(), Violation> {
        let waiting = |c: usize| self.world.is_open(c) && phase.starved != Some(c);
        let open = self.clients.iter().filter(|&&c| waiting(c)).count();
        let eager = if open == 0 { 50 } else { 3 };
        if self.operations > 0 && random.chance(eager, 100) {
            let client = random.pick(&self.clients);
            return self.begin(client, random);
        }
        if self.adversary.present() && random.chance(1, 4) {
            return self.adversary.act(&mut self.world, random);
        }
        if random.chance(1, self.repeats) {
            return self.repeat(random);
        }
        if phase.left == 0 || !self.deliver(phase, random)? {
            *phase = self.phase(Some(phase), random);
        }
        phase.left -= 1;
        Ok(())
    }
}

/// The run of a seed.
pub fn run(seed: u64, options: Options) -> Result<Summary, Violation> {
    let mut random = Random::new(seed);
    let random = &mut random;
    let p = parameters(seed, random);
    let initial = random.bytes(p.l);
    let profile = random.pick(&[Profile::Noisy, Profile::Cunning, Profile::Cunning, Profile::Splitting]);
    let splitting = profile == Profile::Splitting;
    let false_count = if options.many {
        random.range(p.most(), p.n)
    } else if splitting || random.chance(4, 5) {
        p.t
    } else {
        random.range(0, p.t)
    };
    let false_servers = some(1..=p.n, false_count, random);
    let honest_count = random.range(1, 4);
    let clients = some(1..=8, honest_count + random.range(splitting as usize, 3), random);
    let (honest, others) = clients.split_at(honest_count);
    let setup = Setup {
        p,
        initial: &initial,
        false_servers: &false_servers,
        honest_clients: honest,
        variant: options.variant,
        style: options.style,
        record: options.record,
    };
    let mut run = Run {
        world: World::new(&setup),
        adversary: Adversary::new(p, &false_servers, others, &initial, profile, random),
        clients: honest.to_vec(),
        operations: random.range(2, if profile == Profile::Cunning { 20 } else { 12 }),
        profile,
        repeats: random.pick(&[2, 15, 15]),
    };
    let mut phase = run.phase(None, random);
    if options.script {
        let Params { n, t, k, l } = p;
        run.world.script = Some(vec![format!("hall {n} {t} {k} {l} {}", to_hex(&initial))]);
    }
    let limit = run.operations * p.n * p.n * 20;
    for _ in 0..limit {
        let done = run.operations == 0 && !run.clients.iter().any(|&c| run.world.is_open(c));
        if done || run.clients.iter().all(|&c| run.world.out_of_stamps(c)) {
            break;
        }
        run.step(&mut phase, random)?;
    }
    if !options.many {
        check_row(&run.world.seen)?;
        run.deliver_all(random)?;
        check_row(&run.world.seen)?;
        check_times(&run.world.seen)?;
        check_waiting(&run.world.seen)?;
    }
    let seen = &run.world.seen;
    let accepted: BTreeSet<(usize, u32)> = seen.accepted.iter().map(|a| (a.client, a.sequence)).collect();
    Ok(Summary {
        reads: seen.reads.len() as u64,
        writes: seen.writes.values().filter(|w| w.ended.is_some()).count() as u64,
        foreign: accepted.iter().filter(|name| !seen.writes.contains_key(name)).count() as u64,
        steps: run.world.steps,
        refusals: run.world.refusals,
        overflows: run.world.overflows,
        closed: run.world.closed,
        several: run.world.several,
        freed: run.world.freed,
        disagreements: seen.disagreements.len() as u64,
        recorded: run.world.recorded(),
        script: run.world.script.unwrap_or_default(),
    })
}
