//! The proved static library beside the second implementation: every kind of comparison makes one case from a seed, calls both
//! with it, and compares the answers and every byte of the lent areas.

mod accession;
pub mod calls;
mod coding;
mod facts;
mod histories;
mod playbacks;
pub mod runs;
mod single;

use register::flat::{Done, Outcome};
use register::Refusal;
use simulate::progress::Progress;

/// What differed, in words.
pub type Difference = String;

/// How often each refusal and each outcome came.
#[derive(Clone, Copy, Debug, Default, PartialEq, Eq)]
pub struct Seen {
    pub refusals: [u64; 27],
    pub outcomes: [u64; 5],
}

impl Seen {
    pub fn of(answer: u64) -> Seen {
        let mut seen = Seen::default();
        match answer & 0xff {
            0 => seen.outcomes[(answer >> 8 & 0xff) as usize] = 1,
            refusal => seen.refusals[refusal as usize] = 1,
        }
        seen
    }

    pub fn and(mut self, other: Seen) -> Seen {
        for (a, b) in self.refusals.iter_mut().zip(other.refusals) {
            *a += b;
        }
        for (a, b) in self.outcomes.iter_mut().zip(other.outcomes) {
            *a += b;
        }
        self
    }

    /// Whether these refusals all came, and every outcome that has a name.
    pub fn has(self, refusals: &[usize], outcomes: &[&str]) -> bool {
        let named = |o: &usize| !outcomes[*o].is_empty();
        refusals.iter().all(|&r| self.refusals[r] > 0)
            && (0..outcomes.len()).filter(named).all(|o| self.outcomes[o] > 0)
    }
}

/// A kind of comparison: its name, how many cases the gate tries, the refusals that they must reach, what each outcome is
/// called (all with a name must be reached), and the case of a seed.
pub struct Kind {
    pub name: &'static str,
    pub usual: u64,
    pub refusals: &'static [usize],
    pub outcomes: &'static [&'static str],
    pub case: fn(u64) -> Result<Seen, Difference>,
}

impl Kind {
    /// What came in the cases of this kind, in words.
    pub fn words(&self, seen: &Seen) -> String {
        let came = |(count, name): (&u64, &&str)| (!name.is_empty()).then(|| format!("{count} {name}"));
        let mut words: Vec<String> = seen.outcomes.iter().zip(self.outcomes).filter_map(came).collect();
        words.push(format!("{} refused", seen.refusals.iter().sum::<u64>()));
        words.join(", ")
    }
}

const ENDS: &[&str] = &[
    "steps that end nothing",
    "that end a write",
    "that close one as out of stamps",
    "that end a read",
    "that end one since its blocks disagree",
];

/// Seeds from 0 on: `usual` cases of digest and of coding go through all lengths and all parameter sets.
#[rustfmt::skip]
pub const KINDS: &[Kind] = &[
    Kind { name: "digest", usual: 4 * 260, refusals: &[3, 10], outcomes: &["digests"], case: coding::digest },
    Kind { name: "coding", usual: 57 * 256, refusals: &[], outcomes: &["values cut and rebuilt"], case: coding::coding },
    Kind { name: "encode", usual: 20_000, refusals: &[1, 2, 3, 10], outcomes: &["encoded"], case: coding::any_encode },
    Kind { name: "decode", usual: 20_000, refusals: &[1, 2, 3, 9, 10, 21], outcomes: &["decoded"], case: coding::any_decode },
    Kind {
        name: "history", usual: 20_000, case: histories::history,
        refusals: &[10, 18, 19], outcomes: &["with an order", "with an offending pair"],
    },
    Kind {
        name: "sheet", usual: 20_000, case: histories::sheet,
        refusals: &[10, 18, 19], outcomes: &["sheets", "with an offending pair"],
    },
    Kind { name: "index", usual: 10_000, refusals: &[10, 25, 26], outcomes: &["index calls"], case: accession::index },
    Kind {
        name: "asked", usual: 20_000, case: single::asked, refusals: &[7, 10],
        outcomes: &["nothing open, or a server's", "open, awaiting stamps", "open, awaiting acks", "open reads"],
    },
    Kind {
        name: "frame", usual: 20_000, case: facts::frame,
        refusals: &[1, 2, 3, 4, 5, 6, 7, 8, 9, 10], outcomes: &["frames without a time", "with one"],
    },
    Kind {
        name: "entry", usual: 5_000, case: facts::entry,
        refusals: &[3, 10, 11, 22, 23], outcomes: &["entries written and traces at their end", "entries read"],
    },
    Kind { name: "block", usual: 10_000, refusals: &[1, 2, 3, 10], outcomes: &["present blocks"], case: single::block },
    Kind { name: "fresh", usual: 5_000, refusals: &[1, 2, 3, 10], outcomes: &["servers made"], case: single::fresh },
    Kind {
        name: "server", usual: 60_000, case: single::server,
        refusals: &[1, 2, 3, 4, 5, 6, 7, 8, 9, 10, 11, 12, 13, 14], outcomes: &["steps"],
    },
    Kind {
        name: "client", usual: 200_000, case: single::client,
        refusals: &[1, 2, 3, 4, 5, 6, 7, 8, 9, 10, 11, 12, 14, 15, 16, 17], outcomes: ENDS,
    },
    Kind {
        name: "playback", usual: 20_000, case: playbacks::any,
        refusals: &[1, 2, 3, 10], outcomes: &["traces to their end", "to a malformed entry", "to one that is cut"],
    },
    Kind {
        name: "resumed", usual: 10_000, case: playbacks::resumed,
        refusals: &[1, 2, 3, 10], outcomes: &["traces to their end", "to a malformed entry", "to one that is cut"],
    },
    Kind {
        name: "recorded", usual: 150, case: playbacks::recorded,
        refusals: &[], outcomes: &["servers' traces of runs"],
    },
    Kind {
        name: "run", usual: 500, case: runs::lockstep,
        refusals: &[3, 4, 5, 6, 7, 8, 9, 10, 11, 12, 13, 14, 15, 17],
        outcomes: &["steps", "writes ended", "writes out of stamps", "reads ended", "disagreements"],
    },
];

/// The cases of `count` seeds from `first` on, and which answers came. A failure says what reproduces it.
pub fn try_seeds(kind: &Kind, first: u64, count: u64) -> Result<Seen, String> {
    let mut seen = Seen::default();
    let mut progress = Progress::new(kind.name, count);
    for (done, seed) in (0..).zip(first..first.saturating_add(count)) {
        progress.at(done);
        match (kind.case)(seed) {
            Ok(more) => seen = seen.and(more),
            Err(difference) => {
                let name = kind.name;
                return Err(format!(
                    "{name}, seed {seed}: {difference}; reproduce with: linked {name} 1 {seed}"
                ));
            }
        }
    }
    if count >= kind.usual && !seen.has(kind.refusals, kind.outcomes) {
        return Err(format!("{}: the cases reach too little: {}, {seen:?}", kind.name, kind.words(&seen)));
    }
    Ok(seen)
}

/// Bytes that a call is not to change.
fn pattern(length: usize, seed: u64) -> Vec<u8> {
    (0..length as u64).map(|i| (i.wrapping_mul(7) ^ seed.wrapping_mul(31)) as u8).collect()
}

/// Compares an answer with the expected one, and an area with the expected bytes.
fn same_answer(given: u64, expected: u64) -> Result<(), Difference> {
    if given == expected {
        return Ok(());
    }
    Err(format!("answer {given:#x}, expected {expected:#x}"))
}

fn same_bytes(what: &str, given: &[u8], expected: &[u8]) -> Result<(), Difference> {
    if given == expected {
        return Ok(());
    }
    let at = given.iter().zip(expected).position(|(a, b)| a != b);
    Err(format!("{what} differ at byte {at:?}"))
}

/// An answer of the second implementation in the bits of include/semduoli.h.
fn bits(answer: Result<Done, Refusal>) -> u64 {
    match answer {
        Err(refusal) => refusal.number() as u64,
        Ok(done) => {
            let outcome = match done.outcome {
                Outcome::Going | Outcome::Accepted(_) => 0,
                Outcome::Written => 1,
                Outcome::OutOfStamps => 2,
                Outcome::Value(_) => 3,
                Outcome::Disagreement => 4,
            };
            outcome << 8 | (done.frames as u64) << 16
        }
    }
}
