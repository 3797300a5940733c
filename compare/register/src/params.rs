//! Parameters and their bounds, parties, and the refusals: document 01's table, and 21 of request F-7.

/// The refusals, by their numbers.
#[derive(Clone, Copy, Debug, PartialEq, Eq, PartialOrd, Ord)]
#[repr(u8)]
pub enum Refusal {
    Parties = 1,
    Threshold = 2,
    ValueLength = 3,
    FrameLength = 4,
    Version = 5,
    Kind = 6,
    Operation = 7,
    BodyLength = 8,
    Parts = 9,
    Room = 10,
    Sender = 11,
    Old = 12,
    Early = 13,
    Digest = 14,
    Open = 15,
    UsedUp = 16,
    OutOfStamps = 17,
    Record = 18,
    Unlisted = 19,
    Disagreement = 21,
}

impl Refusal {
    pub fn number(self) -> u8 {
        self as u8
    }

    pub fn of_number(number: u8) -> Option<Refusal> {
        use Refusal::*;
        let all = [
            Parties,
            Threshold,
            ValueLength,
            FrameLength,
            Version,
            Kind,
            Operation,
            BodyLength,
            Parts,
            Room,
            Sender,
            Old,
            Early,
            Digest,
            Open,
            UsedUp,
            OutOfStamps,
            Record,
            Unlisted,
            Disagreement,
        ];
        all.into_iter().find(|refusal| refusal.number() == number)
    }

    pub fn words(self) -> &'static str {
        match self {
            Refusal::Parties => "n, t or the own number out of bounds",
            Refusal::Threshold => "k out of bounds",
            Refusal::ValueLength => "L out of bounds, or a value not L long",
            Refusal::FrameLength => "a frame under 9 bytes, or its length field wrong",
            Refusal::Version => "version not 1",
            Refusal::Kind => "kind not 1 to 5 or 9 to 13",
            Refusal::Operation => "client not 1 to 8, or sequence 0",
            Refusal::BodyLength => "body length wrong for the kind",
            Refusal::Parts => "stamp parts mixed, or blocks that cannot be decoded",
            Refusal::Room => "a lent area short",
            Refusal::Sender => "not from this sender to this receiver",
            Refusal::Old => "old, repeated or not awaited",
            Refusal::Early => "above the open sequence",
            Refusal::Digest => "a block against its digest",
            Refusal::Open => "an operation is open",
            Refusal::UsedUp => "sequences used up",
            Refusal::OutOfStamps => "a write after one that closed as out of stamps",
            Refusal::Record => "a history's record malformed",
            Refusal::Unlisted => "a history reads a stamp that is not listed",
            Refusal::Disagreement => "blocks that are not all of one value",
        }
    }
}

/// A server or a client with its number, as the host names it; the number may be anything.
#[derive(Clone, Copy, Debug, PartialEq, Eq, PartialOrd, Ord, Hash)]
pub enum Party {
    Client(usize),
    Server(usize),
}

/// A sent frame with its receiver.
#[derive(Clone, Debug, PartialEq, Eq)]
pub struct Send {
    pub to: Party,
    pub frame: Vec<u8>,
}

pub const CLIENTS: usize = 8;
pub const MAX_SERVERS: usize = 10;
pub const MAX_K: usize = 8;
pub const MAX_VALUE: usize = 256;
pub const DIGEST: usize = 32;

/// n servers, t of them may be false, k blocks rebuild a value of l bytes.
#[derive(Clone, Copy, Debug, PartialEq, Eq)]
pub struct Params {
    pub n: usize,
    pub t: usize,
    pub k: usize,
    pub l: usize,
}

impl Params {
    pub fn new(n: usize, t: usize, k: usize, l: usize) -> Params {
        Params { n, t, k, l }
    }

    /// Refusal 1, without a party's own number.
    pub fn check_parties(&self) -> Result<(), Refusal> {
        let n_ok = (4..=MAX_SERVERS).contains(&self.n);
        if n_ok && self.t >= 1 && self.t < self.n && self.n > 3 * self.t {
            Ok(())
        } else {
            Err(Refusal::Parties)
        }
    }

    /// Refusals 2 and 3, for parameters that passed 1.
    pub fn check_sizes(&self) -> Result<(), Refusal> {
        if self.k < 1 || self.k > self.n - 2 * self.t {
            return Err(Refusal::Threshold);
        }
        if self.l < 1 || self.l > MAX_VALUE {
            return Err(Refusal::ValueLength);
        }
        Ok(())
    }

    /// Refusals 1 to 3 as server `own` meets them.
    pub fn check_server(&self, own: usize) -> Result<(), Refusal> {
        self.check_parties()?;
        if own < 1 || own > self.n {
            return Err(Refusal::Parties);
        }
        self.check_sizes()
    }

    /// Refusals 1 to 3 as client `own` meets them.
    pub fn check_client(&self, own: usize) -> Result<(), Refusal> {
        self.check_parties()?;
        if !(1..=CLIENTS).contains(&own) {
            return Err(Refusal::Parties);
        }
        self.check_sizes()
    }

    /// b, the bytes of a block.
    pub fn block(&self) -> usize {
        self.l.div_ceil(self.k)
    }

    /// Bytes of a digest list.
    pub fn list(&self) -> usize {
        DIGEST * self.n
    }

    /// n − t.
    pub fn most(&self) -> usize {
        self.n - self.t
    }

    /// q, the larger of k and t + 1.
    pub fn q(&self) -> usize {
        self.k.max(self.t + 1)
    }

    /// Bytes of the largest frame, kind 11.
    pub fn largest(&self) -> usize {
        22 + self.list() + self.block()
    }

    /// The most frames that a server's step is lent room for: n readies, and for each of eight acceptances 8 values, an ack and n + 8
    /// reports.
    pub fn server_frames(&self) -> usize {
        9 * self.n + 136
    }

    pub fn server_room(&self) -> usize {
        self.server_frames() * self.largest()
    }

    pub fn client_room(&self) -> usize {
        self.n * self.largest()
    }

    /// Every parameter set (n, t, k) with the given length.
    pub fn all(l: usize) -> Vec<Params> {
        let mut sets = Vec::new();
        for n in 4..=MAX_SERVERS {
            for t in 1..=3 {
                for k in 1..=MAX_K {
                    let p = Params::new(n, t, k, l);
                    if p.check_parties().is_ok() && p.check_sizes().is_ok() {
                        sets.push(p);
                    }
                }
            }
        }
        sets
    }
}
