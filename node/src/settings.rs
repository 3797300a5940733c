//! All numbers that can be chosen, in one place. The program takes the defaults; the simulation draws small ones, so that segments end, windows fill
//! and snapshots come often.
use crate::streams::Limits;

/// Blocks that batches begin on.
pub const BLOCK: u64 = 4096;

#[derive(Clone, Debug, PartialEq, Eq)]
pub struct Settings {
    /// Bytes of a segment of the log.
    pub segment: u64,
    /// A batch closes when it has so many bytes.
    pub batch_most: usize,
    /// Bytes of log between two snapshots.
    pub snapshot_every: u64,
    /// Frames of a stream that may be on the wire or held: of streams with owner 0, and with another.
    pub window: usize,
    pub window_owner: usize,
    /// How much of what a server is owed is in memory, and by how many bytes the rest is read from the log.
    pub limits: Limits,
    pub fetch: u64,
    /// Bytes of log that are kept, and so many more while a server is owed something from them.
    pub keep: u64,
    pub owed: u64,
    /// Asks of a desk that may wait their turn.
    pub asks_most: usize,
    /// Milliseconds: how long a place waits for a batch; rest after which an empty batch is committed; between pings; after which a silent link is
    /// closed; between calls, at first and at most; until no space is looked at again; how long acknowledgements wait for company.
    pub place_wait: u64,
    pub fence_wait: u64,
    pub ping_every: u64,
    pub silent_most: u64,
    pub call_first: u64,
    pub call_most: u64,
    pub full_wait: u64,
    pub ack_wait: u64,
    /// Calls to a node that wait no longer than the first.
    pub calls_short: u32,
    /// Wrong nodes that the simulation must find.
    #[cfg(feature = "sim")]
    pub mutant: Option<Mutant>,
}

impl Default for Settings {
    fn default() -> Settings {
        Settings {
            segment: 16 << 20,
            batch_most: 1 << 20,
            snapshot_every: 256 << 20,
            window: 32,
            window_owner: 8,
            limits: Limits { near: 64, grain: 256 },
            fetch: 256 << 10,
            keep: u64::MAX,
            owed: u64::MAX,
            asks_most: 64,
            place_wait: 10,
            fence_wait: 100,
            ping_every: 10_000,
            silent_most: 30_000,
            call_first: 200,
            call_most: 10_000,
            full_wait: 1_000,
            ack_wait: 5,
            calls_short: 10,
            #[cfg(feature = "sim")]
            mutant: None,
        }
    }
}

/// What a wrong node does.
#[derive(Clone, Copy, Debug, PartialEq, Eq, PartialOrd, Ord)]
pub enum Mutant {
    /// Frames leave before their step is synced.
    SendEarly,
    /// Frames are acknowledged before their step is synced.
    AckEarly,
    /// Recovery does not sync what it reads.
    NoSettle,
    /// A snapshot has steps that are in no batch yet.
    SnapshotAhead,
    /// All frames between two parties go by one stream.
    OneStream,
    /// What was acknowledged is not remembered over a restart.
    NumbersLost,
    /// A batch is recognized by a sum that a partner can work out.
    WeakSum,
    /// Frames leave before enough servers have greeted.
    NoWait,
    /// A partner that gave a sign of lost state counts as one without, once its numbers are passed.
    SignPasses,
    /// A sign of lost state is forgotten at the next start.
    SignForgotten,
    /// A frame's sender is the one that the frame names.
    SenderByFrame,
    /// That a server was given up is forgotten at the next start.
    GivenUpForgotten,
}

impl Settings {
    #[cfg(feature = "sim")]
    pub fn is(&self, mutant: Mutant) -> bool {
        self.mutant == Some(mutant)
    }

    #[cfg(not(feature = "sim"))]
    pub fn is(&self, _: Mutant) -> bool {
        false
    }
}
