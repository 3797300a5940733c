//! What `status` shows: a copy of what the core knows, taken at one moment.
use serde::Serialize;

#[derive(Clone, Debug, Default, PartialEq, Serialize)]
pub struct Status {
    pub name: String,
    /// Whether frames may leave: enough servers have greeted this node since its start without a sign of lost state.
    pub open: bool,
    /// Nodes that say that this node has lost state.
    pub signs: Vec<String>,
    /// Set while no new frames are taken, with the reason in words.
    pub alarm: Option<String>,
    pub servers: Vec<ServerStatus>,
    pub desks: Vec<DeskStatus>,
    pub partners: Vec<PartnerStatus>,
    pub log: LogStatus,
}

#[derive(Clone, Debug, Default, PartialEq, Serialize)]
pub struct ServerStatus {
    pub number: u8,
    pub register: u8,
    /// The stamp that the server holds: time, writer, sequence.
    pub stamp: (u64, u8, u32),
    /// The open sequence of each client, 1 to 8.
    pub sequences: Vec<u64>,
    /// SHA-256 of the server's record, in hexadecimal: equal servers need not have equal records, a restarted server has its own.
    pub record: String,
}

#[derive(Clone, Debug, Default, PartialEq, Serialize)]
pub struct DeskStatus {
    pub client: u8,
    pub register: u8,
    /// `read` or `write` while one is open.
    pub open: Option<String>,
    pub operation: u64,
    /// How many ms it has been open.
    pub age: u64,
    /// Servers whose answer the open operation has not had.
    pub awaited: Vec<u8>,
    /// Asks that wait their turn.
    pub waiting: usize,
}

#[derive(Clone, Debug, Default, PartialEq, Serialize)]
pub struct PartnerStatus {
    pub name: String,
    /// Whether a link is there on which both have greeted.
    pub linked: bool,
    /// Why there is none, in words.
    pub why: String,
    pub owed_frames: u64,
    /// Bytes of the log from the batch of the first frame on that it is owed.
    pub owed_log: u64,
    /// For how many ms the oldest owed frame has been owed, by the wall clock.
    pub owed_age: u64,
    /// Whether its server was given up: nothing is owed to it any more.
    pub given_up: bool,
    /// Frames of this partner that are held until their sequence comes.
    pub held: u64,
    /// Refusals by number.
    pub refused: Vec<(u8, u64)>,
}

#[derive(Clone, Debug, Default, PartialEq, Serialize)]
pub struct LogStatus {
    /// The last batch on the disk.
    pub batch: u64,
    /// Its chained hash, in hexadecimal.
    pub hash: String,
    pub segment: u32,
    pub first_segment: u32,
    pub steps: u64,
    /// The log's size on the disk, from the first segment that is there to the last batch's end.
    pub bytes: u64,
    /// The first batch that is not in the newest snapshot; 0 if there is none.
    pub snapshot: u64,
    /// How many records the last start replayed.
    pub replayed: u64,
}
