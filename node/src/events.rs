//! The whole interface between the node's core and what runs it. The core is a function of its state and one event at a time: it does no input or
//! output, has no clock and no random numbers, and answers each event with actions. The program (`run.rs`) carries actions out with sockets and
//! files; the simulation carries them out in memory. Both hand in the same events.
//!
//! What the one who runs the core must keep to:
//! - Events are handed in one at a time, with `Now` not falling in `boot`.
//! - The first event is `Start`, and it comes once. No link and no ask is handed in before the action `Ready`.
//! - Each `Disk` action is answered by exactly one event `Disk` with the same `id`. Operations of one lane are carried out in their order, one after
//!   the other; the lanes run beside each other. An operation is answered only when it is done wholly, `Commit` and `Replace` with their syncs.
//! - While `Core::taking` is false no `Bytes` and no `Ask` are handed in: the batch is full, and what comes waits outside. `Core::taking_from` says the same
//!   of one link.
//! - A tick is handed in at the latest when `Core::wake` says. After other events it says "at once": what is there is handed in first, then the tick.
//! - Actions are carried out in their order. After `Exit` nothing more is handed in, and no further action is carried out.
//! - `Send` is put behind what was sent by that link before; the bytes arrive in order or the link goes down. What can't be sent at once is kept by
//!   the one who runs the core. A link on which more than `SEND_MOST` bytes wait is taken down (`LinkDown`).
//! - `node` of `LinkUp` is the node whose certificate the link has. Nobody else is let in.

use crate::status::Status;

/// A link, counted by the one who runs the core; never used twice in a run.
pub type LinkId = u64;
/// A node's place in the cluster file, from 0.
pub type NodeId = usize;
/// Who asks by the local socket; never used twice in a run.
pub type AskId = u64;
/// A disk operation, counted by the core.
pub type DiskId = u64;

/// So many bytes may wait to be sent by one link.
pub const SEND_MOST: usize = 16 << 20;

/// The two clocks, in milliseconds. `boot` never steps (CLOCK_BOOTTIME); `wall` may (UTC since 1970) and is only written down.
#[derive(Clone, Copy, Debug, Default, PartialEq, Eq)]
pub struct Now {
    pub boot: u64,
    pub wall: u64,
}

/// What happened.
#[derive(Clone, Debug)]
pub enum Event {
    /// The program begins. The folder is locked by then and has its key.
    Start(Start),
    /// A link to a partner is there, both certificates seen. `dialed`: this node called.
    LinkUp { link: LinkId, node: NodeId, dialed: bool },
    /// Bytes came by a link, in their order, cut anywhere. At most 256 KiB at once, so that no partner keeps the others waiting.
    Bytes { link: LinkId, bytes: Vec<u8> },
    /// A link is gone, or a call to a node failed (`link` is then none).
    LinkDown { link: Option<LinkId>, node: NodeId, why: String },
    /// Somebody asks by the local socket.
    Ask { id: AskId, ask: Ask },
    /// Who asked has gone. What was begun goes on.
    AskGone { id: AskId },
    /// A disk operation is done, or failed.
    Disk { id: DiskId, result: Result<DiskAnswer, DiskError> },
    /// Time has passed. Comes when `Core::wake` says, or earlier.
    Tick,
}

/// What the program knows at its beginning and the core can't know.
#[derive(Clone, Debug, Default)]
pub struct Start {
    /// 16 random bytes: the log's id, should a log be made now. Never told to a partner.
    pub random: [u8; 16],
    /// Which start of the machine this is (/proc/sys/kernel/random/boot_id).
    pub boot_id: String,
    pub pid: u32,
    /// The program's version, for the log.
    pub version: String,
}

/// What is asked by the local socket.
#[derive(Clone, Debug, PartialEq, Eq)]
pub enum Ask {
    /// A desk of this node reads. Waits its turn if the desk has something open.
    Read { client: u8, register: u8 },
    /// A desk of this node writes.
    Write { client: u8, register: u8, value: Vec<u8> },
    /// Waits for an operation that was begun earlier, by its number (`Response::Begun`), also before a restart.
    Wait { client: u8, register: u8, operation: u64 },
    /// How the node is.
    Status,
    /// A snapshot is made now, whatever the log's length.
    Snapshot,
}

/// What is answered. `Begun` is followed by `Ended` under the same `AskId`; all others are the last answer.
#[derive(Clone, Debug, PartialEq)]
pub enum Response {
    /// The operation is in the log and goes on whatever happens to who asked. `operation` is its number, which counts the begins of this desk.
    Begun {
        operation: u64,
    },
    Ended(Ended),
    /// Turned down, by the library's number where it has one: 1 a client that is not this node's, 3 the value's length, 7 a register that is not there,
    /// 15 too many wait, 16 and 17 as in the library. 0: the operation is not known.
    Refused {
        number: u8,
        why: String,
    },
    Status(Box<Status>),
    /// A snapshot is on the disk; the first batch that is not in it.
    SnapshotDone {
        batch: u64,
    },
}

/// An operation's end. Ticks count the begins and ends of this node's desks, in the log's order.
#[derive(Clone, Debug, PartialEq, Eq)]
pub struct Ended {
    pub client: u8,
    pub register: u8,
    pub operation: u64,
    pub begin_tick: u32,
    pub end_tick: u32,
    pub begin_wall: u64,
    pub end_wall: u64,
    pub outcome: Outcome,
}

#[derive(Clone, Debug, PartialEq, Eq)]
pub enum Outcome {
    Written { stamp: Stamp },
    Value { value: Vec<u8>, stamp: Stamp },
    OutOfStamps,
    Disagreement,
}

/// A stamp's parts.
#[derive(Clone, Copy, Debug, Default, PartialEq, Eq, PartialOrd, Ord)]
pub struct Stamp {
    pub time: u64,
    pub writer: u8,
    pub sequence: u32,
}

/// What is to be done.
#[derive(Clone, Debug)]
pub enum Action {
    /// Recovery is through: links and asks may come now.
    Ready,
    Send {
        link: LinkId,
        bytes: Vec<u8>,
    },
    /// The link is closed once what was sent before is out (or can't be). No `LinkDown` follows.
    Close {
        link: LinkId,
        reason: String,
    },
    /// Call a node. Answered by `LinkUp` or, with no link, `LinkDown`.
    Dial {
        node: NodeId,
    },
    Disk {
        id: DiskId,
        lane: Lane,
        op: DiskOp,
    },
    Answer {
        id: AskId,
        response: Response,
    },
    /// A line for the operator.
    Note {
        level: Level,
        line: String,
    },
    /// The program ends with this exit code, and says this line.
    Exit {
        code: u8,
        line: String,
    },
}

/// Exit codes of the core.
pub mod exit {
    /// The cluster file does not fit the log: own parties were removed.
    pub const CLUSTER: u8 = 2;
    pub const DAMAGED: u8 = 10;
    pub const DISK: u8 = 11;
    pub const LOST: u8 = 12;
    pub const OTHER_LOG: u8 = 13;
}

#[derive(Clone, Copy, Debug, PartialEq, Eq, PartialOrd, Ord)]
pub enum Level {
    Error,
    Warning,
    Notice,
    Info,
}

/// Operations of a lane are carried out one after the other. `Log` is recovery and the batches, `Side` the next segment, snapshots and what is removed:
/// they take long and must not hold the batches up.
#[derive(Clone, Copy, Debug, PartialEq, Eq, PartialOrd, Ord)]
pub enum Lane {
    Log,
    Side,
}

/// A file is named by its name in the node's folder. Only names that `files.rs` makes are asked for.
#[derive(Clone, Debug, PartialEq, Eq)]
pub enum DiskOp {
    /// The names of all files in the folder with their lengths, in the order of names.
    List,
    /// Syncs the file, then drops its pages from the cache, so that a read shows what the disk has.
    Settle { file: String },
    /// Syncs the folder: its names.
    SettleFolder,
    /// `length` bytes from `offset` on, or as many as there are.
    Read { file: String, offset: u64, length: u64 },
    /// Writes into a file that is there, and syncs its bytes (fdatasync).
    Commit { file: String, offset: u64, bytes: Vec<u8> },
    /// Makes a file with these bytes and zeros behind them up to `length`, as `NAME.new`, synced; renames it; syncs the folder.
    Replace { file: String, bytes: Vec<u8>, length: u64 },
    /// Removes a file; it is no error if it is not there. The folder is not synced.
    Unlink { file: String },
}

#[derive(Clone, Debug, PartialEq, Eq)]
pub enum DiskAnswer {
    Done,
    Names(Vec<(String, u64)>),
    Bytes(Vec<u8>),
}

/// A disk operation that failed. After a failed sync nothing is known of the pages: it is never tried again.
#[derive(Clone, Debug, PartialEq, Eq)]
pub struct DiskError {
    /// There is no space left.
    pub full: bool,
    /// The system's words, with what was tried.
    pub text: String,
}
