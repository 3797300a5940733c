//! The library's calls and numbers for hosts in Rust, as semduoli.h declares them, which says what each means; names of numbers are those of the header
//! without SEMDUOLI_. A lent area is passed as its pointer and its length in bytes: `*const u8` is only read, `*mut u8` is written and may overlap no other.
//! It is taken in by `#[path]`, and the host links the library. python3 .ci/text holds it against the header.
#![allow(dead_code)] // no host uses everything

pub const VERSION: u64 = 4;

// ---- bounds
pub const SERVERS_MOST: usize = 10;
pub const CLIENTS_MOST: usize = 8;
pub const SIZE_MOST: usize = 256;
pub const INDEX_VALUES: usize = 64;

// ---- sizes in bytes
pub const DIGEST: usize = 32;
pub const SERVER: usize = 2216;
pub const CLIENT: usize = 857;
pub const AREA: usize = 97344;
pub const ROWS: usize = 23040;
pub const RECEIVER: usize = 2;
pub const REPLY_HEAD: usize = 3;
pub const STAMP: usize = 13;
pub const TIME: usize = 8;
pub const ENTRY_HEAD: usize = 5;
pub const ENTRY_FRAME_MOST: usize = 65532;
pub const LINES: usize = 64;
pub const PAGE: usize = 4380;
pub const INDEX: usize = 577;

// ---- refusals
pub const ACCEPTED: u8 = 0;
pub const REFUSED_PARTIES: u8 = 1;
pub const REFUSED_THRESHOLD: u8 = 2;
pub const REFUSED_LENGTH: u8 = 3;
pub const REFUSED_FRAMING: u8 = 4;
pub const REFUSED_VERSION: u8 = 5;
pub const REFUSED_KIND: u8 = 6;
pub const REFUSED_OWNER: u8 = 7;
pub const REFUSED_BODY: u8 = 8;
pub const REFUSED_CONTENT: u8 = 9;
pub const REFUSED_ROOM: u8 = 10;
pub const REFUSED_SENDER: u8 = 11;
pub const REFUSED_STALE: u8 = 12;
pub const REFUSED_AHEAD: u8 = 13;
pub const REFUSED_DIGEST: u8 = 14;
pub const REFUSED_BUSY: u8 = 15;
pub const REFUSED_EXHAUSTED: u8 = 16;
pub const REFUSED_CLOSED: u8 = 17;
pub const REFUSED_RECORD: u8 = 18;
pub const REFUSED_UNLISTED: u8 = 19;
pub const REFUSED_DISAGREEMENT: u8 = 21;
pub const REFUSED_MALFORMED: u8 = 22;
pub const REFUSED_CUT: u8 = 23;
pub const REFUSED_FULL: u8 = 25;
pub const REFUSED_SHORT: u8 = 26;

// ---- the class of a party, and the kinds of frames
pub const CLASS_CLIENT: u8 = 0;
pub const CLASS_SERVER: u8 = 1;
pub const KIND_GET_STAMP: u8 = 1;
pub const KIND_STAMP: u8 = 2;
pub const KIND_SEND: u8 = 3;
pub const KIND_ECHO: u8 = 4;
pub const KIND_READY: u8 = 5;
pub const KIND_ACK: u8 = 9;
pub const KIND_READ: u8 = 10;
pub const KIND_VALUE: u8 = 11;
pub const KIND_READ_COMPLETE: u8 = 12;
pub const KIND_REPORT: u8 = 13;

// ---- outcomes: of semduoli_frame_time, of a client's step, of semduoli_client_open, of a trace, of a history
pub const NO_TIME: u8 = 0;
pub const HAS_TIME: u8 = 1;
pub const SENT: u8 = 0;
pub const WRITTEN: u8 = 1;
pub const OUT_OF_STAMPS: u8 = 2;
pub const VALUE: u8 = 3;
pub const DISAGREEMENT: u8 = 4;
pub const OPEN_NOTHING: u8 = 0;
pub const OPEN_ASKING: u8 = 1;
pub const OPEN_ACKING: u8 = 2;
pub const OPEN_READING: u8 = 3;
pub const TRACE_WHOLE: u8 = 0;
pub const TRACE_ENTRY: u8 = 1;
pub const TRACE_MALFORMED: u8 = 22;
pub const TRACE_CUT: u8 = 23;
pub const ORDERED: u8 = 0;
pub const OFFENDING: u8 = 1;

extern "C" {
    pub fn semduoli_version() -> u64;
    pub fn semduoli_digest(message: *const u8, message_length: usize, out: *mut u8, out_length: usize) -> u64;
    pub fn semduoli_encode(n: usize, t: usize, k: usize, size: usize, value: *const u8, value_length: usize, out: *mut u8, out_length: usize) -> u64;
    pub fn semduoli_decode(
        n: usize, t: usize, k: usize, size: usize, numbers: *const u8, numbers_length: usize, blocks: *const u8, blocks_length: usize, out: *mut u8,
        out_length: usize,
    ) -> u64;
    pub fn semduoli_judge(text: *const u8, text_length: usize, lines: *mut u8, lines_length: usize) -> u64;
    pub fn semduoli_sheet(text: *const u8, text_length: usize, out: *mut u8, out_length: usize) -> u64;
    pub fn semduoli_index_fresh(index: *mut u8, index_length: usize) -> u64;
    pub fn semduoli_index_insert(value: *const u8, value_length: usize, index: *mut u8, index_length: usize) -> u64;
    pub fn semduoli_index_search(number: u64, index: *const u8, index_length: usize) -> u64;
    pub fn semduoli_frame_header(n: usize, t: usize, k: usize, size: usize, frame: *const u8, frame_length: usize) -> u64;
    pub fn semduoli_frame_time(
        n: usize, t: usize, k: usize, size: usize, frame: *const u8, frame_length: usize, time: *mut u8, time_length: usize,
    ) -> u64;
    pub fn semduoli_server_fresh(
        n: usize, t: usize, k: usize, size: usize, me: usize, value: *const u8, value_length: usize, area: *mut u8, area_length: usize,
        initial: *mut u8, initial_length: usize, state: *mut u8, state_length: usize,
    ) -> u64;
    pub fn semduoli_server_deliver(
        n: usize, t: usize, k: usize, size: usize, me: usize, sender_class: usize, sender: usize, frame: *const u8, frame_length: usize,
        area: *mut u8, area_length: usize, initial: *const u8, initial_length: usize, state: *mut u8, state_length: usize, out: *mut u8,
        out_length: usize, to: *mut u8, to_length: usize,
    ) -> u64;
    pub fn semduoli_server_stamp(state: *const u8, state_length: usize, stamp: *mut u8, stamp_length: usize) -> u64;
    pub fn semduoli_server_open(client: usize, state: *const u8, state_length: usize) -> u64;
    pub fn semduoli_server_block(
        n: usize, t: usize, k: usize, size: usize, area: *const u8, area_length: usize, initial: *const u8, initial_length: usize, state: *const u8,
        state_length: usize, block: *mut u8, block_length: usize,
    ) -> u64;
    pub fn semduoli_entry_write(sender_class: usize, sender: usize, frame: *const u8, frame_length: usize, out: *mut u8, out_length: usize) -> u64;
    pub fn semduoli_entry_read(trace: *const u8, trace_length: usize) -> u64;
    pub fn semduoli_playback(
        n: usize, t: usize, k: usize, size: usize, me: usize, value: *const u8, value_length: usize, trace: *const u8, trace_length: usize,
        area: *mut u8, area_length: usize, initial: *mut u8, initial_length: usize, state: *mut u8, state_length: usize, out: *mut u8,
        out_length: usize,
    ) -> u64;
    pub fn semduoli_server_resume(
        n: usize, t: usize, k: usize, size: usize, me: usize, trace: *const u8, trace_length: usize, area: *mut u8, area_length: usize,
        initial: *const u8, initial_length: usize, state: *mut u8, state_length: usize, out: *mut u8, out_length: usize, to: *mut u8, to_length: usize,
    ) -> u64;
    pub fn semduoli_client_fresh(state: *mut u8, state_length: usize) -> u64;
    pub fn semduoli_client_open(state: *const u8, state_length: usize) -> u64;
    pub fn semduoli_begin_read(
        n: usize, t: usize, k: usize, size: usize, me: usize, state: *mut u8, state_length: usize, out: *mut u8, out_length: usize, to: *mut u8,
        to_length: usize,
    ) -> u64;
    pub fn semduoli_begin_write(
        n: usize, t: usize, k: usize, size: usize, me: usize, state: *mut u8, state_length: usize, value: *const u8, value_length: usize,
        out: *mut u8, out_length: usize, to: *mut u8, to_length: usize,
    ) -> u64;
    pub fn semduoli_client_deliver(
        n: usize, t: usize, k: usize, size: usize, me: usize, sender_class: usize, sender: usize, value: *const u8, value_length: usize,
        frame: *const u8, frame_length: usize, rows: *mut u8, rows_length: usize, result: *mut u8, result_length: usize, stamp: *mut u8,
        stamp_length: usize, state: *mut u8, state_length: usize, out: *mut u8, out_length: usize, to: *mut u8, to_length: usize,
    ) -> u64;
}
