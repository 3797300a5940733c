//! The calls of include/semduoli.h, declared in include/semduoli.rs. Each passes a slice as its pointer and length and gives the answer as it is.

use register::playback::{Areas, Kept};
use register::{Params, Party};

#[rustfmt::skip]
#[path = "../../../include/semduoli.rs"]
pub mod raw;

// Safety of every call: each pointer is a slice's, with that slice's length, and slices to be written do not overlap others.

pub fn digest(message: &[u8], out: &mut [u8]) -> u64 {
    unsafe { raw::semduoli_digest(message.as_ptr(), message.len(), out.as_mut_ptr(), out.len()) }
}

pub fn encode(p: &Params, value: &[u8], out: &mut [u8]) -> u64 {
    let (value_length, out_length) = (value.len(), out.len());
    unsafe {
        raw::semduoli_encode(p.n, p.t, p.k, p.l, value.as_ptr(), value_length, out.as_mut_ptr(), out_length)
    }
}

pub fn decode(p: &Params, numbers: &[u8], blocks: &[u8], out: &mut [u8]) -> u64 {
    unsafe {
        raw::semduoli_decode(
            p.n,
            p.t,
            p.k,
            p.l,
            numbers.as_ptr(),
            numbers.len(),
            blocks.as_ptr(),
            blocks.len(),
            out.as_mut_ptr(),
            out.len(),
        )
    }
}

pub fn judge(text: &[u8], lines: &mut [u8]) -> u64 {
    unsafe { raw::semduoli_judge(text.as_ptr(), text.len(), lines.as_mut_ptr(), lines.len()) }
}

pub fn sheet(text: &[u8], out: &mut [u8]) -> u64 {
    unsafe { raw::semduoli_sheet(text.as_ptr(), text.len(), out.as_mut_ptr(), out.len()) }
}

pub fn index_fresh(index: &mut [u8]) -> u64 {
    unsafe { raw::semduoli_index_fresh(index.as_mut_ptr(), index.len()) }
}

pub fn index_insert(value: &[u8], index: &mut [u8]) -> u64 {
    unsafe { raw::semduoli_index_insert(value.as_ptr(), value.len(), index.as_mut_ptr(), index.len()) }
}

pub fn index_search(number: u64, index: &[u8]) -> u64 {
    unsafe { raw::semduoli_index_search(number, index.as_ptr(), index.len()) }
}

pub fn version() -> u64 {
    unsafe { raw::semduoli_version() }
}

pub fn client_open(state: &[u8]) -> u64 {
    unsafe { raw::semduoli_client_open(state.as_ptr(), state.len()) }
}

pub fn server_stamp(state: &[u8], stamp: &mut [u8]) -> u64 {
    unsafe { raw::semduoli_server_stamp(state.as_ptr(), state.len(), stamp.as_mut_ptr(), stamp.len()) }
}

pub fn server_open(client: usize, state: &[u8]) -> u64 {
    unsafe { raw::semduoli_server_open(client, state.as_ptr(), state.len()) }
}

pub fn server_block(p: &Params, area: &[u8], initial: &[u8], state: &[u8], block: &mut [u8]) -> u64 {
    unsafe {
        raw::semduoli_server_block(
            p.n,
            p.t,
            p.k,
            p.l,
            area.as_ptr(),
            area.len(),
            initial.as_ptr(),
            initial.len(),
            state.as_ptr(),
            state.len(),
            block.as_mut_ptr(),
            block.len(),
        )
    }
}

pub fn frame_header(p: &Params, frame: &[u8]) -> u64 {
    unsafe { raw::semduoli_frame_header(p.n, p.t, p.k, p.l, frame.as_ptr(), frame.len()) }
}

pub fn frame_time(p: &Params, frame: &[u8], time: &mut [u8]) -> u64 {
    let (time_length, time) = (time.len(), time.as_mut_ptr());
    unsafe { raw::semduoli_frame_time(p.n, p.t, p.k, p.l, frame.as_ptr(), frame.len(), time, time_length) }
}

pub fn entry_read(trace: &[u8]) -> u64 {
    unsafe { raw::semduoli_entry_read(trace.as_ptr(), trace.len()) }
}

pub fn entry_write(from: Sender, frame: &[u8], out: &mut [u8]) -> u64 {
    let (out_length, out) = (out.len(), out.as_mut_ptr());
    unsafe {
        raw::semduoli_entry_write(from.class, from.number, frame.as_ptr(), frame.len(), out, out_length)
    }
}

pub fn client_fresh(state: &mut [u8]) -> u64 {
    unsafe { raw::semduoli_client_fresh(state.as_mut_ptr(), state.len()) }
}

pub fn begin_read(p: &Params, me: usize, state: &mut [u8], out: &mut [u8], to: &mut [u8]) -> u64 {
    unsafe {
        raw::semduoli_begin_read(
            p.n,
            p.t,
            p.k,
            p.l,
            me,
            state.as_mut_ptr(),
            state.len(),
            out.as_mut_ptr(),
            out.len(),
            to.as_mut_ptr(),
            to.len(),
        )
    }
}

pub fn begin_write(
    p: &Params,
    me: usize,
    state: &mut [u8],
    value: &[u8],
    out: &mut [u8],
    to: &mut [u8],
) -> u64 {
    unsafe {
        raw::semduoli_begin_write(
            p.n,
            p.t,
            p.k,
            p.l,
            me,
            state.as_mut_ptr(),
            state.len(),
            value.as_ptr(),
            value.len(),
            out.as_mut_ptr(),
            out.len(),
            to.as_mut_ptr(),
            to.len(),
        )
    }
}

pub fn server_fresh(
    p: &Params,
    me: usize,
    value: &[u8],
    area: &mut [u8],
    initial: &mut [u8],
    state: &mut [u8],
) -> u64 {
    unsafe {
        raw::semduoli_server_fresh(
            p.n,
            p.t,
            p.k,
            p.l,
            me,
            value.as_ptr(),
            value.len(),
            area.as_mut_ptr(),
            area.len(),
            initial.as_mut_ptr(),
            initial.len(),
            state.as_mut_ptr(),
            state.len(),
        )
    }
}

/// A sender as a host names it: any class, and any number.
#[derive(Clone, Copy, Debug, PartialEq, Eq)]
pub struct Sender {
    pub class: usize,
    pub number: usize,
}

impl From<Party> for Sender {
    fn from(party: Party) -> Sender {
        match party {
            Party::Client(number) => Sender { class: raw::CLASS_CLIENT.into(), number },
            Party::Server(number) => Sender { class: raw::CLASS_SERVER.into(), number },
        }
    }
}

/// A trace played back; `lent` are the areas that are written.
pub fn playback(p: &Params, me: usize, value: &[u8], trace: &[u8], lent: &mut Areas) -> u64 {
    let Areas { state, area, initial, out } = lent;
    unsafe {
        raw::semduoli_playback(
            p.n,
            p.t,
            p.k,
            p.l,
            me,
            value.as_ptr(),
            value.len(),
            trace.as_ptr(),
            trace.len(),
            area.as_mut_ptr(),
            area.len(),
            initial.as_mut_ptr(),
            initial.len(),
            state.as_mut_ptr(),
            state.len(),
            out.as_mut_ptr(),
            out.len(),
        )
    }
}

/// A trace handed to the server of a kept record; `kept` are the areas that are written.
pub fn server_resume(p: &Params, me: usize, initial: &[u8], trace: &[u8], kept: &mut Kept) -> u64 {
    let Kept { state, area, out, to } = kept;
    unsafe {
        raw::semduoli_server_resume(
            p.n,
            p.t,
            p.k,
            p.l,
            me,
            trace.as_ptr(),
            trace.len(),
            area.as_mut_ptr(),
            area.len(),
            initial.as_ptr(),
            initial.len(),
            state.as_mut_ptr(),
            state.len(),
            out.as_mut_ptr(),
            out.len(),
            to.as_mut_ptr(),
            to.len(),
        )
    }
}

#[allow(clippy::too_many_arguments)]
pub fn server_deliver(
    p: &Params,
    me: usize,
    from: impl Into<Sender>,
    frame: &[u8],
    area: &mut [u8],
    initial: &[u8],
    state: &mut [u8],
    out: &mut [u8],
    to: &mut [u8],
) -> u64 {
    let Sender { class, number } = from.into();
    unsafe {
        raw::semduoli_server_deliver(
            p.n,
            p.t,
            p.k,
            p.l,
            me,
            class,
            number,
            frame.as_ptr(),
            frame.len(),
            area.as_mut_ptr(),
            area.len(),
            initial.as_ptr(),
            initial.len(),
            state.as_mut_ptr(),
            state.len(),
            out.as_mut_ptr(),
            out.len(),
            to.as_mut_ptr(),
            to.len(),
        )
    }
}

#[allow(clippy::too_many_arguments)]
pub fn client_deliver(
    p: &Params,
    me: usize,
    from: impl Into<Sender>,
    value: &[u8],
    frame: &[u8],
    rows: &mut [u8],
    result: &mut [u8],
    stamp: &mut [u8],
    state: &mut [u8],
    out: &mut [u8],
    to: &mut [u8],
) -> u64 {
    let Sender { class, number } = from.into();
    unsafe {
        raw::semduoli_client_deliver(
            p.n,
            p.t,
            p.k,
            p.l,
            me,
            class,
            number,
            value.as_ptr(),
            value.len(),
            frame.as_ptr(),
            frame.len(),
            rows.as_mut_ptr(),
            rows.len(),
            result.as_mut_ptr(),
            result.len(),
            stamp.as_mut_ptr(),
            stamp.len(),
            state.as_mut_ptr(),
            state.len(),
            out.as_mut_ptr(),
            out.len(),
            to.as_mut_ptr(),
            to.len(),
        )
    }
}
