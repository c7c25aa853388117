//! The proved recorder through its C interface (include/salmevidro.h).

use crate::call::{Call, Places};
use crate::state::site_words;
use independent::{Message, Settings, EVENT_BYTES, MESSAGE_BYTES};

type Bytes = *const u8;
type BytesMut = *mut u8;

extern "C" {
    fn sv_open(
        state: BytesMut,
        state_length: usize,
        settings: *const u32,
        settings_count: usize,
        queue: Bytes,
        queue_length: usize,
        send: Bytes,
        send_length: usize,
    ) -> u32;
    fn sv_set_mode(s: BytesMut, sl: usize, mode: u32, tick: u32, queue: BytesMut, ql: usize) -> u32;
    fn sv_set_format(s: BytesMut, sl: usize, format: u32, tick: u32, queue: BytesMut, ql: usize) -> u32;
    fn sv_set_filter(s: BytesMut, sl: usize, code: u32, mask: u32) -> u32;
    fn sv_set_event_mask(s: BytesMut, sl: usize, event_mask: u32) -> u32;
    fn sv_set_site(s: BytesMut, sl: usize, offset: u32, second: u64) -> u32;
    fn sv_raise(
        s: BytesMut,
        sl: usize,
        code: u32,
        tick: u32,
        id: u32,
        format: u32,
        rtr: u32,
        dlc: u32,
        data: Bytes,
        queue: BytesMut,
        ql: usize,
    ) -> u32;
    fn sv_read_record(s: BytesMut, sl: usize, queue: Bytes, ql: usize, out: BytesMut) -> u32;
    fn sv_read_text(
        s: BytesMut,
        sl: usize,
        queue: Bytes,
        ql: usize,
        out: BytesMut,
        ol: usize,
        length: *mut usize,
    ) -> u32;
    fn sv_look_number(s: Bytes, sl: usize, queue: Bytes, ql: usize, p: u32) -> u32;
    fn sv_look(s: Bytes, sl: usize, queue: Bytes, ql: usize, p: u32, offset: *mut usize) -> u32;
    fn sv_identifiers_through(s: Bytes, sl: usize, format: u32, count: *mut u32) -> u32;
    fn sv_send(
        s: BytesMut,
        sl: usize,
        id: u32,
        format: u32,
        rtr: u32,
        dlc: u32,
        data: Bytes,
        send: BytesMut,
        dl: usize,
    ) -> u32;
    fn sv_send_text(s: BytesMut, sl: usize, text: Bytes, tl: usize, send: BytesMut, dl: usize, used: *mut usize)
        -> u32;
    fn sv_take(
        s: BytesMut,
        sl: usize,
        tick: u32,
        send: Bytes,
        dl: usize,
        queue: BytesMut,
        ql: usize,
        out: BytesMut,
    ) -> u32;
    fn sv_done(s: BytesMut, sl: usize, tick: u32, queue: BytesMut, ql: usize) -> u32;
    fn sv_abort(s: BytesMut, sl: usize, tick: u32, queue: BytesMut, ql: usize, purged: *mut u32) -> u32;
    fn sv_print_message_record(
        s: Bytes,
        sl: usize,
        record: Bytes,
        rl: usize,
        out: BytesMut,
        ol: usize,
        length: *mut usize,
    ) -> u32;
    fn sv_print_event_record(
        s: Bytes,
        sl: usize,
        record: Bytes,
        rl: usize,
        out: BytesMut,
        ol: usize,
        length: *mut usize,
    ) -> u32;
    fn sv_print_message(
        s: Bytes,
        sl: usize,
        id: u32,
        format: u32,
        rtr: u32,
        dlc: u32,
        data: Bytes,
        out: BytesMut,
        ol: usize,
        length: *mut usize,
    ) -> u32;
}

// Each function below hands whole slices on, so what the header asks of its caller holds.

pub fn open(state: &mut [u8], given: &Settings, queue: &[u8], send: &[u8]) -> u32 {
    let [offset, second_low, second_high] = site_words(given.site);
    let settings = [
        given.mode,
        given.format,
        given.align,
        given.mask_active,
        given.code,
        given.mask,
        given.event_mask,
        given.queue_capacity,
        given.tx_mode,
        given.send_capacity,
        offset,
        second_low,
        second_high,
    ];
    unsafe {
        sv_open(
            state.as_mut_ptr(),
            state.len(),
            settings.as_ptr(),
            settings.len(),
            queue.as_ptr(),
            queue.len(),
            send.as_ptr(),
            send.len(),
        )
    }
}

/// The header's numbers come from the frame, its data from a place of their own.
pub fn raise(state: &mut [u8], code: u32, tick: u32, frame: &Message, data: &[u8; 8], queue: &mut [u8]) -> u32 {
    unsafe {
        sv_raise(
            state.as_mut_ptr(),
            state.len(),
            code,
            tick,
            frame.id,
            frame.format,
            frame.rtr,
            frame.dlc,
            data.as_ptr(),
            queue.as_mut_ptr(),
            queue.len(),
        )
    }
}

pub fn read_record(state: &mut [u8], queue: &[u8], out: &mut [u8; EVENT_BYTES]) -> u32 {
    unsafe { sv_read_record(state.as_mut_ptr(), state.len(), queue.as_ptr(), queue.len(), out.as_mut_ptr()) }
}

pub fn read_text(state: &mut [u8], queue: &[u8], out: &mut [u8], length: &mut usize) -> u32 {
    let (s, o) = (state.as_mut_ptr(), out.as_mut_ptr());
    unsafe { sv_read_text(s, state.len(), queue.as_ptr(), queue.len(), o, out.len(), length) }
}

pub fn send_text(state: &mut [u8], text: &[u8], send: &mut [u8], used: &mut usize) -> u32 {
    let (s, d) = (state.as_mut_ptr(), send.as_mut_ptr());
    unsafe { sv_send_text(s, state.len(), text.as_ptr(), text.len(), d, send.len(), used) }
}

pub fn take(state: &mut [u8], tick: u32, send: &[u8], queue: &mut [u8], out: &mut [u8; MESSAGE_BYTES]) -> u32 {
    let (s, q, o) = (state.as_mut_ptr(), queue.as_mut_ptr(), out.as_mut_ptr());
    unsafe { sv_take(s, state.len(), tick, send.as_ptr(), send.len(), q, queue.len(), o) }
}

pub fn done(state: &mut [u8], tick: u32, queue: &mut [u8]) -> u32 {
    unsafe { sv_done(state.as_mut_ptr(), state.len(), tick, queue.as_mut_ptr(), queue.len()) }
}

pub fn print_message_record(state: &[u8], record: &[u8], out: &mut [u8], length: &mut usize) -> u32 {
    let (s, r, o) = (state.as_ptr(), record.as_ptr(), out.as_mut_ptr());
    unsafe { sv_print_message_record(s, state.len(), r, record.len(), o, out.len(), length) }
}

pub fn print_event_record(state: &[u8], record: &[u8], out: &mut [u8], length: &mut usize) -> u32 {
    let (s, r, o) = (state.as_ptr(), record.as_ptr(), out.as_mut_ptr());
    unsafe { sv_print_event_record(s, state.len(), r, record.len(), o, out.len(), length) }
}

fn array<const N: usize>(bytes: &[u8]) -> &[u8; N] {
    bytes.try_into().expect("the call's own length")
}

fn array_mut<const N: usize>(bytes: &mut [u8]) -> &mut [u8; N] {
    bytes.try_into().expect("the call's own length")
}

/// Makes the call; a call is lent only what it uses.
pub fn call(call: &Call, state: &mut [u8], queue: &mut [u8], send: &mut [u8], places: &mut Places) -> u32 {
    let (input, out) = (places.input.part(), places.out.part_mut());
    let size = &mut places.size[1];
    let number = &mut places.number[1];
    match call {
        Call::Open(given) => open(state, given, queue, send),
        Call::Raise { code, tick, frame } => raise(state, *code, *tick, frame, array(input), queue),
        Call::ReadRecord => read_record(state, queue, array_mut(out)),
        Call::ReadText { .. } => read_text(state, queue, out, size),
        Call::SendText { .. } => send_text(state, input, send, size),
        Call::Take { tick } => take(state, *tick, send, queue, array_mut(out)),
        Call::Done { tick } => done(state, *tick, queue),
        Call::PrintMessageRecord { .. } => print_message_record(state, input, out, size),
        _ => other_call(call, state, queue, send, input, out, size, number),
    }
}

/// The calls that are not measured.
#[allow(clippy::too_many_arguments)]
fn other_call(
    call: &Call,
    state: &mut [u8],
    queue: &mut [u8],
    send: &mut [u8],
    input: &[u8],
    out: &mut [u8],
    size: &mut usize,
    number: &mut u32,
) -> u32 {
    let (s, sl) = (state.as_mut_ptr(), state.len());
    let (q, ql) = (queue.as_mut_ptr(), queue.len());
    let (i, il) = (input.as_ptr(), input.len());
    let (o, ol) = (out.as_mut_ptr(), out.len());
    unsafe {
        match call {
            Call::SetMode { mode, tick } => sv_set_mode(s, sl, *mode, *tick, q, ql),
            Call::SetFormat { format, tick } => sv_set_format(s, sl, *format, *tick, q, ql),
            Call::SetFilter { code, mask } => sv_set_filter(s, sl, *code, *mask),
            Call::SetEventMask { events } => sv_set_event_mask(s, sl, *events),
            Call::SetSite(site) => sv_set_site(s, sl, site.offset, site.second),
            Call::LookNumber { p } => sv_look_number(s, sl, q, ql, *p),
            Call::Look { p } => sv_look(s, sl, q, ql, *p, size),
            Call::IdentifiersThrough { format } => sv_identifiers_through(s, sl, *format, number),
            Call::Send { message: m } => sv_send(s, sl, m.id, m.format, m.rtr, m.dlc, i, send.as_mut_ptr(), send.len()),
            Call::Abort { tick } => sv_abort(s, sl, *tick, q, ql, number),
            Call::PrintEventRecord { .. } => sv_print_event_record(s, sl, i, il, o, ol, size),
            Call::PrintMessage { message: m, .. } => {
                sv_print_message(s, sl, m.id, m.format, m.rtr, m.dlc, i, o, ol, size)
            }
            _ => unreachable!("made by `call`"),
        }
    }
}
