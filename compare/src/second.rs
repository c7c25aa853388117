//! The second implementation behind the same interface: beside a refusal every lent place stays.

use crate::call::{is_refusal, Call, Places};
use crate::state::{Kept, State};
use independent::{Settings, EVENT_BYTES};

/// Makes the call; a call is lent only what it uses.
pub fn call(call: &Call, state: &mut State, queue: &mut [u8], send: &mut [u8], places: &mut Places) -> u32 {
    if let Call::Open(given) = call {
        return open(given, state, queue, send);
    }
    match state {
        State::Kept(kept) => on_device(call, kept, queue, send, places),
        State::NoState(_) => {
            if let Call::SendText { .. } = call {
                places.size[1] = 0;
            }
            2
        }
    }
}

/// 1 comes before 2, and a state of another length is 2.
fn open(given: &Settings, state: &mut State, queue: &[u8], send: &[u8]) -> u32 {
    let (number, device) = independent::Device::open(given, queue, send);
    if number != 0 {
        return number;
    }
    if state.bytes().len() != crate::state::STATE {
        return 2;
    }
    *state = State::Kept(Kept::with_empty_register(device));
    0
}

fn on_device(call: &Call, kept: &mut Kept, queue: &mut [u8], send: &mut [u8], places: &mut Places) -> u32 {
    let device = &mut kept.device;
    let (input, out) = (places.input.part(), places.out.part_mut());
    let size = &mut places.size[1];
    match call {
        Call::Open(_) => unreachable!("needs no device"),
        Call::SetMode { mode, tick } => device.set_mode(*mode, *tick, queue),
        Call::SetFormat { format, tick } => device.set_format(*format, *tick, queue),
        Call::SetFilter { code, mask } => device.set_filter(*code, *mask),
        Call::SetEventMask { events } => device.set_event_mask(*events),
        Call::SetSite(site) => device.set_site(site.offset, site.second),
        Call::Raise { code, tick, frame } => device.raise(*code, *tick, frame, queue),
        Call::ReadRecord => hand_bytes(device.read_record(queue), out),
        Call::ReadText { .. } => hand(device.read_text(queue, out), size),
        Call::LookNumber { p } => device.look_number(*p, queue),
        Call::Look { p } => hand(look(device, *p, queue), size),
        Call::IdentifiersThrough { format } => hand(device.identifiers_through(*format), &mut places.number[1]),
        Call::Send { message: m } => device.send(m.format, m.id, m.rtr, m.dlc, m.data, send),
        Call::SendText { .. } => {
            let (number, used) = device.send_text(input, send);
            *size = used;
            number
        }
        Call::Take { tick } => hand_bytes(device.take(*tick, send, queue), out),
        Call::Done { .. } | Call::Abort { .. } => end_sending(call, kept, queue, &mut places.number[1]),
        Call::PrintMessageRecord { .. } => hand(device.print_message_record(input, out), size),
        Call::PrintEventRecord { .. } => hand(device.print_event_record(input, out), size),
        Call::PrintMessage { message, .. } => hand(device.print_message(message, out), size),
    }
}

/// Both leave zeros where the register was, whether it held a message or not.
fn end_sending(call: &Call, kept: &mut Kept, queue: &mut [u8], purged: &mut u32) -> u32 {
    let number = match call {
        Call::Done { tick } => kept.device.done(*tick, queue),
        Call::Abort { tick } => hand(kept.device.abort(*tick, queue), purged),
        _ => unreachable!("done or abort"),
    };
    if number == 0 {
        *kept = Kept::with_empty_register(kept.device);
    }
    number
}

fn hand<T>(answer: (u32, T), place: &mut T) -> u32 {
    if !is_refusal(answer.0) {
        *place = answer.1;
    }
    answer.0
}

fn hand_bytes<const N: usize>(answer: (u32, [u8; N]), place: &mut [u8]) -> u32 {
    if !is_refusal(answer.0) {
        place.copy_from_slice(&answer.1);
    }
    answer.0
}

/// Where the part that a look hands back begins in the lent table.
fn look(device: &independent::Device, p: u32, queue: &[u8]) -> (u32, usize) {
    let part = device.look(p, queue);
    let number = device.look_number(p, queue);
    let expected = if number == 0 { EVENT_BYTES } else { 0 };
    assert_eq!(part.len(), expected, "independent: a look's part");
    (number, part.as_ptr() as usize - queue.as_ptr() as usize)
}
