//! Which calls a stretch of a session prefers, so that queues fill and drain and not only refuse.

use crate::call::{Call, KINDS};
use crate::draw::Draw;
use crate::{making, sites, texts};
use independent::{Device, EVENT_ROOM, MESSAGE_ROOM};

/// Weights in the order of `KINDS`.
type Weights = [u32; KINDS.len()];

// open mode format filter mask site raise record text look_number look through send text take done abort, three prints
const FILL: Weights = [0, 1, 1, 0, 0, 3, 150, 1, 1, 2, 2, 0, 2, 2, 2, 2, 0, 1, 1, 1];
const DRAIN: Weights = [0, 0, 0, 0, 0, 1, 8, 50, 50, 4, 4, 0, 2, 2, 2, 2, 0, 1, 1, 1];
const FLOW: Weights = [0, 1, 1, 1, 1, 4, 60, 20, 20, 6, 6, 1, 10, 10, 10, 10, 1, 1, 1, 1];
const LOAD: Weights = [0, 0, 0, 0, 0, 1, 4, 2, 2, 1, 1, 0, 70, 90, 2, 2, 0, 1, 1, 1];
const UNLOAD: Weights = [0, 0, 0, 0, 0, 1, 4, 8, 8, 1, 1, 0, 3, 3, 60, 50, 1, 1, 1, 1];
const ANY: Weights = [1, 3, 3, 3, 3, 4, 8, 4, 4, 4, 4, 4, 6, 12, 6, 5, 2, 5, 5, 5];

/// A mood and for how many calls it stays.
pub struct Mood {
    weights: &'static Weights,
    aim: Aim,
    left: u64,
}

/// What a mood drives at.
enum Aim {
    FullQueue,
    EmptyQueue,
    FullBuffer,
    EmptyBuffer,
    None,
}

impl Mood {
    /// Filling lasts long enough for the ring at hand, at least at times.
    pub fn new(draw: &mut Draw, device: &Device) -> Mood {
        let slots = u64::from(device.receive.ring.capacity);
        let places = u64::from(device.send.ring.capacity);
        let (weights, aim, most) = match draw.below(6) {
            0 => (&FILL, Aim::FullQueue, 4 * slots + 40),
            1 => (&DRAIN, Aim::EmptyQueue, 3 * slots + 40),
            2 => (&LOAD, Aim::FullBuffer, 4 * places + 40),
            3 => (&UNLOAD, Aim::EmptyBuffer, 6 * places + 40),
            4 => (&FLOW, Aim::None, 300),
            _ => (&ANY, Aim::None, 120),
        };
        let left = 1 + draw.below(most);
        Mood { weights, aim, left }
    }

    /// A ring that is full or empty long since has nothing more to show.
    pub fn is_over(&mut self, draw: &mut Draw, device: &Device) -> bool {
        let (queue, buffer) = (device.receive.ring, device.send.ring);
        let reached = match self.aim {
            Aim::FullQueue => queue.count == queue.capacity,
            Aim::EmptyQueue => queue.count == 0,
            Aim::FullBuffer => buffer.count == buffer.capacity,
            Aim::EmptyBuffer => buffer.count == 0,
            Aim::None => false,
        };
        self.left -= 1;
        self.left == 0 || reached && draw.one_in(8)
    }

    fn kind(&self, draw: &mut Draw) -> usize {
        let mut rest = draw.word_below(self.weights.iter().sum());
        for (kind, weight) in self.weights.iter().enumerate() {
            if rest < *weight {
                return kind;
            }
            rest -= weight;
        }
        unreachable!("the rest is below the sum")
    }

    /// The next call; `stream` is what is left of the texts sent last.
    pub fn call(&self, draw: &mut Draw, device: &Device, stream: &[u8]) -> Call {
        let kind = self.kind(draw);
        if kind >= 12 {
            return send_side(draw, device, kind, stream);
        }
        let tick = draw.any_word();
        match kind {
            0 => Call::Open(if draw.one_in(3) { making::settings(draw) } else { making::bad_settings(draw) }),
            1 => Call::SetMode { mode: small(draw, 2), tick },
            2 => Call::SetFormat { format: small(draw, 3), tick },
            3 => {
                let (code, mask) = making::filter(draw, device.receive.mask_active);
                Call::SetFilter { code, mask }
            }
            4 => Call::SetEventMask { events: events(draw) },
            5 => Call::SetSite(if draw.one_in(3) { sites::bad_site(draw) } else { sites::site(draw) }),
            6 => raise(draw, tick),
            7 => Call::ReadRecord,
            8 => Call::ReadText { room: making::room(draw, EVENT_ROOM) },
            9 => Call::LookNumber { p: position(draw, device) },
            10 => Call::Look { p: position(draw, device) },
            _ => Call::IdentifiersThrough { format: small(draw, 3) },
        }
    }
}

fn send_side(draw: &mut Draw, device: &Device, kind: usize, stream: &[u8]) -> Call {
    let tick = draw.any_word();
    let bad = draw.one_in(8);
    match kind {
        12 => Call::Send { message: making::message_to_send(draw, device, bad) },
        13 if !stream.is_empty() && !draw.one_in(4) => Call::SendText { text: stream.to_vec() },
        13 => Call::SendText { text: texts::text(draw, device) },
        14 => Call::Take { tick },
        15 => Call::Done { tick },
        16 => Call::Abort { tick },
        17 => {
            let good = making::message_record(draw);
            Call::PrintMessageRecord { record: making::any_record(draw, good), room: making::room(draw, MESSAGE_ROOM) }
        }
        18 => Call::PrintEventRecord { record: making::any_event_record(draw), room: making::room(draw, EVENT_ROOM) },
        _ => {
            let message = if draw.one_in(3) { making::bad_frame(draw) } else { making::good_frame(draw) };
            Call::PrintMessage { message, room: making::room(draw, MESSAGE_ROOM) }
        }
    }
}

fn raise(draw: &mut Draw, tick: u32) -> Call {
    let frame = if draw.one_in(12) { making::bad_frame(draw) } else { making::good_frame(draw) };
    Call::Raise { code: making::event_code(draw), tick, frame }
}

/// Mostly below the limit.
fn small(draw: &mut Draw, limit: u32) -> u32 {
    if draw.one_in(6) {
        draw.any_word()
    } else {
        draw.word_below(limit)
    }
}

fn events(draw: &mut Draw) -> u32 {
    if draw.one_in(5) {
        draw.any_word()
    } else {
        making::event_mask(draw)
    }
}

/// Positions queued, the first one past them, and any.
fn position(draw: &mut Draw, device: &Device) -> u32 {
    let count = device.receive.ring.count;
    match draw.below(8) {
        0 => count,
        1 => draw.any_word(),
        _ => draw.word_below(count.max(1)),
    }
}
