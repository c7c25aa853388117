//! Demand 2's sum, where only the calls write the tables: events read + events queued + all lost counts, the pending
//! one too = events past filter and mask. Filter and mask are the second implementation's own.

use crate::call::{is_refusal, Call};
use crate::state::word_at;
use independent::numbers::RECORDED;
use independent::{Device, Message, Ring, EVENT_BYTES};

#[derive(Default)]
pub struct Sum {
    past: u64,
    read: u64,
    lost: u64,
}

/// What a call finds: the device, and the lost count of the oldest event.
pub struct Found {
    pub device: Device,
    lost: u32,
}

impl Found {
    pub fn before(device: &Device, queue: &[u8]) -> Found {
        let oldest = EVENT_BYTES * device.receive.ring.first as usize;
        let lost = word_at(queue, oldest + 12);
        Found { device: *device, lost }
    }
}

/// The event that a successful call raises, by the paper's words alone.
pub fn raised(call: &Call, was: &Device, now: &Device) -> Option<(u32, Message)> {
    let tx_mode = was.send.tx_mode;
    let at = |wanted: u32, code: u32, held: Option<Message>| {
        let frame = held.filter(|_| tx_mode & 6 == wanted);
        frame.map(|frame| (code, frame))
    };
    match call {
        Call::Raise { code, frame, .. } => Some((*code, *frame)),
        Call::SetMode { .. } | Call::SetFormat { .. } => Some((5, Message::default())),
        Call::Take { .. } => at(2, 2, now.send.register),
        Call::Done { .. } => at(6, 2, was.send.register),
        Call::Abort { .. } => was.send.register.map(|frame| (3, frame)),
        _ => None,
    }
}

/// Asks the second implementation itself, with room for one event.
fn is_past(device: &Device, code: u32, frame: &Message) -> bool {
    let mut asked = *device;
    asked.receive.ring = Ring { capacity: 1, first: 0, count: 0 };
    asked.raise(code, 0, frame, &mut [0; EVENT_BYTES]) == RECORDED
}

impl Sum {
    pub fn after(&mut self, call: &Call, number: u32, was: &Found, now: &Device) {
        if is_refusal(number) {
            return;
        }
        if let Some((code, frame)) = raised(call, &was.device, now) {
            self.past += u64::from(is_past(&was.device, code, &frame));
        }
        if matches!(call, Call::ReadRecord | Call::ReadText { .. }) {
            self.read += 1;
            self.lost += u64::from(was.lost);
        }
    }

    /// None if the sum holds; the queued events' lost counts are read from the table's bytes.
    pub fn wrong(&self, device: &Device, queue: &[u8]) -> Option<String> {
        let ring = device.receive.ring;
        let slots = (0..ring.count).map(|p| EVENT_BYTES * ((ring.first + p) % ring.capacity) as usize);
        let queued_lost: u64 = slots.map(|slot| u64::from(word_at(queue, slot + 12))).sum();
        let (queued, pending) = (u64::from(ring.count), u64::from(device.receive.pending));
        let sum = self.read + queued + self.lost + queued_lost + pending;
        let Sum { past, read, lost } = self;
        (sum != *past).then(|| {
            format!(
                "read {read} + queued {queued} + lost {lost} + {queued_lost} + pending {pending}, but {past} events"
            )
        })
    }
}
