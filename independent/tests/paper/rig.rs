//! A device with tables of its own, and helpers that every subject uses.

use independent::{Device, Message, Settings, Site, EVENT_BYTES, MESSAGE_BYTES};

/// Everything passes filter and mask, and transmitted events are raised at done.
pub const OPEN_TO_ALL: Settings = Settings {
    mode: 1,
    format: 0,
    align: 0,
    mask_active: 0,
    code: 0,
    mask: 0xFFFF_FFFF,
    event_mask: 0xFFF,
    queue_capacity: 4,
    tx_mode: 7,
    send_capacity: 3,
    site: Site::ZERO,
};

/// Both numbers at an end of their ranges: minus 720, and the largest of six bytes.
pub const FAR_SITE: Site = Site {
    offset: 4_294_966_576,
    second: 281_474_976_710_655,
};

pub const MODE_0: Settings = Settings {
    mode: 0,
    ..OPEN_TO_ALL
};

/// A standard frame with two bytes.
pub const FRAME: Message = Message {
    id: 0x123,
    format: 1,
    rtr: 0,
    dlc: 2,
    data: [0x11, 0x22, 0, 0, 0, 0, 0, 0],
};

#[derive(Clone, Debug, PartialEq)]
pub struct Rig {
    pub device: Device,
    pub queue: Vec<u8>,
    pub buffer: Vec<u8>,
}

impl Rig {
    /// Tables exactly as long as needed, filled with bytes that no record has.
    pub fn open(settings: Settings) -> Rig {
        let queue = vec![0xEE; settings.queue_capacity as usize * EVENT_BYTES];
        let buffer = vec![0xEE; settings.send_capacity as usize * MESSAGE_BYTES];
        let (number, device) = Device::open(&settings, &queue, &buffer);
        assert_eq!(number, 0);
        Rig {
            device,
            queue,
            buffer,
        }
    }

    pub fn raise(&mut self, code: u32, tick: u32, frame: &Message) -> u32 {
        self.device.raise(code, tick, frame, &mut self.queue)
    }

    pub fn read_record(&mut self) -> (u32, [u8; 40]) {
        self.device.read_record(&self.queue)
    }

    /// Reads the oldest event as text, with room enough, and expects success.
    pub fn read_line(&mut self) -> String {
        let mut out = [b'?'; 120];
        let (number, length) = self.device.read_text(&self.queue, &mut out);
        assert_eq!(number, 0);
        written_line(&out, length)
    }

    pub fn send_text(&mut self, text: &[u8]) -> (u32, usize) {
        self.device.send_text(text, &mut self.buffer)
    }

    pub fn take(&mut self, tick: u32) -> (u32, [u8; 16]) {
        self.device.take(tick, &self.buffer, &mut self.queue)
    }

    pub fn done(&mut self, tick: u32) -> u32 {
        self.device.done(tick, &mut self.queue)
    }

    pub fn abort(&mut self, tick: u32) -> (u32, u32) {
        self.device.abort(tick, &mut self.queue)
    }

    /// The code and tick of every queued event, oldest first.
    pub fn queued(&self) -> Vec<(u32, u32)> {
        (0..self.device.receive.ring.count)
            .map(|p| self.device.look(p, &self.queue))
            .map(|slot| (number_at(slot, 0), number_at(slot, 4)))
            .collect()
    }
}

/// The line in an output buffer that was full of '?', past which nothing may be written.
pub fn written_line(out: &[u8], length: usize) -> String {
    assert!(out[length..].iter().all(|byte| *byte == b'?'));
    String::from_utf8(out[..length].to_vec()).unwrap()
}

/// Makes a call that must be refused, and so must change neither device nor tables.
pub fn unchanged<T>(rig: &mut Rig, call: impl FnOnce(&mut Rig) -> T) -> T {
    let before = rig.clone();
    let answer = call(rig);
    assert_eq!(*rig, before);
    answer
}

pub fn number_at(bytes: &[u8], at: usize) -> u32 {
    u32::from_le_bytes(bytes[at..at + 4].try_into().unwrap())
}

pub fn lost_of(record: &[u8]) -> u32 {
    number_at(record, 12)
}

/// Refusals in the order 13, 8, 9, 10, each with a frame that is bad in all ways from there on.
pub fn bad_frames() -> [(u32, Message); 6] {
    let frame = |format, id, rtr, dlc| Message {
        id,
        format,
        rtr,
        dlc,
        data: [0; 8],
    };
    [
        (13, frame(0, 0xFFFF_FFFF, 2, 16)),
        (13, frame(3, 0xFFFF_FFFF, 2, 16)),
        (8, frame(1, 0x800, 2, 16)),
        (8, frame(2, 0x2000_0000, 2, 16)),
        (9, frame(1, 0x7FF, 2, 16)),
        (10, frame(2, 0x1FFF_FFFF, 1, 16)),
    ]
}
