//! Random settings, frames and records: mostly good, often at a limit, sometimes bad.

use crate::draw::Draw;
use crate::sites;
use crate::state::set_word;
use independent::{Device, Message, Settings, EVENT_BYTES, LARGEST_QUEUE, LARGEST_SEND_BUFFER, MESSAGE_BYTES};

const CAPACITIES: [u32; 12] = [1, 1, 2, 2, 3, 4, 5, 7, 8, 16, 33, 64];

/// Settings in range. Most filters free most bits, so that frames get through.
pub fn settings(draw: &mut Draw) -> Settings {
    let mode = draw.word_below(2);
    let mask_active = draw.word_below(2);
    let free = free_bits(draw);
    Settings {
        mode,
        format: draw.word_below(2 + mode),
        align: draw.word_below(4),
        mask_active,
        code: draw.any_word(),
        mask: if mask_active == 0 { free } else { !free },
        event_mask: event_mask(draw),
        queue_capacity: capacity(draw, LARGEST_QUEUE),
        tx_mode: draw.pick(&[1, 3, 5, 7]),
        send_capacity: capacity(draw, LARGEST_SEND_BUFFER),
        site: sites::site(draw),
    }
}

fn capacity(draw: &mut Draw, limit: u32) -> u32 {
    match draw.below(16) {
        0 => limit - draw.word_below(2),
        1 => 1 + draw.word_below(limit),
        2 | 3 => 1 + draw.word_below(300),
        _ => draw.pick(&CAPACITIES),
    }
}

/// None, a few or all bits compared.
fn free_bits(draw: &mut Draw) -> u32 {
    match draw.below(8) {
        0 => draw.word(),
        1 => 0,
        2 | 3 => !(1 << draw.below(32)),
        4 => !((1 << draw.below(32)) | (1 << draw.below(32))),
        _ => u32::MAX,
    }
}

pub fn event_mask(draw: &mut Draw) -> u32 {
    match draw.below(6) {
        0 => draw.word_below(0x1000),
        1 => 0xFFF & !(1 << draw.below(12)),
        _ => 0xFFF,
    }
}

/// Code and mask for a channel that goes on: again mostly free.
pub fn filter(draw: &mut Draw, mask_active: u32) -> (u32, u32) {
    let free = free_bits(draw);
    let mask = if mask_active == 0 { free } else { !free };
    (draw.any_word(), mask)
}

/// One setting out of its range.
pub fn bad_settings(draw: &mut Draw) -> Settings {
    let mut given = settings(draw);
    match draw.below(13) {
        0 => given.mode = 2 + draw.any_word() % 1_000,
        1 => given.format = 3 + draw.any_word() % 1_000,
        2 => (given.mode, given.format) = (0, 2),
        3 => given.align = 4 + draw.any_word() % 1_000,
        4 => given.mask_active = 2 + draw.any_word() % 1_000,
        5 => given.event_mask |= 1 << (12 + draw.below(20)),
        6 => given.queue_capacity = draw.pick(&[0, LARGEST_QUEUE + 1, 2_048, u32::MAX]),
        7 => given.tx_mode = draw.pick(&[0, 2, 4, 6, 8, 9, u32::MAX]),
        8 => given.send_capacity = draw.pick(&[0, LARGEST_SEND_BUFFER + 1, LARGEST_QUEUE, u32::MAX]),
        9 => given.queue_capacity = LARGEST_QUEUE + 1 + draw.any_word() % 1_000_000,
        _ => given.site = sites::bad_site(draw),
    }
    given
}

/// A frame that is good: raw identifier, any data, carried or not.
pub fn good_frame(draw: &mut Draw) -> Message {
    let format = 1 + draw.word_below(2);
    let largest = if format == 1 { 0x7FF } else { 0x1FFF_FFFF };
    let mut data = [0; 8];
    draw.fill(&mut data);
    Message {
        id: match draw.below(8) {
            0 => largest,
            1 => 0,
            _ => draw.word() & largest,
        },
        format,
        rtr: u32::from(draw.one_in(4)),
        dlc: draw.word_below(16),
        data,
    }
}

/// A frame with one or more bad numbers.
pub fn bad_frame(draw: &mut Draw) -> Message {
    let mut frame = good_frame(draw);
    match draw.below(5) {
        0 => frame.format = draw.pick(&[0, 3, 4, 256, 257, u32::MAX]),
        1 => frame.id = draw.pick(&[0x800, 0x1FFF_FFFF, 0x2000_0000, u32::MAX]),
        2 => frame.rtr = draw.pick(&[2, 3, 256, 257, u32::MAX]),
        3 => frame.dlc = draw.pick(&[16, 17, 256, 264, u32::MAX]),
        _ => {
            frame.id = draw.any_word();
            frame.format = draw.word_below(4);
            frame.rtr = draw.word_below(3);
            frame.dlc = draw.word_below(18);
        }
    }
    frame
}

/// A good frame as it is kept: bytes not carried are zero.
pub fn kept_frame(draw: &mut Draw) -> Message {
    let mut frame = good_frame(draw);
    let carried = if frame.rtr == 1 { 0 } else { frame.dlc.min(8) };
    frame.data[carried as usize..].fill(0);
    frame
}

/// The identifier of a frame, moved to its place under the device's Align.
pub fn aligned(device: &Device, format: u32, raw: u32) -> u32 {
    let shift = match (device.shared.align, format) {
        (2, 1) => 18,
        (3, 1) => 21,
        (3, _) => 3,
        _ => 0,
    };
    raw << shift
}

/// A good message for a binary send on this device, unless `bad`.
pub fn message_to_send(draw: &mut Draw, device: &Device, bad: bool) -> Message {
    let frame = if bad { bad_frame(draw) } else { good_frame(draw) };
    let format = if device.shared.mode == 0 && !bad { 1 } else { frame.format };
    let raw = if format == 1 && !bad { frame.id & 0x7FF } else { frame.id };
    let stray = if bad && draw.one_in(3) { draw.any_word() } else { 0 };
    let stands_for = match (device.shared.mode, device.shared.format) {
        (0, 0) => 1,
        (_, 0) => 2,
        (_, format) => format,
    };
    Message {
        id: aligned(device, format, raw) ^ stray,
        format: if format == stands_for && draw.one_in(2) { 0 } else { format },
        ..frame
    }
}

/// The bytes of a good message.
pub fn message_record(draw: &mut Draw) -> Vec<u8> {
    let frame = kept_frame(draw);
    let mut record = vec![0; MESSAGE_BYTES];
    set_word(&mut record, 0, frame.id);
    record[4..7].copy_from_slice(&[frame.format as u8, frame.rtr as u8, frame.dlc as u8]);
    record[8..].copy_from_slice(&frame.data);
    record
}

/// The bytes of a good event.
pub fn event_record(draw: &mut Draw) -> Vec<u8> {
    let mut record = vec![0; EVENT_BYTES];
    let code = event_code(draw);
    for (at, word) in [(0, code), (4, draw.any_word()), (8, draw.any_word()), (12, draw.any_word())] {
        set_word(&mut record, at, word);
    }
    if (1..=3).contains(&code) {
        record[16..sites::OFFSET_AT].copy_from_slice(&message_record(draw));
    }
    sites::write_site(&mut record, sites::site(draw));
    record
}

/// An event record as `any_record` makes it, or with its offset out of range.
pub fn any_event_record(draw: &mut Draw) -> Vec<u8> {
    let mut good = event_record(draw);
    if draw.one_in(8) {
        sites::damage_offset(draw, &mut good);
        return good;
    }
    any_record(draw, good)
}

pub fn event_code(draw: &mut Draw) -> u32 {
    match draw.below(16) {
        0..=7 => 1 + draw.word_below(3),
        8..=14 => draw.word_below(14),
        _ => draw.any_word(),
    }
}

/// A record that is good, touched in one or two places, of a wrong length, or rubbish.
pub fn any_record(draw: &mut Draw, good: Vec<u8>) -> Vec<u8> {
    let mut record = good;
    match draw.below(8) {
        0 => damage(draw, &mut record),
        1 => record.truncate(draw.pick(&[0, 1, 15, 31, 32, 39])),
        2 => record.extend_from_slice(&[0, 7][..1 + draw.size_below(2)]),
        3 => draw.fill(&mut record),
        _ => {}
    }
    record
}

/// Overwrites a byte or two; most such records are no longer good.
pub fn damage(draw: &mut Draw, bytes: &mut [u8]) {
    for _ in 0..1 + draw.below(2) {
        let place = draw.size_below(bytes.len());
        bytes[place] = if draw.one_in(2) { bytes[place] ^ (1 << draw.below(8)) } else { draw.byte() };
    }
}

/// Output room: enough, just enough, one short, or any.
pub fn room(draw: &mut Draw, needed: usize) -> usize {
    match draw.below(16) {
        0 => needed - 1,
        1 => draw.size_below(needed),
        2..=8 => needed,
        _ => needed + draw.size_below(60),
    }
}
