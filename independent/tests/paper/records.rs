//! Good and damaged records, as printing, reading and taking judge them.

use crate::rig::{unchanged, Rig, FRAME, OPEN_TO_ALL};
use independent::Message;

/// The 16 bytes of a standard frame with two bytes of data.
const MESSAGE: [u8; 16] = [0x23, 1, 0, 0, 1, 0, 2, 0, 0x11, 0x22, 0, 0, 0, 0, 0, 0];

fn message_is_good(bytes: &[u8]) -> bool {
    let rig = Rig::open(OPEN_TO_ALL);
    let mut out = [b'?'; 37];
    match rig.device.print_message_record(bytes, &mut out) {
        (0, _) => true,
        (14, 0) => {
            assert_eq!(out, [b'?'; 37]);
            false
        }
        other => panic!("{other:?}"),
    }
}

fn event_is_good(bytes: &[u8]) -> bool {
    let rig = Rig::open(OPEN_TO_ALL);
    let mut out = [b'?'; 103];
    match rig.device.print_event_record(bytes, &mut out) {
        (0, _) => true,
        (14, 0) => {
            assert_eq!(out, [b'?'; 103]);
            false
        }
        other => panic!("{other:?}"),
    }
}

fn event(code: u32, frame: &[u8; 16]) -> [u8; 40] {
    let mut bytes = [0xFF; 40];
    bytes[..4].copy_from_slice(&code.to_le_bytes());
    bytes[16..32].copy_from_slice(frame);
    bytes
}

/// The record with one byte set, for every message byte and every value.
fn one_byte_set() -> impl Iterator<Item = (usize, u8, [u8; 16])> {
    (0..16).flat_map(|at| {
        (0..=255).map(move |value| {
            let mut bytes = MESSAGE;
            bytes[at] = value;
            (at, value, bytes)
        })
    })
}

/// Whether the record stays good with this byte set, by the layout's words.
fn stays_good(at: usize, value: u8) -> bool {
    match at {
        0 => true,
        1 => value <= 7,
        2 | 3 => value == 0,
        4 => value == 1 || value == 2,
        5 => value == 0,
        6 => (2..=15).contains(&value),
        8 | 9 => true,
        _ => value == 0,
    }
}

#[test]
fn every_byte_of_a_message_record_is_judged() {
    for (at, value, bytes) in one_byte_set() {
        assert_eq!(message_is_good(&bytes), stays_good(at, value), "{bytes:?}");
    }
}

#[test]
fn every_byte_of_the_frame_in_an_event_record_is_judged() {
    for code in 1..=3 {
        for (at, value, bytes) in one_byte_set() {
            assert_eq!(event_is_good(&event(code, &bytes)), stays_good(at, value));
        }
    }
}

/// "in every other event bytes 16..31 are zero"
#[test]
fn events_without_a_frame_have_zeros_only() {
    for code in [0, 4, 11, 12, 256, 257, 0xFFFF_FFFF] {
        assert!(event_is_good(&event(code, &[0; 16])));
        assert!(!event_is_good(&event(code, &MESSAGE)));
        for at in 0..16 {
            let mut frame = [0; 16];
            frame[at] = 1;
            assert!(!event_is_good(&event(code, &frame)));
        }
    }
    // A frame of zeros has format 0.
    assert!(!event_is_good(&event(1, &[0; 16])));
}

#[test]
fn extended_identifiers_have_29_bits() {
    let mut bytes = MESSAGE;
    bytes[..5].copy_from_slice(&[0xFF, 0xFF, 0xFF, 0x1F, 2]);
    assert!(message_is_good(&bytes));
    bytes[3] = 0x20;
    assert!(!message_is_good(&bytes));
}

#[test]
fn remote_frame_with_a_nonzero_byte_is_damaged() {
    let mut bytes = MESSAGE;
    bytes[5] = 1;
    assert!(!message_is_good(&bytes));
    bytes[8..].fill(0);
    assert!(message_is_good(&bytes));
}

/// "A record of a wrong length is 14."
#[test]
fn wrong_length_is_14() {
    let long = [MESSAGE.as_slice(), &[0]].concat();
    for bytes in [&[], &MESSAGE[..15], &long] {
        assert!(!message_is_good(bytes));
    }
    let whole = event(1, &MESSAGE);
    let long = [whole.as_slice(), &[0]].concat();
    assert!(event_is_good(&whole));
    for bytes in [&[], &MESSAGE[..], &whole[..32], &whole[..39], &long] {
        assert!(!event_is_good(bytes));
    }
}

#[test]
fn damaged_slot_in_the_send_buffer_is_14() {
    for (at, value, bytes) in one_byte_set().filter(|(_, value, _)| value % 5 == 0) {
        let mut rig = Rig::open(OPEN_TO_ALL);
        assert_eq!(rig.send_text(b"1 0 0\n").0, 0);
        rig.buffer[..16].copy_from_slice(&bytes);
        if stays_good(at, value) {
            assert_eq!(rig.take(0), (0, bytes));
        } else {
            assert_eq!(unchanged(&mut rig, |rig| rig.take(0)), (14, [0; 16]));
        }
    }
}

/// What a raise writes is good, whatever the frame's bytes not carried were.
#[test]
fn raised_events_are_good_records() {
    for dlc in 0..=15 {
        for rtr in 0..=1 {
            let mut rig = Rig::open(OPEN_TO_ALL);
            let frame = Message {
                rtr,
                dlc,
                data: [0xFF; 8],
                ..FRAME
            };
            assert_eq!(rig.raise(1, 0, &frame), 100);
            assert!(event_is_good(rig.device.look(0, &rig.queue)));
        }
    }
}
