//! Binary send: format 0, 1 or 2, aligned identifier; refusals 13, 8, 9, 10, 5.

use crate::rig::{unchanged, Rig, MODE_0, OPEN_TO_ALL};
use independent::Settings;

const DATA: [u8; 8] = [1, 2, 3, 4, 5, 6, 7, 8];

fn send(rig: &mut Rig, format: u32, id: u32, rtr: u32, dlc: u32) -> u32 {
    rig.device.send(format, id, rtr, dlc, DATA, &mut rig.buffer)
}

/// "0 means the default format": that of mode and format of the channel.
#[test]
fn format_0_means_the_default_format() {
    for (mode, format, expected) in [(0, 0, 1), (0, 1, 1), (1, 0, 2), (1, 1, 1), (1, 2, 2)] {
        let mut rig = Rig::open(Settings {
            mode,
            format,
            ..OPEN_TO_ALL
        });
        assert_eq!(send(&mut rig, 0, 0x7FF, 0, 0), 0);
        assert_eq!(rig.buffer[4], expected);
    }
}

#[test]
fn formats_1_and_2_overrule_the_default() {
    for default in [0, 1, 2] {
        let mut rig = Rig::open(Settings {
            format: default,
            ..OPEN_TO_ALL
        });
        assert_eq!(send(&mut rig, 1, 0x7FF, 0, 0), 0);
        assert_eq!(send(&mut rig, 2, 0x7FF, 0, 0), 0);
        assert_eq!((rig.buffer[4], rig.buffer[16 + 4]), (1, 2));
    }
}

#[test]
fn bytes_not_carried_are_stored_as_zero() {
    let mut rig = Rig::open(Settings {
        align: 2,
        ..OPEN_TO_ALL
    });
    assert_eq!(send(&mut rig, 1, 0x1CC4_0000, 0, 3), 0);
    assert_eq!(send(&mut rig, 2, 0x1CC4_0000, 1, 3), 0);
    assert_eq!(send(&mut rig, 1, 0, 0, 15), 0);
    let expected = [
        [0x31, 7, 0, 0, 1, 0, 3, 0, 1, 2, 3, 0, 0, 0, 0, 0],
        [0, 0, 0xC4, 0x1C, 2, 1, 3, 0, 0, 0, 0, 0, 0, 0, 0, 0],
        [0, 0, 0, 0, 1, 0, 15, 0, 1, 2, 3, 4, 5, 6, 7, 8],
    ];
    assert_eq!(rig.buffer, expected.concat());
}

/// Each message is bad from its refusal on, and the buffer is full besides.
#[test]
fn refusals_come_in_the_papers_order() {
    let mut rig = Rig::open(Settings {
        send_capacity: 1,
        ..OPEN_TO_ALL
    });
    assert_eq!(send(&mut rig, 1, 0, 0, 0), 0);
    for (format, id, rtr, dlc, number) in [
        (3, 0xFFFF_FFFF, 2, 16, 13),
        (0xFFFF_FFFF, 0xFFFF_FFFF, 2, 16, 13),
        (0, 0x2000_0000, 2, 16, 8),
        (1, 0x800, 2, 16, 8),
        (2, 0x2000_0000, 2, 16, 8),
        (1, 0x7FF, 2, 16, 9),
        (1, 0x7FF, 1, 16, 10),
        (1, 0x7FF, 1, 15, 5),
    ] {
        let answer = unchanged(&mut rig, |rig| send(rig, format, id, rtr, dlc));
        assert_eq!(answer, number);
    }
}

/// "bad format for this call or mode"
#[test]
fn extended_format_in_mode_0_is_13() {
    let mut rig = Rig::open(MODE_0);
    assert_eq!(unchanged(&mut rig, |rig| send(rig, 2, 0, 0, 0)), 13);
    assert_eq!(send(&mut rig, 0, 0, 0, 0), 0);
    assert_eq!(send(&mut rig, 1, 0, 0, 0), 0);
}

/// Only the slot at (first + count) mod capacity changes.
#[test]
fn send_buffer_wraps_around() {
    let mut rig = Rig::open(Settings {
        tx_mode: 1,
        ..OPEN_TO_ALL
    });
    for id in 0..20 {
        if rig.device.send.ring.count == 3 {
            let (number, bytes) = rig.take(0);
            assert_eq!((number, u32::from(bytes[0])), (0, id - 3));
            assert_eq!(rig.device.send.ring.first, (id - 2) % 3);
            assert_eq!(rig.done(0), 0);
        }
        let before = rig.buffer.clone();
        assert_eq!(send(&mut rig, 1, id, 0, 0), 0);
        for slot in (0..3).filter(|slot| *slot != id as usize % 3) {
            let bytes = slot * 16..slot * 16 + 16;
            assert_eq!(rig.buffer[bytes.clone()], before[bytes]);
        }
        assert_eq!(u32::from(rig.buffer[id as usize % 3 * 16]), id);
    }
}
