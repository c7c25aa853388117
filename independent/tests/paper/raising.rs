//! Raising: 100 to 103, refusals 13, 8, 9, 10, slots and lost counts.

use crate::rig::{bad_frames, lost_of, number_at, unchanged, Rig, FRAME, OPEN_TO_ALL};
use independent::{Message, Settings};

const ONE_PLACE: Settings = Settings {
    queue_capacity: 1,
    ..OPEN_TO_ALL
};

#[test]
fn bad_frames_are_refused_for_codes_1_to_3() {
    let mut rig = Rig::open(OPEN_TO_ALL);
    // Masked and filtered as well: the frame is checked first.
    rig.device.set_event_mask(0);
    rig.device.set_filter(0, 0);
    for code in 1..=3 {
        for (number, frame) in bad_frames() {
            let answer = unchanged(&mut rig, |rig| rig.raise(code, 5, &frame));
            assert_eq!(answer, number, "{frame:?}");
        }
    }
}

/// "other codes ignore it", and their bytes 16..31 are zero.
#[test]
fn other_codes_ignore_even_a_bad_frame() {
    for code in [0, 4, 5, 11, 12, 0xFFFF_FFFF] {
        for (_, frame) in bad_frames() {
            let mut rig = Rig::open(OPEN_TO_ALL);
            assert_eq!(rig.raise(code, 0x0102_0304, &frame), 100);
            let (number, record) = rig.read_record();
            assert_eq!((number, number_at(&record, 0)), (0, code));
            assert_eq!(record[4..8], [4, 3, 2, 1]);
            assert_eq!(record[8..], [0; 32]);
        }
    }
}

/// Every byte of the 40, the largest numbers and bytes not carried included.
#[test]
fn record_layout_of_an_event_with_a_frame() {
    let mut rig = Rig::open(ONE_PLACE);
    rig.device.receive.pending = 0xA1B2_C3D4;
    let frame = Message {
        id: 0x1ABC_DEF0,
        format: 2,
        rtr: 0,
        dlc: 3,
        data: [1, 2, 3, 4, 5, 6, 7, 8],
    };
    assert_eq!(rig.device.set_site(4_294_967_206, 0x0102_0304_0506), 0);
    assert_eq!(rig.raise(2, 0x1122_3344, &frame), 100);
    let expected = [
        2, 0, 0, 0, 0x44, 0x33, 0x22, 0x11, 0, 0, 0, 0, 0xD4, 0xC3, 0xB2, 0xA1, 0xF0, 0xDE, 0xBC,
        0x1A, 2, 0, 3, 0, 1, 2, 3, 0, 0, 0, 0, 0, 0xA6, 0xFF, 0x06, 0x05, 0x04, 0x03, 0x02, 0x01,
    ];
    assert_eq!(rig.queue, expected);
    assert_eq!(rig.device.receive.pending, 0);
}

#[test]
fn bytes_not_carried_are_stored_as_zero() {
    let full = [9; 8];
    for (rtr, dlc, carried) in [(0, 0, 0), (0, 7, 7), (0, 8, 8), (0, 15, 8), (1, 8, 0)] {
        let mut rig = Rig::open(ONE_PLACE);
        let frame = Message {
            rtr,
            dlc,
            data: full,
            ..FRAME
        };
        assert_eq!(rig.raise(1, 0, &frame), 100);
        let mut expected = [0; 8];
        expected[..carried].fill(9);
        assert_eq!(rig.queue[24..32], expected);
    }
}

/// "Mask bit k (1 to 11) lets code k be recorded; bit 0 governs all other codes, 0 included."
#[test]
fn event_mask_bits() {
    for bit in 0..=11 {
        for code in (0..=13).chain([0x8000_0001, 0xFFFF_FFFF]) {
            let mut rig = Rig::open(Settings {
                event_mask: 1 << bit,
                ..OPEN_TO_ALL
            });
            let let_through = if bit == 0 {
                code == 0 || code > 11
            } else {
                code == bit
            };
            if let_through {
                assert_eq!(rig.raise(code, 0, &FRAME), 100);
            } else {
                assert_eq!(unchanged(&mut rig, |rig| rig.raise(code, 0, &FRAME)), 102);
            }
        }
    }
}

/// Filter before mask, mask before queue; "Nothing masked or filtered counts as lost."
#[test]
fn filter_then_mask_then_queue() {
    let mut rig = Rig::open(ONE_PLACE);
    assert_eq!(rig.raise(1, 0, &FRAME), 100);
    assert_eq!(rig.raise(1, 1, &FRAME), 103);
    rig.device.set_event_mask(0);
    assert_eq!(unchanged(&mut rig, |rig| rig.raise(1, 2, &FRAME)), 102);
    rig.device.set_filter(0, 0);
    assert_eq!(unchanged(&mut rig, |rig| rig.raise(1, 3, &FRAME)), 101);
    assert_eq!(unchanged(&mut rig, |rig| rig.raise(2, 4, &FRAME)), 102);
    assert_eq!(rig.device.receive.pending, 1);
}

/// Only the slot at (first + count) mod capacity changes, also past the table's end.
#[test]
fn ring_wraps_around() {
    let mut rig = Rig::open(Settings {
        queue_capacity: 3,
        ..OPEN_TO_ALL
    });
    for tick in 0..20 {
        if rig.device.receive.ring.count == 3 {
            let before = rig.queue.clone();
            let (number, record) = rig.read_record();
            assert_eq!((number, number_at(&record, 4)), (0, tick - 3));
            assert_eq!(rig.device.receive.ring.first, (tick - 2) % 3);
            assert_eq!(rig.queue, before);
        }
        let before = rig.queue.clone();
        assert_eq!(rig.raise(9, tick, &FRAME), 100);
        for slot in (0..3).filter(|slot| *slot != tick as usize % 3) {
            let bytes = slot * 40..slot * 40 + 40;
            assert_eq!(rig.queue[bytes.clone()], before[bytes]);
        }
        assert_eq!(number_at(&rig.queue, tick as usize % 3 * 40 + 4), tick);
    }
}

/// "the pending count rises by one and stops at 4,294,967,295"
#[test]
fn lost_count_stops_at_the_largest_number() {
    let mut rig = Rig::open(ONE_PLACE);
    rig.raise(9, 0, &FRAME);
    rig.device.receive.pending = 4_294_967_294;
    for _ in 0..3 {
        assert_eq!(rig.raise(9, 1, &FRAME), 103);
        assert_eq!(rig.device.receive.pending, 4_294_967_295);
    }
    rig.read_record();
    assert_eq!(rig.raise(1, 2, &FRAME), 100);
    assert_eq!(rig.device.receive.pending, 0);
    let (_, record) = rig.device.clone().read_record(&rig.queue);
    assert_eq!(lost_of(&record), 4_294_967_295);
    let line = rig.read_line();
    assert_eq!(
        line,
        "received\t0:2\t+00:00\t0\t00000123\t0\t2\t11\t22\t4294967295\n"
    );
}
