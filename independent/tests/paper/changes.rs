//! Changes of setting: refusals 2, 1; code 5 after a mode or format change.

use crate::rig::{unchanged, Rig, FRAME, MODE_0, OPEN_TO_ALL};
use independent::{Message, Settings};

#[test]
fn mode_and_format_changes_raise_code_5_even_for_the_same_value() {
    let mut rig = Rig::open(OPEN_TO_ALL);
    assert_eq!(rig.device.set_mode(1, 10, &mut rig.queue), 0);
    assert_eq!(rig.device.set_format(0, 11, &mut rig.queue), 0);
    assert_eq!(rig.device.set_mode(0, 12, &mut rig.queue), 0);
    assert_eq!(rig.device.set_format(1, 13, &mut rig.queue), 0);
    assert_eq!(rig.queued(), [(5, 10), (5, 11), (5, 12), (5, 13)]);
    assert_eq!((rig.device.shared.mode, rig.device.shared.format), (0, 1));
    assert_eq!(rig.read_line(), "device changed\t0:10\t+00:00\t0\n");
}

#[test]
fn code_5_of_a_change_meets_mask_and_queue() {
    let mut rig = Rig::open(Settings {
        queue_capacity: 1,
        ..OPEN_TO_ALL
    });
    rig.raise(9, 0, &FRAME);
    assert_eq!(rig.device.set_format(2, 1, &mut rig.queue), 0);
    assert_eq!(
        (rig.device.receive.pending, rig.device.shared.format),
        (1, 2)
    );
    rig.device.set_event_mask(0xFFF & !(1 << 5));
    assert_eq!(rig.device.set_format(1, 2, &mut rig.queue), 0);
    assert_eq!(
        (rig.device.receive.pending, rig.device.shared.format),
        (1, 1)
    );
    assert_eq!(rig.queued(), [(9, 0)]);
}

#[test]
fn bad_mode_or_format_is_1() {
    let mut rig = Rig::open(OPEN_TO_ALL);
    for mode in [2, 0xFFFF_FFFF] {
        let number = unchanged(&mut rig, |rig| rig.device.set_mode(mode, 7, &mut rig.queue));
        assert_eq!(number, 1);
    }
    for format in [3, 0xFFFF_FFFF] {
        let number = unchanged(&mut rig, |rig| {
            rig.device.set_format(format, 7, &mut rig.queue)
        });
        assert_eq!(number, 1);
    }
}

/// "mode 0 with format 2 included": from either side.
#[test]
fn mode_0_with_format_2_is_1() {
    let mut rig = Rig::open(MODE_0);
    let number = unchanged(&mut rig, |rig| rig.device.set_format(2, 0, &mut rig.queue));
    assert_eq!(number, 1);
    assert_eq!(rig.device.set_mode(1, 0, &mut rig.queue), 0);
    assert_eq!(rig.device.set_format(2, 0, &mut rig.queue), 0);
    let number = unchanged(&mut rig, |rig| rig.device.set_mode(0, 0, &mut rig.queue));
    assert_eq!(number, 1);
}

#[test]
fn event_mask_above_bit_11_is_1() {
    let mut rig = Rig::open(OPEN_TO_ALL);
    for mask in [0x1000, 0x8000_0000, 0xFFFF_FFFF] {
        let number = unchanged(&mut rig, |rig| rig.device.set_event_mask(mask));
        assert_eq!(number, 1);
    }
    assert_eq!(rig.device.set_event_mask(0), 0);
    assert_eq!(rig.device.receive.event_mask, 0);
}

/// "Filter and mask changes raise nothing", and what is queued or pending stays.
#[test]
fn changes_leave_queue_and_pending_alone() {
    let mut rig = Rig::open(Settings {
        queue_capacity: 2,
        ..OPEN_TO_ALL
    });
    for tick in 0..5 {
        rig.raise(1, tick, &FRAME);
    }
    let queue = rig.queue.clone();
    assert_eq!(rig.device.set_filter(0xFFFF_FFFF, 0), 0);
    assert_eq!(rig.device.set_event_mask(0), 0);
    assert_eq!(rig.device.set_mode(0, 9, &mut rig.queue), 0);
    assert_eq!(rig.device.set_format(1, 9, &mut rig.queue), 0);
    assert_eq!(rig.device.receive.pending, 3);
    assert_eq!(rig.queued(), [(1, 0), (1, 1)]);
    assert_eq!(rig.queue, queue);
}

#[test]
fn filter_change_takes_any_numbers() {
    let mut rig = Rig::open(OPEN_TO_ALL);
    assert_eq!(rig.device.set_filter(0xFFFF_FFFF, 0x1234_5678), 0);
    assert_eq!(rig.device.receive.code, 0xFFFF_FFFF);
    assert_eq!(rig.device.receive.mask, 0x1234_5678);
}

/// In mode 0 an extended frame is filtered; code 5 is raised after the change.
#[test]
fn mode_0_filters_extended_frames() {
    let mut rig = Rig::open(MODE_0);
    let extended = Message { format: 2, ..FRAME };
    assert_eq!(unchanged(&mut rig, |rig| rig.raise(1, 0, &extended)), 101);
    assert_eq!(rig.raise(2, 0, &extended), 100);
    assert_eq!(rig.raise(3, 0, &extended), 100);
    rig.device.set_mode(1, 0, &mut rig.queue);
    assert_eq!(rig.raise(1, 0, &extended), 100);
}
