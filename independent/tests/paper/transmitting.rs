//! Take, done and abort: the register, the events they raise, refusals 5, 4, 14.

use crate::rig::{lost_of, unchanged, Rig, FRAME, OPEN_TO_ALL};
use independent::{Message, Settings};

fn with_two_messages(tx_mode: u32) -> Rig {
    let mut rig = Rig::open(Settings {
        tx_mode,
        ..OPEN_TO_ALL
    });
    assert_eq!(rig.send_text(b"A 0 1 55\n").0, 0);
    assert_eq!(rig.send_text(b"B 1 2\n").0, 0);
    rig
}

const A: Message = Message {
    id: 0xA,
    format: 2,
    rtr: 0,
    dlc: 1,
    data: [0x55, 0, 0, 0, 0, 0, 0, 0],
};

#[test]
fn take_moves_the_oldest_to_the_register() {
    let mut rig = with_two_messages(1);
    let buffer = rig.buffer.clone();
    let expected = [0xA, 0, 0, 0, 2, 0, 1, 0, 0x55, 0, 0, 0, 0, 0, 0, 0];
    assert_eq!(rig.take(7), (0, expected));
    assert_eq!(rig.device.send.register, Some(A));
    assert_eq!(
        (rig.device.send.ring.first, rig.device.send.ring.count),
        (1, 1)
    );
    assert_eq!(rig.buffer, buffer);
    assert_eq!(rig.done(8), 0);
    assert_eq!(rig.device.send.register, None);
    assert_eq!(rig.queued(), []);
}

/// "TxMode bit 1 set means a transmitted event is raised: at take if bit 2 is 0, at done if it is 1."
#[test]
fn tx_mode_says_when_a_transmitted_event_is_raised() {
    for (tx_mode, expected) in [
        (1, vec![]),
        (3, vec![(2, 7)]),
        (5, vec![]),
        (7, vec![(2, 8)]),
    ] {
        let mut rig = with_two_messages(tx_mode);
        rig.take(7);
        rig.done(8);
        assert_eq!(rig.queued(), expected);
        for _ in expected {
            assert_eq!(rig.queue[16..32], rig.buffer[..16]);
        }
    }
}

#[test]
fn take_refuses_5_then_4_then_14() {
    let mut rig = with_two_messages(3);
    rig.buffer[16 + 7] = 1;
    rig.take(0);
    assert_eq!(unchanged(&mut rig, |rig| rig.take(1)), (5, [0; 16]));
    rig.done(2);
    assert_eq!(unchanged(&mut rig, |rig| rig.take(3)), (14, [0; 16]));
    rig.buffer[16 + 7] = 0;
    assert_eq!(rig.take(4).0, 0);
    // Occupied and empty: 5 is asked first.
    assert_eq!(unchanged(&mut rig, |rig| rig.take(5)), (5, [0; 16]));
    rig.done(6);
    assert_eq!(unchanged(&mut rig, |rig| rig.take(7)), (4, [0; 16]));
}

#[test]
fn done_with_an_empty_register_is_4() {
    let mut rig = with_two_messages(7);
    assert_eq!(unchanged(&mut rig, |rig| rig.done(0)), 4);
}

/// "empties the register, raising code 3 if it held a message, then purges the buffer and answers
/// how many were purged": the register's own is not counted, and TxMode doesn't matter.
#[test]
fn abort_empties_register_and_buffer() {
    for tx_mode in [1, 3, 5, 7] {
        let mut rig = with_two_messages(tx_mode);
        rig.take(7);
        let first = rig.device.send.ring.first;
        let buffer = rig.buffer.clone();
        assert_eq!(rig.abort(9), (0, 1));
        assert_eq!(rig.device.send.register, None);
        assert_eq!(
            (rig.device.send.ring.first, rig.device.send.ring.count),
            (first, 0)
        );
        assert_eq!(rig.buffer, buffer);
        assert_eq!(rig.queued().last(), Some(&(3, 9)));
        assert_eq!(rig.queued().len(), if tx_mode == 3 { 2 } else { 1 });
        // Nothing held and nothing buffered: nothing is raised.
        assert_eq!(unchanged(&mut rig, |rig| rig.abort(10)), (0, 0));
    }
}

#[test]
fn abort_without_a_held_message_raises_nothing() {
    let mut rig = with_two_messages(7);
    assert_eq!(rig.abort(9), (0, 2));
    assert_eq!(rig.queued(), []);
}

/// "Refusal 2 apart, no send-side answer depends on the event queue."
#[test]
fn events_of_the_send_side_meet_mask_and_queue() {
    let mut rig = Rig::open(Settings {
        tx_mode: 3,
        queue_capacity: 1,
        ..OPEN_TO_ALL
    });
    rig.raise(9, 0, &FRAME);
    for text in [b"A 0 1 55\n", b"B 0 1 66\n"] {
        rig.send_text(text);
    }
    assert_eq!(rig.take(1).0, 0);
    assert_eq!(rig.abort(2), (0, 1));
    assert_eq!(rig.device.receive.pending, 2);
    rig.device.set_event_mask(0);
    rig.send_text(b"C 0 0\n");
    assert_eq!(rig.take(3).0, 0);
    assert_eq!(rig.device.receive.pending, 2);
    rig.read_record();
    rig.device.set_event_mask(1 << 3);
    assert_eq!(rig.abort(4), (0, 0));
    let (_, record) = rig.read_record();
    assert_eq!((record[0], lost_of(&record)), (3, 2));
}

/// The filter is for arriving frames: a closed one does not hold up the send side's events.
#[test]
fn events_of_the_send_side_do_not_meet_the_filter() {
    let mut rig = with_two_messages(3);
    rig.device.set_filter(0xFFFF_FFFF, 0);
    rig.take(1);
    rig.abort(2);
    assert_eq!(rig.queued(), [(2, 1), (3, 2)]);
}

/// A message buffered in mode 1 is still taken in mode 0.
#[test]
fn extended_message_is_taken_in_mode_0() {
    let mut rig = with_two_messages(3);
    rig.device.set_mode(0, 0, &mut rig.queue);
    assert_eq!(rig.take(1).0, 0);
    assert_eq!(rig.queued(), [(5, 0), (2, 1)]);
    rig.read_record();
    assert_eq!(
        rig.read_line(),
        "transmitted\t0:1\t+00:00\t0\t0000000A\t0\t1\t55\n"
    );
}
