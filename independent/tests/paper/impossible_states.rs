//! Refusal 2, "always first": every call on every kind of impossible state and short table.

use crate::opening::settings_out_of_range;
use crate::rig::{unchanged, Rig, FRAME, OPEN_TO_ALL};
use independent::{Device, Message, Settings};

/// A device with these settings, in range or not, as a caller may build it.
fn with_settings(settings: &Settings) -> Device {
    let mut device = Rig::open(OPEN_TO_ALL).device;
    device.shared.mode = settings.mode;
    device.shared.format = settings.format;
    device.shared.align = settings.align;
    device.receive.mask_active = settings.mask_active;
    device.receive.event_mask = settings.event_mask;
    device.receive.ring.capacity = settings.queue_capacity;
    device.send.tx_mode = settings.tx_mode;
    device.send.ring.capacity = settings.send_capacity;
    device.shared.site = settings.site;
    device
}

fn bad_registers() -> [Message; 9] {
    let at = |place: usize| {
        let mut data = FRAME.data;
        data[place] = 1;
        Message { data, ..FRAME }
    };
    [
        Message { format: 0, ..FRAME },
        Message { format: 3, ..FRAME },
        Message { id: 0x800, ..FRAME },
        Message {
            format: 2,
            id: 0x2000_0000,
            ..FRAME
        },
        Message { rtr: 2, ..FRAME },
        Message { dlc: 16, ..FRAME },
        Message { rtr: 1, ..FRAME },
        at(2),
        at(7),
    ]
}

fn impossible_devices() -> Vec<Device> {
    let good = Rig::open(OPEN_TO_ALL).device;
    let mut devices: Vec<Device> = settings_out_of_range().iter().map(with_settings).collect();
    for wrong in [5, 0xFFFF_FFFF] {
        let mut device = good;
        device.receive.ring.count = wrong;
        devices.push(device);
        device = good;
        device.send.ring.count = wrong;
        devices.push(device);
    }
    for wrong in [4, 0xFFFF_FFFF] {
        let mut device = good;
        device.receive.ring.first = wrong;
        devices.push(device);
        device = good;
        device.send.ring.first = wrong;
        devices.push(device);
    }
    for register in bad_registers() {
        let mut device = good;
        device.send.register = Some(register);
        devices.push(device);
    }
    devices
}

/// Every call that is lent the queue table, with arguments that are bad as well.
fn calls_with_queue(rig: &mut Rig) -> Vec<u32> {
    let mut out = [b'?'; 103];
    let Rig {
        device,
        queue,
        buffer,
    } = rig;
    let bad = Message::default();
    let answers = vec![
        device.raise(1, 0, &bad, queue),
        device.raise(5, 0, &bad, queue),
        device.read_text(queue, &mut []).0,
        device.read_text(queue, &mut out).0,
        device.read_record(queue).0,
        device.look_number(0, queue),
        device.set_mode(9, 0, queue),
        device.set_mode(1, 0, queue),
        device.set_format(9, 0, queue),
        device.set_format(1, 0, queue),
        device.take(0, buffer, queue).0,
        device.done(0, queue),
        device.abort(0, queue).0,
    ];
    assert!(device.look(0, queue).is_empty());
    assert_eq!(out, [b'?'; 103]);
    answers
}

/// Every call that is lent the send table.
fn calls_with_buffer(rig: &mut Rig) -> Vec<u32> {
    let Rig {
        device,
        queue,
        buffer,
    } = rig;
    vec![
        device.send(9, 0, 0, 0, [0; 8], buffer),
        device.send(1, 1, 0, 0, [0; 8], buffer),
        device.send_text(b"", buffer).0,
        device.send_text(b"1 0 0\n", buffer).0,
        device.take(0, buffer, queue).0,
    ]
}

/// Every call that is lent no table.
fn calls_without_table(rig: &mut Rig) -> Vec<u32> {
    let mut out = [b'?'; 103];
    let device = &mut rig.device;
    let answers = vec![
        device.set_filter(1, 2),
        device.set_event_mask(0x1000),
        device.set_event_mask(1),
        device.set_site(841, 0),
        device.set_site(0, 0),
        device.print_message_record(&[], &mut []).0,
        device.print_event_record(&[], &mut []).0,
        device.print_message(&FRAME, &mut []).0,
        device.print_message(&FRAME, &mut out).0,
        device.identifiers_through(9).0,
        device.identifiers_through(1).0,
    ];
    assert_eq!(out, [b'?'; 103]);
    answers
}

fn all_are_2(answers: Vec<u32>) -> bool {
    answers.iter().all(|number| *number == 2)
}

#[test]
fn impossible_state_is_2_for_every_call() {
    for device in impossible_devices() {
        let mut rig = Rig::open(OPEN_TO_ALL);
        rig.device = device;
        assert!(
            all_are_2(unchanged(&mut rig, calls_with_queue)),
            "{device:?}"
        );
        assert!(
            all_are_2(unchanged(&mut rig, calls_with_buffer)),
            "{device:?}"
        );
        assert!(
            all_are_2(unchanged(&mut rig, calls_without_table)),
            "{device:?}"
        );
    }
}

#[test]
fn zero_values_stand_beside_2() {
    let mut rig = Rig::open(OPEN_TO_ALL);
    rig.device.shared.mode = 2;
    let Rig {
        device,
        queue,
        buffer,
    } = &mut rig;
    assert_eq!(device.read_text(queue, &mut [0; 103]), (2, 0));
    assert_eq!(device.read_record(queue), (2, [0; 40]));
    assert_eq!(device.send_text(b"1 0 0\n", buffer), (2, 0));
    assert_eq!(device.take(0, buffer, queue), (2, [0; 16]));
    assert_eq!(device.abort(0, queue), (2, 0));
    assert_eq!(device.print_message(&FRAME, &mut [0; 37]), (2, 0));
    assert_eq!(device.identifiers_through(1), (2, 0));
}

#[test]
fn short_table_is_2_for_the_calls_that_are_lent_it() {
    let mut rig = Rig::open(OPEN_TO_ALL);
    rig.queue.pop();
    assert!(all_are_2(unchanged(&mut rig, calls_with_queue)));
    let mut rig = Rig::open(OPEN_TO_ALL);
    rig.buffer.pop();
    assert!(all_are_2(unchanged(&mut rig, calls_with_buffer)));
}

/// A table not lent to a call is not judged: the other ring's calls go on beside a short one.
#[test]
fn short_table_of_the_other_ring_does_not_matter() {
    let mut rig = Rig::open(OPEN_TO_ALL);
    rig.queue.clear();
    assert_eq!(rig.send_text(b"1 0 0\n").0, 0);
    let mut rig = Rig::open(OPEN_TO_ALL);
    rig.buffer.clear();
    assert_eq!(rig.raise(1, 0, &FRAME), 100);
    assert_eq!(rig.abort(0), (0, 0));
    assert_eq!(rig.done(0), 4);
}

/// Longer tables are no fault, and bytes past the needed ones are never written.
#[test]
fn longer_tables_are_fine() {
    let mut rig = Rig::open(OPEN_TO_ALL);
    rig.queue.extend([0xEE; 41]);
    rig.buffer.extend([0xEE; 17]);
    for tick in 0..10 {
        rig.raise(1, tick, &FRAME);
        rig.send_text(b"1 0 0\n");
        rig.take(tick);
        rig.done(tick);
        rig.read_record();
    }
    assert!(rig.queue[4 * 40..].iter().all(|byte| *byte == 0xEE));
    assert!(rig.buffer[3 * 16..].iter().all(|byte| *byte == 0xEE));
}

/// An extended message in the register is possible in mode 0: the present mode doesn't matter.
#[test]
fn extended_register_is_possible_in_mode_0() {
    let mut rig = Rig::open(OPEN_TO_ALL);
    rig.send_text(b"1FFFFFFF 0 0\n");
    rig.take(0);
    assert_eq!(rig.device.set_mode(0, 0, &mut rig.queue), 0);
    assert_eq!(rig.done(1), 0);
    assert_eq!(rig.queued(), [(5, 0), (2, 1)]);
}
