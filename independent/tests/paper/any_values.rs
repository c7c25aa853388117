//! Any field values, any table lengths, any numbers: every call answers, and a refusal changes
//! nothing and has zero values beside it.

use crate::rig::{Rig, FRAME, OPEN_TO_ALL};
use crate::xorshift::Xorshift;
use independent::{Device, Message, Ring, Settings, Site};

/// Small numbers, limits and their neighbours, and anything.
fn number(random: &mut Xorshift) -> u32 {
    let edges = [
        0x7FF,
        0x800,
        0xFFF,
        0x1000,
        1_024,
        1_638,
        1_639,
        0x1FFF_FFFF,
        0xFFFF_FFFF,
    ];
    match random.below(4) {
        0 => random.next(),
        1 => random.pick(&edges),
        _ => random.below(9),
    }
}

/// Each half in range, at its edges and beyond.
fn site(random: &mut Xorshift) -> Site {
    let offsets = [
        0,
        840,
        841,
        65_535,
        4_294_966_575,
        4_294_966_576,
        4_294_967_295,
    ];
    let seconds = [0, 1 << 32, (1 << 48) - 1, 1 << 48, u64::MAX];
    Site {
        offset: random.pick(&offsets),
        second: random.pick(&seconds),
    }
}

fn message(random: &mut Xorshift) -> Message {
    let mut message = FRAME;
    match random.below(6) {
        0 => message.id = number(random),
        1 => message.format = number(random),
        2 => message.rtr = number(random),
        3 => message.dlc = number(random),
        4 => message.data = random.bytes(),
        _ => {}
    }
    message
}

/// A possible device with one to three fields set to anything.
fn device(random: &mut Xorshift) -> Device {
    let mut device = Rig::open(OPEN_TO_ALL).device;
    for _ in 0..1 + random.below(3) {
        let value = number(random);
        match random.below(20) {
            0 => device.shared.mode = value,
            1 => device.shared.format = value,
            2 => device.shared.align = value,
            3 => device.receive.mask_active = value,
            4 => device.receive.code = value,
            5 => device.receive.mask = value,
            6 => device.receive.event_mask = value,
            7 => device.receive.ring.capacity = value,
            8 => device.receive.ring.first = value,
            9 => device.receive.ring.count = value,
            10 => device.receive.pending = value,
            11 => device.send.tx_mode = value,
            12 => device.send.ring.capacity = value,
            13 => device.send.ring.first = value,
            14 => device.send.ring.count = value,
            15 | 16 => device.shared.site = site(random),
            _ => device.send.register = Some(message(random)),
        }
    }
    device
}

fn bytes(random: &mut Xorshift, usual: usize) -> Vec<u8> {
    let length = match random.below(8) {
        0 => random.below(usual as u32 + 40) as usize,
        1 => usual - 1,
        2 => usual * 20,
        _ => usual,
    };
    let filling = random.pick(&[0, 1, 0xEE]);
    (0..length)
        .map(|_| {
            if random.one_in(2) {
                filling
            } else {
                random.below(4) as u8
            }
        })
        .collect()
}

/// One call of any kind: its number, and whether the values beside it are all zero.
fn any_call(random: &mut Xorshift, rig: &mut Rig, out: &mut [u8]) -> (u32, bool) {
    match random.below(3) {
        0 => any_call_with_queue(random, rig, out),
        1 => any_call_of_the_send_side(random, rig),
        _ => any_call_without_table(random, &mut rig.device, out),
    }
}

fn any_call_with_queue(random: &mut Xorshift, rig: &mut Rig, out: &mut [u8]) -> (u32, bool) {
    let (device, queue) = (&mut rig.device, &mut rig.queue);
    let (a, b) = (number(random), number(random));
    match random.below(7) {
        0 | 1 => alone(device.raise(a, b, &message(random), queue)),
        2 => counted(device.read_text(queue, out)),
        3 => filled(device.read_record(queue)),
        4 => (
            device.look_number(a, queue),
            device.look(a, queue).is_empty(),
        ),
        5 => alone(device.set_mode(a, b, queue)),
        _ => alone(device.set_format(a, b, queue)),
    }
}

fn any_call_of_the_send_side(random: &mut Xorshift, rig: &mut Rig) -> (u32, bool) {
    let Rig {
        device,
        queue,
        buffer,
    } = rig;
    let tick = number(random);
    match random.below(5) {
        0 => {
            let m = message(random);
            alone(device.send(m.format, m.id, m.rtr, m.dlc, m.data, buffer))
        }
        1 => {
            // Refused for its identifier at some Aligns, and then used all the same.
            let (number, used) = device.send_text(b"1 0 1 5\n", buffer);
            (number, used == if number == 8 { 8 } else { 0 })
        }
        2 => filled(device.take(tick, buffer, queue)),
        3 => alone(device.done(tick, queue)),
        _ => {
            let (number, purged) = device.abort(tick, queue);
            (number, purged == 0)
        }
    }
}

fn any_call_without_table(
    random: &mut Xorshift,
    device: &mut Device,
    out: &mut [u8],
) -> (u32, bool) {
    let (a, b) = (number(random), number(random));
    match random.below(7) {
        0 => alone(device.set_filter(a, b)),
        1 => alone(device.set_event_mask(a)),
        2 => counted(device.print_message_record(&bytes(random, 16), out)),
        3 => counted(device.print_event_record(&bytes(random, 40), out)),
        4 => {
            let given = site(random);
            alone(device.set_site(given.offset, given.second))
        }
        5 => counted(device.print_message(&message(random), out)),
        _ => {
            let (number, through) = device.identifiers_through(a);
            (number, through == 0)
        }
    }
}

fn alone(number: u32) -> (u32, bool) {
    (number, true)
}

fn counted((number, length): (u32, usize)) -> (u32, bool) {
    (number, length == 0)
}

fn filled<const N: usize>((number, bytes): (u32, [u8; N])) -> (u32, bool) {
    (number, bytes == [0; N])
}

#[test]
fn every_call_answers_at_any_values_and_a_refusal_changes_nothing() {
    let mut random = Xorshift(0x5EED_0003_5EED_0003);
    let mut refusals = [0; 15];
    for _ in 0..60_000 {
        let mut rig = Rig {
            device: device(&mut random),
            queue: bytes(&mut random, 4 * 40),
            buffer: bytes(&mut random, 3 * 16),
        };
        let before = rig.clone();
        let mut out = vec![b'?'; random.pick(&[0, 36, 37, 102, 103, 200])];
        let (number, zero_values) = any_call(&mut random, &mut rig, &mut out);
        if (1..=14).contains(&number) {
            assert_eq!(rig, before);
            assert!(out.iter().all(|byte| *byte == b'?'));
            assert!(zero_values);
            refusals[number as usize] += 1;
        } else {
            assert!(number == 0 || (100..=103).contains(&number));
        }
    }
    for seen in [1, 2, 3, 4, 5, 8, 9, 10, 13, 14] {
        assert!(refusals[seen] > 0, "{seen}");
    }
}

/// The largest device there is, with both rings full at the table's end.
#[test]
fn largest_capacities_work_to_the_last_slot() {
    let mut rig = Rig::open(Settings {
        queue_capacity: 1_638,
        send_capacity: 1_024,
        ..OPEN_TO_ALL
    });
    rig.device.receive.ring = Ring {
        first: 1_637,
        ..rig.device.receive.ring
    };
    rig.device.send.ring = Ring {
        first: 1_023,
        ..rig.device.send.ring
    };
    for tick in 0..1_638 {
        assert_eq!(rig.raise(1, tick, &FRAME), 100);
    }
    assert_eq!(rig.raise(1, 0, &FRAME), 103);
    for _ in 0..1_024 {
        assert_eq!(rig.send_text(b"1 0 0\n").0, 0);
    }
    assert_eq!(rig.send_text(b"1 0 0\n"), (5, 0));
    assert_eq!(rig.device.look_number(1_637, &rig.queue), 0);
    assert_eq!(rig.device.look_number(1_638, &rig.queue), 4);
    assert_eq!(rig.queued().len(), 1_638);
    assert_eq!(rig.abort(0), (0, 1_024));
}
