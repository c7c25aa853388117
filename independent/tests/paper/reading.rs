//! Reading and looking: refusals 3, 4, 14 and what a slot part is.

use crate::rig::{number_at, unchanged, Rig, FRAME, OPEN_TO_ALL};

#[test]
fn text_read_refuses_3_before_4() {
    let mut rig = Rig::open(OPEN_TO_ALL);
    let mut out = [b'?'; 103];
    let short = unchanged(&mut rig, |rig| {
        rig.device.read_text(&rig.queue, &mut out[..102])
    });
    assert_eq!(short, (3, 0));
    let empty = unchanged(&mut rig, |rig| rig.device.read_text(&rig.queue, &mut out));
    assert_eq!(empty, (4, 0));
    assert_eq!(out, [b'?'; 103]);
}

#[test]
fn record_read_of_an_empty_queue_is_4() {
    let mut rig = Rig::open(OPEN_TO_ALL);
    assert_eq!(unchanged(&mut rig, Rig::read_record), (4, [0; 40]));
}

/// A damaged slot is 14 and stays in front.
#[test]
fn damaged_slot_is_14() {
    let mut rig = Rig::open(OPEN_TO_ALL);
    rig.raise(1, 0, &FRAME);
    rig.raise(9, 0, &FRAME);
    rig.queue[23] = 1;
    let mut out = [b'?'; 103];
    for _ in 0..2 {
        let text = unchanged(&mut rig, |rig| rig.device.read_text(&rig.queue, &mut out));
        assert_eq!(text, (14, 0));
        assert_eq!(unchanged(&mut rig, Rig::read_record), (14, [0; 40]));
    }
    assert_eq!(out, [b'?'; 103]);
    // Room is asked for before the slot is judged.
    let short = unchanged(&mut rig, |rig| rig.device.read_text(&rig.queue, &mut []));
    assert_eq!(short, (3, 0));
    rig.queue[23] = 0;
    assert_eq!(rig.read_record().0, 0);
}

#[test]
fn reads_take_the_oldest_and_change_no_table_byte() {
    let mut rig = Rig::open(OPEN_TO_ALL);
    for tick in 0..4 {
        rig.raise(9, tick, &FRAME);
    }
    let queue = rig.queue.clone();
    assert_eq!(rig.read_line(), "warning\t0:0\t+00:00\t0\n");
    assert_eq!(number_at(&rig.read_record().1, 4), 1);
    assert_eq!(rig.read_line(), "warning\t0:2\t+00:00\t0\n");
    assert_eq!(rig.queued(), [(9, 3)]);
    assert_eq!(rig.queue, queue);
}

/// First moves on by one slot, also when the read empties the queue.
#[test]
fn first_moves_on_when_the_queue_empties() {
    let mut rig = Rig::open(OPEN_TO_ALL);
    for tick in 0..9 {
        assert_eq!(rig.device.receive.ring.first, tick % 4);
        rig.raise(9, tick, &FRAME);
        assert_eq!(rig.read_record().0, 0);
    }
}

/// "hands back that slot's .. bytes as a part of the lent table, without copying or judging them":
/// 40 of them.
#[test]
fn look_hands_back_a_part_of_the_lent_table() {
    let mut rig = Rig::open(OPEN_TO_ALL);
    for tick in 0..3 {
        rig.raise(9, tick, &FRAME);
    }
    rig.read_record();
    rig.read_record();
    rig.raise(9, 3, &FRAME);
    rig.raise(9, 4, &FRAME);
    rig.queue[3 * 40 + 20] = 0xEE;
    for (p, slot) in [(0, 2), (1, 3), (2, 0)] {
        let part = rig.device.look(p, &rig.queue);
        assert_eq!(part.as_ptr(), rig.queue[slot * 40..].as_ptr());
        assert_eq!(part.len(), 40);
        assert_eq!(rig.device.look_number(p, &rig.queue), 0);
    }
}

#[test]
fn look_past_the_newest_is_4_and_empty() {
    let mut rig = Rig::open(OPEN_TO_ALL);
    for p in [0, 1, 0xFFFF_FFFF] {
        assert_eq!(rig.device.look_number(p, &rig.queue), 4);
        assert!(rig.device.look(p, &rig.queue).is_empty());
    }
    rig.raise(9, 0, &FRAME);
    assert_eq!(rig.device.look_number(0, &rig.queue), 0);
    assert_eq!(rig.device.look_number(1, &rig.queue), 4);
}
