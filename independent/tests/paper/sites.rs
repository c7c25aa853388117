//! The site that events carry (02, M-106): its ranges, bytes and text, and which events carry it.

use crate::opening::SITES_OUT_OF_RANGE;
use crate::rig::{unchanged, written_line, Rig, FRAME, OPEN_TO_ALL};
use independent::{Settings, Site};

const MINUS_1: u32 = 4_294_967_295;
const MINUS_90: u32 = 4_294_967_206;
const MINUS_720: u32 = 4_294_966_576;
const LARGEST_SECOND: u64 = 281_474_976_710_655;

fn open_at(offset: u32, second: u64) -> Rig {
    let site = Site { offset, second };
    Rig::open(Settings {
        site,
        ..OPEN_TO_ALL
    })
}

/// Offset, second, bytes 32 to 39 of an event, and the two fields of its line.
const SHOWN: [(u32, u64, [u8; 8], &str); 9] = [
    (0, 0, [0; 8], "+00:00\t0"),
    (1, 1, [1, 0, 1, 0, 0, 0, 0, 0], "+00:01\t1"),
    (
        MINUS_1,
        255,
        [0xFF, 0xFF, 0xFF, 0, 0, 0, 0, 0],
        "-00:01\t255",
    ),
    (MINUS_90, 256, [0xA6, 0xFF, 0, 1, 0, 0, 0, 0], "-01:30\t256"),
    (59, 1 << 32, [59, 0, 0, 0, 0, 0, 1, 0], "+00:59\t4294967296"),
    (60, 0, [60, 0, 0, 0, 0, 0, 0, 0], "+01:00\t0"),
    (
        345,
        0x0605_0403_0201,
        [0x59, 1, 1, 2, 3, 4, 5, 6],
        "+05:45\t6618611909121",
    ),
    (
        840,
        LARGEST_SECOND,
        [0x48, 3, 255, 255, 255, 255, 255, 255],
        "+14:00\t281474976710655",
    ),
    (MINUS_720, 0, [0x30, 0xFD, 0, 0, 0, 0, 0, 0], "-12:00\t0"),
];

#[test]
fn site_stands_in_bytes_32_to_39_and_behind_the_time() {
    for (offset, second, bytes, fields) in SHOWN {
        let mut rig = open_at(offset, second);
        assert_eq!(rig.raise(9, 7, &FRAME), 100);
        assert_eq!(rig.queue[32..40], bytes);
        assert_eq!(rig.read_line(), format!("warning\t0:7\t{fields}\n"));
        assert_eq!(rig.raise(1, 8, &FRAME), 100);
        let line = format!("received\t0:8\t{fields}\t00000123\t0\t2\t11\t22\t0\n");
        assert_eq!(rig.read_line(), line);
    }
}

#[test]
fn every_site_in_range_is_opened_with_and_set() {
    for (offset, second, _, _) in SHOWN {
        let site = Site { offset, second };
        assert_eq!(open_at(offset, second).device.shared.site, site);
        let mut rig = Rig::open(OPEN_TO_ALL);
        assert_eq!(rig.device.set_site(offset, second), 0);
        assert_eq!(rig.device.shared.site, site);
    }
}

/// All 32 bits are judged, not the lowest 16 alone.
#[test]
fn offsets_from_minus_720_to_840_are_in_range() {
    let mut rig = Rig::open(OPEN_TO_ALL);
    for minutes in -70_000..=70_000_i32 {
        let number = rig.device.set_site(minutes as u32, 0);
        assert_eq!(number == 0, (-720..=840).contains(&minutes), "{minutes}");
    }
}

#[test]
fn site_out_of_range_is_1() {
    let mut rig = open_at(MINUS_90, 5);
    for Site { offset, second } in SITES_OUT_OF_RANGE {
        let number = unchanged(&mut rig, |rig| rig.device.set_site(offset, second));
        assert_eq!(number, 1);
    }
}

/// 2 comes first, and a good site does not mend a device whose site no device can have.
#[test]
fn set_site_refuses_2_before_1() {
    for site in SITES_OUT_OF_RANGE {
        let mut rig = Rig::open(OPEN_TO_ALL);
        rig.device.shared.site = site;
        for (offset, second) in [(0, 0), (841, 0), (0, LARGEST_SECOND + 1)] {
            let number = unchanged(&mut rig, |rig| rig.device.set_site(offset, second));
            assert_eq!(number, 2);
        }
    }
}

/// "for later events only and with no event raised": queue, pending and table stay.
#[test]
fn set_site_changes_no_queued_event_and_raises_nothing() {
    let mut rig = open_at(MINUS_90, 1_000);
    for tick in 0..6 {
        rig.raise(9, tick, &FRAME);
    }
    let before = rig.clone();
    assert_eq!(rig.device.set_site(840, 2_000), 0);
    let set = rig.device.shared.site;
    rig.device.shared.site = before.device.shared.site;
    assert_eq!(rig, before);
    rig.device.shared.site = set;
    assert_eq!(rig.read_line(), "warning\t0:0\t-01:30\t1000\n");
    assert_eq!(rig.raise(11, 6, &FRAME), 100);
    for tick in 1..4 {
        assert_eq!(
            rig.read_line(),
            format!("warning\t0:{tick}\t-01:30\t1000\n")
        );
    }
    assert_eq!(rig.read_line(), "bus error\t0:6\t+14:00\t2000\n");
}

/// The pair is the device's: whatever call raises an event, the event carries it.
#[test]
fn events_of_every_call_carry_the_site() {
    let mut rig = Rig::open(Settings {
        queue_capacity: 5,
        ..OPEN_TO_ALL
    });
    rig.send_text(b"A 0 0\n");
    rig.send_text(b"B 0 0\n");
    let mut second = 10;
    let mut next_second = |rig: &mut Rig| {
        second += 1;
        assert_eq!(rig.device.set_site(60, second), 0);
    };
    next_second(&mut rig);
    rig.take(1);
    rig.done(1);
    next_second(&mut rig);
    rig.take(2);
    rig.abort(2);
    next_second(&mut rig);
    rig.device.set_mode(1, 3, &mut rig.queue);
    next_second(&mut rig);
    rig.device.set_format(1, 4, &mut rig.queue);
    for line in [
        "transmitted\t0:1\t+01:00\t11\t0000000A\t0\t0\n",
        "aborted\t0:2\t+01:00\t12\t0000000B\t0\t0\n",
        "device changed\t0:3\t+01:00\t13\n",
        "device changed\t0:4\t+01:00\t14\n",
    ] {
        assert_eq!(rig.read_line(), line);
    }
}

/// A record of code 9 with these bytes 32 and 33, and any second.
fn record_with_offset(bytes: [u8; 2], second: [u8; 6]) -> [u8; 40] {
    let mut record = [0; 40];
    record[0] = 9;
    record[32..34].copy_from_slice(&bytes);
    record[34..].copy_from_slice(&second);
    record
}

/// No second can be out of range in six bytes, so every one of them is good.
#[test]
fn records_are_damaged_by_their_offset_alone() {
    let rig = Rig::open(OPEN_TO_ALL);
    let mut out = [b'?'; 103];
    for offset in i16::MIN..=i16::MAX {
        for second in [[0; 6], [0xFF; 6]] {
            let record = record_with_offset(offset.to_le_bytes(), second);
            let (number, _) = rig.device.print_event_record(&record, &mut out);
            let expected = if (-720..=840).contains(&offset) {
                0
            } else {
                14
            };
            assert_eq!(number, expected, "{offset}");
        }
    }
}

/// 841 and -721 in a slot: 14, and the slot stays in front until it is mended.
#[test]
fn slot_with_an_offset_out_of_range_is_14() {
    for bytes in [[0x49, 0x03], [0x2F, 0xFD], [0, 0x80], [0xFF, 0x7F]] {
        let mut rig = open_at(840, 0);
        rig.raise(9, 0, &FRAME);
        rig.queue[32..34].copy_from_slice(&bytes);
        let mut out = [b'?'; 103];
        let text = unchanged(&mut rig, |rig| rig.device.read_text(&rig.queue, &mut out));
        assert_eq!((text, out), ((14, 0), [b'?'; 103]));
        assert_eq!(unchanged(&mut rig, Rig::read_record), (14, [0; 40]));
        assert_eq!(rig.device.look_number(0, &rig.queue), 0);
        rig.queue[32..34].copy_from_slice(&[0x48, 0x03]);
        assert_eq!(rig.read_line(), "warning\t0:0\t+14:00\t0\n");
    }
}

/// A record is printed with its own site, not with the device's.
#[test]
fn printed_record_shows_its_own_site() {
    let rig = open_at(840, 99);
    let record = record_with_offset([0xA6, 0xFF], [1, 0, 0, 0, 0, 0]);
    let mut out = [b'?'; 103];
    let (number, length) = rig.device.print_event_record(&record, &mut out);
    assert_eq!(number, 0);
    assert_eq!(written_line(&out, length), "warning\t0:0\t-01:30\t1\n");
}
