//! Both texts as they are printed: words, digits, longest lines, refusals, reading back.

use crate::rig::{bad_frames, unchanged, written_line, Rig, FRAME, MODE_0, OPEN_TO_ALL};
use crate::xorshift::Xorshift;
use independent::{Message, Settings};

const LARGEST: u32 = 0xFFFF_FFFF;

fn printed(rig: &Rig, message: &Message) -> String {
    let mut out = [b'?'; 40];
    let (number, length) = rig.device.print_message(message, &mut out);
    assert_eq!(number, 0);
    written_line(&out, length)
}

fn printed_event(rig: &Rig, record: &[u8]) -> String {
    let mut out = [b'?'; 103];
    let (number, length) = rig.device.print_event_record(record, &mut out);
    assert_eq!(number, 0);
    written_line(&out, length)
}

/// Code 1 with the largest numbers: the offset is 840, and the second has 48 ones.
fn largest_event_record(frame: &[u8; 16]) -> Vec<u8> {
    let mut record = Vec::new();
    for number in [1, LARGEST, LARGEST, LARGEST] {
        record.extend(number.to_le_bytes());
    }
    record.extend(frame);
    record.extend([0x48, 0x03, 0xFF, 0xFF, 0xFF, 0xFF, 0xFF, 0xFF]);
    record
}

#[test]
fn event_lines_of_all_words() {
    let words = [
        "arbitration lost",
        "device changed",
        "entering standby",
        "leaving standby",
        "overrun",
        "warning",
        "passive",
        "bus error",
        "unknown event 12",
    ];
    for (code, word) in (4..).zip(words) {
        let mut rig = Rig::open(OPEN_TO_ALL);
        assert_eq!(rig.raise(code, 13_210, &FRAME), 100);
        assert_eq!(rig.read_line(), format!("{word}\t0:13210\t+00:00\t0\n"));
    }
    for (code, word) in [(2, "transmitted"), (3, "aborted")] {
        let mut rig = Rig::open(OPEN_TO_ALL);
        rig.device.receive.pending = 5;
        assert_eq!(rig.raise(code, 12_345, &FRAME), 100);
        let expected = format!("{word}\t0:12345\t+00:00\t0\t00000123\t0\t2\t11\t22\n");
        assert_eq!(rig.read_line(), expected);
    }
    let mut rig = Rig::open(OPEN_TO_ALL);
    assert_eq!(rig.raise(1, 0, &FRAME), 100);
    assert_eq!(
        rig.read_line(),
        "received\t0:0\t+00:00\t0\t00000123\t0\t2\t11\t22\t0\n"
    );
}

#[test]
fn unknown_events_show_their_code_in_decimal() {
    let mut rig = Rig::open(OPEN_TO_ALL);
    for (code, line) in [
        (0, "unknown event 0\t0:1\t+00:00\t0\n"),
        (256, "unknown event 256\t0:1\t+00:00\t0\n"),
        (LARGEST, "unknown event 4294967295\t0:1\t+00:00\t0\n"),
    ] {
        assert_eq!(rig.raise(code, 1, &FRAME), 100);
        assert_eq!(rig.read_line(), line);
    }
}

/// "dlc is .. hexadecimal in messages, decimal in events"
#[test]
fn dlc_is_hexadecimal_in_messages_and_decimal_in_events() {
    let mut rig = Rig::open(OPEN_TO_ALL);
    let frame = Message {
        rtr: 1,
        dlc: 13,
        data: [0; 8],
        ..FRAME
    };
    assert_eq!(printed(&rig, &frame), "00000123 1 D\n");
    rig.raise(2, 0, &frame);
    assert_eq!(
        rig.read_line(),
        "transmitted\t0:0\t+00:00\t0\t00000123\t1\t13\n"
    );
}

/// Identifiers are shown aligned, by the frame's own format and the channel's Align.
#[test]
fn identifiers_are_shown_aligned() {
    for (align, standard, extended) in [
        (0, "00000731", "1ABCDEF7"),
        (1, "00000731", "1ABCDEF7"),
        (2, "1CC40000", "1ABCDEF7"),
        (3, "E6200000", "D5E6F7B8"),
    ] {
        for mode in 0..2 {
            let mut rig = Rig::open(Settings {
                align,
                mode,
                ..OPEN_TO_ALL
            });
            for (format, id, shown) in [(1, 0x731, standard), (2, 0x1ABC_DEF7, extended)] {
                let frame = Message {
                    id,
                    format,
                    dlc: 0,
                    ..FRAME
                };
                assert_eq!(printed(&rig, &frame), format!("{shown} 0 0\n"));
                rig.raise(3, 0, &frame);
                assert_eq!(
                    rig.read_line(),
                    format!("aborted\t0:0\t+00:00\t0\t{shown}\t0\t0\n")
                );
            }
        }
    }
}

#[test]
fn longest_lines_have_37_and_103_bytes() {
    let rig = Rig::open(OPEN_TO_ALL);
    let mut record = [0xAB; 16];
    record[..8].copy_from_slice(&[0xFF, 0xFF, 0xFF, 0x1F, 2, 0, 15, 0]);
    let mut out = [b'?'; 37];
    let (number, length) = rig.device.print_message_record(&record, &mut out);
    assert_eq!((number, length), (0, 37));
    let line = written_line(&out, length);
    assert_eq!(line, "1FFFFFFF 0 F AB AB AB AB AB AB AB AB\n");
    let line = printed_event(&rig, &largest_event_record(&record));
    let expected = "received\t4294967295:4294967295\t+14:00\t281474976710655\t1FFFFFFF\t0\t15\
                    \tAB\tAB\tAB\tAB\tAB\tAB\tAB\tAB\t4294967295\n";
    assert_eq!((line.as_str(), line.len()), (expected, 103));
}

/// The bench sheet's last case, with the two fields of M-106.
#[test]
fn bench_sheet_line() {
    let mut rig = Rig::open(MODE_0);
    rig.device.receive.pending = 5;
    let frame = Message {
        id: 0x112,
        format: 1,
        rtr: 1,
        ..Message::default()
    };
    assert_eq!(rig.raise(1, 12_568, &frame), 100);
    let mut out = [b'?'; 103];
    let short = unchanged(&mut rig, |rig| {
        rig.device.read_text(&rig.queue, &mut out[..102])
    });
    assert_eq!(short, (3, 0));
    let (number, length) = rig.device.read_text(&rig.queue, &mut out);
    assert_eq!(number, 0);
    let line = "received\t0:12568\t+00:00\t0\t00000112\t1\t0\t5\n";
    assert_eq!(written_line(&out, length), line);
}

#[test]
fn printing_refuses_3_first() {
    let rig = Rig::open(OPEN_TO_ALL);
    let mut out = [b'?'; 102];
    let bad = Message::default();
    assert_eq!(rig.device.print_message(&bad, &mut out[..36]), (3, 0));
    assert_eq!(rig.device.print_message_record(&[], &mut out[..36]), (3, 0));
    assert_eq!(rig.device.print_event_record(&[], &mut out), (3, 0));
    assert_eq!(out, [b'?'; 102]);
}

/// "A message given alone (raw identifier, either mode): 3, 13, 8, 9, 10"
#[test]
fn message_given_alone_is_judged_in_order() {
    for settings in [MODE_0, OPEN_TO_ALL] {
        let mut rig = Rig::open(settings);
        for (number, message) in bad_frames() {
            let mut out = [b'?'; 37];
            let answer = unchanged(&mut rig, |rig| rig.device.print_message(&message, &mut out));
            assert_eq!(answer, (number, 0));
            assert_eq!(out, [b'?'; 37]);
        }
    }
}

/// "bytes it doesn't carry count as zero": they are neither judged nor shown.
#[test]
fn bytes_not_carried_do_not_matter_to_a_message_given_alone() {
    let rig = Rig::open(OPEN_TO_ALL);
    let message = Message {
        dlc: 1,
        data: [0xFF; 8],
        ..FRAME
    };
    assert_eq!(printed(&rig, &message), "00000123 0 1 FF\n");
    let remote = Message { rtr: 1, ..message };
    assert_eq!(printed(&rig, &remote), "00000123 1 1\n");
}

/// Printed by a channel and sent as text to it, a message of its format comes back.
#[test]
fn printed_messages_read_back() {
    let mut random = Xorshift(0x0BAD_CAFE_1234_5678);
    for round in 0..800 {
        let format = 1 + round % 2;
        let mut rig = Rig::open(Settings {
            format,
            align: round / 2 % 4,
            tx_mode: 1,
            ..OPEN_TO_ALL
        });
        let message = Message {
            id: random.next() & if format == 1 { 0x7FF } else { 0x1FFF_FFFF },
            format,
            rtr: random.below(2),
            dlc: random.below(16),
            data: random.bytes(),
        };
        let line = printed(&rig, &message);
        assert_eq!(rig.send_text(line.as_bytes()), (0, line.len()));
        let (_, record) = rig.take(0);
        let held = rig.device.send.register.unwrap();
        assert_eq!((held.id, held.format), (message.id, message.format));
        assert_eq!((held.rtr, held.dlc), (message.rtr, message.dlc));
        assert_eq!(printed(&rig, &held), line);
        let mut out = [b'?'; 37];
        let (number, length) = rig.device.print_message_record(&record, &mut out);
        assert_eq!(number, 0);
        assert_eq!(written_line(&out, length), line);
    }
}
