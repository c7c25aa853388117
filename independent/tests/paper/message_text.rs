//! The message text as it is read: scanning, order of refusals, bytes used.

use crate::rig::{unchanged, Rig, MODE_0, OPEN_TO_ALL};
use independent::Settings;

fn sent(settings: Settings, text: &[u8]) -> ([u8; 16], usize) {
    let mut rig = Rig::open(settings);
    let (number, used) = rig.send_text(text);
    assert_eq!(number, 0, "{:?}", String::from_utf8_lossy(text));
    let (number, bytes) = rig.take(0);
    assert_eq!(number, 0);
    (bytes, used)
}

fn refused(settings: Settings, text: &[u8]) -> (u32, usize) {
    unchanged(&mut Rig::open(settings), |rig| rig.send_text(text))
}

/// "separated by one or more bytes that are neither hexadecimal digits nor ends; separators may
/// also stand first and last", "either letter case"
#[test]
fn any_other_bytes_separate() {
    let expected = [0xAB, 1, 0, 0, 1, 0, 2, 0, 0xCD, 0xEF, 0, 0, 0, 0, 0, 0];
    for text in [
        b"1AB 0 2 CD EF\n".as_slice(),
        b"1ab,0,2,cd,ef\n",
        b" \t,1aB;;0--2g cDxEf \xFF\x80 \n",
        b"\x011AB\x7F0/2:CD@EFG`gz\r",
        b"1AB 0 2 CD EF\0",
    ] {
        assert_eq!(sent(MODE_0, text), (expected, text.len()));
    }
}

/// "CR, LF and zero are ends", "The run of ends is used too; later bytes are not looked at."
#[test]
fn run_of_ends_is_used_and_later_bytes_are_not() {
    assert_eq!(sent(MODE_0, b"1 0 0\r\n\0\n\r2 0 0").1, 10);
    assert_eq!(sent(MODE_0, b"1 0 0\n \n").1, 6);
    assert_eq!(refused(MODE_0, b"\0\0\r\n\n1 0 0\n"), (7, 5));
}

#[test]
fn text_without_an_end_is_6_with_0_used() {
    for text in [
        b"".as_slice(),
        b" ",
        b"1 0 0",
        b"FFFFFFFFFFFFFFFFFFFFFFF 9 9",
    ] {
        assert_eq!(refused(MODE_0, text), (6, 0));
    }
}

#[test]
fn under_three_values_is_7_before_all_else() {
    for text in [b"\r".as_slice(), b" , ;\n", b"FFFFFFFF\n", b"FFFFFFFF 9 \n"] {
        assert_eq!(refused(MODE_0, text), (7, text.len()));
    }
}

/// "any number of digits": leading zeros don't matter, too large stays too large.
#[test]
fn numbers_have_any_number_of_digits() {
    let zeros = "0".repeat(300);
    let text = format!("{zeros}7FF {zeros}0 {zeros}1 {zeros}AA\n");
    let expected = [0xFF, 7, 0, 0, 1, 0, 1, 0, 0xAA, 0, 0, 0, 0, 0, 0, 0];
    assert_eq!(sent(MODE_0, text.as_bytes()), (expected, text.len()));
    // Each of these has zeros in the lowest 8, 32 or 64 bits.
    for large in ["100000000", "10000000000000000", &format!("1{zeros}")] {
        for (text, number) in [
            (format!("{large} 0 0\n"), 8),
            (format!("0 {large} 0\n"), 9),
            (format!("0 0 {large}\n"), 10),
            (format!("0 0 1 {large}\n"), 12),
        ] {
            assert_eq!(refused(MODE_0, text.as_bytes()), (number, text.len()));
        }
    }
}

/// 8, 9, 10, 7 (too few data), 11, 12: each text is bad from its refusal on.
#[test]
fn refusals_come_in_the_papers_order() {
    for (text, number) in [
        (b"800 2 10 100 1 1 1 1 1 1 1 1\n".as_slice(), 8),
        (b"7FF 2 10 100 1 1 1 1 1 1 1 1\n", 9),
        (b"7FF 1 10 100 1 1 1 1 1 1 1 1\n", 10),
        (b"7FF 0 F 100 1 1 1 1 1 1\n", 7),
        (b"7FF 0 F 100 1 1 1 1 1 1 1 1\n", 11),
        (b"7FF 1 F 100 1 1 1 1 1 1 1 1\n", 11),
        (b"7FF 0 F 100 1 1 1 1 1 1 1\n", 12),
        (b"7FF 1 F 1 1 1 1 1 1 1 100\n", 12),
    ] {
        assert_eq!(refused(MODE_0, text), (number, text.len()));
    }
}

/// "Data values past those carried are checked and dropped."
#[test]
fn data_past_those_carried_is_checked_and_dropped() {
    let expected = [1, 0, 0, 0, 1, 0, 1, 0, 5, 0, 0, 0, 0, 0, 0, 0];
    assert_eq!(sent(MODE_0, b"1 0 1 5 6 7 8 9 A B C\n").0, expected);
    let expected = [1, 0, 0, 0, 1, 1, 8, 0, 0, 0, 0, 0, 0, 0, 0, 0];
    assert_eq!(sent(MODE_0, b"1 1 8 5 6\n").0, expected);
    assert_eq!(refused(MODE_0, b"1 0 1 5 100\n"), (12, 12));
}

/// "7 (too few data)" compares with the bytes carried: eight at most, none if remote.
#[test]
fn too_few_data_is_judged_by_the_bytes_carried() {
    assert_eq!(refused(MODE_0, b"1 0 8 1 2 3 4 5 6 7\n").0, 7);
    assert_eq!(refused(MODE_0, b"1 0 9 1 2 3 4 5 6 7\n").0, 7);
    assert_eq!(sent(MODE_0, b"1 0 9 1 2 3 4 5 6 7 8\n").0[6], 9);
    assert_eq!(sent(MODE_0, b"1 1 F\n").0[6], 15);
}

/// "The format is the channel's default": mode and format decide.
#[test]
fn format_is_the_channels_default() {
    for (mode, format, expected) in [(0, 0, 1), (0, 1, 1), (1, 0, 2), (1, 1, 1), (1, 2, 2)] {
        let settings = Settings {
            mode,
            format,
            ..OPEN_TO_ALL
        };
        assert_eq!(sent(settings, b"7FF 0 0\n").0[4], expected);
        if expected == 1 {
            assert_eq!(refused(settings, b"800 0 0\n"), (8, 8));
        } else {
            assert_eq!(
                sent(settings, b"1FFFFFFF 0 0\n").0[..4],
                [0xFF, 0xFF, 0xFF, 0x1F]
            );
            assert_eq!(refused(settings, b"20000000 0 0\n"), (8, 13));
        }
    }
}

/// "An aligned identifier with a bit outside its field is bad"
#[test]
fn identifiers_are_aligned() {
    for (align, format, good, raw, bad) in [
        (0, 1, "7FF", 0x7FF, "800"),
        (1, 1, "7FF", 0x7FF, "800"),
        (2, 1, "1CC40000", 0x731, "1CC60000"),
        (2, 1, "1FFC0000", 0x7FF, "20000000"),
        (3, 1, "E6200000", 0x731, "E6300000"),
        (0, 2, "1FFFFFFF", 0x1FFF_FFFF, "20000000"),
        (1, 2, "1FFFFFFF", 0x1FFF_FFFF, "20000000"),
        (2, 2, "1FFFFFFF", 0x1FFF_FFFF, "20000000"),
        (3, 2, "FFFFFFF8", 0x1FFF_FFFF, "FFFFFFFC"),
        (3, 2, "8", 1, "4"),
    ] {
        let settings = Settings {
            align,
            format,
            ..OPEN_TO_ALL
        };
        let (bytes, _) = sent(settings, format!("{good} 0 0\n").as_bytes());
        assert_eq!(bytes[..4], u32::to_le_bytes(raw));
        assert_eq!(refused(settings, format!("{bad} 0 0\n").as_bytes()).0, 8);
        assert_eq!(refused(settings, b"FFFFFFFF 0 0\n").0, 8);
    }
}

/// 5 comes last and uses nothing; other refusals come before it and use their bytes.
#[test]
fn full_buffer_is_5_with_0_used() {
    let mut rig = Rig::open(Settings {
        send_capacity: 1,
        ..MODE_0
    });
    assert_eq!(rig.send_text(b"1 0 0\n"), (0, 6));
    assert_eq!(unchanged(&mut rig, |rig| rig.send_text(b"2 0 0\n")), (5, 0));
    assert_eq!(unchanged(&mut rig, |rig| rig.send_text(b"2 0 0")), (6, 0));
    assert_eq!(unchanged(&mut rig, |rig| rig.send_text(b"2 0\n")), (7, 4));
    assert_eq!(
        unchanged(&mut rig, |rig| rig.send_text(b"2 0 0 100\n")),
        (12, 10)
    );
}
