//! The acceptance filter at every Align and MaskActive, and the identifiers it lets through.

use crate::rig::{Rig, FRAME, OPEN_TO_ALL};
use crate::xorshift::Xorshift;
use independent::{Message, Settings};

/// All events masked, so that a raise of code 1 tells filtered (101) from passed (102).
fn passes(settings: &Settings, frame: &Message) -> bool {
    let mut rig = Rig::open(Settings {
        event_mask: 0,
        queue_capacity: 1,
        send_capacity: 1,
        ..*settings
    });
    match rig.raise(1, 0, frame) {
        101 => false,
        102 => true,
        other => panic!("{other}"),
    }
}

fn filter(align: u32, mask_active: u32, code: u32, mask: u32) -> Settings {
    Settings {
        align,
        mask_active,
        code,
        mask,
        ..OPEN_TO_ALL
    }
}

fn standard(id: u32, data: &[u8]) -> Message {
    let mut frame = Message {
        id,
        format: 1,
        dlc: data.len() as u32,
        ..Message::default()
    };
    frame.data[..data.len()].copy_from_slice(data);
    frame
}

fn extended(id: u32) -> Message {
    Message {
        id,
        format: 2,
        dlc: 2,
        data: [0xFF; 8],
        ..FRAME
    }
}

/// Where 01's table puts the lowest identifier bit of the filter.
const STANDARD_FILTER: [u32; 4] = [21, 0, 18, 21];
const EXTENDED_FILTER: [u32; 4] = [3, 0, 0, 3];

/// 002, 8.11 example 1: identifiers 120 to 127, here at every Align and both MaskActive.
#[test]
fn standard_identifiers_120_to_127() {
    for align in 0..4 {
        let low = STANDARD_FILTER[align as usize];
        let free = if align == 1 { 7 } else { 7 << low | 0xFFFF };
        for (mask_active, mask) in [(0, free), (1, !free)] {
            let settings = filter(align, mask_active, 0x120 << low, mask);
            for id in 0..0x800 {
                let expected = (0x120..=0x127).contains(&id);
                assert_eq!(passes(&settings, &standard(id, &[1, 2])), expected);
            }
            let rig = Rig::open(settings);
            assert_eq!(rig.device.identifiers_through(1), (0, 8));
        }
    }
}

/// 002, 8.11 example 2: identifiers 0n2345xx with n from 0 to 3.
#[test]
fn extended_identifiers_with_ten_free_bits() {
    for align in 0..4 {
        let low = EXTENDED_FILTER[align as usize];
        for (mask_active, mask) in [(0, 0x0300_00FF << low), (1, !(0x0300_00FF << low))] {
            let settings = filter(align, mask_active, 0x0023_4500 << low, mask);
            for id in [0x0023_4500, 0x0123_4512, 0x0223_45FF, 0x0323_45AA] {
                assert!(passes(&settings, &extended(id)));
            }
            for id in [0x0423_4500, 0x0023_4600, 0x1023_4500, 0] {
                assert!(!passes(&settings, &extended(id)));
            }
            let rig = Rig::open(settings);
            assert_eq!(rig.device.identifiers_through(2), (0, 1_024));
        }
    }
}

/// Every single identifier bit is compared, and only it, at every Align and format.
#[test]
fn every_identifier_bit_has_its_filter_bit() {
    for align in 0..4 {
        for (format, low, width) in [
            (1, STANDARD_FILTER[align as usize], 11),
            (2, EXTENDED_FILTER[align as usize], 29),
        ] {
            for bit in 0..width {
                // MaskActive 1: a one must match, so this one bit must be 1.
                let settings = filter(align, 1, 1 << (low + bit), 1 << (low + bit));
                let all_ones = (1 << width) - 1;
                let with = |id| Message {
                    id,
                    format,
                    ..FRAME
                };
                assert!(passes(&settings, &with(1 << bit)));
                assert!(!passes(&settings, &with(all_ones ^ 1 << bit)));
                let rig = Rig::open(settings);
                assert_eq!(
                    rig.device.identifiers_through(format),
                    (0, 1 << (width - 1))
                );
            }
        }
    }
}

/// "The first data byte meets bits 15..8, the second 7..0. A byte the frame doesn't carry is
/// not compared."
#[test]
fn data_bytes_are_compared_where_carried() {
    for align in [0, 2, 3] {
        let settings = filter(align, 1, 0xA55A, 0xFFFF);
        assert!(passes(&settings, &standard(0, &[0xA5, 0x5A])));
        assert!(passes(
            &settings,
            &standard(0, &[0xA5, 0x5A, 1, 2, 3, 4, 5, 6])
        ));
        assert!(!passes(&settings, &standard(0, &[0xA5, 0x5B])));
        assert!(!passes(&settings, &standard(0, &[0x25, 0x5A])));
        assert!(passes(&settings, &standard(0, &[0xA5])));
        assert!(!passes(&settings, &standard(0, &[0xA4])));
        assert!(passes(&settings, &standard(0, &[])));
        let remote = Message {
            rtr: 1,
            ..standard(0, &[1, 2])
        };
        assert!(passes(&settings, &remote));
        let long = Message {
            dlc: 15,
            ..standard(0, &[0xA5, 0x5B])
        };
        assert!(!passes(&settings, &long));
    }
}

/// Align 1 and extended frames have no data bits; extended bits 15..0 are identifier bits.
#[test]
fn data_bytes_are_not_compared_at_align_1_or_in_extended_frames() {
    assert!(passes(&filter(1, 1, 0xA000, 0xF800), &standard(0, &[1, 2])));
    for align in 0..4 {
        let low = EXTENDED_FILTER[align as usize];
        let settings = filter(align, 0, 5 << low, 0);
        assert!(passes(&settings, &extended(5)));
    }
}

/// "Filter bits outside the named fields are not looked at."
#[test]
fn bits_outside_the_fields_are_not_looked_at() {
    let outside = [0x001F_0000, 0xFFFF_F800, 0xE003_0000, 0x001F_0000];
    for align in 0..4 {
        for (mask_active, mask) in [(0, 0), (1, 0xFFFF_FFFF)] {
            let settings = filter(align, mask_active, outside[align as usize], mask);
            assert!(passes(&settings, &standard(0, &[0, 0])));
            assert_eq!(Rig::open(settings).device.identifiers_through(1), (0, 1));
        }
    }
    for (align, outside) in [(0, 7), (1, 0xE000_0000), (2, 0xE000_0000), (3, 7)] {
        let settings = filter(align, 0, outside, 0);
        assert!(passes(&settings, &extended(0)));
        assert_eq!(Rig::open(settings).device.identifiers_through(2), (0, 1));
    }
}

/// Counted against all 2,048 standard identifiers.
#[test]
fn standard_identifiers_let_through_are_counted() {
    let mut random = Xorshift(0x1234_5678_9ABC_DEF1);
    for round in 0..24 {
        let settings = filter(round % 4, round / 4 % 2, random.next(), random.next());
        let count = (0..2_048)
            .filter(|id| passes(&settings, &standard(*id, &[])))
            .count();
        let rig = Rig::open(settings);
        assert_eq!(rig.device.identifiers_through(1), (0, count as u32));
    }
}

/// "in either mode": mode 0 filters extended frames, yet the number is the filter's own.
#[test]
fn number_of_identifiers_does_not_depend_on_the_mode() {
    for mode in 0..2 {
        let rig = Rig::open(Settings {
            mode,
            ..OPEN_TO_ALL
        });
        assert_eq!(rig.device.identifiers_through(1), (0, 1 << 11));
        assert_eq!(rig.device.identifiers_through(2), (0, 1 << 29));
    }
}

#[test]
fn number_of_identifiers_refuses_13() {
    let rig = Rig::open(OPEN_TO_ALL);
    for format in [0, 3, 0xFFFF_FFFF] {
        assert_eq!(rig.device.identifiers_through(format), (13, 0));
    }
}
