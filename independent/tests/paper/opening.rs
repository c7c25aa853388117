//! Opening: refusals 1, then 2; every setting is given, and no table byte is written.

use crate::rig::{FAR_SITE, OPEN_TO_ALL};
use independent::{Device, Ring, Settings, Site};

/// Enough for the largest capacities.
static QUEUE: [u8; 1_638 * 40] = [0xEE; 1_638 * 40];
static BUFFER: [u8; 1_024 * 16] = [0xEE; 1_024 * 16];

fn open(settings: Settings) -> (u32, Device) {
    Device::open(&settings, &QUEUE, &BUFFER)
}

#[test]
fn fresh_device_has_the_settings_and_is_empty() {
    let (number, device) = open(Settings {
        mode: 1,
        format: 2,
        align: 3,
        mask_active: 1,
        code: 0xFFFF_FFFF,
        mask: 0x8000_0001,
        event_mask: 0xABC,
        queue_capacity: 1_638,
        tx_mode: 3,
        send_capacity: 1_024,
        site: FAR_SITE,
    });
    assert_eq!(number, 0);
    let (shared, receive, send) = (device.shared, device.receive, device.send);
    assert_eq!((shared.mode, shared.format, shared.align), (1, 2, 3));
    assert_eq!(shared.site, FAR_SITE);
    assert_eq!((receive.mask_active, receive.event_mask), (1, 0xABC));
    assert_eq!((receive.code, receive.mask), (0xFFFF_FFFF, 0x8000_0001));
    assert_eq!((receive.ring, receive.pending), (empty(1_638), 0));
    assert_eq!((send.tx_mode, send.ring), (3, empty(1_024)));
    assert_eq!(send.register, None);
}

fn empty(capacity: u32) -> Ring {
    Ring {
        capacity,
        first: 0,
        count: 0,
    }
}

type Setter = fn(&mut Settings, u32);

/// The largest value of every setting that has one, and how to set it.
const LIMITS: [(u32, Setter); 8] = [
    (1, |settings, value| settings.mode = value),
    (2, |settings, value| settings.format = value),
    (3, |settings, value| settings.align = value),
    (1, |settings, value| settings.mask_active = value),
    (0xFFF, |settings, value| settings.event_mask = value),
    (1_638, |settings, value| settings.queue_capacity = value),
    (7, |settings, value| settings.tx_mode = value),
    (1_024, |settings, value| settings.send_capacity = value),
];

/// Offset (841, minus 721) and second just outside their ranges, far outside, and both at once.
pub const SITES_OUT_OF_RANGE: [Site; 8] = [
    site(841, 0),
    site(4_294_966_575, 0),
    site(0x8000_0000, 0),
    site(0x7FFF_FFFF, 0),
    site(65_535, 0),
    site(0, 281_474_976_710_656),
    site(840, u64::MAX),
    site(841, 281_474_976_710_656),
];

const fn site(offset: u32, second: u64) -> Site {
    Site { offset, second }
}

/// Every setting just above its range, far above it, and the gaps below.
pub fn settings_out_of_range() -> Vec<Settings> {
    let with = |set: Setter, value| {
        let mut settings = OPEN_TO_ALL;
        set(&mut settings, value);
        settings
    };
    let mut all = Vec::new();
    for (limit, set) in LIMITS {
        for value in [limit + 1, 0x8000_0000, 0xFFFF_FFFF] {
            all.push(with(set, value));
        }
    }
    for tx_mode in [0, 2, 4, 6] {
        all.push(with(|settings, value| settings.tx_mode = value, tx_mode));
    }
    all.push(with(|settings, value| settings.queue_capacity = value, 0));
    all.push(with(|settings, value| settings.send_capacity = value, 0));
    let mode_0_with_format_2 = |settings: &mut Settings, mode| {
        settings.mode = mode;
        settings.format = 2;
    };
    all.push(with(mode_0_with_format_2, 0));
    all.extend(SITES_OUT_OF_RANGE.map(|site| Settings {
        site,
        ..OPEN_TO_ALL
    }));
    all
}

#[test]
fn setting_out_of_range_is_1() {
    for settings in settings_out_of_range() {
        assert_eq!(open(settings), (1, Device::default()), "{settings:?}");
        // 1 comes before 2.
        let short = Device::open(&settings, &[], &[]);
        assert_eq!(short, (1, Device::default()));
    }
}

#[test]
fn every_value_in_range_opens() {
    let formats = [(0, 0), (0, 1), (1, 0), (1, 1), (1, 2)];
    for (mode, format) in formats {
        for tx_mode in [1, 3, 5, 7] {
            for align in 0..=3 {
                for mask_active in 0..=1 {
                    let settings = Settings {
                        mode,
                        format,
                        align,
                        mask_active,
                        tx_mode,
                        ..OPEN_TO_ALL
                    };
                    assert_eq!(open(settings).0, 0);
                }
            }
        }
    }
}

#[test]
fn short_table_is_2() {
    let queue = [0; 4 * 40];
    let buffer = [0; 3 * 16];
    let opened = |queue: &[u8], buffer: &[u8]| Device::open(&OPEN_TO_ALL, queue, buffer);
    assert_eq!(opened(&queue, &buffer).0, 0);
    assert_eq!(opened(&queue[1..], &buffer), (2, Device::default()));
    assert_eq!(opened(&queue, &buffer[1..]), (2, Device::default()));
}
