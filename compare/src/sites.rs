//! Random sites, good and bad, and the bytes that an event has for one.

use crate::draw::Draw;
use independent::Site;
use std::ops::RangeInclusive;

/// Where an event record has its offset, and behind it its second.
pub const OFFSET_AT: usize = 32;
const SECOND_AT: usize = 34;

/// The paper's ranges, said here once more: minutes, and the seconds that six bytes hold.
const MINUTES: RangeInclusive<i16> = -720..=840;
const LARGEST_SECOND: u64 = 281_474_976_710_655;

/// In range, often at an end or where a digit, the sign or a half of the second changes.
pub fn site(draw: &mut Draw) -> Site {
    let minutes = match draw.below(3) {
        0 => draw.pick(&[-720, -719, -600, -90, -60, -59, -1, 0, 1, 59, 60, 599, 600, 839, 840]),
        _ => draw.word_below(1_561) as i32 - 720,
    };
    let second = match draw.below(3) {
        0 => draw.pick(&[0, 1, (1 << 32) - 1, 1 << 32, LARGEST_SECOND - 1, LARGEST_SECOND]),
        _ => draw.next() >> (16 + draw.below(48)),
    };
    Site { offset: minutes as u32, second }
}

/// One half out of its range, or both.
pub fn bad_site(draw: &mut Draw) -> Site {
    let Site { offset, second } = site(draw);
    let (bad_offset, bad_second) = (bad_offset(draw), bad_second(draw));
    match draw.below(5) {
        0 | 1 => Site { offset: bad_offset, second },
        2 | 3 => Site { offset, second: bad_second },
        _ => Site { offset: bad_offset, second: bad_second },
    }
}

/// Just past both ends, numbers that are good in their lowest 16 or 31 bits, and any in between.
fn bad_offset(draw: &mut Draw) -> u32 {
    let (past_largest, below_smallest) = (841, 721_u32.wrapping_neg());
    match draw.below(4) {
        0 => draw.pick(&[past_largest, below_smallest]),
        1 => draw.pick(&[65_535, 65_446, 64_816, 1 << 16, (1 << 16) + 840, 1 << 31, (1 << 31) - 1, (1 << 31) + 840]),
        2 => past_largest + draw.word_below(40_000),
        _ => past_largest + draw.word_below(below_smallest - past_largest + 1),
    }
}

fn bad_second(draw: &mut Draw) -> u64 {
    let past_largest = LARGEST_SECOND + 1;
    match draw.below(3) {
        0 => draw.pick(&[past_largest, past_largest + 1, 1 << 63, u64::MAX]),
        1 => past_largest << draw.below(16),
        _ => past_largest | draw.next(),
    }
}

/// Writes a site in range into an event record.
pub fn write_site(record: &mut [u8], site: Site) {
    record[OFFSET_AT..SECOND_AT].copy_from_slice(&site.offset.to_le_bytes()[..2]);
    record[SECOND_AT..].copy_from_slice(&site.second.to_le_bytes()[..6]);
}

/// An offset that two bytes can hold and no site has; no six bytes are a second out of range.
pub fn damage_offset(draw: &mut Draw, record: &mut [u8]) {
    let minutes = match draw.below(3) {
        0 => draw.pick(&[841, -721, 0x4803, i16::MIN, i16::MAX]),
        1 => 841 + draw.below(31_927) as i16,
        _ => -721 - draw.below(32_048) as i16,
    };
    record[OFFSET_AT..SECOND_AT].copy_from_slice(&minutes.to_le_bytes());
}

/// The minutes in an event record.
pub fn minutes_in(record: &[u8]) -> i16 {
    i16::from_le_bytes([record[OFFSET_AT], record[OFFSET_AT + 1]])
}

pub fn offset_is_bad(record: &[u8]) -> bool {
    !MINUTES.contains(&minutes_in(record))
}
