//! Settings and their ranges (01, "Settings"; 02, M-106).

use crate::ids::{EXTENDED, STANDARD};
use crate::site::Site;

pub const LARGEST_QUEUE: u32 = 1_638;
pub const LARGEST_SEND_BUFFER: u32 = 1_024;

/// Event mask bits 0 to 11; bits 12 to 31 must be 0.
const EVENT_MASK_BITS: u32 = 0xFFF;

/// Everything that opening is given.
#[derive(Clone, Copy, Debug, Default, PartialEq, Eq)]
pub struct Settings {
    pub mode: u32,
    pub format: u32,
    pub align: u32,
    pub mask_active: u32,
    pub code: u32,
    pub mask: u32,
    pub event_mask: u32,
    pub queue_capacity: u32,
    pub tx_mode: u32,
    pub send_capacity: u32,
    pub site: Site,
}

impl Settings {
    /// False where refusal 1 is due; code and mask are any numbers.
    pub(crate) fn in_range(&self) -> bool {
        let extended_in_mode_0 = self.mode == 0 && self.format == EXTENDED;
        self.mode <= 1
            && self.format <= 2
            && !extended_in_mode_0
            && self.align <= 3
            && self.mask_active <= 1
            && self.event_mask & !EVENT_MASK_BITS == 0
            && (1..=LARGEST_QUEUE).contains(&self.queue_capacity)
            && matches!(self.tx_mode, 1 | 3 | 5 | 7)
            && (1..=LARGEST_SEND_BUFFER).contains(&self.send_capacity)
            && self.site.in_range()
    }
}

/// The frame format that "default" stands for: the channel's own, or by mode if that is 0.
pub(crate) fn default_format(mode: u32, format: u32) -> u32 {
    match (format, mode) {
        (0, 0) => STANDARD,
        (0, _) => EXTENDED,
        _ => format,
    }
}
