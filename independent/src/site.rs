//! The site that events carry: an offset and the second of tick zero (02, M-106).

/// In a record the offset has two bytes, and the second the six behind them.
const SITE_BYTES: usize = 8;
const SECOND_AT: usize = 2;

const SMALLEST_OFFSET: i32 = -720;
const LARGEST_OFFSET: i32 = 840;

/// The largest number that six bytes hold.
const LARGEST_SECOND: u64 = 281_474_976_710_655;

/// One pair for the whole device, whose channels share it.
#[derive(Clone, Copy, Debug, Default, PartialEq, Eq)]
pub struct Site {
    /// Minutes in two's complement: -1 is 4,294,967,295.
    pub offset: u32,
    /// The UTC second at which tick zero fell.
    pub second: u64,
}

impl Site {
    pub const ZERO: Site = Site {
        offset: 0,
        second: 0,
    };

    /// False where refusal 1 is due.
    pub(crate) fn in_range(&self) -> bool {
        (SMALLEST_OFFSET..=LARGEST_OFFSET).contains(&self.minutes())
            && self.second <= LARGEST_SECOND
    }

    fn minutes(&self) -> i32 {
        self.offset as i32
    }

    /// For sites in range only: offset and second fit their bytes then.
    pub(crate) fn to_bytes(self) -> [u8; SITE_BYTES] {
        let mut bytes = [0; SITE_BYTES];
        let (offset, second) = bytes.split_at_mut(SECOND_AT);
        offset.copy_from_slice(&self.offset.to_le_bytes()[..SECOND_AT]);
        second.copy_from_slice(&self.second.to_le_bytes()[..SITE_BYTES - SECOND_AT]);
        bytes
    }

    /// None if damaged, which is an offset out of range: no second of six bytes is.
    pub(crate) fn from_bytes(bytes: &[u8]) -> Option<Site> {
        let bytes: &[u8; SITE_BYTES] = bytes.try_into().ok()?;
        let minutes = i16::from_le_bytes([bytes[0], bytes[1]]);
        let mut second = [0; 8];
        second[..SITE_BYTES - SECOND_AT].copy_from_slice(&bytes[SECOND_AT..]);
        let site = Site {
            offset: i32::from(minutes) as u32,
            second: u64::from_le_bytes(second),
        };
        site.in_range().then_some(site)
    }

    /// Sign, hours and minutes, two digits each; zero has a plus.
    pub(crate) fn offset_text(&self) -> String {
        let sign = if self.minutes() < 0 { '-' } else { '+' };
        let minutes = self.minutes().unsigned_abs();
        format!("{sign}{:02}:{:02}", minutes / 60, minutes % 60)
    }
}
