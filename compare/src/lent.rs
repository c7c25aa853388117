//! A lent buffer with guard bytes on both sides, so that a byte written outside it is seen.

const GUARD: usize = 64;
const GUARD_BYTE: u8 = 0xA7;

#[derive(Clone, Debug, PartialEq, Eq)]
pub struct Lent {
    all: Vec<u8>,
    start: usize,
    end: usize,
}

impl Lent {
    /// The shift moves the part against the machine's word boundaries.
    pub fn new(bytes: &[u8], shift: usize) -> Lent {
        let start = GUARD + shift;
        let end = start + bytes.len();
        let mut all = vec![GUARD_BYTE; end + GUARD];
        all[start..end].copy_from_slice(bytes);
        Lent { all, start, end }
    }

    pub fn part(&self) -> &[u8] {
        &self.all[self.start..self.end]
    }

    pub fn part_mut(&mut self) -> &mut [u8] {
        &mut self.all[self.start..self.end]
    }

    pub fn guards_hold(&self) -> bool {
        let is_guard = |byte: &u8| *byte == GUARD_BYTE;
        self.all[..self.start].iter().all(is_guard) && self.all[self.end..].iter().all(is_guard)
    }

    /// Where two buffers differ first, counted from the part's beginning.
    pub fn difference(&self, other: &Lent) -> Option<String> {
        if self.all == other.all {
            return None;
        }
        let mut pairs = self.all.iter().zip(&other.all);
        let Some(place) = pairs.position(|(ours, theirs)| ours != theirs) else {
            return Some("lengths".to_string());
        };
        let (ours, theirs) = (self.all[place], other.all[place]);
        let at = place as i64 - self.start as i64;
        Some(format!("byte {at}: board {ours:02X}, independent {theirs:02X}"))
    }
}
