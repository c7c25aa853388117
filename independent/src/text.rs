//! The message text as it is read (01, "The two texts" and "Refusal numbers").

use crate::ids::raw_from_aligned;
use crate::numbers::{
    refuse_if, Outcome, BAD_DATA, BAD_DLC, BAD_IDENTIFIER, BAD_RTR, TOO_FEW_VALUES, TOO_MANY_DATA,
};
use crate::records::Message;

const HEADER_VALUES: usize = 3;
const LARGEST_DATA_COUNT: usize = 8;

/// The values of one message text, and the bytes through its run of ends.
pub(crate) struct MessageText {
    /// How many values stand in the text; those past the kept ones are only counted.
    count: usize,
    kept: [u64; HEADER_VALUES + LARGEST_DATA_COUNT],
    pub(crate) used: usize,
}

/// None if the text has no end. Bytes past the first run of ends are not looked at.
pub(crate) fn scan(text: &[u8]) -> Option<MessageText> {
    let end = text.iter().position(is_end)?;
    let run_of_ends = text[end..].iter().take_while(|byte| is_end(byte)).count();
    let mut kept = [0; HEADER_VALUES + LARGEST_DATA_COUNT];
    for (place, value) in kept.iter_mut().zip(values(&text[..end])) {
        *place = value;
    }
    Some(MessageText {
        count: values(&text[..end]).count(),
        kept,
        used: end + run_of_ends,
    })
}

/// CR, LF and zero are ends.
fn is_end(byte: &u8) -> bool {
    matches!(byte, b'\r' | b'\n' | 0)
}

/// Every run of hexadecimal digits is a value; all other bytes only separate.
fn values(line: &[u8]) -> impl Iterator<Item = u64> + '_ {
    line.split(|byte| !byte.is_ascii_hexdigit())
        .filter(|digits| !digits.is_empty())
        .map(number)
}

/// Any number of digits: a value too large to hold stays at the largest, too large for any field.
fn number(digits: &[u8]) -> u64 {
    digits.iter().fold(0, |value: u64, digit| {
        value.saturating_mul(16).saturating_add(digit_value(*digit))
    })
}

fn digit_value(digit: u8) -> u64 {
    u64::from(char::from(digit).to_digit(16).unwrap_or(0))
}

impl MessageText {
    /// The message for an Align and format: refusals 7, 8, 9, 10, 7, 11, 12 in this order.
    pub(crate) fn message(&self, align: u32, format: u32) -> Outcome<Message> {
        refuse_if(self.count < HEADER_VALUES, TOO_FEW_VALUES)?;
        let header = Message {
            id: raw_identifier(self.kept[0], align, format)?,
            format,
            rtr: at_most(self.kept[1], 1, BAD_RTR)?,
            dlc: at_most(self.kept[2], 15, BAD_DLC)?,
            data: [0; 8],
        };
        let data_count = self.count - HEADER_VALUES;
        refuse_if(data_count < header.carried().len(), TOO_FEW_VALUES)?;
        refuse_if(data_count > LARGEST_DATA_COUNT, TOO_MANY_DATA)?;
        let data = self.data()?;
        // Values past those carried have been checked and are dropped here.
        Ok(Message { data, ..header }.stored())
    }

    /// Places past the last value are zero already.
    fn data(&self) -> Outcome<[u8; LARGEST_DATA_COUNT]> {
        let mut data = [0; LARGEST_DATA_COUNT];
        for (byte, value) in data.iter_mut().zip(&self.kept[HEADER_VALUES..]) {
            *byte = u8::try_from(*value).map_err(|_| BAD_DATA)?;
        }
        Ok(data)
    }
}

fn raw_identifier(value: u64, align: u32, format: u32) -> Outcome<u32> {
    let aligned = u32::try_from(value).map_err(|_| BAD_IDENTIFIER)?;
    raw_from_aligned(align, format, aligned).ok_or(BAD_IDENTIFIER)
}

fn at_most(value: u64, largest: u32, refusal: u32) -> Outcome<u32> {
    match u32::try_from(value) {
        Ok(number) if number <= largest => Ok(number),
        _ => Err(refusal),
    }
}
