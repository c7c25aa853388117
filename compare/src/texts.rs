//! Message texts: good ones for a device, ones with a single fault, and hostile ones.

use crate::draw::Draw;
use crate::making::{aligned, good_frame};
use independent::{Device, Message};

const ENDS: [&[u8]; 8] = [b"\n", b"\n", b"\r\n", b"\0", b"\r", b"\n\r\n\0", b"\0\0\0\0\0", b"\n\n\n\n\r\r\r"];

/// A text of one message, or of several one behind the other.
pub fn text(draw: &mut Draw, device: &Device) -> Vec<u8> {
    match draw.below(24) {
        0 => garbage(draw),
        1 => no_end(draw, device),
        2 => (0..2 + draw.below(6)).flat_map(|_| line(draw, device)).collect(),
        3 => long(draw, device),
        _ => line(draw, device),
    }
}

/// Any bytes, with digits, ends and bytes next to digits more often than by chance.
fn garbage(draw: &mut Draw) -> Vec<u8> {
    let near = b"0123456789abcdefABCDEF/:@G`g \t,xX\r\n\0\x01\x09\x0B\x0E\x7F\x80\xFF";
    let length = match draw.below(10) {
        0 => 0,
        1 => draw.size_below(4_000),
        _ => draw.size_below(60),
    };
    (0..length).map(|_| if draw.one_in(4) { draw.byte() } else { draw.pick(near) }).collect()
}

fn no_end(draw: &mut Draw, device: &Device) -> Vec<u8> {
    let mut text = line(draw, device);
    text.retain(|byte| !matches!(byte, b'\r' | b'\n' | 0));
    text
}

/// Thousands of separators, digits or ends.
fn long(draw: &mut Draw, device: &Device) -> Vec<u8> {
    let filling = draw.pick(&[b' ', b'0', b'F', b'\n', 0, b'-']);
    let run = vec![filling; draw.size_below(5_000)];
    let mut text = line(draw, device);
    let place = draw.size_below(text.len() + 1);
    text.splice(place..place, run);
    text
}

/// One message: the fields of a good frame of the channel's default format, at times with a fault.
fn line(draw: &mut Draw, device: &Device) -> Vec<u8> {
    let mut fields = good_fields(draw, device);
    if draw.one_in(3) {
        spoil(draw, &mut fields);
    }
    let mut text = Vec::new();
    for (place, field) in fields.iter().enumerate() {
        if place > 0 || draw.one_in(10) {
            separate(draw, &mut text);
        }
        text.extend_from_slice(field.as_bytes());
    }
    if draw.one_in(10) {
        separate(draw, &mut text);
    }
    text.extend_from_slice(draw.pick(&ENDS));
    text
}

fn good_fields(draw: &mut Draw, device: &Device) -> Vec<String> {
    let frame = good_frame(draw);
    let format = match (device.shared.mode, device.shared.format) {
        (0, 0) => 1,
        (_, 0) => 2,
        (_, format) => format,
    };
    let largest = if format == 1 { 0x7FF } else { 0x1FFF_FFFF };
    let id = aligned(device, format, frame.id & largest);
    let carried = if frame.rtr == 1 { 0 } else { frame.dlc.min(8) };
    let extra = if draw.one_in(8) { draw.word_below(9 - carried) } else { 0 };
    let mut fields = vec![number(draw, u64::from(id)), number(draw, u64::from(frame.rtr))];
    fields.push(number(draw, u64::from(frame.dlc)));
    for _ in 0..carried + extra {
        let value = draw.below(256);
        fields.push(number(draw, value));
    }
    fields
}

/// Either letter case, at times with leading zeros.
fn number(draw: &mut Draw, value: u64) -> String {
    let digits = if draw.one_in(2) { format!("{value:X}") } else { format!("{value:x}") };
    match draw.below(12) {
        0 => "0".repeat(draw.size_below(40)) + &digits,
        1 => format!("{digits:0>8}"),
        _ => digits,
    }
}

/// One fault in the fields; often it is the one that a later check would meet.
fn spoil(draw: &mut Draw, fields: &mut Vec<String>) {
    let last = fields.len() - 1;
    match draw.below(9) {
        0 => fields.truncate(draw.size_below(3)),
        1 => fields[0] = large(draw),
        2 => fields[1] = if draw.one_in(2) { "2".to_string() } else { large(draw) },
        3 => fields[2] = if draw.one_in(2) { "10".to_string() } else { large(draw) },
        4 => fields.truncate(last.max(1)),
        5 => fields.resize(12 + draw.size_below(20), "0".to_string()),
        6 => fields[last] = if draw.one_in(2) { "100".to_string() } else { large(draw) },
        7 => fields.push("1FF".to_string()),
        _ => {
            let place = draw.size_below(fields.len());
            fields[place] = large(draw);
        }
    }
}

/// Numbers at and past 8, 32 and 64 bits, and far past.
fn large(draw: &mut Draw) -> String {
    let fixed = ["FF", "100", "7FF", "800", "1FFFFFFF", "20000000", "FFFFFFFF", "100000000", "10000000000000000"];
    match draw.below(4) {
        0 => format!("{:X}", draw.next() >> draw.below(60)),
        1 => (0..1 + draw.below(70)).map(|_| draw.pick(&['0', '1', 'a', 'F'])).collect(),
        _ => draw.pick(&fixed).to_string(),
    }
}

fn separate(draw: &mut Draw, text: &mut Vec<u8>) {
    let separators: [&[u8]; 9] = [b" ", b" ", b" ", b"\t", b", ", b"xyz", b"\xFF;", b"/:@G`g", b"\x01\x0B"];
    text.extend_from_slice(draw.pick(&separators));
    if draw.one_in(30) {
        text.extend_from_slice(&vec![b'_'; draw.size_below(300)]);
    }
}

/// How many values stand before the first end, for telling the two refusals 7 apart.
pub fn values_before_end(text: &[u8]) -> usize {
    let line = text.split(|byte| matches!(byte, b'\r' | b'\n' | 0)).next().unwrap_or(&[]);
    line.split(|byte| !byte.is_ascii_hexdigit()).filter(|digits| !digits.is_empty()).count()
}

/// A message as one good line, for measuring.
pub fn plain_line(message: &Message) -> String {
    let carried = if message.rtr == 1 { 0 } else { message.dlc.min(8) };
    let data: String = message.data[..carried as usize].iter().map(|byte| format!(" {byte:02X}")).collect();
    format!("{:X} {} {:X}{data}\n", message.id, message.rtr, message.dlc)
}
