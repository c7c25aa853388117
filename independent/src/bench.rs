//! The bench program's work (01, "Bench sheet"): message texts in, records or refusals out.

use crate::device::Device;
use crate::numbers::{NO_END, SUCCESS};
use crate::records::{EVENT_BYTES, MESSAGE_BYTES};
use crate::settings::Settings;
use crate::site::Site;

/// Bytes past these are not read.
pub const INPUT_LIMIT: usize = 65_536;

/// Mode 0, Align 0, MaskActive 0; one place in each ring is enough.
const BENCH_SETTINGS: Settings = Settings {
    mode: 0,
    format: 0,
    align: 0,
    mask_active: 0,
    code: 0,
    mask: 0,
    event_mask: 0,
    queue_capacity: 1,
    tx_mode: 1,
    send_capacity: 1,
    site: Site::ZERO,
};

/// Sends each message text of the input in turn and answers the whole output.
pub fn run(input: &[u8]) -> Vec<u8> {
    let mut queue_table = [0; EVENT_BYTES];
    let mut send_table = [0; MESSAGE_BYTES];
    let (_, mut device) = Device::open(&BENCH_SETTINGS, &queue_table, &send_table);
    let mut rest = &input[..input.len().min(INPUT_LIMIT)];
    let mut output = String::new();
    while !rest.is_empty() {
        let (number, used) = device.send_text(rest, &mut send_table);
        if number == SUCCESS {
            let (_, bytes) = device.take(0, &send_table, &mut queue_table);
            output += &record_line(&bytes);
            // Empties register and buffer, so that the next text meets room.
            device.abort(0, &mut queue_table);
        } else {
            output += &format!("refused {number} used {used}\n");
        }
        if number == NO_END {
            break;
        }
        rest = &rest[used..];
    }
    output.into_bytes()
}

/// The 16 bytes as 32 digits and LF.
fn record_line(bytes: &[u8; MESSAGE_BYTES]) -> String {
    let digits: String = bytes.iter().map(|byte| format!("{byte:02X}")).collect();
    digits + "\n"
}
