//! Prints the bench sheet case by case: the paper's words, then what was computed.
//! Align 0, mode 0 unless said; MaskActive 0, site zero.

use std::io::Write;

use independent::{
    Device, Message, Settings, Site, EVENT_BYTES, EVENT_ROOM, MESSAGE_BYTES, MESSAGE_ROOM,
};

const RECEIVED: u32 = 1;
const STANDARD: u32 = 1;

/// Every frame and every event passes.
const SETTINGS: Settings = Settings {
    mode: 0,
    format: 0,
    align: 0,
    mask_active: 0,
    code: 0,
    mask: 0xFFFF_FFFF,
    event_mask: 0xFFF,
    queue_capacity: 1,
    tx_mode: 1,
    send_capacity: 1,
    site: Site::ZERO,
};

/// A device with tables of its own.
struct Bed {
    device: Device,
    queue: Vec<u8>,
    send: Vec<u8>,
}

impl Bed {
    fn open(settings: Settings) -> Bed {
        let queue = vec![0; settings.queue_capacity as usize * EVENT_BYTES];
        let send = vec![0; settings.send_capacity as usize * MESSAGE_BYTES];
        let (_, device) = Device::open(&settings, &queue, &send);
        Bed {
            device,
            queue,
            send,
        }
    }

    fn raise(&mut self, tick: u32, frame: &Message) -> u32 {
        self.device.raise(RECEIVED, tick, frame, &mut self.queue)
    }

    /// The tick and the lost count of the oldest event, from its record.
    fn read(&mut self) -> Option<(u32, u32)> {
        let (number, record) = self.device.read_record(&self.queue);
        (number == 0).then(|| (number_at(&record, 4), number_at(&record, 12)))
    }
}

fn number_at(record: &[u8], at: usize) -> u32 {
    (0..4).map(|i| u32::from(record[at + i]) << (8 * i)).sum()
}

fn frame(id: u32, rtr: u32, data: &[u8]) -> Message {
    let mut message = Message {
        id,
        format: STANDARD,
        rtr,
        dlc: data.len() as u32,
        ..Message::default()
    };
    message.data[..data.len()].copy_from_slice(data);
    message
}

fn text_case(mark: &str, text: &str, said: &str) -> String {
    let mut bed = Bed::open(SETTINGS);
    let (number, used) = bed.device.send_text(text.as_bytes(), &mut bed.send);
    let computed = if number == 0 {
        let (_, bytes) = bed.device.take(0, &bed.send, &mut bed.queue);
        let digits: String = bytes.iter().map(|byte| format!("{byte:02X}")).collect();
        format!("taken, {used} used: {digits}")
    } else {
        format!("refused {number} used {used}")
    };
    format!("{mark}{text:?}{said} => {computed}\n")
}

fn texts() -> Vec<String> {
    let cases = [
        ("P ", "731 0 4 11 22 33 44\r\n", ": taken, 21 used"),
        ("P ", "731 0 0", ": 6"),
        ("P ", "\n", ": 7, 1 used"),
        ("P ", "7FF 0 0\n", " taken"),
        ("P ", "800 0 0\n", ": 8"),
        ("", "731 0 F 1 2 3 4 5 6 7 8\n", " taken"),
        ("", "731 0 10\n", ": 10"),
        (
            "P ",
            "0x100 0 0\n",
            ": x separates, so rtr is 100: refusal 9, 10 used",
        ),
        ("P ", "731 1 4\n", " taken, no bytes"),
        ("", "731 0 2 11\n", ": 7"),
        ("", "731 0 1 100\n", ": 12"),
    ];
    cases
        .iter()
        .map(|(mark, text, said)| text_case(mark, text, said))
        .collect()
}

fn shown(said: &str, align: u32) -> String {
    let bed = Bed::open(Settings { align, ..SETTINGS });
    let mut out = [0; MESSAGE_ROOM];
    let (_, length) = bed.device.print_message(&frame(0x731, 0, &[]), &mut out);
    format!("{said} => {}", String::from_utf8_lossy(&out[..length]))
}

fn filtered(said: &str, data: &[u8]) -> String {
    let mut bed = Bed::open(Settings {
        code: 0x4000_0100,
        mask: 0x0000_00FF,
        ..SETTINGS
    });
    let number = bed.raise(0, &frame(0x200, 0, data));
    let word = match number {
        100 => "recorded",
        101 => "filtered",
        102 => "masked",
        103 => "lost",
        _ => "refused",
    };
    format!("{said} => {number}, {word}\n")
}

fn through(said: &str, code: u32, mask: u32) -> String {
    let bed = Bed::open(Settings {
        align: 1,
        code,
        mask,
        ..SETTINGS
    });
    let (_, count) = bed.device.identifiers_through(STANDARD);
    format!("{said} => {count}\n")
}

fn identifiers() -> Vec<String> {
    vec![
        shown("P raw 731 shows as 1CC40000 at Align 2", 2),
        shown("P E6200000 at Align 3", 3),
        filtered(
            "P code 40000100, mask 000000FF: frame 200 with 01 07 passes",
            &[1, 7],
        ),
        filtered("P with 02 07 it doesn't", &[2, 7]),
        filtered("with dlc 0 it passes", &[]),
        through(
            "P Align 1, code 400, mask 3FF: 1,024 identifiers",
            0x400,
            0x3FF,
        ),
        through("Code 3FA, mask 1: two", 0x3FA, 1),
    ]
}

/// Events are told apart by their ticks, here letters.
fn lost() -> String {
    let mut bed = Bed::open(SETTINGS);
    let mut read = Vec::new();
    for raised in ["ABC", "D"] {
        for letter in raised.bytes() {
            bed.raise(u32::from(letter), &frame(0x7FF, 0, &[]));
        }
        if let Some((tick, lost)) = bed.read() {
            read.push(format!("{} has lost {lost}", tick as u8 as char));
        }
    }
    let said = "P capacity 1, raise A, B, C, read, raise D: A has lost 0, D has lost 2";
    format!("{said} => {}\n", read.join(", "))
}

fn recorded(said: &str, queue_capacity: u32) -> String {
    let mut bed = Bed::open(Settings {
        queue_capacity,
        ..SETTINGS
    });
    let mut recorded = Vec::new();
    for raised in [[1, 2].as_slice(), &[3, 4], &[5]] {
        for tick in raised {
            bed.raise(*tick, &frame(0x7FF, 0, &[]));
        }
        recorded.extend(bed.read());
    }
    // What is still queued is recorded as well.
    while let Some(event) = bed.read() {
        recorded.push(event);
    }
    let ticks: Vec<String> = recorded.iter().map(|(tick, _)| tick.to_string()).collect();
    format!("{said} => {}\n", ticks.join(", "))
}

fn queueing() -> Vec<String> {
    vec![
        lost(),
        recorded(
            "Raise 1, 2, read, raise 3, 4, read, raise 5: capacity 1 records 1, 3, 5",
            1,
        ),
        recorded("capacity 2 records 1, 2, 3, 5", 2),
    ]
}

/// 01's last case with room and line as M-106 of 02 has them.
fn event_line() -> Vec<String> {
    let mut bed = Bed::open(SETTINGS);
    for tick in 0..6 {
        bed.raise(tick, &frame(0x7FF, 0, &[]));
    }
    bed.read();
    bed.raise(12_568, &frame(0x112, 1, &[]));
    let (refused, _) = bed.device.read_text(&bed.queue, &mut [0; 102]);
    let mut room = [0; EVENT_ROOM];
    let (good, length) = bed.device.read_text(&bed.queue, &mut room);
    let line = String::from_utf8_lossy(&room[..length]);
    let said = "`received` TAB `0:12568` TAB `+00:00` TAB `0` \
                TAB `00000112` TAB `1` TAB `0` TAB `5` LF";
    vec![
        format!("Room 102 refused (M-106) => {refused}\n"),
        format!("103 good => {good}\n"),
        format!("{said} => {line}"),
    ]
}

fn main() -> std::io::Result<()> {
    let lines = [texts(), identifiers(), queueing(), event_line()].concat();
    std::io::stdout().write_all(lines.concat().as_bytes())
}
