//! The calls that are measured, by the proved recorder through its C interface and by the second implementation.
//!
//! Each side's state and tables lie in memory that is lent to a call which is not inlined. Before each call the harness
//! stores the ring's numbers anew, so that every call finds the same filling in the next slot. Each answer is checked.

use crate::board;
use crate::state::{set_rings, STATE};
use independent::{Device, Message, Settings, Site, EVENT_BYTES, EVENT_ROOM, MESSAGE_BYTES};
use std::hint::black_box;

/// How many calls a turn makes.
pub const CALLS: u32 = 1_000;
/// What is sent, in turn.
pub type Texts = [&'static [u8]; 4];
pub const MIXED: Texts =
    [b"731 0 4 11 22 33 44\n", b"7FF 0 8 DE AD BE EF 00 01 02 03\r\n", b"12 1 0\n", b"400 0 2 a5 5A\n"];

/// Two hours east and a second of ten digits, so that lines have their usual length.
const SITE: Site = Site { offset: 120, second: 1_700_000_000 };

/// A call; with a raise the filter and the queue that it finds, with a printed event the codes in turn.
#[derive(Clone, Copy)]
pub enum Row {
    Raise { code: u32, strict: bool, full: bool },
    ReadRecord,
    ReadText,
    SendText,
    TakeDone,
    PrintMessageRecord,
    PrintEventRecord { codes: &'static [u32] },
}

pub const RAISE: Row = Row::Raise { code: 1, strict: false, full: false };
pub const RAISE_STRICT: Row = Row::Raise { code: 1, strict: true, full: false };

impl Row {
    /// The codes of the events in the queue, in turn.
    fn codes(self) -> &'static [u32] {
        match self {
            Row::PrintEventRecord { codes } => codes,
            _ => &[1],
        }
    }

    /// Half full, so that a raise and a send find room; a read and a take find an entry; a lost raise finds no room.
    fn fillings(self, slots: u32, places: u32) -> (u32, u32) {
        match self {
            Row::Raise { full: true, .. } => (slots, places / 2),
            Row::ReadRecord | Row::ReadText => (slots.div_ceil(2), places / 2),
            Row::TakeDone => (slots / 2, places.div_ceil(2)),
            _ => (slots / 2, places / 2),
        }
    }
}

/// What one side keeps and is lent.
struct Bed<Kept> {
    kept: Kept,
    queue: Vec<u8>,
    send: Vec<u8>,
}

/// What both sides are given.
#[derive(Clone, Copy)]
struct Given {
    row: Row,
    texts: Texts,
    frame: Message,
    slots: u32,
    places: u32,
}

pub struct Beds {
    board: Bed<Vec<u8>>,
    second: Bed<Box<Device>>,
    given: Given,
}

/// One side's turn: `CALLS` calls.
pub type Turn<'beds> = Box<dyn FnMut() + 'beds>;

impl Beds {
    /// The frame passes, with an open filter or one that compares every bit; so does every event; all slots hold
    /// good records; a transmitted event is raised at done.
    pub fn new(row: Row, texts: Texts, slots: u32, places: u32) -> Beds {
        let frame = Message { id: 0x731, format: 1, rtr: 0, dlc: 8, data: [1, 2, 3, 4, 5, 6, 7, 8] };
        let is_strict = matches!(row, Row::Raise { strict: true, .. });
        let (code, mask) = if is_strict { (frame.id << 21 | 0x0102, 0) } else { (0, u32::MAX) };
        let settings = Settings {
            mode: 0,
            format: 0,
            align: 0,
            mask_active: 0,
            code,
            mask,
            event_mask: 0xFFF,
            queue_capacity: slots,
            tx_mode: 7,
            send_capacity: places,
            site: SITE,
        };
        let mut queue = vec![0; EVENT_BYTES * slots as usize];
        let mut send = vec![0; MESSAGE_BYTES * places as usize];
        let mut state = vec![0; STATE];
        board::open(&mut state, &settings, &queue, &send);
        let (_, mut device) = Device::open(&settings, &queue, &send);
        for (tick, &code) in (0..slots).zip(row.codes().iter().cycle()) {
            device.raise(code, 1_000_000 + tick, &frame, &mut queue);
        }
        for place in 0..places as usize {
            device.send_text(texts[place % 4], &mut send);
        }
        let board = Bed { kept: state, queue: queue.clone(), send: send.clone() };
        let second = Bed { kept: Box::new(device), queue, send };
        Beds { board, second, given: Given { row, texts, frame, slots, places } }
    }

    /// The board's turn and the second implementation's.
    pub fn turns(&mut self) -> [Turn<'_>; 2] {
        [board_turn(&mut self.board, self.given), second_turn(&mut self.second, self.given)]
    }
}

fn answered(number: u32, expected: u32) {
    assert_eq!(black_box(number), expected, "the measured call's answer");
}

/// The record in a slot of the event table.
fn slot(queue: &[u8], place: u32) -> &[u8] {
    &queue[EVENT_BYTES * place as usize..][..EVENT_BYTES]
}

fn raised(number: u32, full: bool) {
    answered(number, if full { 103 } else { 100 });
}

fn board_turn(bed: &mut Bed<Vec<u8>>, given: Given) -> Turn<'_> {
    let Bed { kept: state, queue, send } = bed;
    let Given { row, texts, frame, slots, places } = given;
    let (queued, buffered) = row.fillings(slots, places);
    let mut at = 0u32;
    Box::new(move || {
        let (mut out, mut record, mut line, mut size) = ([0; EVENT_BYTES], [0; MESSAGE_BYTES], [0; EVENT_ROOM], 0);
        for _ in 0..CALLS {
            at = at.wrapping_add(1);
            set_rings(state, (at % slots, queued), (at % places, buffered));
            match row {
                Row::Raise { code, full, .. } => {
                    raised(board::raise(state, code, at, &frame, &frame.data, queue), full)
                }
                Row::ReadRecord => answered(board::read_record(state, queue, &mut out), 0),
                Row::ReadText => answered(board::read_text(state, queue, &mut line, &mut size), 0),
                Row::SendText => answered(board::send_text(state, texts[at as usize % 4], send, &mut size), 0),
                Row::TakeDone => {
                    answered(board::take(state, at, send, queue, &mut record), 0);
                    answered(board::done(state, at, queue), 0);
                }
                Row::PrintMessageRecord => {
                    answered(board::print_message_record(state, &send[..MESSAGE_BYTES], &mut line, &mut size), 0)
                }
                Row::PrintEventRecord { .. } => {
                    answered(board::print_event_record(state, slot(queue, at % slots), &mut line, &mut size), 0)
                }
            }
            black_box((&out, &record, &line, size));
        }
    })
}

fn second_turn(bed: &mut Bed<Box<Device>>, given: Given) -> Turn<'_> {
    let Bed { kept: device, queue, send } = bed;
    let Given { row, texts, frame, slots, places } = given;
    let (queued, buffered) = row.fillings(slots, places);
    let mut at = 0u32;
    Box::new(move || {
        let (mut out, mut record, mut line, mut size) = ([0; EVENT_BYTES], [0; MESSAGE_BYTES], [0; EVENT_ROOM], 0);
        for _ in 0..CALLS {
            at = at.wrapping_add(1);
            set_device_rings(device, (at % slots, queued), (at % places, buffered));
            match row {
                Row::Raise { code, full, .. } => raised(plain::raise(device, code, at, &frame, queue), full),
                Row::ReadRecord => answered(plain::read_record(device, queue, &mut out), 0),
                Row::ReadText => answered(plain::read_text(device, queue, &mut line, &mut size), 0),
                Row::SendText => answered(plain::send_text(device, texts[at as usize % 4], send, &mut size), 0),
                Row::TakeDone => {
                    answered(plain::take(device, at, send, queue, &mut record), 0);
                    answered(plain::done(device, at, queue), 0);
                }
                Row::PrintMessageRecord => {
                    answered(plain::print_message_record(device, &send[..MESSAGE_BYTES], &mut line, &mut size), 0)
                }
                Row::PrintEventRecord { .. } => {
                    answered(plain::print_event_record(device, slot(queue, at % slots), &mut line, &mut size), 0)
                }
            }
            black_box((&out, &record, &line, size));
        }
    })
}

fn set_device_rings(device: &mut Device, queue: (u32, u32), send: (u32, u32)) {
    (device.receive.ring.first, device.receive.ring.count) = queue;
    (device.send.ring.first, device.send.ring.count) = send;
}

/// Calls of the second implementation, each behind a boundary as the C interface is.
mod plain {
    use independent::{Device, Message, EVENT_BYTES, MESSAGE_BYTES};

    #[inline(never)]
    pub fn raise(device: &mut Device, code: u32, tick: u32, frame: &Message, queue: &mut [u8]) -> u32 {
        device.raise(code, tick, frame, queue)
    }

    #[inline(never)]
    pub fn read_record(device: &mut Device, queue: &[u8], out: &mut [u8; EVENT_BYTES]) -> u32 {
        let (number, bytes) = device.read_record(queue);
        *out = bytes;
        number
    }

    #[inline(never)]
    pub fn read_text(device: &mut Device, queue: &[u8], out: &mut [u8], length: &mut usize) -> u32 {
        let (number, line) = device.read_text(queue, out);
        *length = line;
        number
    }

    #[inline(never)]
    pub fn send_text(device: &mut Device, text: &[u8], send: &mut [u8], used: &mut usize) -> u32 {
        let (number, bytes) = device.send_text(text, send);
        *used = bytes;
        number
    }

    #[inline(never)]
    pub fn take(device: &mut Device, tick: u32, send: &[u8], queue: &mut [u8], out: &mut [u8; MESSAGE_BYTES]) -> u32 {
        let (number, bytes) = device.take(tick, send, queue);
        *out = bytes;
        number
    }

    #[inline(never)]
    pub fn done(device: &mut Device, tick: u32, queue: &mut [u8]) -> u32 {
        device.done(tick, queue)
    }

    #[inline(never)]
    pub fn print_message_record(device: &Device, record: &[u8], out: &mut [u8], length: &mut usize) -> u32 {
        let (number, line) = device.print_message_record(record, out);
        *length = line;
        number
    }

    #[inline(never)]
    pub fn print_event_record(device: &Device, record: &[u8], out: &mut [u8], length: &mut usize) -> u32 {
        let (number, line) = device.print_event_record(record, out);
        *length = line;
        number
    }
}
