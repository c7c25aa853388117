//! The public calls with what they are given, and where their values are handed back.

use crate::lent::Lent;
use independent::{Message, Settings, Site, EVENT_BYTES, MESSAGE_BYTES};

#[derive(Clone, Debug)]
pub enum Call {
    Open(Settings),
    SetMode { mode: u32, tick: u32 },
    SetFormat { format: u32, tick: u32 },
    SetFilter { code: u32, mask: u32 },
    SetEventMask { events: u32 },
    SetSite(Site),
    Raise { code: u32, tick: u32, frame: Message },
    ReadRecord,
    ReadText { room: usize },
    LookNumber { p: u32 },
    Look { p: u32 },
    IdentifiersThrough { format: u32 },
    Send { message: Message },
    SendText { text: Vec<u8> },
    Take { tick: u32 },
    Done { tick: u32 },
    Abort { tick: u32 },
    PrintMessageRecord { record: Vec<u8>, room: usize },
    PrintEventRecord { record: Vec<u8>, room: usize },
    PrintMessage { message: Message, room: usize },
}

/// The calls' names, in the order of `Call`, each with the numbers that it may answer.
pub const KINDS: [(&str, &[u32]); 20] = [
    ("open", &[0, 1, 2]),
    ("set_mode", &[0, 2, 1]),
    ("set_format", &[0, 2, 1]),
    ("set_filter", &[0, 2]),
    ("set_event_mask", &[0, 2, 1]),
    ("set_site", &[0, 2, 1]),
    ("raise", &[2, 13, 8, 9, 10, 100, 101, 102, 103]),
    ("read_record", &[0, 2, 4, 14]),
    ("read_text", &[0, 2, 3, 4, 14]),
    ("look_number", &[0, 2, 4]),
    ("look", &[0, 2, 4]),
    ("identifiers_through", &[0, 2, 13]),
    ("send", &[0, 2, 13, 8, 9, 10, 5]),
    ("send_text", &[0, 2, 6, 7, 8, 9, 10, TOO_FEW_DATA, 11, 12, 5]),
    ("take", &[0, 2, 5, 4, 14]),
    ("done", &[0, 2, 4]),
    ("abort", &[0, 2]),
    ("print_message_record", &[0, 2, 3, 14]),
    ("print_event_record", &[0, 2, 3, 14]),
    ("print_message", &[0, 2, 3, 13, 8, 9, 10]),
];

/// Stands in the tables for refusal 7 of a text that has three values but too few data.
pub const TOO_FEW_DATA: u32 = 15;

impl Call {
    /// The place in `KINDS`.
    pub fn kind(&self) -> usize {
        match self {
            Call::Open(_) => 0,
            Call::SetMode { .. } => 1,
            Call::SetFormat { .. } => 2,
            Call::SetFilter { .. } => 3,
            Call::SetEventMask { .. } => 4,
            Call::SetSite(_) => 5,
            Call::Raise { .. } => 6,
            Call::ReadRecord => 7,
            Call::ReadText { .. } => 8,
            Call::LookNumber { .. } => 9,
            Call::Look { .. } => 10,
            Call::IdentifiersThrough { .. } => 11,
            Call::Send { .. } => 12,
            Call::SendText { .. } => 13,
            Call::Take { .. } => 14,
            Call::Done { .. } => 15,
            Call::Abort { .. } => 16,
            Call::PrintMessageRecord { .. } => 17,
            Call::PrintEventRecord { .. } => 18,
            Call::PrintMessage { .. } => 19,
        }
    }

    /// Bytes that the call reads: a text, a record, or a frame's data.
    pub fn input(&self) -> &[u8] {
        match self {
            Call::SendText { text } => text,
            Call::PrintMessageRecord { record, .. } | Call::PrintEventRecord { record, .. } => record,
            Call::Raise { frame, .. } => &frame.data,
            Call::Send { message } | Call::PrintMessage { message, .. } => &message.data,
            _ => &[],
        }
    }

    /// Bytes of the output buffer that the call is lent.
    pub fn room(&self) -> usize {
        match self {
            Call::ReadText { room }
            | Call::PrintMessageRecord { room, .. }
            | Call::PrintEventRecord { room, .. }
            | Call::PrintMessage { room, .. } => *room,
            Call::ReadRecord => EVENT_BYTES,
            Call::Take { .. } => MESSAGE_BYTES,
            _ => 0,
        }
    }
}

/// What one implementation is lent beside state and tables; the outer values of the two arrays are guards.
#[derive(Clone, Debug, PartialEq, Eq)]
pub struct Places {
    pub input: Lent,
    pub out: Lent,
    pub size: [usize; 3],
    pub number: [u32; 3],
}

/// How many bytes of each table are lent to a call.
#[derive(Clone, Copy, Debug)]
pub struct Lengths {
    pub queue: usize,
    pub send: usize,
}

pub fn is_refusal(number: u32) -> bool {
    (1..=14).contains(&number)
}
