//! The second implementation's device as the 100 bytes that include/salmevidro.h describes.

use independent::{Device, Message, ReceiveSide, Ring, SendSide, Shared, Site};

pub const STATE: usize = 100;
const SITE_AT: usize = 12;
pub const HELD_AT: usize = 72;
pub const REGISTER_AT: usize = 76;
pub const DATA_AT: usize = 92;
/// Where the queue's and the send buffer's `first` stand; `count` is behind it.
const QUEUE_FIRST_AT: usize = 44;
const BUFFER_FIRST_AT: usize = 64;

/// A device, and what stands in the place of a register that holds nothing.
#[derive(Clone, Debug)]
pub struct Kept {
    pub device: Device,
    pub leftover: [u8; STATE - REGISTER_AT],
}

/// What a call is lent as its state.
#[derive(Clone, Debug)]
pub enum State {
    Kept(Kept),
    /// A wrong length, or held above 1.
    NoState(Vec<u8>),
}

pub fn word_at(bytes: &[u8], at: usize) -> u32 {
    u32::from_le_bytes([bytes[at], bytes[at + 1], bytes[at + 2], bytes[at + 3]])
}

pub fn set_word(bytes: &mut [u8], at: usize, word: u32) {
    bytes[at..at + 4].copy_from_slice(&word.to_le_bytes());
}

/// First and count of both rings, stored over a state as they are between two measured calls.
pub fn set_rings(bytes: &mut [u8], queue: (u32, u32), send: (u32, u32)) {
    for (at, (first, count)) in [(QUEUE_FIRST_AT, queue), (BUFFER_FIRST_AT, send)] {
        set_word(bytes, at, first);
        set_word(bytes, at + 4, count);
    }
}

/// A site as a state keeps it and as opening is given it: offset, low half and high half of the second.
pub fn site_words(site: Site) -> [u32; 3] {
    [site.offset, site.second as u32, (site.second >> 32) as u32]
}

pub fn set_site(bytes: &mut [u8], site: Site) {
    for (place, word) in site_words(site).iter().enumerate() {
        set_word(bytes, SITE_AT + 4 * place, *word);
    }
}

impl State {
    pub fn from_bytes(bytes: &[u8]) -> State {
        if bytes.len() != STATE || word_at(bytes, HELD_AT) > 1 {
            return State::NoState(bytes.to_vec());
        }
        let mut leftover = [0; STATE - REGISTER_AT];
        leftover.copy_from_slice(&bytes[REGISTER_AT..]);
        let device = device_in(bytes);
        State::Kept(Kept { device, leftover })
    }

    pub fn bytes(&self) -> Vec<u8> {
        match self {
            State::Kept(kept) => kept.bytes().to_vec(),
            State::NoState(bytes) => bytes.clone(),
        }
    }

    pub fn device(&self) -> Option<&Device> {
        match self {
            State::Kept(kept) => Some(&kept.device),
            State::NoState(_) => None,
        }
    }
}

impl Kept {
    /// A device whose empty register is zeros, as opening, done and abort leave it.
    pub fn with_empty_register(device: Device) -> Kept {
        let leftover = [0; STATE - REGISTER_AT];
        Kept { device, leftover }
    }

    pub fn bytes(&self) -> [u8; STATE] {
        let (shared, receive, send) = (self.device.shared, self.device.receive, self.device.send);
        let [offset, second_low, second_high] = site_words(shared.site);
        let numbers = [
            shared.mode,
            shared.format,
            shared.align,
            offset,
            second_low,
            second_high,
            receive.mask_active,
            receive.code,
            receive.mask,
            receive.event_mask,
            receive.ring.capacity,
            receive.ring.first,
            receive.ring.count,
            receive.pending,
            send.tx_mode,
            send.ring.capacity,
            send.ring.first,
            send.ring.count,
            u32::from(send.register.is_some()),
        ];
        let mut bytes = [0; STATE];
        for (place, number) in numbers.iter().enumerate() {
            set_word(&mut bytes, 4 * place, *number);
        }
        let register = send.register.map_or(self.leftover, |held| register_bytes(&held));
        bytes[REGISTER_AT..].copy_from_slice(&register);
        bytes
    }
}

/// A message as the register keeps it.
pub fn register_bytes(held: &Message) -> [u8; STATE - REGISTER_AT] {
    let mut bytes = [0; STATE - REGISTER_AT];
    for (place, number) in [held.id, held.format, held.rtr, held.dlc].iter().enumerate() {
        set_word(&mut bytes, 4 * place, *number);
    }
    bytes[DATA_AT - REGISTER_AT..].copy_from_slice(&held.data);
    bytes
}

fn device_in(bytes: &[u8]) -> Device {
    let number = |place: usize| word_at(bytes, 4 * place);
    let ring = |place: usize| Ring { capacity: number(place), first: number(place + 1), count: number(place + 2) };
    let site = Site { offset: number(3), second: u64::from(number(4)) + (u64::from(number(5)) << 32) };
    Device {
        shared: Shared { mode: number(0), format: number(1), align: number(2), site },
        receive: ReceiveSide {
            mask_active: number(6),
            code: number(7),
            mask: number(8),
            event_mask: number(9),
            ring: ring(10),
            pending: number(13),
        },
        send: SendSide { tx_mode: number(14), ring: ring(15), register: (number(18) == 1).then(|| register_in(bytes)) },
    }
}

fn register_in(bytes: &[u8]) -> Message {
    let mut data = [0; 8];
    data.copy_from_slice(&bytes[DATA_AT..]);
    let [id, format, rtr, dlc] = [0, 1, 2, 3].map(|place| word_at(bytes, REGISTER_AT + 4 * place));
    Message { id, format, rtr, dlc, data }
}
