//! The core of a CAN recorder: one device with one send buffer and one receive channel,
//! built over tables that the caller lends.
//!
//! This is a second implementation, written from the papers (01, the product paper, 02, the change
//! requests, and 002, the F&S CAN driver manual) for comparison with the proved core. Where 01 and
//! 002 differ, 01 decides; a request of 02 that has landed overrules 01. "01" in the comments names
//! a heading or words of that paper.
//!
//! Every call works for any field values, any table lengths and any numbers. A refused call
//! answers its refusal number and zero values and changes nothing.

#![forbid(unsafe_code)]

pub mod bench;
pub mod numbers;

mod changes;
mod device;
mod filter;
mod ids;
mod lines;
mod printing;
mod receiving;
mod records;
mod ring;
mod sending;
mod settings;
mod site;
mod text;

pub use device::{Device, ReceiveSide, SendSide, Shared};
pub use lines::{EVENT_ROOM, MESSAGE_ROOM};
pub use records::{Message, EVENT_BYTES, MESSAGE_BYTES};
pub use ring::Ring;
pub use settings::{Settings, LARGEST_QUEUE, LARGEST_SEND_BUFFER};
pub use site::Site;
