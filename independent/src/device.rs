//! The device's state, what states are possible, and opening.

use crate::filter::Filter;
use crate::numbers::{answer, refuse_if, Outcome, IMPOSSIBLE_STATE, SETTING_OUT_OF_RANGE};
use crate::records::{Message, EVENT_BYTES, MESSAGE_BYTES};
use crate::ring::Ring;
use crate::settings::{default_format, Settings};
use crate::site::Site;

/// One CAN device with one send buffer and one receive channel.
/// The fields are plain, so a caller may build states that no channel can have: refusal 2.
#[derive(Clone, Copy, Debug, Default, PartialEq, Eq)]
pub struct Device {
    pub shared: Shared,
    pub receive: ReceiveSide,
    pub send: SendSide,
}

/// What both sides go by.
#[derive(Clone, Copy, Debug, Default, PartialEq, Eq)]
pub struct Shared {
    pub mode: u32,
    pub format: u32,
    pub align: u32,
    pub site: Site,
}

/// The receive channel: filter, event mask, event queue and the pending lost count.
#[derive(Clone, Copy, Debug, Default, PartialEq, Eq)]
pub struct ReceiveSide {
    pub mask_active: u32,
    pub code: u32,
    pub mask: u32,
    pub event_mask: u32,
    pub ring: Ring,
    pub pending: u32,
}

/// The send buffer and the one transmit register.
#[derive(Clone, Copy, Debug, Default, PartialEq, Eq)]
pub struct SendSide {
    pub tx_mode: u32,
    pub ring: Ring,
    pub register: Option<Message>,
}

impl Device {
    /// Opens a device: refusal 1, then 2. A refused opening answers an all-zero device.
    pub fn open(settings: &Settings, queue_table: &[u8], send_table: &[u8]) -> (u32, Device) {
        answer(Device::try_open(settings, queue_table, send_table))
    }

    fn try_open(settings: &Settings, queue_table: &[u8], send_table: &[u8]) -> Outcome<Device> {
        refuse_if(!settings.in_range(), SETTING_OUT_OF_RANGE)?;
        let device = Device::fresh(settings);
        device.judge_queue_table(queue_table)?;
        device.judge_send_table(send_table)?;
        Ok(device)
    }

    /// Both rings start empty, first and pending 0, register empty.
    fn fresh(settings: &Settings) -> Device {
        Device {
            shared: Shared {
                mode: settings.mode,
                format: settings.format,
                align: settings.align,
                site: settings.site,
            },
            receive: ReceiveSide {
                mask_active: settings.mask_active,
                code: settings.code,
                mask: settings.mask,
                event_mask: settings.event_mask,
                ring: Ring::empty(settings.queue_capacity),
                pending: 0,
            },
            send: SendSide {
                tx_mode: settings.tx_mode,
                ring: Ring::empty(settings.send_capacity),
                register: None,
            },
        }
    }

    /// The settings gathered again, so that refusals 1 and 2 go by the same ranges.
    pub(crate) fn settings(&self) -> Settings {
        Settings {
            mode: self.shared.mode,
            format: self.shared.format,
            align: self.shared.align,
            mask_active: self.receive.mask_active,
            code: self.receive.code,
            mask: self.receive.mask,
            event_mask: self.receive.event_mask,
            queue_capacity: self.receive.ring.capacity,
            tx_mode: self.send.tx_mode,
            send_capacity: self.send.ring.capacity,
            site: self.shared.site,
        }
    }

    /// Refusal 2 for a call that is lent no table. The present mode doesn't matter to the register.
    pub(crate) fn judge(&self) -> Outcome<()> {
        let possible = self.settings().in_range()
            && self.receive.ring.is_possible()
            && self.send.ring.is_possible()
            && self.send.register.is_none_or(|held| held.is_good());
        refuse_if(!possible, IMPOSSIBLE_STATE)
    }

    /// Refusal 2 for a call that is lent the queue table.
    pub(crate) fn judge_queue_table(&self, queue_table: &[u8]) -> Outcome<()> {
        self.judge()?;
        let fits = self.receive.ring.fits(queue_table, EVENT_BYTES);
        refuse_if(!fits, IMPOSSIBLE_STATE)
    }

    /// Refusal 2 for a call that is lent the send table.
    pub(crate) fn judge_send_table(&self, send_table: &[u8]) -> Outcome<()> {
        self.judge()?;
        let fits = self.send.ring.fits(send_table, MESSAGE_BYTES);
        refuse_if(!fits, IMPOSSIBLE_STATE)
    }

    /// Never 0: the format that text and format 0 of a binary send mean.
    pub(crate) fn default_format(&self) -> u32 {
        default_format(self.shared.mode, self.shared.format)
    }

    pub(crate) fn filter(&self) -> Filter {
        Filter {
            align: self.shared.align,
            mask_active: self.receive.mask_active,
            code: self.receive.code,
            mask: self.receive.mask,
        }
    }
}
