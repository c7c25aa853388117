//! The send buffer and its transmit register (01, "Sending").

use crate::device::Device;
use crate::ids::{raw_from_aligned, EXTENDED};
use crate::numbers::{
    answer, number_of, refuse_if, Outcome, BAD_FORMAT, BAD_IDENTIFIER, DAMAGED, FULL_OR_OCCUPIED,
    NOTHING_THERE, NO_END, SUCCESS,
};
use crate::records::{Message, MESSAGE_BYTES};
use crate::text::scan;

const TRANSMITTED: u32 = 2;
const ABORTED: u32 = 3;

/// TxMode bit 1: a transmitted event is raised. Bit 2: at done instead of at take.
const RAISES_TRANSMITTED: u32 = 1 << 1;
const AT_DONE: u32 = 1 << 2;

impl Device {
    /// Sends a message given as binary, format 0 meaning the default: refusals 2, 13, 8, 9, 10, 5.
    pub fn send(
        &mut self,
        format: u32,
        aligned_id: u32,
        rtr: u32,
        dlc: u32,
        data: [u8; 8],
        send_table: &mut [u8],
    ) -> u32 {
        let judged = self
            .judge_send_table(send_table)
            .and_then(|()| self.message_from_binary(format, aligned_id, rtr, dlc, data));
        number_of(judged.and_then(|message| self.store(&message, send_table)))
    }

    fn message_from_binary(
        &self,
        format: u32,
        aligned_id: u32,
        rtr: u32,
        dlc: u32,
        data: [u8; 8],
    ) -> Outcome<Message> {
        let format = self.format_to_send(format)?;
        let id = raw_from_aligned(self.shared.align, format, aligned_id).ok_or(BAD_IDENTIFIER)?;
        let message = Message {
            id,
            format,
            rtr,
            dlc,
            data,
        };
        message.judge()?;
        Ok(message.stored())
    }

    fn format_to_send(&self, format: u32) -> Outcome<u32> {
        let extended_in_mode_0 = self.shared.mode == 0 && format == EXTENDED;
        refuse_if(format > 2 || extended_in_mode_0, BAD_FORMAT)?;
        Ok(if format == 0 {
            self.default_format()
        } else {
            format
        })
    }

    /// Sends a message given as text: its number and the bytes used,
    /// with refusals 2, 6, 7, 8, 9, 10, 7, 11, 12, 5.
    pub fn send_text(&mut self, text: &[u8], send_table: &mut [u8]) -> (u32, usize) {
        if let Err(number) = self.judge_send_table(send_table) {
            return (number, 0);
        }
        let Some(scanned) = scan(text) else {
            return (NO_END, 0);
        };
        match scanned.message(self.shared.align, self.default_format()) {
            // A refused text is used through its run of ends all the same.
            Err(number) => (number, scanned.used),
            Ok(message) => match self.store(&message, send_table) {
                Ok(()) => (SUCCESS, scanned.used),
                // Nothing is used of a good text that finds no room, so that it can be sent again.
                Err(number) => (number, 0),
            },
        }
    }

    /// Only the next slot's bytes change.
    fn store(&mut self, message: &Message, send_table: &mut [u8]) -> Outcome<()> {
        refuse_if(!self.send.ring.has_room(), FULL_OR_OCCUPIED)?;
        let slot = self.send.ring.next_slot(MESSAGE_BYTES);
        send_table[slot].copy_from_slice(&message.to_bytes());
        self.send.ring.add_newest();
        Ok(())
    }

    /// Moves the oldest message to the register: 0 and its 16 bytes, or refusals 2, 5, 4, 14.
    pub fn take(
        &mut self,
        tick: u32,
        send_table: &[u8],
        queue_table: &mut [u8],
    ) -> (u32, [u8; MESSAGE_BYTES]) {
        answer(self.try_take(tick, send_table, queue_table))
    }

    fn try_take(
        &mut self,
        tick: u32,
        send_table: &[u8],
        queue_table: &mut [u8],
    ) -> Outcome<[u8; MESSAGE_BYTES]> {
        self.judge_send_table(send_table)?;
        self.judge_queue_table(queue_table)?;
        refuse_if(self.send.register.is_some(), FULL_OR_OCCUPIED)?;
        refuse_if(self.send.ring.count == 0, NOTHING_THERE)?;
        let slot = self.send.ring.oldest_slot(MESSAGE_BYTES);
        let message = Message::from_bytes(&send_table[slot]).ok_or(DAMAGED)?;
        self.send.ring.remove_oldest();
        self.send.register = Some(message);
        if self.send.tx_mode & RAISES_TRANSMITTED != 0 && self.send.tx_mode & AT_DONE == 0 {
            self.meet_filter_mask_and_queue(TRANSMITTED, tick, Some(message), queue_table);
        }
        Ok(message.to_bytes())
    }

    /// Empties the register, its message being transmitted: refusals 2, 4.
    pub fn done(&mut self, tick: u32, queue_table: &mut [u8]) -> u32 {
        number_of(self.try_done(tick, queue_table))
    }

    fn try_done(&mut self, tick: u32, queue_table: &mut [u8]) -> Outcome<()> {
        self.judge_queue_table(queue_table)?;
        let message = self.send.register.ok_or(NOTHING_THERE)?;
        self.send.register = None;
        if self.send.tx_mode & RAISES_TRANSMITTED != 0 && self.send.tx_mode & AT_DONE != 0 {
            self.meet_filter_mask_and_queue(TRANSMITTED, tick, Some(message), queue_table);
        }
        Ok(())
    }

    /// Empties the register and purges the buffer: 0 and how many were purged, or refusal 2.
    pub fn abort(&mut self, tick: u32, queue_table: &mut [u8]) -> (u32, u32) {
        answer(self.try_abort(tick, queue_table))
    }

    fn try_abort(&mut self, tick: u32, queue_table: &mut [u8]) -> Outcome<u32> {
        self.judge_queue_table(queue_table)?;
        // Whatever TxMode says: it governs transmitted events only.
        if let Some(message) = self.send.register.take() {
            self.meet_filter_mask_and_queue(ABORTED, tick, Some(message), queue_table);
        }
        // Purged messages raise nothing, and the register's own is not one of them.
        let purged = self.send.ring.count;
        self.send.ring.count = 0;
        Ok(purged)
    }
}
