//! A session: one opening and what follows it, on both sides. In a clean one only the calls write state and tables.

use crate::call::{is_refusal, Call, Lengths, KINDS, TOO_FEW_DATA};
use crate::draw::Draw;
use crate::making;
use crate::mood::Mood;
use crate::sides::Sides;
use crate::sites;
use crate::state::{register_bytes, set_site, set_word, Kept, DATA_AT, HELD_AT, REGISTER_AT, STATE};
use crate::sum::{raised, Found, Sum};
use crate::tally::{Deep, Tally};
use crate::texts::values_before_end;
use independent::{Device, Settings, EVENT_BYTES, LARGEST_QUEUE, LARGEST_SEND_BUFFER, MESSAGE_BYTES};
use std::ops::Range;

pub struct Session<'run> {
    draw: &'run mut Draw,
    tally: &'run mut Tally,
    sides: Sides,
    full: Lengths,
    clean: bool,
    sum: Sum,
    stream: Vec<u8>,
}

impl<'run> Session<'run> {
    /// Runs one session; an error says what differs, at which call.
    pub fn run(draw: &'run mut Draw, tally: &'run mut Tally) -> Result<(), String> {
        let clean = draw.one_in(3);
        let given = making::settings(draw);
        let (slots, places) = (given.queue_capacity as usize, given.send_capacity as usize);
        let spare = |draw: &mut Draw| if draw.one_in(2) { 0 } else { draw.size_below(70) };
        let full = Lengths { queue: EVENT_BYTES * slots + spare(draw), send: MESSAGE_BYTES * places + spare(draw) };
        let sides = Sides::new(draw, full.queue, full.send);
        let stream = Vec::new();
        let mut session = Session { draw, tally, sides, full, clean, sum: Sum::default(), stream };
        session.tally.sessions += 1;
        session.tally.clean += u64::from(clean);
        session.open(&given)?;
        let most = (6 * (slots + places) + 200).min(12_000);
        let calls = 50 + session.draw.size_below(most);
        session.calls(calls)?;
        session.check_sum()
    }

    /// Bad openings first, which leave any bytes in the state.
    fn open(&mut self, given: &Settings) -> Result<(), String> {
        if !self.clean {
            let bad = making::bad_settings(self.draw);
            self.call(&Call::Open(bad), self.full)?;
            self.odd_lengths(&Call::Open(*given))?;
        }
        self.call(&Call::Open(*given), self.full)?;
        if !self.clean && self.draw.one_in(3) {
            self.plant();
        }
        Ok(())
    }

    fn calls(&mut self, count: usize) -> Result<(), String> {
        let mut mood = Mood::new(self.draw, &self.device());
        for place in 0..count {
            if mood.is_over(self.draw, &self.device()) {
                mood = Mood::new(self.draw, &self.device());
            }
            let call = mood.call(self.draw, &self.device(), &self.stream);
            self.step(&call)?;
            if place % 64 == 0 {
                self.check_sum()?;
            }
        }
        Ok(())
    }

    /// Between the steps the state is always a possible one.
    fn device(&self) -> Device {
        *self.sides.device().expect("a state")
    }

    /// One call, in a session that is not clean at times with something odd about it.
    fn step(&mut self, call: &Call) -> Result<(), String> {
        if self.clean {
            // Another opening would begin another sum.
            return if let Call::Open(_) = call { Ok(()) } else { self.call(call, self.full) };
        }
        match self.draw.below(80) {
            0 => self.damage_tables(),
            1 | 2 => return self.odd_state(call),
            3 => return self.odd_lengths(call),
            _ => {}
        }
        // A damaged slot would otherwise be met at every read or take from here on.
        if self.made(call, self.full)? == 14 && self.draw.one_in(3) {
            self.mend_oldest();
        }
        Ok(())
    }

    /// Where the oldest slots of both tables stand.
    fn oldest_slots(&self) -> (Range<usize>, Range<usize>) {
        let device = self.device();
        let event = EVENT_BYTES * device.receive.ring.first as usize;
        let message = MESSAGE_BYTES * device.send.ring.first as usize;
        (event..event + EVENT_BYTES, message..message + MESSAGE_BYTES)
    }

    /// Good records in both oldest slots.
    fn mend_oldest(&mut self) {
        let (event_at, message_at) = self.oldest_slots();
        let (event, message) = (making::event_record(self.draw), making::message_record(self.draw));
        self.sides.write_tables(|queue, send| {
            queue[event_at.clone()].copy_from_slice(&event);
            send[message_at.clone()].copy_from_slice(&message);
        });
    }

    /// Overwrites bytes of the slots in use, or anywhere.
    fn damage_tables(&mut self) {
        let (event_at, message_at) = self.oldest_slots();
        let seed = self.draw.next();
        self.sides.write_tables(|queue, send| {
            let mut draw = Draw::new(seed);
            match draw.below(3) {
                0 => sites::damage_offset(&mut draw, &mut queue[event_at.clone()]),
                1 => {
                    making::damage(&mut draw, &mut queue[event_at.clone()]);
                    making::damage(&mut draw, &mut send[message_at.clone()]);
                }
                _ => {
                    making::damage(&mut draw, queue);
                    making::damage(&mut draw, send);
                }
            }
        });
    }

    /// The call on a state with one or all numbers overwritten. A refused state is put back; another one stays, if
    /// its tables still fit.
    fn odd_state(&mut self, call: &Call) -> Result<(), String> {
        let before = self.sides.second.state.bytes();
        let mut bytes = before.clone();
        let met = self.overwrite_state(&mut bytes);
        self.sides.set_state(self.draw, &bytes);
        let number = self.made(call, self.full)?;
        if number == 2 {
            self.tally.deep(met);
        }
        if !self.is_usable() {
            self.sides.set_state(self.draw, &before);
        }
        Ok(())
    }

    /// Overwrites numbers of a state, which may still be good; answers what is met if they are refused.
    fn overwrite_state(&mut self, bytes: &mut [u8]) -> Deep {
        match self.draw.below(8) {
            0 => self.draw.fill(bytes),
            1 => {
                set_word(bytes, HELD_AT, 2 + self.draw.any_word() % 1_000_000);
                return Deep::HeldAboveOne;
            }
            2 => self.draw.fill(&mut bytes[REGISTER_AT..]),
            3 => {
                set_site(bytes, sites::bad_site(self.draw));
                return Deep::StateSite;
            }
            4 => set_site(bytes, sites::site(self.draw)),
            _ => {
                let place = 4 * self.draw.size_below(DATA_AT / 4);
                let word = if self.draw.one_in(2) { self.draw.any_word() } else { self.draw.word_below(9) };
                set_word(bytes, place, word);
            }
        }
        Deep::StateNumbers
    }

    /// Whether the state is one that the whole tables fit, asked of the second implementation itself.
    fn is_usable(&self) -> bool {
        let Some(device) = self.sides.device() else {
            return false;
        };
        let mut asked = *device;
        let number = asked.take(0, self.sides.second.send.part(), &mut self.sides.second.queue.part().to_vec()).0;
        number != 2
    }

    /// The call with a state of a wrong length or with a table that is too short, or only just long enough.
    fn odd_lengths(&mut self, call: &Call) -> Result<(), String> {
        let before = self.sides.second.state.bytes();
        let mut lengths = self.full;
        let met = match self.draw.below(3) {
            0 => {
                let length = self.draw.pick(&[0, 1, 64, 88, 99, 101, 112, 200]);
                let bytes: Vec<u8> = before.iter().copied().cycle().take(length).collect();
                self.sides.set_state(self.draw, &bytes);
                Deep::StateLength
            }
            1 => {
                lengths.queue = shorter(self.draw, self.full.queue, EVENT_BYTES);
                Deep::ShortQueue
            }
            _ => {
                lengths.send = shorter(self.draw, self.full.send, MESSAGE_BYTES);
                Deep::ShortSend
            }
        };
        if self.made(call, lengths)? == 2 {
            self.tally.deep(met);
        }
        if self.sides.second.state.bytes().len() != STATE {
            self.sides.set_state(self.draw, &before);
        }
        Ok(())
    }

    /// A state far along: rings anywhere, a register, a pending count near its limit, tables of good records.
    fn plant(&mut self) {
        let mut kept = Kept::with_empty_register(self.device());
        let device = &mut kept.device;
        for ring in [&mut device.receive.ring, &mut device.send.ring] {
            ring.first = self.draw.word_below(ring.capacity);
            let short = if self.draw.one_in(2) { 0 } else { self.draw.word_below(ring.capacity + 1) };
            ring.count = ring.capacity - short;
        }
        device.receive.pending = self.draw.pick(&[0, 1, u32::MAX - 2, u32::MAX - 1, u32::MAX]);
        let held = making::kept_frame(self.draw);
        device.send.register = self.draw.one_in(2).then_some(held);
        kept.leftover = register_bytes(&held);
        let bytes = kept.bytes();
        self.sides.set_state(self.draw, &bytes);
        let seed = self.draw.next();
        self.sides.write_tables(|queue, send| {
            let mut draw = Draw::new(seed);
            for slot in queue.chunks_exact_mut(EVENT_BYTES) {
                slot.copy_from_slice(&making::event_record(&mut draw));
            }
            for slot in send.chunks_exact_mut(MESSAGE_BYTES) {
                slot.copy_from_slice(&making::message_record(&mut draw));
            }
        });
    }

    fn call(&mut self, call: &Call, lengths: Lengths) -> Result<(), String> {
        let number = self.made(call, lengths)?;
        let possible = !(self.clean && (number == 2 || number == 14 && call.kind() < 17));
        if possible {
            return Ok(());
        }
        Err(format!("call {call:?}\n  refused {number}, though only the calls wrote state and tables"))
    }

    /// The call on both sides, compared and counted.
    fn made(&mut self, call: &Call, lengths: Lengths) -> Result<u32, String> {
        let found = self.sides.device().copied();
        let clean_found = match (self.clean, &call, found) {
            (true, Call::Open(_), _) | (false, _, _) | (_, _, None) => None,
            (true, _, Some(device)) => Some(Found::before(&device, self.sides.second.queue.part())),
        };
        let number = self.sides.call(self.draw, call, lengths).map_err(|told| format!("call {call:?}\n{told}"))?;
        if !KINDS[call.kind()].1.contains(&number) {
            return Err(format!("call {call:?}\n  answered {number}, which is not among its numbers"));
        }
        if let Some(found) = clean_found {
            self.sum.after(call, number, &found, &self.device());
        }
        self.keep_stream(call, number);
        self.count(call, number, found);
        Ok(number)
    }

    /// The rest of a text is handed on to the next text send.
    fn keep_stream(&mut self, call: &Call, number: u32) {
        let Call::SendText { text } = call else {
            return;
        };
        let line = text.iter().position(|byte| matches!(byte, b'\r' | b'\n' | 0)).unwrap_or(text.len());
        let ends = text[line..].iter().take_while(|byte| matches!(byte, b'\r' | b'\n' | 0)).count();
        let used = if matches!(number, 2 | 5 | 6) { text.len() } else { line + ends };
        self.stream = text[used..].to_vec();
    }

    fn check_sum(&mut self) -> Result<(), String> {
        if !self.clean {
            return Ok(());
        }
        self.tally.deep(Deep::SumChecked);
        match self.sum.wrong(&self.device(), self.sides.second.queue.part()) {
            None => Ok(()),
            Some(told) => Err(format!("the sum does not hold: {told}")),
        }
    }

    fn count(&mut self, call: &Call, number: u32, was: Option<Device>) {
        let counted = match call {
            Call::SendText { text } if number == 7 && values_before_end(text) >= 3 => TOO_FEW_DATA,
            _ => number,
        };
        self.tally.answer(call.kind(), counted);
        let (Some(was), Some(now)) = (was, self.sides.device().copied()) else {
            return;
        };
        if is_refusal(number) {
            self.count_damage(call, number, &was);
            return;
        }
        self.count_rings(&now);
        self.count_call(call, number, &was, &now);
    }

    fn count_rings(&mut self, now: &Device) {
        let (queue, buffer) = (now.receive.ring, now.send.ring);
        let states = [
            (queue.count == queue.capacity, Deep::QueueFull),
            (queue.first + queue.count > queue.capacity, Deep::QueueWrapped),
            (queue.count == LARGEST_QUEUE, Deep::LargestQueueFull),
            (buffer.count == buffer.capacity, Deep::BufferFull),
            (buffer.first + buffer.count > buffer.capacity, Deep::BufferWrapped),
            (buffer.count == LARGEST_SEND_BUFFER, Deep::LargestBufferFull),
            (now.send.register.is_some(), Deep::RegisterHeld),
        ];
        states.iter().filter(|(met, _)| *met).for_each(|(_, deep)| self.tally.deep(*deep));
    }

    fn count_call(&mut self, call: &Call, number: u32, was: &Device, now: &Device) {
        let limit = was.receive.pending == u32::MAX && now.receive.pending == u32::MAX;
        let deep = match call {
            Call::Raise { .. } if number == 103 && limit => Deep::PendingAtLimit,
            Call::ReadRecord | Call::ReadText { .. } if self.read_lost(was) > 0 => Deep::LostCountRead,
            Call::ReadRecord | Call::ReadText { .. } if sites::minutes_in(self.read_slot(was)) < 0 => {
                Deep::OffsetBelowZeroRead
            }
            Call::SetSite(_) if was.receive.ring.count > 0 => Deep::SiteSetWhileQueued,
            Call::Abort { .. } if was.send.ring.count > 0 => Deep::Purged,
            Call::Abort { .. } if was.send.register.is_some() => Deep::RaisedByAbort,
            Call::Take { .. } if raised(call, was, now).is_some() => Deep::RaisedByTake,
            Call::Done { .. } if raised(call, was, now).is_some() => Deep::RaisedByDone,
            Call::SetMode { .. } | Call::SetFormat { .. } => Deep::RaisedByChange,
            _ => return,
        };
        self.tally.deep(deep);
    }

    /// A slot that is refused, at least, for its offset.
    fn count_damage(&mut self, call: &Call, number: u32, was: &Device) {
        let is_read = matches!(call, Call::ReadRecord | Call::ReadText { .. });
        if number == 14 && is_read && sites::offset_is_bad(self.read_slot(was)) {
            self.tally.deep(Deep::OffsetDamaged);
        }
    }

    /// The slot that a read took, or refused.
    fn read_slot(&self, was: &Device) -> &[u8] {
        let slot = EVENT_BYTES * was.receive.ring.first as usize;
        &self.sides.second.queue.part()[slot..slot + EVENT_BYTES]
    }

    fn read_lost(&self, was: &Device) -> u32 {
        crate::state::word_at(self.read_slot(was), 12)
    }
}

/// A table length below the full one: by a byte, by a slot, or any.
fn shorter(draw: &mut Draw, full: usize, slot: usize) -> usize {
    match draw.below(4) {
        0 => full - full % slot,
        1 => full / slot * slot - 1,
        2 => full / slot * slot - slot,
        _ => draw.size_below(full),
    }
}
