//! How often each call answered each number, and how often each deep state was met.

use crate::call::{KINDS, TOO_FEW_DATA};

const NUMBERS: [u32; 20] = [0, 1, 2, 3, 4, 5, 6, 7, TOO_FEW_DATA, 8, 9, 10, 11, 12, 13, 14, 100, 101, 102, 103];

/// What must be met beside the refusals.
#[derive(Clone, Copy)]
pub enum Deep {
    QueueFull,
    QueueWrapped,
    LargestQueueFull,
    BufferFull,
    BufferWrapped,
    LargestBufferFull,
    LostCountRead,
    PendingAtLimit,
    RegisterHeld,
    Purged,
    RaisedByTake,
    RaisedByDone,
    RaisedByAbort,
    RaisedByChange,
    StateLength,
    HeldAboveOne,
    StateNumbers,
    StateSite,
    ShortQueue,
    ShortSend,
    SumChecked,
    SiteSetWhileQueued,
    OffsetBelowZeroRead,
    OffsetDamaged,
}

const DEEP: [&str; 24] = [
    "event queue full",
    "event queue wrapped round",
    "queue of 1,638 full",
    "send buffer full",
    "send buffer wrapped round",
    "buffer of 1,024 full",
    "lost count above 0 read",
    "pending count stopped at its limit",
    "register held",
    "messages purged by abort",
    "event raised by take",
    "event raised by done",
    "event raised by abort",
    "event raised by a change",
    "state of a wrong length",
    "held above 1",
    "state numbers no device has",
    "state with a site out of range",
    "queue table too short",
    "send table too short",
    "sum over the tables checked",
    "site set while events are queued",
    "offset below zero read",
    "slot with an offset out of range",
];

#[derive(Default)]
pub struct Tally {
    answers: [[u64; NUMBERS.len()]; KINDS.len()],
    deep: [u64; DEEP.len()],
    pub sessions: u64,
    pub clean: u64,
}

impl Tally {
    pub fn answer(&mut self, kind: usize, number: u32) {
        let place = NUMBERS.iter().position(|listed| *listed == number);
        self.answers[kind][place.expect("a number of the table")] += 1;
    }

    pub fn deep(&mut self, met: Deep) {
        self.deep[met as usize] += 1;
    }

    pub fn calls(&self) -> u64 {
        self.answers.iter().flatten().sum()
    }

    /// What was listed and never met.
    pub fn missing(&self) -> Vec<String> {
        let mut missing = Vec::new();
        for ((name, listed), row) in KINDS.iter().zip(&self.answers) {
            for (number, count) in NUMBERS.iter().zip(row) {
                if *count == 0 && listed.contains(number) {
                    missing.push(format!("{name} never answered {}", heading(*number)));
                }
            }
        }
        for (name, count) in DEEP.iter().zip(&self.deep) {
            if *count == 0 {
                missing.push(format!("never met: {name}"));
            }
        }
        missing
    }

    pub fn print(&self) {
        print!("{:21}{:>9}", "call", "calls");
        NUMBERS.iter().for_each(|number| print!("{:>8}", heading(*number)));
        println!();
        for ((name, listed), row) in KINDS.iter().zip(&self.answers) {
            print!("{name:21}{:>9}", row.iter().sum::<u64>());
            for (number, count) in NUMBERS.iter().zip(row) {
                let shown = if listed.contains(number) { count.to_string() } else { ".".to_string() };
                print!("{shown:>8}");
            }
            println!();
        }
        println!("(7 is under three values, 7d too few data)");
        for (name, count) in DEEP.iter().zip(&self.deep) {
            println!("{name:37}{count:>9}");
        }
    }
}

fn heading(number: u32) -> String {
    if number == TOO_FEW_DATA {
        "7d".to_string()
    } else {
        number.to_string()
    }
}
