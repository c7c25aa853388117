//! Both implementations, each with state and tables of its own: one call on both, and every byte compared.

use crate::call::{is_refusal, Call, Lengths, Places};
use crate::draw::Draw;
use crate::lent::Lent;
use crate::state::{State, STATE};
use crate::{board, second};
use independent::Device;

/// The proved recorder's state and tables.
pub struct Board {
    pub state: Lent,
    pub queue: Lent,
    pub send: Lent,
}

/// The second implementation's.
pub struct Second {
    pub state: State,
    pub queue: Lent,
    pub send: Lent,
}

pub struct Sides {
    pub board: Board,
    pub second: Second,
    /// The tables as the last call left them: a refused call must leave them so.
    queue_before: Lent,
    send_before: Lent,
}

/// What one call answered on both sides.
struct Answers {
    board: (u32, Places),
    second: (u32, Places),
    lent: Places,
    state_before: Lent,
}

impl Sides {
    /// Two tables and a state of any bytes, the same on both sides.
    pub fn new(draw: &mut Draw, queue_length: usize, send_length: usize) -> Sides {
        let state = Lent::new(&draw.bytes(STATE), draw.size_below(16));
        let queue = Lent::new(&draw.bytes(queue_length), draw.size_below(16));
        let send = Lent::new(&draw.bytes(send_length), draw.size_below(16));
        let second = Second { state: State::from_bytes(state.part()), queue: queue.clone(), send: send.clone() };
        let (queue_before, send_before) = (queue.clone(), send.clone());
        let board = Board { state, queue, send };
        Sides { board, second, queue_before, send_before }
    }

    pub fn device(&self) -> Option<&Device> {
        self.second.state.device()
    }

    /// Gives both sides another state.
    pub fn set_state(&mut self, draw: &mut Draw, bytes: &[u8]) {
        self.board.state = Lent::new(bytes, draw.size_below(16));
        self.second.state = State::from_bytes(bytes);
    }

    /// Writes the same bytes into both sides' tables, as a caller may.
    pub fn write_tables(&mut self, write: impl Fn(&mut [u8], &mut [u8])) {
        write(self.board.queue.part_mut(), self.board.send.part_mut());
        write(self.second.queue.part_mut(), self.second.send.part_mut());
        self.queue_before.clone_from(&self.board.queue);
        self.send_before.clone_from(&self.board.send);
    }

    /// Makes one call on both sides and answers its number, or what differs.
    pub fn call(&mut self, draw: &mut Draw, call: &Call, lengths: Lengths) -> Result<u32, String> {
        let lent = places(draw, call);
        let answers = Answers {
            state_before: self.board.state.clone(),
            board: self.call_board(call, lengths, lent.clone()),
            second: self.call_second(call, lengths, lent.clone()),
            lent,
        };
        let faults = self.faults(call, &answers);
        if faults.is_empty() {
            self.queue_before.clone_from(&self.board.queue);
            self.send_before.clone_from(&self.board.send);
            return Ok(answers.board.0);
        }
        Err(describe(&answers, &faults))
    }

    fn call_board(&mut self, call: &Call, lengths: Lengths, mut lent: Places) -> (u32, Places) {
        let Board { state, queue, send } = &mut self.board;
        let queue = &mut queue.part_mut()[..lengths.queue];
        let send = &mut send.part_mut()[..lengths.send];
        let number = board::call(call, state.part_mut(), queue, send, &mut lent);
        (number, lent)
    }

    fn call_second(&mut self, call: &Call, lengths: Lengths, mut lent: Places) -> (u32, Places) {
        let Second { state, queue, send } = &mut self.second;
        let queue = &mut queue.part_mut()[..lengths.queue];
        let send = &mut send.part_mut()[..lengths.send];
        let number = second::call(call, state, queue, send, &mut lent);
        (number, lent)
    }

    fn faults(&self, call: &Call, answers: &Answers) -> Vec<String> {
        let mut faults = self.differences(answers);
        let (number, places) = &answers.board;
        let all = [&self.board.state, &self.board.queue, &self.board.send, &places.out, &places.input];
        if !all.iter().all(|lent| lent.guards_hold()) {
            faults.push("the board wrote outside what it was lent".to_string());
        }
        if is_refusal(*number) && !self.untouched(call, answers) {
            faults.push("the board's refused call changed something".to_string());
        }
        faults
    }

    fn differences(&self, answers: &Answers) -> Vec<String> {
        let (number, ours) = &answers.board;
        let (expected, theirs) = &answers.second;
        let mut faults = Vec::new();
        if number != expected {
            faults.push(format!("number: board {number}, independent {expected}"));
        }
        if ours.size != theirs.size || ours.number != theirs.number {
            faults.push("value".to_string());
        }
        let state = self.second.state.bytes();
        if self.board.state.part() != state {
            faults.push(format!("state: board {:?}, independent {state:?}", self.board.state.part()));
        }
        let pairs = [
            ("queue table", &self.board.queue, &self.second.queue),
            ("send table", &self.board.send, &self.second.send),
            ("output", &ours.out, &theirs.out),
            ("input", &ours.input, &theirs.input),
        ];
        for (name, board, second) in pairs {
            faults.extend(board.difference(second).map(|place| format!("{name}, {place}")));
        }
        faults
    }

    /// Beside a refusal all stays but the bytes used of a text, which are always answered.
    fn untouched(&self, call: &Call, answers: &Answers) -> bool {
        let mut left = answers.board.1.clone();
        if let Call::SendText { .. } = call {
            left.size[1] = answers.lent.size[1];
        }
        left == answers.lent
            && self.board.state == answers.state_before
            && self.board.queue == self.queue_before
            && self.board.send == self.send_before
    }
}

/// Any bytes stand in the places beforehand.
fn places(draw: &mut Draw, call: &Call) -> Places {
    let [a, b, c] = [draw.next(), draw.next(), draw.next()];
    Places {
        input: Lent::new(call.input(), draw.size_below(16)),
        out: Lent::new(&draw.bytes(call.room()), draw.size_below(16)),
        size: [a as usize, b as usize, c as usize],
        number: [a as u32, b as u32, c as u32],
    }
}

fn describe(answers: &Answers, faults: &[String]) -> String {
    let show = |(number, places): &(u32, Places)| {
        let Places { size, number: word, out, .. } = places;
        format!("number {number}, size {}, word {}, output {:02X?}", size[1], word[1], out.part())
    };
    format!(
        "  board:       {}\n  independent: {}\n  state before: {:?}\n  faults: {}",
        show(&answers.board),
        show(&answers.second),
        answers.state_before.part(),
        faults.join("; ")
    )
}
