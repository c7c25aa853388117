//! Drives the proved recorder and the second implementation with the same calls and compares every byte; measures both.
//!
//!     compare calls CALLS SEED                  random calls, every public call with every refusal
//!     compare bench INPUTS SEED BENCH STORED..  stored and random inputs of the bench program; BENCH is the proved one
//!     compare speed ROUNDS BENCH SECOND         nanoseconds a call, and both bench programs
//!     compare count                             instructions a call; valgrind runs `compare turn PLACE SIDE` for it
//!
//! The exit status is 1 if anything differs or something listed was never met.

mod bench;
mod board;
mod call;
mod count;
mod draw;
mod lent;
mod making;
mod measured;
mod mood;
mod second;
mod session;
mod sides;
mod sites;
mod speed;
mod state;
mod sum;
mod tally;
mod texts;

use draw::Draw;
use session::Session;
use std::process::exit;
use tally::Tally;

fn main() {
    let arguments: Vec<String> = std::env::args().skip(1).collect();
    let arguments: Vec<&str> = arguments.iter().map(String::as_str).collect();
    match arguments.as_slice() {
        ["calls", calls, seed] => compare_calls(number(calls), number(seed)),
        ["bench", inputs, seed, program, stored @ ..] => bench::compare(number(inputs), number(seed), program, stored),
        ["speed", rounds, program, second] => speed::table(number(rounds) as usize, program, second),
        ["count"] => count::table(),
        ["turn", place, side] => count::turn(number(place) as usize, number(side) as usize),
        _ => fail(
            "usage: compare calls CALLS SEED | bench INPUTS SEED BENCH STORED.. | speed ROUNDS BENCH SECOND | count",
        ),
    }
}

fn number(text: &str) -> u64 {
    text.parse().unwrap_or_else(|_| fail(&format!("compare: {text} is not a number")))
}

fn fail(told: &str) -> ! {
    println!("{told}");
    exit(1)
}

/// Sessions until the calls are made; each has a seed of its own, so a difference can be met again alone.
fn compare_calls(calls: u64, seed: u64) {
    let mut tally = Tally::default();
    while tally.calls() < calls {
        let session = tally.sessions;
        let mut draw = Draw::new(seed.wrapping_add(session.wrapping_mul(0x9E37_79B9)));
        if let Err(told) = Session::run(&mut draw, &mut tally) {
            let call = tally.calls() + 1;
            fail(&format!("different: seed {seed}, session {session}, call number {call}\n  {told}"));
        }
    }
    tally.print();
    let missing = tally.missing();
    if !missing.is_empty() {
        fail(&format!("compare: the run is too short\n{}", missing.join("\n")));
    }
    let (calls, sessions, clean) = (tally.calls(), tally.sessions, tally.clean);
    println!("compare: {calls} calls in {sessions} sessions ({clean} of them clean) from seed {seed}, no difference");
}
