//! Instructions a call, counted by valgrind's callgrind inside the called function and all that it calls.

use crate::measured::{Beds, Row, CALLS, MIXED, RAISE, RAISE_STRICT};
use crate::{fail, number};
use std::env;
use std::process::Command;

/// What is counted: its name, the function, and the row that calls it.
const COUNTED: [(&str, &str, Row); 12] = [
    ("raise, open filter", "raise", RAISE),
    ("raise, strict filter", "raise", RAISE_STRICT),
    ("raise of code 9", "raise", Row::Raise { code: 9, strict: false, full: false }),
    ("raise, lost", "raise", Row::Raise { code: 1, strict: false, full: true }),
    ("read_record", "read_record", Row::ReadRecord),
    ("read_text", "read_text", Row::ReadText),
    ("send_text", "send_text", Row::SendText),
    ("take", "take", Row::TakeDone),
    ("done", "done", Row::TakeDone),
    ("print_message_record", "print_message_record", Row::PrintMessageRecord),
    ("print_event_record", "print_event_record", Row::PrintEventRecord { codes: &[1] }),
    ("print event, code 9", "print_event_record", Row::PrintEventRecord { codes: &[9] }),
];
/// What stands before a function's name on each side.
const SIDES: [&str; 2] = ["sv_", "compare::measured::plain::"];

/// Prints the whole table.
pub fn table() {
    println!("{:22}{:>8}{:>13}", "call", "board", "plain Rust");
    for (place, (name, function, _)) in COUNTED.iter().enumerate() {
        let [ours, theirs] = [0, 1].map(|side| one_call(instructions(place, side, function)));
        println!("{name:22}{ours:>8}{theirs:>13}");
    }
}

/// Marks a mean, where not every call takes the same number.
fn one_call(total: u64) -> String {
    let (each, rest) = (total / u64::from(CALLS), total % u64::from(CALLS));
    let mark = if rest == 0 { "" } else { "~" };
    format!("{mark}{each}")
}

/// One side's turn, which runs under callgrind; the same text at every call, so that one call is counted and no mean.
pub fn turn(place: usize, side: usize) {
    let (_, _, row) = COUNTED[place];
    let eight_bytes = [MIXED[1]; 4];
    Beds::new(row, eight_bytes, 200, 200).turns()[side]();
}

/// Instructions of all calls of the function, in a turn that another process makes.
fn instructions(place: usize, side: usize, function: &str) -> u64 {
    let program = env::current_exe().expect("this program's path");
    let made = Command::new("valgrind")
        .args(["--tool=callgrind", "--callgrind-out-file=/dev/null"])
        .arg(format!("--toggle-collect={}{function}", SIDES[side]))
        .arg(program)
        .args(["turn".to_string(), place.to_string(), side.to_string()])
        .output()
        .unwrap_or_else(|error| fail(&format!("count: valgrind: {error}")));
    let told = String::from_utf8_lossy(&made.stderr);
    let total = told.lines().find_map(|line| line.split_once("Collected : ")).map_or(0, |(_, total)| number(total));
    // a function that is not met under its name collects nothing
    if total == 0 || !made.status.success() {
        fail(&format!("count: {function} was not counted\n{told}"));
    }
    total
}
