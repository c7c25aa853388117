//! Nanoseconds a call, the proved recorder through its C interface against the second implementation.
//!
//! Both sides take turns in short rounds and the median round counts, so that a busy machine slows both alike.

use crate::draw::Draw;
use crate::making;
use crate::measured::{Beds, Row, Turn, CALLS, MIXED, RAISE, RAISE_STRICT};
use independent::bench::INPUT_LIMIT;
use independent::{Device, LARGEST_QUEUE, LARGEST_SEND_BUFFER};
use std::fs::{self, File};
use std::path::Path;
use std::process::{Command, Stdio};
use std::time::Instant;

/// Queue and send buffer, which holds at most 1,024.
const CAPACITIES: [(u32, u32); 3] = [(1, 1), (200, 200), (LARGEST_QUEUE, LARGEST_SEND_BUFFER)];

/// What is measured, by name.
const ROWS: [(&str, Row); 8] = [
    ("raise", RAISE),
    ("read_record", Row::ReadRecord),
    ("read_text", Row::ReadText),
    ("send_text", Row::SendText),
    ("take+done", Row::TakeDone),
    ("print_message_record", Row::PrintMessageRecord),
    ("print_event_record", Row::PrintEventRecord { codes: &[1, 2, 3, 4, 5, 6, 7, 8, 9, 10, 11] }),
    ("raise, strict filter", RAISE_STRICT),
];

/// The median round of each, in nanoseconds; all take turns, and each begins as often as the others.
fn medians(mut turns: Vec<Turn>, rounds: usize) -> Vec<f64> {
    let mut times = vec![Vec::new(); turns.len()];
    for round in 0..rounds {
        for turn in 0..turns.len() {
            let place = (round + turn) % turns.len();
            let began = Instant::now();
            turns[place]();
            times[place].push(began.elapsed().as_nanos() as f64);
        }
    }
    let median = |mut taken: Vec<f64>| {
        taken.sort_by(f64::total_cmp);
        taken[taken.len() / 2]
    };
    times.into_iter().map(median).collect()
}

/// Prints the whole table.
pub fn table(rounds: usize, program: &str, second: &str) {
    println!("{:22}{:>9}{:>12}{:>17}{:>8}", "call", "capacity", "board", "plain Rust", "ratio");
    for (name, row) in ROWS {
        for (slots, places) in CAPACITIES {
            let mut beds = Beds::new(row, MIXED, slots, places);
            let taken = medians(beds.turns().into(), rounds);
            let [ours, theirs] = [0, 1].map(|side| taken[side] / f64::from(CALLS));
            let capacity = if matches!(row, Row::SendText | Row::TakeDone) { places } else { slots };
            println!("{name:22}{capacity:>9}{ours:>9.1} ns{theirs:>14.1} ns{:>8.2}", ours / theirs);
        }
    }
    bench_row(rounds, [program, second]);
}

/// The whole programs on 65,536 bytes of good messages, less what they take on no input.
fn bench_row(rounds: usize, programs: [&str; 2]) {
    let mut draw = Draw::new(7);
    let mut input = Vec::new();
    while input.len() < INPUT_LIMIT {
        let message = making::message_to_send(&mut draw, &Device::default(), false);
        input.extend_from_slice(crate::texts::plain_line(&message).as_bytes());
    }
    input.truncate(65_535);
    input.push(b'\n');
    let file = std::env::temp_dir().join(format!("compare-bench-{}", std::process::id()));
    fs::write(&file, &input).expect("a file for the input");
    let run = |program: &str, from: &Path| {
        let input = File::open(from).expect("the input");
        let status = Command::new(program).stdin(input).stdout(Stdio::null()).status();
        assert!(status.is_ok_and(|status| status.success()), "{program}");
    };
    let (full, empty) = (file.as_path(), Path::new("/dev/null"));
    let cases = [(programs[0], full), (programs[1], full), (programs[0], empty), (programs[1], empty)];
    let turns = cases.map(|(program, from)| Box::new(move || run(program, from)) as Turn);
    let taken = medians(turns.into(), rounds);
    fs::remove_file(full).expect("the input's file");
    let [ours, theirs] = [0, 1].map(|side| 65_536_000.0 / (taken[side] - taken[side + 2]));
    println!("{:22}{:>9}{ours:>7.1} MB/s{theirs:>12.1} MB/s{:>8.2}", "bench, 65,536 bytes", "", theirs / ours);
}
