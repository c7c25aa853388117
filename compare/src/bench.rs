//! The proved bench program against the second implementation's bench function.

use crate::draw::Draw;
use crate::texts;
use independent::bench::{run, INPUT_LIMIT};
use independent::{Device, Shared};
use std::fs;
use std::io::Write;
use std::process::{exit, Command, Stdio};
use std::thread;

/// The stored inputs and random ones, through pipes; both outputs must be the same.
pub fn compare(inputs: u64, seed: u64, program: &str, stored: &[&str]) {
    let (mut draw, mut bytes, mut lines) = (Draw::new(seed), 0, 0);
    let inputs = stored.len() as u64 + inputs;
    for place in 0..inputs {
        let input = match stored.get(place as usize) {
            Some(file) => fs::read(file).unwrap_or_else(|error| crate::fail(&format!("compare: {file}: {error}"))),
            None => input(&mut draw),
        };
        let output = output_of(program, &input);
        let expected = run(&input);
        if output != expected {
            tell(place, seed, &input, &output, &expected);
            exit(1);
        }
        bytes += input.len();
        lines += output.iter().filter(|byte| **byte == b'\n').count();
    }
    println!("compare: {inputs} bench inputs from seed {seed}, {bytes} bytes, {lines} lines, no difference");
}

/// From nothing to past the limit; texts one behind the other, or any bytes.
fn input(draw: &mut Draw) -> Vec<u8> {
    let length = match draw.below(8) {
        0 => draw.pick(&[0, 1, INPUT_LIMIT - 1, INPUT_LIMIT, INPUT_LIMIT + 1, INPUT_LIMIT + 9_000]),
        1 | 2 => draw.size_below(INPUT_LIMIT + 1),
        _ => draw.size_below(3_000),
    };
    if draw.one_in(8) {
        return draw.bytes(length);
    }
    let device = Device { shared: Shared::default(), ..Device::default() };
    let mut input = Vec::new();
    while input.len() < length {
        let text = texts::text(draw, &device);
        input.extend_from_slice(&text);
        // Without an end the program would stop here.
        if !draw.one_in(40) {
            input.push(b'\n');
        }
    }
    input.truncate(length);
    input
}

pub fn output_of(program: &str, input: &[u8]) -> Vec<u8> {
    let mut child = Command::new(program)
        .stdin(Stdio::piped())
        .stdout(Stdio::piped())
        .spawn()
        .unwrap_or_else(|error| crate::fail(&format!("compare: {program}: {error}")));
    let mut stdin = child.stdin.take().expect("a pipe");
    let output = thread::scope(|scope| {
        // The program need not read what comes behind its limit.
        scope.spawn(move || drop(stdin.write_all(input)));
        child.wait_with_output().expect("the program's output")
    });
    if !output.status.success() {
        crate::fail(&format!("compare: {program}: {}", output.status));
    }
    output.stdout
}

fn tell(place: u64, seed: u64, input: &[u8], output: &[u8], expected: &[u8]) {
    let pairs = output.split(|byte| *byte == b'\n').zip(expected.split(|byte| *byte == b'\n'));
    let line = pairs.clone().take_while(|(ours, theirs)| ours == theirs).count();
    println!("different: seed {seed}, bench input {place} of {} bytes, line {line}", input.len());
    for (ours, theirs) in pairs.skip(line).take(1) {
        println!("  bench:       {}", String::from_utf8_lossy(ours));
        println!("  independent: {}", String::from_utf8_lossy(theirs));
    }
    println!("  input begins {:02X?}", &input[..input.len().min(200)]);
}
