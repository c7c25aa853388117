//! Reads message texts from standard input and prints what becomes of each.

use independent::bench::{run, INPUT_LIMIT};
use std::io::{self, Read, Write};

fn main() -> io::Result<()> {
    let mut input = Vec::new();
    io::stdin()
        .lock()
        .take(INPUT_LIMIT as u64)
        .read_to_end(&mut input)?;
    io::stdout().lock().write_all(&run(&input))
}
