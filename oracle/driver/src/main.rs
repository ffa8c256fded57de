//! The oracle's driver: reads a scenario (docs/SCENARIOS.md) from standard input and writes what the Rust answers.

mod calls;
mod clock;
mod corrections;
mod line;
mod lists;
mod reason;
mod shared;
mod state;
mod text;

use std::io::{self, BufRead, Write};

/// Output is written out when it has grown to this many bytes, and at the end.
const ENOUGH: usize = 1 << 16;

fn main() -> io::Result<()> {
    clock::silence_caught_panics();
    let mut input = io::BufReader::with_capacity(ENOUGH, io::stdin().lock());
    let mut output = io::stdout().lock();
    let mut driver = calls::Driver::new();
    let mut line = Vec::new();
    let mut number = 0;
    while input.read_until(b'\n', &mut line)? > 0 {
        if line.last() == Some(&b'\n') {
            line.pop();
        }
        number += 1;
        driver.line(number, &line);
        line.clear();
        if driver.out.len() >= ENOUGH {
            output.write_all(&driver.out)?;
            driver.out.clear();
        }
    }
    output.write_all(&driver.out)?;
    output.flush()
}
