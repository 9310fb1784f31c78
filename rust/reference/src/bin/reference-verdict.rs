//! Reads a plan from standard input and prints the verdict.
#![forbid(unsafe_code)]

use reference::{print_verdict, Unit, Watchdog, LINE};
use std::io::{self, Read, Write};

/// One byte more than a plan file may have decides that it has too many.
const ENOUGH: u64 = 16_385;

fn main() -> io::Result<()> {
    let mut file = Vec::new();
    io::stdin().lock().take(ENOUGH).read_to_end(&mut file)?;
    let verdict = Unit::new().load(&file, &mut Watchdog::new());
    let mut line = [0; LINE];
    let size = print_verdict(&verdict, &mut line);
    io::stdout().write_all(&line[..size])
}
