//! Reads a sheet, a step count and a time step from standard input and prints the run's text.

use std::io::{self, Read, Write};

fn main() -> io::Result<()> {
    let mut input = Vec::new();
    io::stdin().read_to_end(&mut input)?;
    io::stdout().write_all(reference::program(&input).as_bytes())
}
