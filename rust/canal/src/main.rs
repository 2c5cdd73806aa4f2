//! The tool `canal`: makes sheets of a canal reach, says what they hold, runs and draws them.

mod cli;

use std::process::ExitCode;

fn main() -> ExitCode {
    let arguments = std::env::args_os().skip(1).collect();
    cli::main(arguments)
}
