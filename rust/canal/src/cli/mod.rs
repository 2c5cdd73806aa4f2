//! The command line.

mod args;
mod commands;
mod failure;
mod files;
mod progress;

use args::Command;
use failure::Failure;
use std::ffi::OsString;
use std::process::ExitCode;

pub fn main(arguments: Vec<OsString>) -> ExitCode {
    match args::parse(arguments).and_then(obey) {
        Ok(()) => ExitCode::SUCCESS,
        Err(failure) => {
            failure.tell();
            failure.status()
        }
    }
}

fn obey(command: Command) -> Result<(), Failure> {
    match command {
        Command::Help => files::say(args::USAGE),
        Command::Version => files::say(concat!("canal ", env!("CARGO_PKG_VERSION"), "\n")),
        Command::Make { table, sheet } => commands::make(&table, &sheet),
        Command::Show { sheet } => commands::show(&sheet),
        Command::Inspect { sheet } => commands::inspect(&sheet),
        Command::Run(run) => commands::run(&run),
        Command::Plot { sheet, picture } => commands::plot(&sheet, &picture),
    }
}
