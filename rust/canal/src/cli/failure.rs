//! Why the tool ends without having done its work.

use super::args;
use std::fmt::Display;
use std::io::{self, Write};
use std::process::ExitCode;

pub enum Failure {
    /// Refused, or wrong input.
    Wrong(String),
    /// Refused, and the words have been said.
    Refused,
    /// Arguments that make no command.
    Usage(String),
    /// A file that could not be read or written.
    File(String),
    /// Whoever read the output has had enough: no failure.
    Closed,
}

impl Failure {
    pub fn file(name: impl Display, error: io::Error) -> Failure {
        Failure::File(format!("{name}: {error}"))
    }

    pub fn status(&self) -> ExitCode {
        ExitCode::from(match self {
            Failure::Closed => 0,
            Failure::Wrong(_) | Failure::Refused => 1,
            Failure::Usage(_) => 2,
            Failure::File(_) => 3,
        })
    }

    pub fn tell(&self) {
        match self {
            Failure::Closed | Failure::Refused => (),
            Failure::Wrong(words) | Failure::File(words) => tell(&format!("canal: {words}\n")),
            Failure::Usage(words) if words.is_empty() => tell(args::USAGE),
            Failure::Usage(words) => tell(&format!("canal: {words}\n`canal help` tells more\n")),
        }
    }
}

/// To standard error; that nobody can read it is no reason to stop.
pub fn tell(words: &str) {
    let _ = io::stderr().write_all(words.as_bytes());
}
