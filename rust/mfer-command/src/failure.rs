//! What can go wrong, in words and as an exit status.

use crate::input::shown;
use mfer::Refusal;
use std::ffi::OsStr;
use std::fmt::Display;
use std::io::{self, Write};
use std::process::ExitCode;

pub enum Failure {
    /// The reader of our output went away; that is no error.
    ClosedPipe,
    /// The library refused: status 1.
    Refused(String),
    /// The words of the command line are wrong: status 2.
    Usage(String),
    /// Reading or writing failed, or a text is not as expected: status 2.
    InputOutput(String),
    /// All that is to be said was said.
    Reported(ExitStatus),
}

#[derive(Clone, Copy, PartialEq, PartialOrd)]
pub enum ExitStatus {
    Success = 0,
    Refused = 1,
    Error = 2,
}

impl Failure {
    pub fn refused(name: &OsStr, refusal: Refusal) -> Failure {
        Failure::Refused(format!("{}: {refusal}", shown(name)))
    }

    /// A refusal, in words, at a place in the file.
    pub fn refused_in(name: &OsStr, place: &str, words: impl Display) -> Failure {
        Failure::Refused(format!("{}: {place}: {words}", shown(name)))
    }

    /// A line of a text is not as expected.
    pub fn line(name: &OsStr, line: u64, words: &str) -> Failure {
        Failure::InputOutput(format!("{}: line {line}: {words}", shown(name)))
    }

    pub fn file(name: &OsStr, error: io::Error) -> Failure {
        Failure::InputOutput(format!("{}: {error}", shown(name)))
    }

    /// Writing to standard output failed.
    pub fn output(error: io::Error) -> Failure {
        match error.kind() {
            io::ErrorKind::BrokenPipe => Failure::ClosedPipe,
            _ => Failure::InputOutput(format!("standard output: {error}")),
        }
    }

    /// Says on standard error what went wrong. If even that fails, the status still tells.
    pub fn report(&self) {
        let mut error = io::stderr().lock();
        let _ = match self {
            Failure::ClosedPipe | Failure::Reported(_) => Ok(()),
            Failure::Refused(words) | Failure::InputOutput(words) => {
                writeln!(error, "mfer: {words}")
            }
            Failure::Usage(words) => {
                writeln!(error, "mfer: {words}\nTry 'mfer --help'.")
            }
        };
    }

    /// The same failure, after it was said.
    pub fn reported(self) -> Failure {
        Failure::Reported(self.exit_status())
    }

    /// This failure, or the earlier one if that weighs as much or more.
    pub fn worse_than(self, earlier: Result<(), Failure>) -> Failure {
        match earlier {
            Err(earlier) if earlier.exit_status() >= self.exit_status() => earlier,
            _ => self,
        }
    }

    pub fn status(&self) -> ExitCode {
        ExitCode::from(self.exit_status() as u8)
    }

    fn exit_status(&self) -> ExitStatus {
        match self {
            Failure::ClosedPipe => ExitStatus::Success,
            Failure::Refused(_) => ExitStatus::Refused,
            Failure::Usage(_) | Failure::InputOutput(_) => ExitStatus::Error,
            Failure::Reported(status) => *status,
        }
    }
}
