//! Why the program ends with a status other than 0.

use std::fmt;
use std::io;

/// Why the program ends early.
#[derive(Debug)]
pub enum Failure {
    /// Status 2: the words of the command line are wrong.
    Usage(String),
    /// Status 1: what was read can't be taken.
    Input(String),
    /// Status 1: a file can't be written.
    File(String),
    /// Status 1: standard output can't be written.
    Output(io::Error),
}

impl Failure {
    /// Wrong words on the command line.
    pub fn usage(why: impl Into<String>) -> Failure {
        Failure::Usage(why.into())
    }

    /// Input that can't be taken.
    pub fn input(why: impl Into<String>) -> Failure {
        Failure::Input(why.into())
    }

    /// The exit status.
    pub fn status(&self) -> u8 {
        match self {
            Failure::Usage(_) => 2,
            Failure::Input(_) | Failure::File(_) | Failure::Output(_) => 1,
        }
    }
}

impl fmt::Display for Failure {
    fn fmt(&self, f: &mut fmt::Formatter<'_>) -> fmt::Result {
        match self {
            Failure::Usage(why) => writeln!(f, "psic: {why}; 'psic --help' says what there is"),
            Failure::Input(why) | Failure::File(why) => writeln!(f, "psic: {why}"),
            Failure::Output(error) => writeln!(f, "psic: the output can't be written: {error}"),
        }
    }
}

/// Standard output is all that the program writes to by `?`.
impl From<io::Error> for Failure {
    fn from(error: io::Error) -> Failure {
        Failure::Output(error)
    }
}
