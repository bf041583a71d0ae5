//! The program `psic`: the proved controller at the command line. It decides nothing itself; the package `psic` does.

mod dropped;
mod failure;
mod help;
mod line;
mod lines;
mod options;
mod record;
mod refusals;
mod replay;
mod routines;
mod run;

use std::env;
use std::ffi::OsString;
use std::io::{self, Write};
use std::process::ExitCode;

use failure::Failure;

fn main() -> ExitCode {
    let words: Vec<OsString> = env::args_os().skip(1).collect();
    match dispatched(&words) {
        Ok(()) => ExitCode::SUCCESS,
        Err(failure) => {
            // Nothing is left to do if this can't be written either; the status tells.
            let _ = write!(io::stderr(), "{failure}");
            ExitCode::from(failure.status())
        }
    }
}

/// The first word says what to do. A further command is a module of its own, a line here, and its part of the help.
fn dispatched(words: &[OsString]) -> Result<(), Failure> {
    let Some((first, rest)) = words.split_first() else {
        return Err(Failure::usage("no command is given"));
    };
    match first.to_str() {
        Some("run") => run::command(rest),
        Some("replay") => replay::command(rest),
        Some("record") => record::command(rest),
        Some("routines") => routines::command(rest),
        Some("refusals") => refusals::command(rest),
        Some("help" | "--help" | "-h") => help::print(help::HELP),
        Some("--version" | "-V") => help::print(&help::version()),
        _ => Err(Failure::usage(format!(
            "there is no command '{}'",
            first.to_string_lossy()
        ))),
    }
}
