//! `psic run`: commands as lines of text, put to a fresh controller.

use std::ffi::OsString;

use std::io::Write;

use psic::{Command, Controller};

use crate::dropped;
use crate::failure::Failure;
use crate::line;
use crate::lines;
use crate::options::{Input, Options, SIZES};

/// Runs the commands of a file or of standard input, and prints which triggers were dropped. A bad line ends the run: those before it are
/// printed.
pub fn command(words: &[OsString]) -> Result<(), Failure> {
    let mut options = Options::of("run", &SIZES, words)?;
    let input = options.input.take().unwrap_or(Input::Standard);
    let mut controller = options.fresh(Controller::new)?;
    let mut out = lines::out();
    let taken = lines::answer_each(&input, &mut out, |command: Command, out| {
        // A refusal is an answer, and the run goes on.
        line::answer(&mut controller, command, command, out).map(|_| ())
    });
    dropped::print(&controller, &mut out)?;
    out.flush()?;
    taken
}
