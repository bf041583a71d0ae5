//! `psic record`: commands as lines of text, written as a recording.

use std::ffi::OsString;
use std::io::{self, Write};

use psic::recording::{first_unwritable, MAX_COMMANDS};
use psic::Command;

use crate::failure::Failure;
use crate::lines::{bad_line, Lines};
use crate::options::{write_to, Input, Options, WRITE};

/// Writes the commands of a file or of standard input to standard output or to a file. A line that can't be taken is named, and then
/// nothing is written.
pub fn command(words: &[OsString]) -> Result<(), Failure> {
    let mut options = Options::of("record", &[WRITE], words)?;
    let input = options.input.take().unwrap_or(Input::Standard);
    let text = recording(&input)?;
    match options.write {
        Some(path) => write_to(&path, &text),
        None => {
            let mut out = io::stdout().lock();
            out.write_all(&text)?;
            Ok(out.flush()?)
        }
    }
}

/// The recording of an input's commands.
fn recording(input: &Input) -> Result<Vec<u8>, Failure> {
    let (mut numbers, mut run) = (Vec::new(), Vec::<Command>::new());
    for taken in Lines::of(input)? {
        let (number, command) = taken?;
        numbers.push(number);
        run.push(command);
        if run.len() > MAX_COMMANDS {
            // The library refuses the run; what comes after this line changes nothing.
            break;
        }
    }
    psic::write(&run).map_err(|refusal| {
        let (position, why) = match first_unwritable(&run) {
            Some(position) => (position, TOO_LARGE),
            None => (MAX_COMMANDS, "a recording has at most 65535 commands"),
        };
        let why = format!("{why} (refused by {})", refusal.number());
        bad_line(&input.name(), numbers[position], &why)
    })
}

/// Why a command can't be written.
const TOO_LARGE: &str = "a recording has ids up to 255, cores up to 31 and priorities up to 511";
