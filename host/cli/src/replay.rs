//! `psic replay`: the commands of a recording, put to a fresh controller, and written as a recording if a word says so.

use std::collections::BTreeMap;
use std::ffi::OsString;
use std::fmt;
use std::io::{self, BufWriter, IsTerminal, Read, Write};

use psic::{Answer, Command, Controller, Reading, Refusal};

use crate::dropped;
use crate::failure::Failure;
use crate::line;
use crate::options::{needs, write_to, Options, SIZES, WRITE};

/// Replays the recording of a file or of standard input, and prints each command with its time, then a summary. A fault ends the
/// recording: what was taken before it is printed and written, and the fault is told as a failure.
pub fn command(words: &[OsString]) -> Result<(), Failure> {
    let mut options = Options::of("replay", &[SIZES[0], SIZES[1], WRITE], words)?;
    let input = options.input.take();
    let input = input.ok_or_else(|| needs("replay", "FILE, or '-' for standard input"))?;
    let controller = options.fresh(Controller::new)?;
    let name = input.name();
    let mut text = Vec::new();
    input
        .open()?
        .read_to_end(&mut text)
        .map_err(|error| Failure::input(format!("{name} can't be read: {error}")))?;
    let reading = psic::read(&text);
    if let Some(path) = options.write {
        write_to(&path, &recording(&reading)?)?;
    }
    listing(controller, &reading, &Progress::of(&text, &reading))?;
    match reading.fault {
        None => Ok(()),
        Some(fault) => Err(Failure::input(format!("{name}, {}", fault.explain(&text)))),
    }
}

/// The replayed run as a recording. All that is read can be written: its values fit, and there are no more than can be.
fn recording(reading: &Reading) -> Result<Vec<u8>, Failure> {
    let run: Vec<Command> = reading.commands.iter().map(|s| s.command).collect();
    psic::write(&run).map_err(|refusal| Failure::input(refusal.to_string()))
}

/// A line for each command, then the summary, with what the controller has counted.
fn listing(mut controller: Controller, reading: &Reading, progress: &Progress) -> io::Result<()> {
    let mut out = BufWriter::new(io::stdout().lock());
    let mut summary = Summary::default();
    for (position, stamped) in reading.commands.iter().enumerate() {
        progress.tell(position);
        summary.add(line::answer(
            &mut controller,
            stamped.command,
            stamped,
            &mut out,
        )?);
    }
    progress.end();
    write!(out, "{summary}")?;
    dropped::print_or_none(&controller, &mut out)?;
    out.flush()
}

/// What the answers come to.
#[derive(Default)]
struct Summary {
    accepted: usize,
    /// How many were refused, by number.
    refused: BTreeMap<u8, (Refusal, usize)>,
    cycles: u64,
    most: u16,
}

impl Summary {
    fn add(&mut self, answer: Result<Answer, Refusal>) {
        match answer {
            Ok(answer) => {
                self.accepted += 1;
                self.cycles += u64::from(answer.cycles);
                self.most = self.most.max(answer.cycles);
            }
            Err(refusal) => {
                self.refused
                    .entry(refusal.number())
                    .or_insert((refusal, 0))
                    .1 += 1
            }
        }
    }
}

impl fmt::Display for Summary {
    fn fmt(&self, f: &mut fmt::Formatter<'_>) -> fmt::Result {
        let refused: usize = self.refused.values().map(|(_, count)| count).sum();
        let (accepted, all) = (self.accepted, self.accepted + refused);
        writeln!(
            f,
            "commands: {all}, accepted: {accepted}, refused: {refused}"
        )?;
        for (refusal, count) in self.refused.values() {
            writeln!(f, "    {count} {refusal}")?;
        }
        writeln!(
            f,
            "cycles: {}, at most {} a command",
            self.cycles, self.most
        )
    }
}

/// How far a long replay is, on standard error, for a person who looks there and sees no lines of the listing.
struct Progress {
    shown: bool,
    all: usize,
}

impl Progress {
    /// The bytes from which a text is long.
    const LONG: usize = 1_000_000;
    /// The commands from one word of progress to the next.
    const STEP: usize = 4096;

    fn of(text: &[u8], reading: &Reading) -> Progress {
        let seen = io::stderr().is_terminal() && !io::stdout().is_terminal();
        Progress {
            shown: seen && text.len() >= Progress::LONG,
            all: reading.commands.len(),
        }
    }

    fn tell(&self, done: usize) {
        if self.shown && done % Progress::STEP == 0 {
            // Nothing depends on it.
            let _ = write!(io::stderr(), "\r{done} of {} commands", self.all);
        }
    }

    fn end(&self) {
        if self.shown {
            let _ = writeln!(io::stderr(), "\r{0} of {0} commands", self.all);
        }
    }
}
