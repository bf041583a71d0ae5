//! `psic routines`: calls as lines of text, put to a fresh simulation of the interrupt routines.

use std::ffi::OsString;
use std::io::{self, Write};

use psic::{Handovers, Refusal, RoutineCall, Routines};

use crate::dropped;
use crate::failure::Failure;
use crate::line;
use crate::lines;
use crate::options::{Input, Options, SIZES};

/// Runs the calls of a file or of standard input, and prints the handovers in them and which triggers were dropped. A bad line ends the
/// run: those before it are printed.
pub fn command(words: &[OsString]) -> Result<(), Failure> {
    let mut options = Options::of("routines", &SIZES, words)?;
    let input = options.input.take().unwrap_or(Input::Standard);
    let mut routines = options.fresh(Routines::new)?;
    let mut handovers = Handovers::default();
    let mut out = lines::out();
    let taken = lines::answer_each(&input, &mut out, |call: RoutineCall, out| {
        let answer = routines.call(call, &mut handovers);
        let answer = answer.map_err(|refusal| in_words(call, refusal));
        line::print(call, answer, &routines, out)
    });
    table(&handovers, &mut out)?;
    dropped::print(routines.controller(), &mut out)?;
    out.flush()?;
    taken
}

/// The refusal of a call: 8 has other words than that of a command.
fn in_words(call: RoutineCall, refusal: Refusal) -> String {
    match (call, refusal) {
        (RoutineCall::Exit(_), Refusal::NotClaimed) => {
            format!("refused by {} (the core is idle)", refusal.number())
        }
        _ => refusal.to_string(),
    }
}

/// A line for each cell that isn't 0, if there is one.
fn table(handovers: &Handovers, out: &mut impl Write) -> io::Result<()> {
    for (position, (from, to, count)) in handovers.seen().enumerate() {
        if position == 0 {
            writeln!(out, "handovers:")?;
        }
        writeln!(out, "    from core {from} to core {to}: {count}")?;
    }
    Ok(())
}
