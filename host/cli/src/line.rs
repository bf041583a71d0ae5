//! The line that is printed for a command or a call.

use std::fmt::Display;
use std::io::{self, Write};

use psic::{Answer, Command, Controller, Refusal};

/// Puts a command to the controller, and prints the command as it is to be shown, what it answers and the state after it.
pub fn answer(
    controller: &mut Controller,
    command: Command,
    shown: impl Display,
    out: &mut impl Write,
) -> io::Result<Result<Answer, Refusal>> {
    let answer = controller.execute(command);
    print(shown, answer, controller, out)?;
    Ok(answer)
}

/// Prints what is asked, what is answered and the state after it.
pub fn print(
    shown: impl Display,
    answer: Result<Answer, impl Display>,
    state: &impl Display,
    out: &mut impl Write,
) -> io::Result<()> {
    match answer {
        Ok(answer) => writeln!(out, "{shown}: {answer}, {state}"),
        Err(refusal) => writeln!(out, "{shown}: {refusal}, 0 cycles, {state}"),
    }
}
