//! A run of commands, written as the bus monitor's text: document 02's request 6/14 and the last
//! paragraph of document 01, sentence by sentence.
//!
//! - [`write()`] gives the text of a run, and [`write_into`] puts it into a lent buffer.
//! - [`lists`] are runs as a host hands them over, damaged ones too.
//! - [`compare`] holds another writer against this one.

pub mod compare;
pub mod lists;

use std::fmt;

use crate::recording::{Variable, MAX_COMMANDS};
use crate::records::Command;

/// Why a run is refused by 15. "Nothing else is."
#[derive(Clone, Copy, Debug, PartialEq, Eq)]
pub enum Unwritable {
    /// "A run of over 65,535 commands."
    TooManyCommands,
    /// "A used value too large for its variable": of the command at this position.
    TooLarge(usize, Variable),
    /// "A full text longer than the lent buffer": this is its length.
    TooLong(usize),
}

impl Unwritable {
    /// The paper's number for it.
    pub const NUMBER: u8 = 15;
}

impl fmt::Display for Unwritable {
    /// The reason in plain words.
    fn fmt(&self, f: &mut fmt::Formatter) -> fmt::Result {
        match *self {
            Unwritable::TooManyCommands => write!(f, "expected at most {MAX_COMMANDS} commands"),
            Unwritable::TooLarge(position, variable) => {
                let (name, width) = (variable.name(), variable.width());
                write!(
                    f,
                    "command {position}: expected at most {width} bits for {name}"
                )
            }
            Unwritable::TooLong(length) => write!(f, "expected room for {length} bytes"),
        }
    }
}

/// What document 01 shows before the first stamp, line by line.
const DEFINITIONS: [&str; 9] = [
    "$timescale 1 ns $end",
    "$scope module psic $end",
    "$var wire 1 ! stb $end",
    "$var wire 3 \" cmd $end",
    "$var wire 5 # core $end",
    "$var wire 8 $ arg $end",
    "$var wire 9 % prio $end",
    "$upscope $end",
    "$enddefinitions $end",
];

/// The text of a run. "An empty run ends after the definitions." Commands that a controller refuses
/// are commands of the run like any others.
pub fn write(commands: &[Command]) -> Result<Vec<u8>, Unwritable> {
    if commands.len() > MAX_COMMANDS {
        return Err(Unwritable::TooManyCommands);
    }
    let mut lines = DEFINITIONS.map(String::from).to_vec();
    for (position, &command) in commands.iter().enumerate() {
        let values = values(command);
        let wide = values.iter().find(|(variable, value)| {
            let bits = u16::BITS - value.leading_zeros();
            bits as usize > variable.width()
        });
        if let Some(&(variable, _)) = wide {
            return Err(Unwritable::TooLarge(position, variable));
        }
        lines.extend(stamps(position, values));
    }
    // "Each line ended by one newline."
    lines.push(String::new());
    Ok(lines.join("\n").into_bytes())
}

/// The text of a run in the front of a buffer, and its length. A refusal leaves the buffer
/// "unchanged, as does any part past an accepted text".
pub fn write_into(commands: &[Command], buffer: &mut [u8]) -> Result<usize, Unwritable> {
    let text = write(commands)?;
    let front = buffer.get_mut(..text.len());
    let front = front.ok_or(Unwritable::TooLong(text.len()))?;
    front.copy_from_slice(&text);
    Ok(text.len())
}

/// All four values of a command. "Values that a command doesn't use are 0." Set core priority and
/// claim use core, the others arg; the two that set a priority use prio.
fn values(command: Command) -> [(Variable, u16); 4] {
    let [cmd, core, arg, prio] = match command {
        Command::SetSourcePriority(id, p) => [0, 0, id.0, p],
        Command::Mask(id) => [1, 0, id.0, 0],
        Command::Unmask(id) => [2, 0, id.0, 0],
        Command::SetCorePriority(core, p) => [3, core.0, 0, p],
        Command::Trigger(id) => [4, 0, id.0, 0],
        Command::Claim(core) => [5, core.0, 0, 0],
        Command::Redeliver(id) => [6, 0, id.0, 0],
        Command::Complete(id) => [7, 0, id.0, 0],
    };
    [
        (Variable::Cmd, cmd),
        (Variable::Core, core),
        (Variable::Arg, arg),
        (Variable::Prio, prio),
    ]
}

/// The lines of the command at this position: "one command to two stamps, all four values each
/// time, stb up and down, stamps counted from 0", "vectors are written without leading zeros".
fn stamps(position: usize, values: [(Variable, u16); 4]) -> [String; 8] {
    let [cmd, core, arg, prio] = values.map(|(_, value)| value);
    let up = 2 * position;
    [
        format!("#{up}"),
        format!("b{cmd:b} \""),
        format!("b{core:b} #"),
        format!("b{arg:b} $"),
        format!("b{prio:b} %"),
        "1!".to_string(),
        format!("#{}", up + 1),
        "0!".to_string(),
    ]
}
