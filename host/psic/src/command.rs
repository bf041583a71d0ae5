//! The eight commands, as values, as bytes and as text.

use std::error::Error;
use std::fmt;
use std::str::FromStr;

use crate::records::{CoreId, SourceId};

/// The bytes of a command in a list: its number, the id or core, the priority (docs/ENCODING.md).
pub const COMMAND_SIZE: usize = 5;

/// A command with its arguments, which may be any numbers. Each has document 01's effect before settling.
#[non_exhaustive]
#[derive(Clone, Copy, Debug, PartialEq, Eq, Hash)]
pub enum Command {
    /// 0: "configured priority only"; refused on a pending source.
    SetSourcePriority(SourceId, u16),
    /// 1: "sets the mask; a box keeps what it has".
    Mask(SourceId),
    /// 2: the same.
    Unmask(SourceId),
    /// 3: "configured priority; every filled box, on all cores, becomes dirty".
    SetCorePriority(CoreId, u16),
    /// 4: "pending, waiting, priority copied; also when masked".
    Trigger(SourceId),
    /// 5: "answers the box's id; configured priority becomes the box's; box emptied".
    Claim(CoreId),
    /// 6: "a claimed request waits again".
    Redeliver(SourceId),
    /// 7: "a claimed request ends; pending and delivered off".
    Complete(SourceId),
}

/// Each command as a line of text.
const FORMS: [&str; 8] = [
    "set source ID to PRIORITY",
    "mask ID",
    "unmask ID",
    "set core CORE to PRIORITY",
    "trigger ID",
    "claim on core CORE",
    "redeliver ID",
    "complete ID",
];

impl Command {
    /// Each command as a line of text, in the order of their numbers.
    pub const FORMS: [&'static str; 8] = FORMS;

    /// The number, the id or core, and the priority, 0 where there is none.
    pub(crate) fn numbers(self) -> (u8, u16, u16) {
        match self {
            Command::SetSourcePriority(id, priority) => (0, id.0, priority),
            Command::Mask(id) => (1, id.0, 0),
            Command::Unmask(id) => (2, id.0, 0),
            Command::SetCorePriority(core, priority) => (3, core.0, priority),
            Command::Trigger(id) => (4, id.0, 0),
            Command::Claim(core) => (5, core.0, 0),
            Command::Redeliver(id) => (6, id.0, 0),
            Command::Complete(id) => (7, id.0, 0),
        }
    }

    fn from_numbers(number: u8, at: u16, priority: u16) -> Option<Command> {
        let (id, core) = (SourceId(at), CoreId(at));
        Some(match number {
            0 => Command::SetSourcePriority(id, priority),
            1 => Command::Mask(id),
            2 => Command::Unmask(id),
            3 => Command::SetCorePriority(core, priority),
            4 => Command::Trigger(id),
            5 => Command::Claim(core),
            6 => Command::Redeliver(id),
            7 => Command::Complete(id),
            _ => return None,
        })
    }

    /// The command's number, 0 to 7.
    pub fn number(self) -> u8 {
        self.numbers().0
    }

    /// The command as [`crate::bytes::run`] reads it.
    pub fn to_bytes(self) -> [u8; COMMAND_SIZE] {
        to_bytes(self.numbers())
    }

    /// The command that the bytes encode, if the first is 0 to 7. The priority of a command that has none is not looked at.
    pub fn from_bytes(bytes: [u8; COMMAND_SIZE]) -> Option<Command> {
        let (number, at, priority) = from_bytes(bytes);
        Command::from_numbers(number, at, priority)
    }
}

/// A call's number, its id or core, and its priority, as the library reads them.
pub(crate) fn to_bytes((number, at, priority): (u8, u16, u16)) -> [u8; COMMAND_SIZE] {
    let ([a, b], [c, d]) = (at.to_le_bytes(), priority.to_le_bytes());
    [number, a, b, c, d]
}

/// The three numbers that such bytes hold.
pub(crate) fn from_bytes([number, a, b, c, d]: [u8; COMMAND_SIZE]) -> (u8, u16, u16) {
    (
        number,
        u16::from_le_bytes([a, b]),
        u16::from_le_bytes([c, d]),
    )
}

/// For people, as [`Command::from_str`] reads it: `set core 1 to 0`.
impl fmt::Display for Command {
    fn fmt(&self, f: &mut fmt::Formatter<'_>) -> fmt::Result {
        match self {
            Command::SetSourcePriority(id, priority) => write!(f, "set source {id} to {priority}"),
            Command::Mask(id) => write!(f, "mask {id}"),
            Command::Unmask(id) => write!(f, "unmask {id}"),
            Command::SetCorePriority(core, priority) => write!(f, "set core {core} to {priority}"),
            Command::Trigger(id) => write!(f, "trigger {id}"),
            Command::Claim(core) => write!(f, "claim on core {core}"),
            Command::Redeliver(id) => write!(f, "redeliver {id}"),
            Command::Complete(id) => write!(f, "complete {id}"),
        }
    }
}

/// Why a text is no command, or no call of a simulation.
#[non_exhaustive]
#[derive(Clone, Debug, PartialEq, Eq)]
pub enum ParseCommandError {
    /// No command has these words.
    NoCommand(String),
    /// No call of a simulation of the interrupt routines has these words.
    NoRoutineCall(String),
    /// A word in a number's place is no whole number from 0 to 65535.
    NoNumber(String),
}

impl fmt::Display for ParseCommandError {
    fn fmt(&self, f: &mut fmt::Formatter<'_>) -> fmt::Result {
        match self {
            ParseCommandError::NoCommand(text) => write!(f, "'{text}' is no command"),
            ParseCommandError::NoRoutineCall(text) => {
                write!(f, "'{text}' is no call of the simulation")
            }
            ParseCommandError::NoNumber(word) => write!(f, "'{word}' is no number from 0 to 65535"),
        }
    }
}

impl Error for ParseCommandError {}

/// Reads one of [`Command::FORMS`]: words parted by spaces or tabs, and numbers from 0 to 65535 in decimal digits.
///
/// ```
/// use psic::{Command, CoreId};
/// assert_eq!("claim on core 0".parse(), Ok(Command::Claim(CoreId(0))));
/// assert!("claim 0".parse::<Command>().is_err());
/// ```
impl FromStr for Command {
    type Err = ParseCommandError;

    fn from_str(text: &str) -> Result<Command, ParseCommandError> {
        let words: Vec<&str> = text.split_whitespace().collect();
        let source = |word: &&str| number(word).map(SourceId);
        let core = |word: &&str| number(word).map(CoreId);
        Ok(match words.as_slice() {
            ["set", "source", id, "to", priority] => {
                Command::SetSourcePriority(source(id)?, number(priority)?)
            }
            ["mask", id] => Command::Mask(source(id)?),
            ["unmask", id] => Command::Unmask(source(id)?),
            ["set", "core", at, "to", priority] => {
                Command::SetCorePriority(core(at)?, number(priority)?)
            }
            ["trigger", id] => Command::Trigger(source(id)?),
            ["claim", "on", "core", at] => Command::Claim(core(at)?),
            ["redeliver", id] => Command::Redeliver(source(id)?),
            ["complete", id] => Command::Complete(source(id)?),
            _ => return Err(ParseCommandError::NoCommand(words.join(" "))),
        })
    }
}

/// A number in decimal digits alone: no sign.
pub(crate) fn number(word: &str) -> Result<u16, ParseCommandError> {
    let digits = word.bytes().all(|byte| byte.is_ascii_digit());
    let number = word.parse().ok().filter(|_| digits);
    number.ok_or_else(|| ParseCommandError::NoNumber(word.to_string()))
}
