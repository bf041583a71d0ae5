//! The calls of a simulation of the interrupt routines, as values, as bytes and as text.

use std::fmt;
use std::str::FromStr;

use crate::command::{from_bytes, number, to_bytes, ParseCommandError, COMMAND_SIZE};
use crate::records::{CoreId, SourceId};

/// A call of a simulation with its arguments, which may be any numbers: four of the commands by their own numbers, entry and exit. The
/// other four commands are no calls: they are done inside of entry and exit only.
#[non_exhaustive]
#[derive(Clone, Copy, Debug, PartialEq, Eq, Hash)]
pub enum RoutineCall {
    /// 0: as [`crate::Command::SetSourcePriority`].
    SetSourcePriority(SourceId, u16),
    /// 1: as [`crate::Command::Mask`].
    Mask(SourceId),
    /// 2: as [`crate::Command::Unmask`].
    Unmask(SourceId),
    /// 4: as [`crate::Command::Trigger`]. "A new trigger is a new request": nobody has held it.
    Trigger(SourceId),
    /// 16: "entry claims, redelivers the interrupted request if there is one, and makes the new one active".
    Enter(CoreId),
    /// 17: "exit completes and sets the core to 0".
    Exit(CoreId),
}

impl RoutineCall {
    /// Each call as a line of text, in the order of their numbers.
    pub const FORMS: [&'static str; 6] = [
        "set source ID to PRIORITY",
        "mask ID",
        "unmask ID",
        "trigger ID",
        "enter on core CORE",
        "exit on core CORE",
    ];

    /// The number, the id or core, and the priority, 0 where there is none.
    fn numbers(self) -> (u8, u16, u16) {
        match self {
            RoutineCall::SetSourcePriority(id, priority) => (0, id.0, priority),
            RoutineCall::Mask(id) => (1, id.0, 0),
            RoutineCall::Unmask(id) => (2, id.0, 0),
            RoutineCall::Trigger(id) => (4, id.0, 0),
            RoutineCall::Enter(core) => (16, core.0, 0),
            RoutineCall::Exit(core) => (17, core.0, 0),
        }
    }

    /// The call's number: 0, 1, 2, 4, 16 or 17.
    pub fn number(self) -> u8 {
        self.numbers().0
    }

    /// The call as [`crate::raw::simulate`] reads it.
    pub fn to_bytes(self) -> [u8; COMMAND_SIZE] {
        to_bytes(self.numbers())
    }

    /// The call that the bytes encode, if the first is a call's number. The priority of a call that has none is not looked at.
    pub fn from_bytes(bytes: [u8; COMMAND_SIZE]) -> Option<RoutineCall> {
        let (number, at, priority) = from_bytes(bytes);
        let (id, core) = (SourceId(at), CoreId(at));
        Some(match number {
            0 => RoutineCall::SetSourcePriority(id, priority),
            1 => RoutineCall::Mask(id),
            2 => RoutineCall::Unmask(id),
            4 => RoutineCall::Trigger(id),
            16 => RoutineCall::Enter(core),
            17 => RoutineCall::Exit(core),
            _ => return None,
        })
    }
}

/// For people, as [`RoutineCall::from_str`] reads it: `enter on core 1`.
impl fmt::Display for RoutineCall {
    fn fmt(&self, f: &mut fmt::Formatter<'_>) -> fmt::Result {
        match self {
            RoutineCall::SetSourcePriority(id, priority) => {
                write!(f, "set source {id} to {priority}")
            }
            RoutineCall::Mask(id) => write!(f, "mask {id}"),
            RoutineCall::Unmask(id) => write!(f, "unmask {id}"),
            RoutineCall::Trigger(id) => write!(f, "trigger {id}"),
            RoutineCall::Enter(core) => write!(f, "enter on core {core}"),
            RoutineCall::Exit(core) => write!(f, "exit on core {core}"),
        }
    }
}

/// Reads one of [`RoutineCall::FORMS`], as a [`crate::Command`] is read.
///
/// ```
/// use psic::{CoreId, RoutineCall};
/// assert_eq!("enter on core 0".parse(), Ok(RoutineCall::Enter(CoreId(0))));
/// assert!("claim on core 0".parse::<RoutineCall>().is_err());
/// ```
impl FromStr for RoutineCall {
    type Err = ParseCommandError;

    fn from_str(text: &str) -> Result<RoutineCall, ParseCommandError> {
        let words: Vec<&str> = text.split_whitespace().collect();
        let source = |word: &&str| number(word).map(SourceId);
        let core = |word: &&str| number(word).map(CoreId);
        Ok(match words.as_slice() {
            ["set", "source", id, "to", priority] => {
                RoutineCall::SetSourcePriority(source(id)?, number(priority)?)
            }
            ["mask", id] => RoutineCall::Mask(source(id)?),
            ["unmask", id] => RoutineCall::Unmask(source(id)?),
            ["trigger", id] => RoutineCall::Trigger(source(id)?),
            ["enter", "on", "core", at] => RoutineCall::Enter(core(at)?),
            ["exit", "on", "core", at] => RoutineCall::Exit(core(at)?),
            _ => return Err(ParseCommandError::NoRoutineCall(words.join(" "))),
        })
    }
}
