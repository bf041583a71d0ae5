//! The bus monitor's recordings: read into commands, replayed on a fresh controller, and written.
//!
//! A recording is Value Change Dump text (IEEE 1364), cut down as document 01's last section says. [`read`] gives its commands, each with
//! the time of the stamp at whose end it was taken; [`replay`] puts them to a fresh controller and goes on after a refused one. The first
//! fault in reading order ends either, and the commands before it stand, also one taken at its word. [`write()`] makes such a text of a run
//! of commands, and reading it gives the same commands in the same order.
//!
//! Document 01's own text is trigger 4 alone:
//!
//! ```
//! use psic::{Command, Controller, SourceId, Stamped};
//!
//! let text = br#"$timescale 1 ns $end
//! $scope module psic $end
//! $var wire 1 ! stb $end
//! $var wire 3 " cmd $end
//! $var wire 5 # core $end
//! $var wire 8 $ arg $end
//! $var wire 9 % prio $end
//! $upscope $end
//! $enddefinitions $end
//! #0
//! b100 "
//! b0 #
//! b100 $
//! b0 %
//! 1!
//! #1
//! 0!
//! "#;
//! let reading = psic::read(text);
//! assert_eq!(reading.commands, [Stamped { time: 0, command: Command::Trigger(SourceId(4)) }]);
//! assert_eq!(reading.fault, None);
//!
//! let replay = psic::replay(32, 2, text).expect("sizes in range");
//! let mut controller = Controller::new(32, 2).expect("sizes in range");
//! assert_eq!(replay.answers, [controller.trigger(SourceId(4))]);
//! assert_eq!(replay.controller, controller);
//!
//! assert_eq!(psic::write(&[Command::Trigger(SourceId(4))]), Ok(text.to_vec()));
//! ```

use std::error::Error;
use std::fmt;

use crate::answer::{Answer, Refusal, ANSWER_SIZE};
use crate::bytes::{self, STATE_SIZE};
use crate::command::{Command, COMMAND_SIZE};
use crate::controller::Controller;
use crate::explain;
use crate::raw;

/// The most commands that are taken from one text, and that are written into one.
pub const MAX_COMMANDS: usize = 65_535;

/// For how many commands there must be room where a text of this length is read or replayed: how many it holds isn't known before.
pub fn room(length: usize) -> usize {
    length.min(MAX_COMMANDS)
}

/// A command of a recording.
#[derive(Clone, Copy, Debug, PartialEq, Eq, Hash)]
pub struct Stamped {
    /// The time of the stamp at whose end the command was taken.
    pub time: u64,
    /// The command, with arguments as recorded, in or out of a controller's range.
    pub command: Command,
}

/// For people: `#12 trigger 4`.
impl fmt::Display for Stamped {
    fn fmt(&self, f: &mut fmt::Formatter<'_>) -> fmt::Result {
        write!(f, "#{} {}", self.time, self.command)
    }
}

/// What a text says.
#[derive(Clone, Debug, PartialEq, Eq)]
pub struct Reading {
    /// The commands before the fault, or all.
    pub commands: Vec<Stamped>,
    /// The first fault in reading order, if there is one.
    pub fault: Option<Fault>,
}

/// What a replay gives.
#[derive(Clone, Debug, PartialEq, Eq)]
pub struct Replay {
    /// What each command before the fault answered.
    pub answers: Vec<Result<Answer, Refusal>>,
    /// The controller after the last of them.
    pub controller: Controller,
    /// The first fault in reading order, if there is one.
    pub fault: Option<Fault>,
}

/// Reads a text up to its end or its first fault. Any bytes may be handed in.
pub fn read(text: &[u8]) -> Reading {
    let room = room(text.len());
    let mut commands = vec![[0; COMMAND_SIZE]; room];
    let mut times = vec![0; room];
    let report = raw::read(text, commands.as_flattened_mut(), &mut times);
    let stamped = commands.into_iter().zip(times).map(|(bytes, time)| {
        let command = Command::from_bytes(bytes).expect("the library writes commands");
        Stamped { time, command }
    });
    Reading {
        commands: stamped.take(usize::from(report.count)).collect(),
        fault: Fault::answered(report),
    }
}

/// Replays a text on a fresh controller of n sources and m cores. Refused by [`Refusal::BadSize`], before any reading, unless n is 1 to 128
/// and m is 1 to 32.
pub fn replay(n: u16, m: u16, text: &[u8]) -> Result<Replay, Refusal> {
    let mut state = [0; STATE_SIZE];
    let mut answers = vec![[0; ANSWER_SIZE]; room(text.len())];
    let report = raw::replay(n, m, text, &mut state, answers.as_flattened_mut());
    if let Some(refusal) = Refusal::from_number(report.number) {
        return Err(refusal);
    }
    answers.truncate(usize::from(report.count));
    Ok(Replay {
        answers: answers.into_iter().map(Answer::from_bytes).collect(),
        controller: Controller::from_bytes(&state)?,
        fault: Fault::answered(report),
    })
}

/// The most bytes that the text of so many commands has: 197 of definitions, and up to 57 for a command. A set source priority has that
/// many from the 50,001st command on, where times have six digits.
pub const fn text_size(commands: usize) -> usize {
    DEFINITIONS_SIZE + LONGEST_COMMAND * commands
}

/// The bytes of the definitions, which are all that the text of an empty run has.
const DEFINITIONS_SIZE: usize = 197;

/// The most bytes that one command takes.
const LONGEST_COMMAND: usize = 57;

/// The recording of a run: one command to two stamps, counted from 0, as document 01 shows it. What a controller answers doesn't matter:
/// a refused command is a command of the run. Refused by [`Refusal::Unwritable`] if there are over 65,535 commands, or if a value that a
/// command uses is too large for its variable: an id above 255, a core above 31, a priority above 511. [`bytes::write`] writes into a lent
/// buffer.
pub fn write(commands: &[Command]) -> Result<Vec<u8>, Refusal> {
    let list: Vec<u8> = commands.iter().flat_map(|c| c.to_bytes()).collect();
    // A longer run is refused, whatever room there is.
    let mut text = vec![0; text_size(commands.len().min(MAX_COMMANDS))];
    let length = bytes::write(&list, &mut text)?;
    text.truncate(length);
    Ok(text)
}

/// The position of the first command that no recording can hold, since a value that it uses is too large for its variable: the library
/// refuses to write it alone. A run of at most 65,535 commands without such a one can be written.
///
/// ```
/// use psic::{recording, Command, CoreId, SourceId};
/// let run = [Command::Trigger(SourceId(255)), Command::Claim(CoreId(31)), Command::Claim(CoreId(32))];
/// assert_eq!(recording::first_unwritable(&run), Some(2));
/// assert_eq!(recording::first_unwritable(&run[..2]), None);
/// ```
pub fn first_unwritable(commands: &[Command]) -> Option<usize> {
    let mut text = [0; text_size(1)];
    let alone = |command: &Command| bytes::write(&command.to_bytes(), &mut text).is_err();
    commands.iter().position(alone)
}

/// Where and by which number a text is refused.
#[derive(Clone, Copy, Debug, PartialEq, Eq, Hash)]
pub struct Fault {
    /// Which fault it is.
    pub kind: FaultKind,
    /// The offset of the first byte of the word at which it shows, or the text's length.
    pub offset: usize,
}

impl Fault {
    fn answered(report: raw::Report) -> Option<Fault> {
        if report.number == 0 {
            return None;
        }
        let kind = FaultKind::from_number(report.number).unwrap_or_else(|| {
            let number = report.number;
            panic!("libpsic.a answered {number}: it is of another version")
        });
        let offset = report.offset as usize;
        Some(Fault { kind, offset })
    }

    /// The fault for a person, who has the text that was read: line and column, counted from 1 in line feeds and bytes, the word, and what
    /// was expected there. These words are for display, and not proved.
    ///
    /// ```
    /// let text = b"$comment a reg is no wire $end\n$var reg 1 ! stb $end";
    /// let fault = psic::read(text).fault.expect("a fault");
    /// assert_eq!(fault.explain(text), "line 2, column 6, at 'reg': expected wire (refused by 11 at byte 36)");
    /// ```
    pub fn explain(&self, text: &[u8]) -> String {
        let expected = explain::place_and_expected(self, text);
        let (number, offset) = (self.kind.number(), self.offset);
        format!("{expected} (refused by {number} at byte {offset})")
    }
}

/// For people who don't have the text: `refused by 14 at byte 312 (the time isn't above the one before)`.
impl fmt::Display for Fault {
    fn fmt(&self, f: &mut fmt::Formatter<'_>) -> fmt::Result {
        let (number, words) = (self.kind.number(), self.kind.in_words());
        write!(f, "refused by {number} at byte {} ({words})", self.offset)
    }
}

impl Error for Fault {}

/// The numbers for no of a recording, each with the paper's words. At one place they are looked at in the order 13, 19, 11, 12, 14.
#[repr(u8)]
#[non_exhaustive]
#[derive(Clone, Copy, Debug, PartialEq, Eq, Hash)]
pub enum FaultKind {
    /// 11: "text against that grammar or a time above 2^64 - 1".
    BadText = 11,
    /// 12: "a variable missing, repeated, of another name or width, or a code used twice, shown at the name, a missing one at
    /// $enddefinitions".
    BadVariable = 12,
    /// 13: "an x or z in stb at the end of a stamp, or at a strobe in cmd or a value that the command uses".
    UnknownValue = 13,
    /// 14: "time not rising".
    TimeNotRising = 14,
    /// 19: "a command after the 65,535th".
    TooManyCommands = 19,
}

impl FaultKind {
    /// All of them, by number.
    pub const ALL: [FaultKind; 5] = [
        FaultKind::BadText,
        FaultKind::BadVariable,
        FaultKind::UnknownValue,
        FaultKind::TimeNotRising,
        FaultKind::TooManyCommands,
    ];

    /// The paper's number.
    pub fn number(self) -> u8 {
        self as u8
    }

    /// The kind of a number, if it is one of a recording.
    pub fn from_number(number: u8) -> Option<FaultKind> {
        FaultKind::ALL
            .into_iter()
            .find(|kind| kind.number() == number)
    }

    /// The fault in words.
    pub fn in_words(self) -> &'static str {
        match self {
            FaultKind::BadText => "the text is against the grammar, or a time is above 2^64 - 1",
            FaultKind::BadVariable => {
                "a variable is missing, repeated, of another name or width, or its code is used twice"
            }
            FaultKind::UnknownValue => "stb, or a value that the command uses, has an x or z",
            FaultKind::TimeNotRising => "the time isn't above the one before",
            FaultKind::TooManyCommands => "there is a command after the 65,535th",
        }
    }
}
