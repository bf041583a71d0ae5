//! Calls on a state, and on a run of commands, as bytes that the host owns (docs/ENCODING.md), for a host that keeps them in memory of its
//! own.
//!
//! Any bytes may be handed in. Bytes that encode no state or no run and buffers that don't fit are refused by [`Refusal::Unreadable`], and
//! every refusal leaves all buffers as they were, but for [`Refusal::Pending`] of a trigger, which is counted in the source's record.
//!
//! ```
//! use psic::{bytes, Answer, Command, SourceId, ANSWER_SIZE, STATE_SIZE};
//!
//! # fn main() -> Result<(), psic::Refusal> {
//! let mut state = [0; STATE_SIZE];
//! bytes::make(32, 2, &mut state)?;
//! let list = [Command::Unmask(SourceId(4)), Command::Trigger(SourceId(4))].map(Command::to_bytes);
//! let mut answers = [[0; ANSWER_SIZE]; 2];
//! assert_eq!(bytes::run(&mut state, list.as_flattened(), answers.as_flattened_mut())?, 2);
//! assert_eq!(Answer::from_bytes(answers[1])?.cycles, 1);
//! # Ok(())
//! # }
//! ```

use crate::answer::{Answer, Refusal};
use crate::command::Command;
use crate::raw;

/// The bytes of a state.
pub const STATE_SIZE: usize = 1412;

/// Makes a fresh controller of n sources and m cores in a buffer of [`STATE_SIZE`] bytes.
pub fn make(n: u16, m: u16, state: &mut [u8]) -> Result<(), Refusal> {
    Answer::unpacked(raw::make(n, m, state)).map(|_| ())
}

/// Runs one command on the state that the bytes encode.
pub fn execute(state: &mut [u8], command: Command) -> Result<Answer, Refusal> {
    let (number, at, priority) = command.numbers();
    Answer::unpacked(raw::execute(state, u16::from(number), at, priority))
}

/// Runs a list of commands, [`COMMAND_SIZE`](crate::COMMAND_SIZE) bytes each, and writes an answer of
/// [`ANSWER_SIZE`](crate::ANSWER_SIZE) bytes for each to the front of `answers`. Gives how many commands were taken: a refused one is
/// answered and the list goes on; one with a number above 7 ends it.
pub fn run(state: &mut [u8], list: &[u8], answers: &mut [u8]) -> Result<usize, Refusal> {
    match raw::run(state, list, answers) {
        u64::MAX => Err(Refusal::Unreadable),
        taken => Ok(taken as usize),
    }
}

/// Writes a run of commands, [`COMMAND_SIZE`](crate::COMMAND_SIZE) bytes each, as a recording to the front of a buffer, and gives the
/// text's length. [`Refusal::Unreadable`] unless the list is whole commands with numbers 0 to 7; [`Refusal::Unwritable`] as
/// [`write`](crate::write) says, and if the text is longer than the buffer, for which
/// [`text_size`](crate::recording::text_size) says what is room enough. What lies behind the text stays as it was.
///
/// ```
/// use psic::{bytes, recording, Command, Refusal, SourceId};
/// let mut text = [9; recording::text_size(1)];
/// let length = bytes::write(&Command::Trigger(SourceId(4)).to_bytes(), &mut text)?;
/// assert!(text[..length].ends_with(b"\n#1\n0!\n"));
/// assert!(text[length..].iter().all(|&byte| byte == 9));
/// let too_large = bytes::write(&Command::Trigger(SourceId(256)).to_bytes(), &mut text);
/// assert_eq!(too_large, Err(Refusal::Unwritable));
/// # Ok::<(), Refusal>(())
/// ```
pub fn write(list: &[u8], text: &mut [u8]) -> Result<usize, Refusal> {
    let answer = raw::write(list, text);
    match answer as u8 {
        0 => Ok((answer >> 8) as usize),
        number => Err(Refusal::answered(number)),
    }
}
