//! The proved model of the PSIC interrupt controller, with types: a core can't be handed where a source is due, a refusal is an error
//! that says why, and a state can be read.
//!
//! - [`Controller`] owns a state: make it, put commands to it, read it.
//! - [`read`] gives the commands of a recording, [`replay`] puts them to a fresh controller, and [`write()`] makes a recording of a run of
//!   commands; [`recording`] says more.
//! - [`Routines`] simulate the interrupt routines' entry and exit on all cores; [`Handovers`] count which core took over from which.
//! - [`highest_in`], [`ranges_in`] and [`claim_in_place`] work on records that a host keeps in tables of its own.
//! - [`bytes`] has the calls on a state as bytes in memory of the host's own, [`raw`] the library's calls with their numbers.
//!
//! Every call ends and answers, whatever it is given. A refused one leaves everything as it was, but for a trigger of a pending source,
//! which that source counts. The library allocates nothing, keeps nothing between calls and takes less than 16 KB of stack; this package
//! allocates where it returns a `Vec`. A controller may be sent to another thread, and different controllers may be used at once.
//! "Document 01" is the paper of exact rules, "document 02" that of later requests; their words are quoted.
//!
//! What the library does is proved; this package is not, and is held against an independent model by the package `trials`.
#![deny(unsafe_code)]

mod answer;
pub mod bytes;
mod command;
mod controller;
mod explain;
mod lent;
#[allow(unsafe_code)]
pub mod raw;
pub mod recording;
mod records;
mod routine_call;
mod routines;

pub use answer::{Answer, Refusal, ANSWER_SIZE};
pub use bytes::STATE_SIZE;
pub use command::{Command, ParseCommandError, COMMAND_SIZE};
pub use controller::Controller;
pub use lent::{claim_in_place, highest_in, ranges_in};
pub use recording::{read, replay, write, Fault, FaultKind, Reading, Replay, Stamped};
pub use records::{
    Core, CoreId, MessageBox, Owner, Source, SourceId, MAX_CORES, MAX_DROPPED, MAX_SOURCES,
};
pub use routine_call::RoutineCall;
pub use routines::{Handovers, Routines, ROUTINES_SIZE};

/// The version of this package as a number: ten thousand times the major number, a hundred times the minor one, and the patch.
pub const VERSION: u32 = 10000 * number(env!("CARGO_PKG_VERSION_MAJOR"))
    + 100 * number(env!("CARGO_PKG_VERSION_MINOR"))
    + number(env!("CARGO_PKG_VERSION_PATCH"));

const fn number(digits: &str) -> u32 {
    match u32::from_str_radix(digits, 10) {
        Ok(number) => number,
        Err(_) => panic!("a version has three numbers"),
    }
}

/// The version that libpsic.a answers, to be held against [`VERSION`].
pub fn library_version() -> u32 {
    raw::version()
}
