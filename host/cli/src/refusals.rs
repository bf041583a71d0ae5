//! `psic refusals`: the numbers for no in words.

use std::ffi::OsString;
use std::fmt::Write;

use psic::{FaultKind, Refusal};

use crate::failure::Failure;
use crate::help;

/// Prints a line for each number, those of commands and those of recordings.
pub fn command(words: &[OsString]) -> Result<(), Failure> {
    if let Some(word) = words.first() {
        let word = word.to_string_lossy();
        return Err(Failure::usage(format!("'refusals' takes no '{word}'")));
    }
    let mut text = String::from("  0  accepted\n");
    let refusals = Refusal::ALL.map(|refusal| (refusal.number(), refusal.in_words()));
    let faults = FaultKind::ALL.map(|kind| (kind.number(), kind.in_words()));
    let mut numbers = [&refusals[..], &faults].concat();
    numbers.sort_unstable();
    for (number, words) in numbers {
        writeln!(text, "{number:>3}  {words}").expect("a string takes all");
    }
    help::print(&text)
}
