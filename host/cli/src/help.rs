//! What the program says of itself.

use std::io::{self, Write};

use crate::failure::Failure;

/// The text of `psic --help`.
pub const HELP: &str = "\
psic: a proved model of the PSIC interrupt controller

usage: psic run --sources N --cores M [FILE]
       psic replay FILE --sources N --cores M [--write RECORDING]
       psic record [FILE] [--write RECORDING]
       psic routines --sources N --cores M [FILE]
       psic refusals
       psic --help | --version

psic run
    makes a fresh controller of N sources, 1 to 128, and M cores, 1 to 32, takes commands from FILE, or from
    standard input if there is none or it is '-', and prints for each what it answers. A line is a command:

        set source ID to PRIORITY       the priority of the source's next request
        mask ID                         the source's request isn't delivered
        unmask ID                       it may be delivered
        set core CORE to PRIORITY       the core's own priority; all boxes are delivered anew
        trigger ID                      opens a request of the source
        claim on core CORE              takes the request out of the core's box
        redeliver ID                    a claimed request waits again
        complete ID                     a claimed request ends

    IDs are 1 to N, cores 0 to M - 1. Empty lines and what follows a '#' are skipped. A command that the controller
    refuses is an answer, and the next one is taken; a line that is no command ends the run.

    trigger 4: accepted, 1 cycle, [4,0]  4: box 0
        After the colon: 'accepted', or the number for no with its words; the claimed id, if there is one; the cycles of
        settling; each core's current priority, core 0 first; and who owns each pending request: the source while it
        waits, the box of a core, or the software that claimed it. After the last command the dropped triggers, if there
        are any: how many of each source were refused by 6, since it was pending. A count is held at 65535, and is shown
        as 'at least 65535' then.

psic replay
    makes a fresh controller as 'psic run' does, and takes commands from a recording of the bus monitor, Value Change
    Dump text in FILE, or in standard input if it is '-'. A fault of the recording ends it.

    #12 trigger 4: accepted, 1 cycle, [4,0]  4: box 0
        The time of the stamp at whose end the command was taken, then the line that 'psic run' prints. After the last
        one: how many commands there were, how many were refused and by which number, the cycles in all and at most, and
        the dropped triggers, or that there are none.
        A fault goes to standard error: its line, column and word, and what was expected there.

    With --write the replayed run, refused commands too, is also written to a file as 'psic record' does.

psic record
    takes commands as 'psic run' does and puts them to no controller, but writes them as a recording, Value Change Dump
    text, to standard output or to a file: one command to two stamps, counted from 0. 'psic replay' reads it, and gives
    the same commands in the same order; so do viewers of such text. A line that is no command, an id above 255, a core
    above 31, a priority above 511, or a command after the 65535th is told with its line, and nothing is written.

psic routines
    simulates the interrupt routines' entry and exit code on all cores, from a fresh controller, and takes calls as
    'psic run' takes commands. A line is a call: set source, mask, unmask or trigger as above, or

        enter on core CORE              claims what the core's box has, redelivers the request that it interrupts, if
                                        there is one, and makes the new one active
        exit on core CORE               completes the request that is active on the core, and sets the core to 0

    enter on core 0: accepted, id 4, 0 cycles, [4,0]  active [4,-]  4: software
        As 'psic run' prints it, and behind the current priorities the id that is active on each core, '-' if the core
        is idle. After the last call the handovers, if there are any: how often a request last held by one core was
        next claimed by another, up to 65535. Then the dropped triggers, as 'psic run' prints them.

psic refusals
    prints the numbers for no in words, of commands and of recordings.

Exit status: 0; 1 if a file or a line can't be read, a size is out of range, a recording has a fault or can't be
written, or the output can't be written; 2 for wrong usage. A refused command is no failure.

Example: printf 'unmask 1\\ntrigger 1\\nclaim on core 0\\n' | psic run --sources 2 --cores 4
";

/// The text of `psic --version`: the program's version, and the one that the library answers.
pub fn version() -> String {
    let number = psic::library_version();
    let (major, minor, patch) = (number / 10000, number / 100 % 100, number % 100);
    let program = env!("CARGO_PKG_VERSION");
    format!("psic {program}, on libpsic {major}.{minor}.{patch}\n")
}

/// Writes a text to standard output.
pub fn print(text: &str) -> Result<(), Failure> {
    let mut out = io::stdout().lock();
    out.write_all(text.as_bytes())?;
    Ok(out.flush()?)
}
