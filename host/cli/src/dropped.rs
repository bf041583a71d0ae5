//! Dropped triggers for people: how many of each source were refused because it was pending.

use std::io::{self, Write};

use psic::{Controller, MAX_DROPPED};

/// A line for each source that dropped some, if there is one.
pub fn print(controller: &Controller, out: &mut impl Write) -> io::Result<()> {
    let dropped = controller
        .sources()
        .filter(|(_, source)| source.dropped > 0);
    for (position, (id, source)) in dropped.enumerate() {
        if position == 0 {
            writeln!(out, "dropped triggers:")?;
        }
        // A count that is held doesn't tell how many more there were.
        let held = if source.dropped == MAX_DROPPED {
            "at least "
        } else {
            ""
        };
        writeln!(out, "    source {id}: {held}{}", source.dropped)?;
    }
    Ok(())
}

/// The same, and a word where there is none.
pub fn print_or_none(controller: &Controller, out: &mut impl Write) -> io::Result<()> {
    if controller.sources().all(|(_, source)| source.dropped == 0) {
        return writeln!(out, "dropped triggers: none");
    }
    print(controller, out)
}
