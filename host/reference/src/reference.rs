//! The reference model: document 01's rules, sentence by sentence, with the changes of document 02.

use crate::records::{
    Answer, Command, Controller, Core, CoreNumber, MessageBox, Refusal, Source, SourceId,
    MAX_PRIORITY, MAX_SOURCES,
};
use crate::well_formed::{sizes_in_range, well_formed};

/// The top priority, 2^P - 1, where the priority field is P = floor(log2 n) + 2 bits wide.
/// n must be 1 to 128.
pub fn top_priority(n: u16) -> u16 {
    let width = n.ilog2() + 2;
    (1 << width) - 1
}

/// Makes a fresh controller. Refusal 2 returns the fresh state of n = 1, m = 1.
pub fn make(n: u16, m: u16) -> (u8, Controller) {
    if sizes_in_range(n, m) {
        (0, Controller::reset(n, m))
    } else {
        (Refusal::Size.number(), Controller::reset(1, 1))
    }
}

/// Runs one command whole: checks, effect, settling.
pub fn execute(controller: &mut Controller, command: Command) -> Answer {
    if let Err(refusal) = check(controller, command) {
        return refuse(controller, command, refusal);
    }
    let id = apply(controller, command);
    let cycles = settle(controller);
    Answer {
        number: 0,
        id,
        cycles,
    }
}

/// Refuses a command. The state stays as given, but for the count of triggers refused by 6: that
/// of their source is one more, held at 65,535 (request 7/14).
pub fn refuse(controller: &mut Controller, command: Command, refusal: Refusal) -> Answer {
    if let (Command::Trigger(id), Refusal::Pending) = (command, refusal) {
        let dropped = &mut controller.source_mut(id).dropped;
        *dropped = dropped.saturating_add(1);
    }
    Answer::refused(refusal)
}

/// Whether the command is taken. Order: 1, then 3 or 4, then 5, then 6, 7, 8 or 9.
pub fn check(controller: &Controller, command: Command) -> Result<(), Refusal> {
    refuse_if(!well_formed(controller), Refusal::Unsound)?;
    check_command(controller, command)
}

/// Whether a sound state takes the command.
pub fn check_command(controller: &Controller, command: Command) -> Result<(), Refusal> {
    let top = top_priority(controller.n);
    match command {
        Command::SetSourcePriority(id, priority) => {
            check_source(controller, id)?;
            refuse_if(priority == 0 || priority > top, Refusal::Priority)?;
            // Request 5/14: checked after 5.
            refuse_if(controller.source(id).pending, Refusal::InUse)
        }
        Command::Mask(id) | Command::Unmask(id) => check_source(controller, id),
        Command::SetCorePriority(core, priority) => {
            check_core(controller, core)?;
            refuse_if(priority > top, Refusal::Priority)
        }
        Command::Trigger(id) => {
            check_source(controller, id)?;
            refuse_if(controller.source(id).pending, Refusal::Pending)
        }
        Command::Claim(core) => {
            check_core(controller, core)?;
            refuse_if(!controller.core(core).message.filled, Refusal::Empty)
        }
        Command::Redeliver(id) | Command::Complete(id) => {
            check_source(controller, id)?;
            refuse_if(!controller.is_claimed(id), Refusal::NotClaimed)
        }
    }
}

/// 4: id is 0 or above n.
fn check_source(controller: &Controller, id: SourceId) -> Result<(), Refusal> {
    refuse_if(id.0 == 0 || id.0 > controller.n, Refusal::Source)
}

/// 3: core is m or above.
fn check_core(controller: &Controller, core: CoreNumber) -> Result<(), Refusal> {
    refuse_if(core.0 >= controller.m, Refusal::Core)
}

fn refuse_if(refused: bool, refusal: Refusal) -> Result<(), Refusal> {
    if refused {
        Err(refusal)
    } else {
        Ok(())
    }
}

/// The effect before settling of a command that isn't refused. Gives the answered id.
pub fn apply(controller: &mut Controller, command: Command) -> u16 {
    match command {
        // Configured priority only; nothing is pending.
        Command::SetSourcePriority(id, priority) => {
            controller.source_mut(id).configured = priority;
        }
        // Sets the mask; a box keeps what it has.
        Command::Mask(id) => controller.source_mut(id).masked = true,
        Command::Unmask(id) => controller.source_mut(id).masked = false,
        // Configured priority; every filled box, on all cores, becomes dirty.
        Command::SetCorePriority(core, priority) => {
            controller.core_mut(core).configured = priority;
            for core in &mut controller.cores {
                core.message.dirty = core.message.filled;
            }
        }
        // Pending, waiting, priority copied; also when masked.
        Command::Trigger(id) => {
            let source = controller.source_mut(id);
            source.pending = true;
            source.delivered = false;
            source.request = source.configured;
        }
        Command::Claim(core) => return claim(controller.core_mut(core)),
        // A claimed request waits again.
        Command::Redeliver(id) => controller.source_mut(id).delivered = false,
        // A claimed request ends; pending and delivered off, so its priority is 0.
        Command::Complete(id) => {
            let source = controller.source_mut(id);
            source.pending = false;
            source.delivered = false;
            source.request = 0;
        }
    }
    0
}

/// Answers the box's id; configured priority becomes the box's; box emptied.
fn claim(core: &mut Core) -> u16 {
    let id = core.message.id;
    core.configured = core.message.priority;
    core.message = MessageBox::EMPTY;
    id
}

/// One cycle of settling.
#[derive(Clone, Copy, Debug, PartialEq, Eq)]
pub enum Cycle {
    /// A dirty box is emptied.
    Retraction,
    /// A box takes a candidate.
    Delivery,
}

/// Settles cycle by cycle and counts: retractions plus deliveries. The look that ends settling
/// isn't counted.
pub fn settle(controller: &mut Controller) -> u16 {
    let mut cycles = 0;
    while settle_cycle(controller).is_some() {
        cycles += 1;
    }
    cycles
}

/// Makes one cycle, or finds that settling ends.
pub fn settle_cycle(controller: &mut Controller) -> Option<Cycle> {
    if let Some(core) = first_dirty(controller) {
        retract(controller, core);
        return Some(Cycle::Retraction);
    }
    let id = highest_candidate(controller.used_sources())?;
    let core = least_core(controller);
    // Strictly above: an equal priority interrupts no core.
    if controller.source(id).request > controller.core(core).current_priority() {
        deliver(controller, id, core);
        Some(Cycle::Delivery)
    } else {
        None
    }
}

/// The dirty box of the lowest core.
pub fn first_dirty(controller: &Controller) -> Option<CoreNumber> {
    controller
        .core_numbers()
        .find(|&core| controller.core(core).message.dirty)
}

/// The candidate of highest request priority, on a tie the lowest id.
pub fn highest_candidate(sources: &[Source]) -> Option<SourceId> {
    let mut highest: Option<usize> = None;
    for (position, source) in sources.iter().enumerate() {
        let higher = highest.is_none_or(|best| source.request > sources[best].request);
        if source.is_candidate() && higher {
            highest = Some(position);
        }
    }
    highest.map(|position| SourceId(position as u16 + 1))
}

/// The core of least current priority; on a tie a core with a filled box goes first, then the
/// lowest number (request 2/14).
pub fn least_core(controller: &Controller) -> CoreNumber {
    let tied = least_cores(controller);
    let filled = |&&core: &&CoreNumber| controller.core(core).message.filled;
    *tied.iter().find(filled).unwrap_or(&tied[0])
}

/// The cores of least current priority, in the order of their numbers. There is at least one.
pub fn least_cores(controller: &Controller) -> Vec<CoreNumber> {
    let current = |core: CoreNumber| controller.core(core).current_priority();
    let least = controller.core_numbers().map(current).min();
    let tied = |&core: &CoreNumber| Some(current(core)) == least;
    controller.core_numbers().filter(tied).collect()
}

/// Retraction: the box's source becomes waiting, the box empty.
pub fn retract(controller: &mut Controller, core: CoreNumber) {
    let id = SourceId(controller.core(core).message.id);
    controller.source_mut(id).delivered = false;
    controller.core_mut(core).message = MessageBox::EMPTY;
}

/// Delivery: a request in that core's box goes back to waiting, the box takes the candidate, and
/// the candidate is delivered.
pub fn deliver(controller: &mut Controller, id: SourceId, core: CoreNumber) {
    if controller.core(core).message.filled {
        retract(controller, core);
    }
    controller.core_mut(core).message = MessageBox {
        filled: true,
        dirty: false,
        id: id.0,
        priority: controller.source(id).request,
    };
    controller.source_mut(id).delivered = true;
}

/// The search put to a list of source records that the host lends, whatever the records hold:
/// position plus one of the first highest candidate, or 0. A list longer than 128 is refused by
/// 2, with 0.
pub fn highest_in(sources: &[Source]) -> (u8, u16) {
    if sources.len() > MAX_SOURCES {
        return (Refusal::Size.number(), 0);
    }
    let position = highest_candidate(sources).map_or(0, |id| id.0);
    (0, position)
}

/// How many ranges of the comparator tree over a lent list the search looks into: those with a
/// candidate in them (request 3/14). A list longer than 128 is refused by 2, with 0.
pub fn ranges_in(sources: &[Source]) -> (u8, u16) {
    if sources.len() > MAX_SOURCES {
        return (Refusal::Size.number(), 0);
    }
    (0, ranges_with_a_candidate(sources))
}

/// A range is halved until one source is left, and an odd range's left half is the larger.
fn ranges_with_a_candidate(range: &[Source]) -> u16 {
    if !range.iter().any(Source::is_candidate) {
        return 0;
    }
    if range.len() == 1 {
        return 1;
    }
    let (left, right) = range.split_at(range.len().div_ceil(2));
    1 + ranges_with_a_candidate(left) + ranges_with_a_candidate(right)
}

/// Claims one core record that the host lends in place, with the effect and answer of claim.
/// A refusal answers id 0 and leaves the record as lent.
pub fn claim_in_place(core: &mut Core) -> (u8, u16) {
    if !core.message.filled {
        return (Refusal::Empty.number(), 0);
    }
    if filled_record_is_bad(core) {
        return (Refusal::Unsound.number(), 0);
    }
    (0, claim(core))
}

/// The id isn't 1 to 128, or the box priority isn't 1 to 511 or isn't above the configured one,
/// or it is dirty.
fn filled_record_is_bad(core: &Core) -> bool {
    let message = &core.message;
    !(1..=MAX_SOURCES).contains(&usize::from(message.id))
        || !(1..=MAX_PRIORITY).contains(&message.priority)
        || message.priority <= core.configured
        || message.dirty
}
