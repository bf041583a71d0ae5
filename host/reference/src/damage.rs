//! Broken states: from a sound state, each clause of soundness violated, singly and in pairs, and
//! states one field away.

use crate::generate::{pick_core, pick_source};
use crate::random::Random;
use crate::records::{Controller, Core, MessageBox, Source, SourceId, MAX_CORES, MAX_SOURCES};
use crate::reference::top_priority;
use crate::well_formed::Clause;

/// States made from a sound one: each clause violated singly and in pairs, and 64 of one field
/// changed. A few of the last are sound.
pub fn broken_states(random: &mut Random, sound: &Controller) -> Vec<Controller> {
    let single = violated_singly(random, sound);
    let paired = violated_in_pairs(random, sound);
    let mut states: Vec<Controller> = single.into_iter().map(|(_, state)| state).collect();
    states.extend(paired.into_iter().map(|(_, state)| state));
    states.extend((0..64).map(|_| one_field_away(random, sound)));
    states
}

/// Every clause violated in a copy of the sound state, where the state has a place for it.
pub fn violated_singly(random: &mut Random, sound: &Controller) -> Vec<(Clause, Controller)> {
    let mut broken = Vec::new();
    for clause in Clause::ALL {
        let mut controller = sound.clone();
        if violate(random, &mut controller, clause) {
            broken.push((clause, controller));
        }
    }
    broken
}

/// Every pair of clauses violated in a copy of the sound state, where the state has a place for
/// both. The sizes come last in a pair, since the other clauses rest on them.
pub fn violated_in_pairs(
    random: &mut Random,
    sound: &Controller,
) -> Vec<((Clause, Clause), Controller)> {
    let mut broken = Vec::new();
    for (at, &second) in Clause::ALL.iter().enumerate() {
        for &first in &Clause::ALL[at + 1..] {
            let mut controller = sound.clone();
            let both = violate(random, &mut controller, first)
                && violate(random, &mut controller, second)
                && (second == Clause::SizesInRange || !first.holds(&controller));
            if both {
                broken.push(((first, second), controller));
            }
        }
    }
    broken
}

/// The state with one field set to another value, neighbouring or any. It may still be sound.
pub fn one_field_away(random: &mut Random, controller: &Controller) -> Controller {
    let mut away = controller.clone();
    match random.below(8) {
        0 if random.flag() => away.n = other_number(random, away.n),
        0 => away.m = other_number(random, away.m),
        1..=3 => {
            let position = near(random, controller.n, MAX_SOURCES);
            change_source(random, &mut away.sources[position]);
        }
        _ => {
            let position = near(random, controller.m, MAX_CORES);
            change_core(random, &mut away.cores[position]);
        }
    }
    away
}

/// A position below the limit, mostly below the size.
fn near(random: &mut Random, size: u16, limit: usize) -> usize {
    let size = usize::from(size).clamp(1, limit);
    if random.one_in(8) {
        random.below(limit)
    } else {
        random.below(size)
    }
}

fn change_source(random: &mut Random, source: &mut Source) {
    match random.below(6) {
        0 => source.configured = other_number(random, source.configured),
        1 => source.masked = !source.masked,
        2 => source.pending = !source.pending,
        3 => source.delivered = !source.delivered,
        4 => source.request = other_number(random, source.request),
        // Of a source in use it may be any.
        _ => source.dropped = other_number(random, source.dropped),
    }
}

fn change_core(random: &mut Random, core: &mut Core) {
    match random.below(5) {
        0 => core.configured = other_number(random, core.configured),
        1 => core.message.filled = !core.message.filled,
        2 => core.message.dirty = !core.message.dirty,
        3 => core.message.id = other_number(random, core.message.id),
        _ => core.message.priority = other_number(random, core.message.priority),
    }
}

/// Another number: a neighbour, one with the same low eight bits, a small one, or any.
pub(crate) fn other_number(random: &mut Random, number: u16) -> u16 {
    loop {
        let other = match random.below(5) {
            0 => number.wrapping_add(1),
            1 => number.wrapping_sub(1),
            2 => number.wrapping_add(256),
            3 => random.within(0..=32),
            _ => random.any(),
        };
        if other != number {
            return other;
        }
    }
}

/// Edits a state, sizes in range, so that the clause doesn't hold. False if the state has no place
/// for the edit. Where it can, the edit leaves the other clauses as they are.
pub fn violate(random: &mut Random, controller: &mut Controller, clause: Clause) -> bool {
    let edited = match clause {
        Clause::SizesInRange => break_sizes(random, controller),
        Clause::ConfiguredSourcePriorities => break_configured_priority(random, controller),
        Clause::PendingRequestPriorities => break_request_priority(random, controller),
        Clause::CorePriorities => break_core_priority(random, controller),
        Clause::NotPendingIsBlank => break_blank_source(random, controller),
        Clause::EmptyBoxIsBlank => break_blank_box(random, controller),
        Clause::RecordsPastSizesAreReset => break_records_past_sizes(random, controller),
        Clause::BoxNamesDelivered => break_named_source(random, controller),
        Clause::BoxHasRequestPriority => break_box_priority(random, controller),
        Clause::BoxAboveConfigured => break_box_above_configured(random, controller),
        Clause::NoSourceInTwoBoxes => copy_a_box(random, controller),
        Clause::NoBoxDirty => dirty_a_box(random, controller),
        Clause::NoCandidateAboveLeast => add_a_high_candidate(random, controller),
        Clause::ConfiguredUnderBoxNotAbove => raise_under_a_box(random, controller),
        Clause::ConfiguredUnderBoxBelowBoxes => raise_to_a_box(random, controller),
    };
    edited.is_some() && !clause.holds(controller)
}

fn break_sizes(random: &mut Random, controller: &mut Controller) -> Option<()> {
    if random.flag() {
        let any = random.within(129..=u16::MAX);
        controller.n = random.pick(&[0, 129, 256 + controller.n, u16::MAX, any]);
    } else {
        let any = random.within(33..=u16::MAX);
        controller.m = random.pick(&[0, 33, 256 + controller.m, u16::MAX, any]);
    }
    Some(())
}

fn break_configured_priority(random: &mut Random, controller: &mut Controller) -> Option<()> {
    let priority = bad_priority(random, controller);
    let id = pick_source(random, controller, |_| true)?;
    controller.source_mut(id).configured = priority;
    Some(())
}

/// A box that holds the request follows it, so that their priorities stay the same.
fn break_request_priority(random: &mut Random, controller: &mut Controller) -> Option<()> {
    let priority = bad_priority(random, controller);
    let id = pick_source(random, controller, |source| source.pending)?;
    controller.source_mut(id).request = priority;
    for core in &mut controller.cores {
        if core.message.filled && core.message.id == id.0 {
            core.message.priority = priority;
        }
    }
    Some(())
}

fn break_core_priority(random: &mut Random, controller: &mut Controller) -> Option<()> {
    let priority = above_top(random, controller);
    let core = pick_core(random, controller, |_| true)?;
    controller.core_mut(core).configured = priority;
    Some(())
}

fn break_blank_source(random: &mut Random, controller: &mut Controller) -> Option<()> {
    let request = random.within(1..=top_priority(controller.n));
    let id = pick_source(random, controller, |source| !source.pending)?;
    let source = controller.source_mut(id);
    match random.below(3) {
        0 => source.delivered = true,
        1 => source.request = request,
        _ => {
            source.delivered = true;
            source.request = request;
        }
    }
    Some(())
}

fn break_blank_box(random: &mut Random, controller: &mut Controller) -> Option<()> {
    let id = random.within(1..=controller.n);
    let priority = random.within(1..=top_priority(controller.n));
    let core = pick_core(random, controller, |core| !core.message.filled)?;
    let message = &mut controller.core_mut(core).message;
    match random.below(4) {
        0 => message.id = id,
        1 => message.priority = priority,
        2 => message.dirty = true,
        _ => {
            message.id = id;
            message.priority = priority;
        }
    }
    Some(())
}

fn break_records_past_sizes(random: &mut Random, controller: &mut Controller) -> Option<()> {
    let (n, m) = (usize::from(controller.n), usize::from(controller.m));
    if random.flag() {
        // The first record past the size comes often.
        let past = random.pick_if_any(n..MAX_SOURCES)?;
        let position = random.pick(&[n, past]);
        change_source(random, &mut controller.sources[position]);
    } else {
        let past = random.pick_if_any(m..MAX_CORES)?;
        let position = random.pick(&[m, past]);
        change_core(random, &mut controller.cores[position]);
    }
    Some(())
}

/// The box names no source, or one that isn't pending, or one that waits; or the named source is
/// made so.
fn break_named_source(random: &mut Random, controller: &mut Controller) -> Option<()> {
    let core = pick_core(random, controller, |core| core.message.filled)?;
    let named = SourceId(controller.core(core).message.id);
    match random.below(5) {
        0 => {
            let n = controller.n;
            let any = random.within(n + 1..=u16::MAX);
            let id = random.pick(&[0, n + 1, named.0.wrapping_add(256), u16::MAX, any]);
            controller.core_mut(core).message.id = id;
        }
        1 => {
            let idle = pick_source(random, controller, |source| !source.pending)?;
            controller.core_mut(core).message.id = idle.0;
        }
        2 => {
            let waiting = pick_source(random, controller, Source::is_waiting)?;
            controller.core_mut(core).message.id = waiting.0;
        }
        3 => named_mut(controller, named)?.delivered = false,
        _ => {
            let source = named_mut(controller, named)?;
            source.pending = false;
            source.delivered = false;
            source.request = 0;
        }
    }
    Some(())
}

fn break_box_priority(random: &mut Random, controller: &mut Controller) -> Option<()> {
    let core = pick_core(random, controller, |core| core.message.filled)?;
    let MessageBox { id, priority, .. } = controller.core(core).message;
    let top = top_priority(controller.n);
    let any = random.within(0..=top);
    let other = random.pick(&[priority.wrapping_add(1), priority.wrapping_sub(1), any]);
    if random.flag() {
        controller.core_mut(core).message.priority = other;
    } else {
        named_mut(controller, SourceId(id))?.request = other;
    }
    Some(())
}

fn break_box_above_configured(random: &mut Random, controller: &mut Controller) -> Option<()> {
    let core = pick_core(random, controller, |core| core.message.filled)?;
    let priority = controller.core(core).message.priority;
    let top = top_priority(controller.n);
    let above = random.within(priority.min(top)..=top);
    controller.core_mut(core).configured = random.pick(&[priority, above]);
    Some(())
}

/// The copy goes where the box's priority is above the configured one, if there is such a core.
fn copy_a_box(random: &mut Random, controller: &mut Controller) -> Option<()> {
    let from = pick_core(random, controller, |core| core.message.filled)?;
    let message = controller.core(from).message;
    let lower = controller
        .core_numbers()
        .filter(|&core| core != from && controller.core(core).configured < message.priority);
    let other = controller.core_numbers().filter(|&core| core != from);
    let to = match random.pick_if_any(lower) {
        Some(core) => core,
        None => random.pick_if_any(other)?,
    };
    controller.core_mut(to).message = message;
    Some(())
}

fn dirty_a_box(random: &mut Random, controller: &mut Controller) -> Option<()> {
    let core = pick_core(random, controller, |core| core.message.filled)?;
    controller.core_mut(core).message.dirty = true;
    Some(())
}

/// A masked request above the least current priority loses its mask, or an idle source gets such a
/// request.
fn add_a_high_candidate(random: &mut Random, controller: &mut Controller) -> Option<()> {
    let top = top_priority(controller.n);
    let least = controller.current_priorities().into_iter().min()?;
    if least >= top {
        return None;
    }
    let held_back = pick_source(random, controller, |source| {
        source.is_waiting() && source.request > least
    });
    if let Some(id) = held_back {
        controller.source_mut(id).masked = false;
        return Some(());
    }
    let above = random.within(least + 1..=top);
    let request = random.pick(&[least + 1, above]);
    let id = pick_source(random, controller, |source| !source.pending)?;
    let source = controller.source_mut(id);
    source.masked = false;
    source.pending = true;
    source.delivered = false;
    source.request = request;
    Some(())
}

/// The configured priority goes between the least current priority and the least box's, or the
/// core's own box's if there is no room.
fn raise_under_a_box(random: &mut Random, controller: &mut Controller) -> Option<()> {
    let least = controller.current_priorities().into_iter().min()?;
    let core = pick_core(random, controller, |core| {
        core.message.filled && core.message.priority > least.saturating_add(1)
    })?;
    let own = controller.core(core).message.priority;
    let lowest = lowest_box(controller)?;
    let limit = if lowest > least + 1 { lowest } else { own };
    controller.core_mut(core).configured = random.within(least + 1..=limit - 1);
    Some(())
}

/// The configured priority goes to the least box's, or above it, on a core whose own box is higher.
/// Empty boxes' cores below follow, so that it is above none of them. If all boxes are alike, it
/// goes to that of its own.
fn raise_to_a_box(random: &mut Random, controller: &mut Controller) -> Option<()> {
    let lowest = lowest_box(controller)?;
    let higher = pick_core(random, controller, |core| {
        core.message.filled && core.message.priority > lowest
    });
    let Some(core) = higher else {
        let core = pick_core(random, controller, |core| core.message.filled)?;
        controller.core_mut(core).configured = lowest;
        return Some(());
    };
    let above = random.within(lowest..=controller.core(core).message.priority - 1);
    let raised = random.pick(&[lowest, lowest, above]);
    controller.core_mut(core).configured = raised;
    for number in 0..usize::from(controller.m) {
        let other = &mut controller.cores[number];
        if !other.message.filled {
            other.configured = other.configured.max(raised);
        }
    }
    Some(())
}

/// The least priority of a filled box, if there is one.
fn lowest_box(controller: &Controller) -> Option<u16> {
    let filled = controller.used_cores().iter();
    let filled = filled.filter(|core| core.message.filled);
    filled.map(|core| core.message.priority).min()
}

/// The source that a box names, unless its id is broken.
fn named_mut(controller: &mut Controller, id: SourceId) -> Option<&mut Source> {
    (1..=controller.n)
        .contains(&id.0)
        .then(|| controller.source_mut(id))
}

/// 0, or above top.
fn bad_priority(random: &mut Random, controller: &Controller) -> u16 {
    if random.flag() {
        0
    } else {
        above_top(random, controller)
    }
}

fn above_top(random: &mut Random, controller: &Controller) -> u16 {
    let top = top_priority(controller.n);
    let any = random.within(top + 1..=u16::MAX);
    random.pick(&[top + 1, 512, u16::MAX, any])
}
