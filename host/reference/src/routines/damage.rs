//! Broken simulations: small changes of a sound one, singly and in pairs, and simulations one field away.

use super::runs::pick_running;
use super::{Clause, Routines, NONE};
use crate::damage as controllers;
use crate::random::Random;
use crate::records::{CoreNumber, SourceId, MAX_CORES, MAX_SOURCES};
use crate::reference::top_priority;
use crate::well_formed::well_formed;

/// A small change that breaks a clause of the test.
#[derive(Clone, Copy, Debug, PartialEq, Eq, PartialOrd, Ord)]
pub enum Damage {
    /// The controller violates one of its own clauses.
    Controller,
    /// A claimed request is active on no core; the core that ran it is idle, at 0 where it can.
    ActiveNowhere,
    /// A claimed request is active on a second core, at its priority where it can.
    ActiveTwice,
    /// A core runs its request at another priority.
    OtherPriority,
    /// A running request was last held by nobody, or by another core.
    OtherHolder,
    /// On an idle core a request is active that isn't claimed.
    NotClaimed,
    /// On an idle core an id is active that no source has.
    NoSource,
    /// On a core past m an id is active, mostly that of a claimed request.
    ActivePastM,
    /// An idle core isn't at 0.
    IdleAboveZero,
    /// A core past m isn't at 0.
    PriorityPastM,
    /// A request, not a running one where it can, was last held by a core that isn't below m.
    HolderPastM,
    /// The same of a source past n.
    SpareHolderPastM,
}

impl Damage {
    /// All of them.
    pub const ALL: [Damage; 12] = [
        Damage::Controller,
        Damage::ActiveNowhere,
        Damage::ActiveTwice,
        Damage::OtherPriority,
        Damage::OtherHolder,
        Damage::NotClaimed,
        Damage::NoSource,
        Damage::ActivePastM,
        Damage::IdleAboveZero,
        Damage::PriorityPastM,
        Damage::HolderPastM,
        Damage::SpareHolderPastM,
    ];

    /// The clause that it breaks in any case.
    pub fn clause(self) -> Clause {
        match self {
            Damage::Controller => Clause::ControllerSound,
            Damage::ActiveNowhere | Damage::ActiveTwice => Clause::ActiveOnOneCore,
            Damage::OtherPriority => Clause::AtItsPriority,
            Damage::OtherHolder => Clause::LastHeldThere,
            Damage::NotClaimed | Damage::NoSource | Damage::ActivePastM => Clause::OthersIdle,
            Damage::IdleAboveZero | Damage::PriorityPastM => Clause::OthersAtZero,
            Damage::HolderPastM | Damage::SpareHolderPastM => Clause::HoldersBelowM,
        }
    }

    /// Edits a simulation, sizes in range. False if it has no place for the edit.
    pub fn edit(self, random: &mut Random, routines: &mut Routines) -> bool {
        let edited = match self {
            Damage::Controller => break_controller(random, routines),
            Damage::ActiveNowhere => active_nowhere(random, routines),
            Damage::ActiveTwice => active_twice(random, routines),
            Damage::OtherPriority => other_priority(random, routines),
            Damage::OtherHolder => other_holder(random, routines),
            Damage::NotClaimed => not_claimed(random, routines),
            Damage::NoSource => no_source(random, routines),
            Damage::ActivePastM => active_past_m(random, routines),
            Damage::IdleAboveZero => idle_above_zero(random, routines),
            Damage::PriorityPastM => priority_past_m(random, routines),
            Damage::HolderPastM => holder_past_m(random, routines),
            Damage::SpareHolderPastM => spare_holder_past_m(random, routines),
        };
        edited.is_some()
    }
}

/// Each damage in a copy of the sound simulation, where it has a place for it.
pub fn damaged_singly(random: &mut Random, sound: &Routines) -> Vec<(Damage, Routines)> {
    let mut broken = Vec::new();
    for damage in Damage::ALL {
        let mut routines = sound.clone();
        if damage.edit(random, &mut routines) && breaks(damage, &routines) {
            broken.push((damage, routines));
        }
    }
    broken
}

/// Every pair of damages in a copy of the sound simulation, where it has a place for both. That of
/// the controller comes last, since the others rest on its sizes.
pub fn damaged_in_pairs(
    random: &mut Random,
    sound: &Routines,
) -> Vec<((Damage, Damage), Routines)> {
    let mut broken = Vec::new();
    for (at, &second) in Damage::ALL.iter().enumerate() {
        for &first in &Damage::ALL[at + 1..] {
            let mut routines = sound.clone();
            let both = first.edit(random, &mut routines)
                && breaks(first, &routines)
                && second.edit(random, &mut routines)
                && breaks(second, &routines)
                && (second == Damage::Controller || breaks(first, &routines));
            if both {
                broken.push(((first, second), routines));
            }
        }
    }
    broken
}

/// Whether the damage's clause is broken, as it is meant to be.
fn breaks(damage: Damage, routines: &Routines) -> bool {
    let clause = damage.clause();
    clause == Clause::ControllerSound && !well_formed(&routines.controller)
        || clause != Clause::ControllerSound && !clause.holds(routines)
}

/// The simulation with one field set to another value, neighbouring or any. It may still be sound.
pub fn one_field_away(random: &mut Random, routines: &Routines) -> Routines {
    let mut away = routines.clone();
    match random.below(4) {
        0 => away.controller = controllers::one_field_away(random, &away.controller),
        1 => {
            let core = near(random, routines.controller.m, MAX_CORES);
            away.active[core] = SourceId(controllers::other_number(random, away.active[core].0));
        }
        _ => {
            let source = near(random, routines.controller.n, MAX_SOURCES);
            let plus_one = away.holder[source].map_or(0, |core| core.0 + 1);
            let other = controllers::other_number(random, plus_one);
            away.holder[source] = other.checked_sub(1).map(CoreNumber);
        }
    }
    away
}

/// A position below the limit, mostly below the size or at it.
fn near(random: &mut Random, size: u16, limit: usize) -> usize {
    match random.below(8) {
        0 => random.below(limit),
        1 => usize::from(size).min(limit - 1),
        _ => random.below(usize::from(size).clamp(1, limit)),
    }
}

/// Sets a core's configured priority, unless the controller is unsound then.
fn configure_if_sound(routines: &mut Routines, core: CoreNumber, priority: u16) {
    let before = routines.core(core).configured;
    routines.controller.core_mut(core).configured = priority;
    if !well_formed(&routines.controller) {
        routines.controller.core_mut(core).configured = before;
    }
}

/// Any clause that the controller has a place for.
fn break_controller(random: &mut Random, routines: &mut Routines) -> Option<()> {
    let broken = controllers::violated_singly(random, &routines.controller);
    let places = 0..broken.len();
    let place = random.pick_if_any(places)?;
    routines.controller = broken[place].1.clone();
    Some(())
}

fn active_nowhere(random: &mut Random, routines: &mut Routines) -> Option<()> {
    let core = pick_running(random, routines, true)?;
    routines.set_active(core, NONE);
    configure_if_sound(routines, core, 0);
    Some(())
}

/// The second core was idle, where there is such a one.
fn active_twice(random: &mut Random, routines: &mut Routines) -> Option<()> {
    let first = pick_running(random, routines, true)?;
    let id = routines.active(first);
    let cores = routines.controller.core_numbers();
    let second = match pick_running(random, routines, false) {
        Some(idle) => idle,
        None => random.pick_if_any(cores.filter(|&core| core != first))?,
    };
    routines.set_active(second, id);
    let priority = request_of(routines, id)?;
    configure_if_sound(routines, second, priority);
    Some(())
}

/// The priority of a source's request, unless the id is broken.
fn request_of(routines: &Routines, id: SourceId) -> Option<u16> {
    let position = usize::from(id.0).checked_sub(1)?;
    let source = routines.controller.sources.get(position)?;
    Some(source.request)
}

fn other_priority(random: &mut Random, routines: &mut Routines) -> Option<()> {
    let core = pick_running(random, routines, true)?;
    let before = routines.core(core).configured;
    let any = random.within(0..=top_priority(routines.controller.n));
    let near = [before.wrapping_add(1), before.wrapping_sub(1), 0, any];
    for priority in near {
        configure_if_sound(routines, core, priority);
        if routines.core(core).configured != before {
            return Some(());
        }
    }
    routines.controller.core_mut(core).configured = random.pick(&near);
    Some(())
}

fn other_holder(random: &mut Random, routines: &mut Routines) -> Option<()> {
    let core = pick_running(random, routines, true)?;
    let id = routines.active(core);
    let another = CoreNumber(random.within(0..=routines.controller.m - 1));
    let low_bits = CoreNumber(core.0 + 256);
    let holder = random.pick(&[None, None, Some(another), Some(another), Some(low_bits)]);
    let place = routines.holder.get_mut(usize::from(id.0).checked_sub(1)?)?;
    *place = holder;
    Some(())
}

/// Idle, waiting or in a box.
fn not_claimed(random: &mut Random, routines: &mut Routines) -> Option<()> {
    let core = pick_running(random, routines, false)?;
    let controller = &routines.controller;
    let pending = random.flag();
    let others = |&id: &SourceId| !controller.is_claimed(id);
    let wanted = |&id: &SourceId| controller.source(id).pending == pending;
    let ids = controller.ids().filter(others);
    let id = match random.pick_if_any(ids.filter(wanted)) {
        Some(id) => id,
        None => random.pick_if_any(controller.ids().filter(others))?,
    };
    routines.set_active(core, id);
    Some(())
}

fn no_source(random: &mut Random, routines: &mut Routines) -> Option<()> {
    let core = pick_running(random, routines, false)?;
    let n = routines.controller.n;
    let any = random.within(n + 1..=u16::MAX);
    let low_bits = 256 + random.within(1..=n);
    routines.set_active(
        core,
        SourceId(random.pick(&[n + 1, low_bits, any, u16::MAX])),
    );
    Some(())
}

fn active_past_m(random: &mut Random, routines: &mut Routines) -> Option<()> {
    let m = usize::from(routines.controller.m);
    let past = random.pick_if_any(m..MAX_CORES)?;
    let any = SourceId(random.within(1..=routines.controller.n));
    let claimed: Vec<SourceId> = routines.claimed().collect();
    let id = random.pick_if_any(claimed).unwrap_or(any);
    routines.active[random.pick(&[m, past])] = random.pick(&[id, id, any, SourceId(u16::MAX)]);
    Some(())
}

/// On a core with an empty box, where there is such a one, so that the controller stays sound.
fn idle_above_zero(random: &mut Random, routines: &mut Routines) -> Option<()> {
    let controller = &routines.controller;
    let cores = controller.core_numbers();
    let idle = cores.filter(|&core| routines.active(core) == NONE);
    let (empty, filled): (Vec<CoreNumber>, Vec<CoreNumber>) =
        idle.partition(|&core| !routines.core(core).message.filled);
    let core = match random.pick_if_any(empty) {
        Some(core) => core,
        None => random.pick_if_any(filled)?,
    };
    let priority = random.within(1..=top_priority(controller.n));
    routines.controller.core_mut(core).configured = random.pick(&[1, priority]);
    Some(())
}

fn priority_past_m(random: &mut Random, routines: &mut Routines) -> Option<()> {
    let m = usize::from(routines.controller.m);
    let past = random.pick_if_any(m..MAX_CORES)?;
    let priority = random.within(1..=top_priority(routines.controller.n));
    routines.controller.cores[random.pick(&[m, past])].configured = priority;
    Some(())
}

fn holder_past_m(random: &mut Random, routines: &mut Routines) -> Option<()> {
    let controller = &routines.controller;
    let ids = controller.ids();
    let not_running = ids.filter(|&id| !controller.is_claimed(id));
    let id = match random.pick_if_any(not_running) {
        Some(id) => id,
        None => random.pick_if_any(controller.ids())?,
    };
    let holder = past_m(random, routines);
    routines.set_holder(id, Some(holder));
    Some(())
}

fn spare_holder_past_m(random: &mut Random, routines: &mut Routines) -> Option<()> {
    let n = usize::from(routines.controller.n);
    let past = random.pick_if_any(n..MAX_SOURCES)?;
    let holder = past_m(random, routines);
    routines.holder[random.pick(&[n, past])] = Some(holder);
    Some(())
}

/// A core that isn't below m. Its number plus one is a number too.
fn past_m(random: &mut Random, routines: &Routines) -> CoreNumber {
    let m = routines.controller.m;
    let any = random.within(m..=u16::MAX - 1);
    let low_bits = 256 + random.within(0..=m - 1);
    CoreNumber(random.pick(&[m, m, low_bits, any, u16::MAX - 1]))
}
