//! The interrupt routines on all cores: request 4/14, sentence by sentence, over the reference model.
//!
//! - This file has what is held, the test of it, the six calls, the table of handovers, and the two
//!   clauses on a simulation without a filled box.
//! - [`history`] is what calls and answers alone say of a run.
//! - [`runs`] and [`damage`] make calls, lists and broken simulations.
//! - [`compare`] runs two simulations side by side; [`properties`] are what each must keep.

pub mod compare;
pub mod damage;
pub mod history;
pub mod properties;
pub mod runs;

use crate::records::{
    Answer, Command, Controller, Core, CoreNumber, Refusal, SourceId, MAX_CORES, MAX_SOURCES,
};
use crate::reference;
use crate::well_formed::{sizes_in_range, well_formed};

/// A call of the simulation. Arguments may be any numbers. Claim, redeliver, complete and set core
/// priority are none: only entries and exits command them.
#[derive(Clone, Copy, Debug, PartialEq, Eq, Hash)]
pub enum Call {
    /// Set source priority (id, p).
    SetSourcePriority(SourceId, u16),
    /// Mask (id).
    Mask(SourceId),
    /// Unmask (id).
    Unmask(SourceId),
    /// Trigger (id).
    Trigger(SourceId),
    /// Entry (core).
    Enter(CoreNumber),
    /// Exit (core).
    Exit(CoreNumber),
}

impl Call {
    /// The command that the call is, if it is one. Entry and exit are several.
    pub fn command(self) -> Option<Command> {
        match self {
            Call::SetSourcePriority(id, p) => Some(Command::SetSourcePriority(id, p)),
            Call::Mask(id) => Some(Command::Mask(id)),
            Call::Unmask(id) => Some(Command::Unmask(id)),
            Call::Trigger(id) => Some(Command::Trigger(id)),
            Call::Enter(_) | Call::Exit(_) => None,
        }
    }
}

/// An entry of a list as a host hands it over.
#[derive(Clone, Copy, Debug, PartialEq, Eq, Hash)]
pub enum Listed {
    /// One of the six calls.
    Call(Call),
    /// A number that names no call and ends the list, and the numbers beside it.
    Unreadable {
        /// What stands for the call.
        number: u8,
        /// What stands for the id or the core.
        at: u16,
        /// What stands for the priority.
        priority: u16,
    },
}

impl Listed {
    /// The call, if it is one.
    pub fn call(self) -> Option<Call> {
        match self {
            Listed::Call(call) => Some(call),
            Listed::Unreadable { .. } => None,
        }
    }
}

/// No request is active.
pub const NONE: SourceId = SourceId(0);

/// The routines on all cores, and the controller that they command.
#[derive(Clone, Debug, PartialEq, Eq, Hash)]
pub struct Routines {
    /// The controller.
    pub controller: Controller,
    /// The id that is active on each core, [`NONE`] on an idle one. Cores past m have one too.
    pub active: [SourceId; MAX_CORES],
    /// The core that last held the request of each source; the source with id i is at i-1. Sources
    /// past n have one too.
    pub holder: [Option<CoreNumber>; MAX_SOURCES],
}

impl Routines {
    /// Beside a fresh controller nothing is active and nothing was held.
    pub fn fresh(n: u16, m: u16) -> Routines {
        Routines {
            controller: Controller::reset(n, m),
            active: [NONE; MAX_CORES],
            holder: [None; MAX_SOURCES],
        }
    }

    /// The id that is active on this core, whose number must be below 32.
    pub fn active(&self, core: CoreNumber) -> SourceId {
        self.active[usize::from(core.0)]
    }

    /// The core that last held this source's request. The id must be 1 to 128.
    pub fn holder(&self, id: SourceId) -> Option<CoreNumber> {
        self.holder[usize::from(id.0) - 1]
    }

    fn set_active(&mut self, core: CoreNumber, id: SourceId) {
        self.active[usize::from(core.0)] = id;
    }

    fn set_holder(&mut self, id: SourceId, holder: Option<CoreNumber>) {
        self.holder[usize::from(id.0) - 1] = holder;
    }

    /// The claimed requests. The sizes must be in range.
    pub fn claimed(&self) -> impl Iterator<Item = SourceId> + '_ {
        let ids = self.controller.ids();
        ids.filter(|&id| self.controller.is_claimed(id))
    }

    /// The cores 0 to m-1 on which this request is active.
    pub fn cores_of(&self, id: SourceId) -> impl Iterator<Item = CoreNumber> + '_ {
        let cores = self.controller.core_numbers();
        cores.filter(move |&core| self.active(core) == id)
    }

    /// All other cores: those, past m too, on which no claimed request is active.
    fn other_cores(&self) -> impl Iterator<Item = CoreNumber> + '_ {
        let running: Vec<CoreNumber> = self.claimed().flat_map(|id| self.cores_of(id)).collect();
        let all = (0..MAX_CORES as u16).map(CoreNumber);
        all.filter(move |core| !running.contains(core))
    }

    fn core(&self, core: CoreNumber) -> &Core {
        self.controller.core(core)
    }
}

/// A clause of the test of a simulation, in the words of request 4/14.
#[derive(Clone, Copy, Debug, PartialEq, Eq, Hash, PartialOrd, Ord)]
pub enum Clause {
    /// The controller's state is sound.
    ControllerSound,
    /// Each claimed request is active on exactly one core,
    ActiveOnOneCore,
    /// at that core's configured priority
    AtItsPriority,
    /// and last held by it,
    LastHeldThere,
    /// all other cores idle
    OthersIdle,
    /// at 0
    OthersAtZero,
    /// and every last holder is below m.
    HoldersBelowM,
}

impl Clause {
    /// All clauses. The others rest on the sizes of the first.
    pub const ALL: [Clause; 7] = [
        Clause::ControllerSound,
        Clause::ActiveOnOneCore,
        Clause::AtItsPriority,
        Clause::LastHeldThere,
        Clause::OthersIdle,
        Clause::OthersAtZero,
        Clause::HoldersBelowM,
    ];

    /// Whether the clause holds. Every clause but the first rests on sizes in range.
    pub fn holds(self, routines: &Routines) -> bool {
        let on_its_cores = |test: &dyn Fn(SourceId, CoreNumber) -> bool| {
            let mut claimed = routines.claimed();
            claimed.all(|id| routines.cores_of(id).all(|core| test(id, core)))
        };
        match self {
            Clause::ControllerSound => well_formed(&routines.controller),
            Clause::ActiveOnOneCore => routines
                .claimed()
                .all(|id| routines.cores_of(id).count() == 1),
            Clause::AtItsPriority => on_its_cores(&|id, core| {
                routines.core(core).configured == routines.controller.source(id).request
            }),
            Clause::LastHeldThere => on_its_cores(&|id, core| routines.holder(id) == Some(core)),
            Clause::OthersIdle => routines
                .other_cores()
                .all(|core| routines.active(core) == NONE),
            Clause::OthersAtZero => routines
                .other_cores()
                .all(|core| routines.core(core).configured == 0),
            Clause::HoldersBelowM => {
                let mut holders = routines.holder.iter().flatten();
                holders.all(|holder| holder.0 < routines.controller.m)
            }
        }
    }
}

/// The simulation is sound: all clauses hold.
pub fn sound(routines: &Routines) -> bool {
    Clause::ALL.iter().all(|clause| clause.holds(routines))
}

/// The clauses that don't hold. With sizes out of range the others say nothing.
pub fn violated(routines: &Routines) -> Vec<Clause> {
    if !sizes_in_range(routines.controller.n, routines.controller.m) {
        return vec![Clause::ControllerSound];
    }
    let all = Clause::ALL.into_iter();
    all.filter(|clause| !clause.holds(routines)).collect()
}

/// Makes a fresh simulation. Refusal 2 returns that of n = 1, m = 1.
pub fn make(n: u16, m: u16) -> (u8, Routines) {
    let (number, controller) = reference::make(n, m);
    (number, Routines::fresh(controller.n, controller.m))
}

/// Runs one call whole. A refused call leaves the simulation as given, but for the controller's count
/// of a refused trigger.
pub fn call(routines: &mut Routines, call: Call) -> Answer {
    if let Err(refusal) = check(routines, call) {
        return match call.command() {
            Some(command) => reference::refuse(&mut routines.controller, command, refusal),
            None => Answer::refused(refusal),
        };
    }
    match call {
        Call::Enter(core) => enter(routines, core),
        Call::Exit(core) => exit(routines, core),
        Call::SetSourcePriority(id, p) => {
            accepted(&mut routines.controller, Command::SetSourcePriority(id, p))
        }
        Call::Mask(id) => accepted(&mut routines.controller, Command::Mask(id)),
        Call::Unmask(id) => accepted(&mut routines.controller, Command::Unmask(id)),
        // A new trigger is a new request: nobody has held it.
        Call::Trigger(id) => {
            routines.set_holder(id, None);
            accepted(&mut routines.controller, Command::Trigger(id))
        }
    }
}

/// Whether the call is taken. Order: 1, in any call; then 3; then 7 or 8. The four commands have
/// their own numbers after 1.
pub fn check(routines: &Routines, call: Call) -> Result<(), Refusal> {
    if !sound(routines) {
        return Err(Refusal::Unsound);
    }
    let controller = &routines.controller;
    match call {
        Call::Enter(core) | Call::Exit(core) if core.0 >= controller.m => Err(Refusal::Core),
        Call::Enter(core) if !routines.core(core).message.filled => Err(Refusal::Empty),
        Call::Exit(core) if routines.active(core) == NONE => Err(Refusal::NotClaimed),
        _ => match call.command() {
            Some(command) => reference::check_command(controller, command),
            None => Ok(()),
        },
    }
}

/// Entry claims, redelivers the interrupted request if there is one, and makes the new one active.
/// It answers the claimed id, with the cycles of its commands added.
fn enter(routines: &mut Routines, core: CoreNumber) -> Answer {
    let interrupted = routines.active(core);
    let claimed = accepted(&mut routines.controller, Command::Claim(core));
    let mut cycles = claimed.cycles;
    if interrupted != NONE {
        cycles += accepted(&mut routines.controller, Command::Redeliver(interrupted)).cycles;
    }
    let id = SourceId(claimed.id);
    routines.set_active(core, id);
    routines.set_holder(id, Some(core));
    Answer {
        number: 0,
        id: id.0,
        cycles,
    }
}

/// Exit completes and sets the core to 0. It answers 0, with the cycles of its commands added. Who
/// held the request last stays: nothing asks for it before the next trigger.
fn exit(routines: &mut Routines, core: CoreNumber) -> Answer {
    let ended = routines.active(core);
    let completed = accepted(&mut routines.controller, Command::Complete(ended));
    let lowered = accepted(&mut routines.controller, Command::SetCorePriority(core, 0));
    routines.set_active(core, NONE);
    Answer {
        number: 0,
        id: 0,
        cycles: completed.cycles + lowered.cycles,
    }
}

/// A command of a call that isn't refused: in a sound simulation the controller takes it.
fn accepted(controller: &mut Controller, command: Command) -> Answer {
    let answer = reference::execute(controller, command);
    assert_eq!(answer.number, 0, "{command:?} inside an accepted call");
    answer
}

/// A table of cores by cores: how often a request last held by one, the row, was next claimed by
/// another, the column.
#[derive(Clone, Debug, PartialEq, Eq)]
pub struct Handovers {
    /// Rows of cells.
    pub cells: [[u16; MAX_CORES]; MAX_CORES],
}

impl Handovers {
    /// No handover.
    pub const NONE: Handovers = Handovers {
        cells: [[0; MAX_CORES]; MAX_CORES],
    };

    /// A core claims a request that was last held by this one, if by any. A cell is held at 65,535.
    pub fn claimed(&mut self, last: Option<CoreNumber>, by: CoreNumber) {
        if let Some(last) = last.filter(|&last| last != by) {
            let cell = &mut self.cells[usize::from(last.0)][usize::from(by.0)];
            *cell = cell.saturating_add(1);
        }
    }
}

/// The routines and their table of handovers.
#[derive(Clone, Debug, PartialEq, Eq)]
pub struct Simulation {
    /// The routines.
    pub routines: Routines,
    /// The handovers so far, or what a host handed in.
    pub handovers: Handovers,
}

impl Simulation {
    /// A fresh simulation without a handover.
    pub fn fresh(n: u16, m: u16) -> Simulation {
        Simulation {
            routines: Routines::fresh(n, m),
            handovers: Handovers::NONE,
        }
    }

    /// Runs one call whole, and counts the handover if it is one: only an accepted entry claims.
    pub fn call(&mut self, made: Call) -> Answer {
        let held_before = self.routines.holder;
        let answer = call(&mut self.routines, made);
        if let (Call::Enter(core), 0) = (made, answer.number) {
            let last = held_before[usize::from(answer.id) - 1];
            self.handovers.claimed(last, core);
        }
        answer
    }
}

/// No box of a core 0 to m-1 is filled.
pub fn no_box_filled(routines: &Routines) -> bool {
    let mut cores = routines.controller.used_cores().iter();
    cores.all(|core| !core.message.filled)
}

/// "Whenever no box is filled: no waiting unmasked request is above any running one".
pub fn none_above(routines: &Routines) -> bool {
    let controller = &routines.controller;
    let running = controller
        .core_numbers()
        .map(|core| routines.active(core))
        .filter(|&id| id != NONE)
        .map(|id| controller.source(id).request);
    let least = running.min().unwrap_or(u16::MAX);
    let mut waiting = controller
        .used_sources()
        .iter()
        .filter(|s| s.is_candidate());
    !no_box_filled(routines) || waiting.all(|source| source.request <= least)
}

/// "Whenever no box is filled: .. a core idles only if none waits unmasked".
pub fn none_idle(routines: &Routines) -> bool {
    let controller = &routines.controller;
    let idles = routines.cores_of(NONE).next().is_some();
    let waits = controller.used_sources().iter().any(|s| s.is_candidate());
    !(no_box_filled(routines) && idles && waits)
}
