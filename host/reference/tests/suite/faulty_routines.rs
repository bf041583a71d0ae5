//! Simulations of the routines that are wrong in one point each, for the checks to find.

use psic_reference::model::Ran;
use psic_reference::records::{
    Answer, Command, Controller, CoreNumber, Refusal, Source, SourceId, MAX_CORES,
};
use psic_reference::reference;
use psic_reference::routines::compare::Simulator;
use psic_reference::routines::{
    self, violated, Call, Clause, Handovers, Listed, Routines, Simulation, NONE,
};
use psic_reference::well_formed::well_formed;

/// The point in which a simulation is wrong.
#[derive(Clone, Copy, Debug, PartialEq, Eq)]
pub enum RoutineFault {
    /// It is right.
    None,
    // Entry.
    NotRedelivered,
    /// The interrupted request is redelivered first, also if the claim is refused by 7 then.
    RedeliveredBeforeTheClaim,
    EntryAnswersNoId,
    // Exit.
    ActiveNotCleared,
    CoreLeftAtItsPriority,
    ExitAnswersTheId,
    // Cycles.
    /// Of entry those of the claim, of exit those of complete.
    CyclesOfTheFirstCommand,
    // The last holder.
    /// Written when a request is given back, and not when it is claimed.
    HolderSetAtRedelivery,
    /// A request that was held goes to a box: that core holds it.
    HolderFollowsTheBox,
    HolderClearedAtRedelivery,
    HolderClearedAtExit,
    HolderNotClearedByATrigger,
    HolderClearedByARefusedTrigger,
    // The counts of dropped triggers.
    DropsNotCounted,
    DropsWrap,
    DropsHeldAt65534,
    EntryClearsTheCount,
    ExitClearsTheCount,
    // The table.
    RowAndColumnSwapped,
    SameCoreCounted,
    CountWraps,
    /// An entry counts whatever it answers, by the id in the box; without one, by the first source.
    RefusedEntryCounts,
    /// A handover is counted when the request goes to another core's box, and not when it is claimed.
    CountedAtDelivery,
    // Numbers for no.
    EmptyBoxBeforeTheCore,
    IdleCoreBeforeTheCore,
    // The test.
    /// A simulation that violates this clause alone is taken for sound.
    Forgets(Clause),
    /// A call of this kind tests the controller alone.
    OnlyTheControllerTested(Kind),
    /// Each claimed request is active on some core, at that core's priority and last held by it;
    /// other cores that run it aren't looked at.
    ActiveOnSomeCore,
    /// A request that is active needn't be claimed.
    ActiveNeedNotBeClaimed,
    ActivePastMForgotten,
    SpareHoldersForgotten,
    /// Every last holder is m at most.
    HolderMayBeM,
    // Lists.
    /// The four commands that are no calls are run.
    OtherCommandsRun,
    UnreadablePassedOver,
    UnreadableCounted,
    ListEndsAtARefusal,
    /// A list begins with an empty table.
    TableBegunAnew,
}

/// The kinds of call.
#[derive(Clone, Copy, Debug, PartialEq, Eq)]
pub enum Kind {
    SetSourcePriority,
    Mask,
    Unmask,
    Trigger,
    Enter,
    Exit,
}

impl Kind {
    pub const ALL: [Kind; 6] = [
        Kind::SetSourcePriority,
        Kind::Mask,
        Kind::Unmask,
        Kind::Trigger,
        Kind::Enter,
        Kind::Exit,
    ];

    pub fn of(call: Call) -> Kind {
        match call {
            Call::SetSourcePriority(..) => Kind::SetSourcePriority,
            Call::Mask(_) => Kind::Mask,
            Call::Unmask(_) => Kind::Unmask,
            Call::Trigger(_) => Kind::Trigger,
            Call::Enter(_) => Kind::Enter,
            Call::Exit(_) => Kind::Exit,
        }
    }
}

impl RoutineFault {
    /// Wrong entries, exits, holders, tables and numbers: told by a run from a fresh simulation.
    pub const OF_RUNS: [RoutineFault; 22] = [
        RoutineFault::NotRedelivered,
        RoutineFault::RedeliveredBeforeTheClaim,
        RoutineFault::EntryAnswersNoId,
        RoutineFault::ActiveNotCleared,
        RoutineFault::CoreLeftAtItsPriority,
        RoutineFault::ExitAnswersTheId,
        RoutineFault::CyclesOfTheFirstCommand,
        RoutineFault::HolderSetAtRedelivery,
        RoutineFault::HolderFollowsTheBox,
        RoutineFault::HolderClearedAtRedelivery,
        RoutineFault::HolderClearedAtExit,
        RoutineFault::HolderNotClearedByATrigger,
        RoutineFault::HolderClearedByARefusedTrigger,
        RoutineFault::DropsNotCounted,
        RoutineFault::EntryClearsTheCount,
        RoutineFault::ExitClearsTheCount,
        RoutineFault::RowAndColumnSwapped,
        RoutineFault::SameCoreCounted,
        RoutineFault::RefusedEntryCounts,
        RoutineFault::CountedAtDelivery,
        RoutineFault::EmptyBoxBeforeTheCore,
        RoutineFault::IdleCoreBeforeTheCore,
    ];

    /// Counts of dropped triggers that only a very long run from a fresh simulation can tell.
    pub const OF_HIGH_COUNTS: [RoutineFault; 2] =
        [RoutineFault::DropsWrap, RoutineFault::DropsHeldAt65534];

    /// Wrong lists, and a count that only a table that was handed in can tell.
    pub const OF_LISTS: [RoutineFault; 6] = [
        RoutineFault::CountWraps,
        RoutineFault::OtherCommandsRun,
        RoutineFault::UnreadablePassedOver,
        RoutineFault::UnreadableCounted,
        RoutineFault::ListEndsAtARefusal,
        RoutineFault::TableBegunAnew,
    ];

    /// Wrong tests, which broken simulations tell; but for the forgotten clauses and kinds.
    pub const OF_TESTS: [RoutineFault; 5] = [
        RoutineFault::ActiveOnSomeCore,
        RoutineFault::ActiveNeedNotBeClaimed,
        RoutineFault::ActivePastMForgotten,
        RoutineFault::SpareHoldersForgotten,
        RoutineFault::HolderMayBeM,
    ];
}

/// The reference simulation with a fault.
#[derive(Clone, Copy, Debug)]
pub struct FaultyRoutines {
    pub fault: RoutineFault,
}

const DONE: Answer = Answer {
    number: 0,
    id: 0,
    cycles: 0,
};

impl FaultyRoutines {
    fn has(&self, fault: RoutineFault) -> bool {
        self.fault == fault
    }

    /// Whether a simulation is taken for sound by a call of this kind.
    fn is_sound(&self, routines: &Routines, kind: Kind) -> bool {
        let mut seen = routines.clone();
        let (n, m) = (routines.controller.n, routines.controller.m);
        match self.fault {
            RoutineFault::Forgets(clause) => {
                return violated(routines).iter().all(|&broken| broken == clause)
            }
            RoutineFault::OnlyTheControllerTested(untested) if untested == kind => {
                return well_formed(&routines.controller)
            }
            _ if !well_formed(&routines.controller) => return false,
            RoutineFault::ActiveOnSomeCore => return sound_on_some_core(routines),
            RoutineFault::ActiveNeedNotBeClaimed => clear_unclaimed(&mut seen),
            RoutineFault::ActivePastMForgotten => seen.active[usize::from(m)..].fill(NONE),
            RoutineFault::SpareHoldersForgotten => seen.holder[usize::from(n)..].fill(None),
            RoutineFault::HolderMayBeM => {
                let at_m = |&&mut holder: &&mut Option<CoreNumber>| holder == Some(CoreNumber(m));
                let holders = seen.holder.iter_mut().filter(at_m);
                holders.for_each(|holder| *holder = None);
            }
            _ => {}
        }
        routines::sound(&seen)
    }

    fn check(&self, routines: &Routines, call: Call) -> Result<(), Refusal> {
        if !self.is_sound(routines, Kind::of(call)) {
            return Err(Refusal::Unsound);
        }
        if !routines::sound(routines) {
            return Ok(());
        }
        let record = |core: CoreNumber| usize::from(core.0) < MAX_CORES;
        match (routines::check(routines, call), call) {
            (Err(Refusal::Core), Call::Enter(core))
                if record(core) && self.has(RoutineFault::EmptyBoxBeforeTheCore) =>
            {
                Err(Refusal::Empty)
            }
            (Err(Refusal::Core), Call::Exit(core))
                if record(core) && self.has(RoutineFault::IdleCoreBeforeTheCore) =>
            {
                Err(Refusal::NotClaimed)
            }
            (checked, _) => checked,
        }
    }

    /// A call whose number is known to be 0.
    fn accepted(&self, simulation: &mut Simulation, call: Call) -> Answer {
        let routines = &mut simulation.routines;
        match call {
            Call::Enter(core) => self.enter(simulation, core),
            Call::Exit(core) => self.exit(routines, core),
            Call::Trigger(id) => {
                if !self.has(RoutineFault::HolderNotClearedByATrigger) {
                    routines.holder[place(id)] = None;
                }
                reference::execute(&mut routines.controller, Command::Trigger(id))
            }
            _ => {
                let command = call.command().expect("it is one");
                reference::execute(&mut routines.controller, command)
            }
        }
    }

    fn enter(&self, simulation: &mut Simulation, core: CoreNumber) -> Answer {
        let Simulation {
            routines,
            handovers,
        } = simulation;
        let interrupted = routines.active(core);
        let mut claimed = reference::execute(&mut routines.controller, Command::Claim(core));
        let id = SourceId(claimed.id);
        if !self.has(RoutineFault::CountedAtDelivery) {
            self.count(handovers, routines.holder(id), core);
        }
        if interrupted != NONE && !self.has(RoutineFault::NotRedelivered) {
            let command = Command::Redeliver(interrupted);
            let back = reference::execute(&mut routines.controller, command);
            if !self.has(RoutineFault::CyclesOfTheFirstCommand) {
                claimed.cycles += back.cycles;
            }
            match self.fault {
                RoutineFault::HolderSetAtRedelivery => {
                    routines.holder[place(interrupted)] = Some(core)
                }
                RoutineFault::HolderClearedAtRedelivery => {
                    routines.holder[place(interrupted)] = None
                }
                _ => {}
            }
        }
        routines.active[usize::from(core.0)] = id;
        if !self.has(RoutineFault::HolderSetAtRedelivery) {
            routines.holder[place(id)] = Some(core);
        }
        if self.has(RoutineFault::EntryClearsTheCount) {
            routines.controller.source_mut(id).dropped = 0;
        }
        if self.has(RoutineFault::EntryAnswersNoId) {
            claimed.id = 0;
        }
        claimed
    }

    /// What is written besides for each request that a call has put into a box.
    fn delivered(&self, simulation: &mut Simulation, before: &Controller) {
        let Simulation {
            routines,
            handovers,
        } = simulation;
        for core in before.core_numbers() {
            let message = routines.controller.core(core).message;
            let id = SourceId(message.id);
            if !message.filled || before.core(core).message == message {
                continue;
            }
            let last = routines.holder(id);
            match self.fault {
                RoutineFault::HolderFollowsTheBox if last.is_some() => {
                    routines.holder[place(id)] = Some(core)
                }
                RoutineFault::CountedAtDelivery => handovers.claimed(last, core),
                _ => {}
            }
        }
    }

    fn exit(&self, routines: &mut Routines, core: CoreNumber) -> Answer {
        let ended = routines.active(core);
        let mut answer = reference::execute(&mut routines.controller, Command::Complete(ended));
        if !self.has(RoutineFault::CoreLeftAtItsPriority) {
            let command = Command::SetCorePriority(core, 0);
            let lowered = reference::execute(&mut routines.controller, command);
            if !self.has(RoutineFault::CyclesOfTheFirstCommand) {
                answer.cycles += lowered.cycles;
            }
        }
        if !self.has(RoutineFault::ActiveNotCleared) {
            routines.active[usize::from(core.0)] = NONE;
        }
        if self.has(RoutineFault::HolderClearedAtExit) {
            routines.holder[place(ended)] = None;
        }
        if self.has(RoutineFault::ExitClearsTheCount) {
            routines.controller.source_mut(ended).dropped = 0;
        }
        if self.has(RoutineFault::ExitAnswersTheId) {
            answer.id = ended.0;
        }
        answer
    }

    fn count(&self, handovers: &mut Handovers, last: Option<CoreNumber>, by: CoreNumber) {
        let Some(last) = last else {
            return;
        };
        let (row, column) = (usize::from(last.0), usize::from(by.0));
        match self.fault {
            RoutineFault::RowAndColumnSwapped => handovers.claimed(Some(by), last),
            RoutineFault::SameCoreCounted => {
                let cell = &mut handovers.cells[row][column];
                *cell = cell.saturating_add(1);
            }
            RoutineFault::CountWraps if last != by => {
                let cell = &mut handovers.cells[row][column];
                *cell = cell.wrapping_add(1);
            }
            _ => handovers.claimed(Some(last), by),
        }
    }

    /// What a refused call leaves: nothing but the count of a dropped trigger, unless that is the fault.
    fn refused(&self, simulation: &mut Simulation, call: Call, refusal: Refusal) -> Answer {
        let routines = &mut simulation.routines;
        match (self.fault, refusal, call) {
            (RoutineFault::RedeliveredBeforeTheClaim, Refusal::Empty, Call::Enter(core))
                if routines.active(core) != NONE =>
            {
                let command = Command::Redeliver(routines.active(core));
                reference::execute(&mut routines.controller, command);
            }
            (RoutineFault::HolderClearedByARefusedTrigger, Refusal::Pending, Call::Trigger(id)) => {
                routines.holder[place(id)] = None
            }
            (
                RoutineFault::RefusedEntryCounts,
                Refusal::Unsound | Refusal::Empty,
                Call::Enter(core),
            ) if usize::from(core.0) < MAX_CORES => {
                let id = routines.controller.core(core).message.id.clamp(1, 128);
                let last = routines.holder(SourceId(id));
                let last = last.filter(|last| usize::from(last.0) < MAX_CORES);
                self.count(&mut simulation.handovers, last, core);
            }
            _ => {}
        }
        if let (Call::Trigger(id), Refusal::Pending) = (call, refusal) {
            self.drop(simulation.routines.controller.source_mut(id));
        }
        Answer::refused(refusal)
    }

    /// A trigger of this source was refused by 6.
    fn drop(&self, source: &mut Source) {
        source.dropped = match self.fault {
            RoutineFault::DropsNotCounted => source.dropped,
            RoutineFault::DropsWrap => source.dropped.wrapping_add(1),
            RoutineFault::DropsHeldAt65534 if source.dropped == 65_534 => 65_534,
            _ => source.dropped.saturating_add(1),
        };
    }

    /// Runs a number that names no call, if that is the fault. Gives whether the list goes on.
    fn unreadable(&self, simulation: &mut Simulation, number: u8, at: u16, priority: u16) -> bool {
        let command = match number {
            3 => Command::SetCorePriority(CoreNumber(at), priority),
            5 => Command::Claim(CoreNumber(at)),
            6 => Command::Redeliver(SourceId(at)),
            7 => Command::Complete(SourceId(at)),
            _ => return self.has(RoutineFault::UnreadablePassedOver),
        };
        if self.has(RoutineFault::OtherCommandsRun) {
            reference::execute(&mut simulation.routines.controller, command);
        }
        self.has(RoutineFault::OtherCommandsRun) || self.has(RoutineFault::UnreadablePassedOver)
    }
}

/// A source's place in a list of them.
fn place(id: SourceId) -> usize {
    usize::from(id.0) - 1
}

/// All but "exactly": another core that runs the same request is as good as idle.
fn sound_on_some_core(routines: &Routines) -> bool {
    let mut seen = routines.clone();
    for id in routines.claimed() {
        let stands = |core: &CoreNumber| {
            let at = routines.controller.core(*core).configured;
            at == routines.controller.source(id).request && routines.holder(id) == Some(*core)
        };
        let cores: Vec<CoreNumber> = routines.cores_of(id).collect();
        if cores.iter().any(stands) {
            for core in cores.into_iter().filter(|core| !stands(core)) {
                seen.active[usize::from(core.0)] = NONE;
                seen.controller.core_mut(core).configured = 0;
            }
        }
    }
    let broken = violated(&seen);
    broken
        .iter()
        .all(|&clause| clause == Clause::ControllerSound)
}

/// Makes cores idle on which a request of a source 1 to n is active that isn't claimed.
fn clear_unclaimed(routines: &mut Routines) {
    for core in routines.controller.core_numbers() {
        let id = routines.active(core);
        let names_one = (1..=routines.controller.n).contains(&id.0);
        if names_one && !routines.controller.is_claimed(id) {
            routines.active[usize::from(core.0)] = NONE;
        }
    }
}

impl Simulator for FaultyRoutines {
    type State = Simulation;

    fn name(&self) -> String {
        format!("{:?}", self.fault)
    }

    fn make(&self, n: u16, m: u16) -> (u8, Simulation) {
        psic_reference::routines::compare::Reference.make(n, m)
    }

    fn call(&self, state: &mut Simulation, call: Call) -> Answer {
        match self.check(&state.routines, call) {
            Err(refusal) => self.refused(state, call, refusal),
            // Taken for sound and isn't: accepted, and that is told.
            Ok(()) if !routines::sound(&state.routines) => DONE,
            Ok(()) => {
                let before = state.routines.controller.clone();
                let answer = self.accepted(state, call);
                self.delivered(state, &before);
                answer
            }
        }
    }

    fn run_listed(&self, state: &mut Simulation, list: &[Listed]) -> Ran {
        if self.has(RoutineFault::TableBegunAnew) {
            state.handovers = Handovers::NONE;
        }
        let mut answers = Vec::new();
        let mut counted = 0;
        for &entry in list {
            match entry {
                Listed::Call(call) => {
                    let answer = self.call(state, call);
                    answers.push(answer);
                    if answer.number != 0 && self.has(RoutineFault::ListEndsAtARefusal) {
                        break;
                    }
                }
                Listed::Unreadable {
                    number,
                    at,
                    priority,
                } => {
                    counted += u64::from(self.has(RoutineFault::UnreadableCounted));
                    if !self.unreadable(state, number, at, priority) {
                        break;
                    }
                }
            }
        }
        Ran {
            taken: answers.len() as u64 + counted,
            answers,
        }
    }

    fn load(&self, simulation: &Simulation) -> Simulation {
        simulation.clone()
    }

    fn read(&self, state: &Simulation) -> Simulation {
        state.clone()
    }
}
