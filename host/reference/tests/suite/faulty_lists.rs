//! Lists run in the form of the library, and wrong in one point each: the start is tested once, and a number is kept for each core and for
//! each source, by which the least core and the highest candidate are found. Single commands are the reference's, so that only a list can
//! tell.

use std::cmp::Reverse;

use psic_reference::model::{Model, Ran};
use psic_reference::records::{
    Answer, Command, Controller, Core, CoreNumber, Listed, MessageBox, Refusal, Source, SourceId,
    MAX_CORES, MAX_SOURCES,
};
use psic_reference::reference;
use psic_reference::well_formed::{sizes_in_range, violated, well_formed, Clause};

/// The point in which a list is wrong.
#[derive(Clone, Copy, Debug, PartialEq, Eq)]
pub enum ListFault {
    /// The list is right.
    None,
    // The test.
    /// The first command runs on any state; the others are tested each for itself.
    FirstCommandUntested,
    /// A start that violates this clause alone is taken for sound.
    StartForgets(Clause),
    /// On an unsound start the first command is refused by 1, and the others run.
    OnlyTheFirstRefused,
    /// On an unsound start every command is refused by 1, and the state is handed back with blank and spare records made fresh.
    UnsoundStartRepaired,
    // A refused command stores.
    /// Set source priority and set core priority, refused by 5, store the priority.
    BadPriorityStored,
    /// Trigger, refused by 6, stores the configured priority as the request's.
    PendingTriggerStored,
    /// Claim, refused by 7, stores the empty box's priority as the configured one.
    EmptyBoxClaimed,
    /// Redeliver, refused by 8 since the request lies in a box, has it wait.
    BoxedRequestWaits,
    // Triggers that are refused by 6.
    DropsNotCounted,
    /// Of several in one list one is counted, since each is counted on from the list's start.
    DropsCountedOnce,
    // Settling by kept numbers.
    /// Set core priority ends after its first delivery.
    SetCoreDeliversOnce,
    /// A delivered request keeps its number, and so stays a candidate.
    DeliveredKeepsItsNumber,
    /// A core keeps its number when a request goes into its box.
    FilledCoreKeepsItsNumber,
    /// A core keeps its number when its box is claimed.
    ClaimedCoreKeepsItsNumber,
    /// A masked request that gives way in a box is numbered as a candidate.
    EvictedMaskedIsACandidate,
    /// A masked request that set core priority takes out of a box is numbered as a candidate.
    RetractedMaskedIsACandidate,
    /// A request is offered by its number alone, and masking renews none.
    MaskKeepsTheNumber,
    // A number above 7.
    /// It is counted.
    UnreadableCounted,
    /// All entries are counted.
    AllCounted,
    /// It is passed over, and the list goes on.
    UnreadablePassedOver,
    /// It ends a sound list alone: on an unsound start every entry is answered.
    UnsoundStartAnswersAll,
}

impl ListFault {
    /// All faults but the forgotten clauses.
    pub const ALL: [ListFault; 20] = [
        ListFault::FirstCommandUntested,
        ListFault::OnlyTheFirstRefused,
        ListFault::UnsoundStartRepaired,
        ListFault::BadPriorityStored,
        ListFault::PendingTriggerStored,
        ListFault::EmptyBoxClaimed,
        ListFault::BoxedRequestWaits,
        ListFault::DropsNotCounted,
        ListFault::DropsCountedOnce,
        ListFault::SetCoreDeliversOnce,
        ListFault::DeliveredKeepsItsNumber,
        ListFault::FilledCoreKeepsItsNumber,
        ListFault::ClaimedCoreKeepsItsNumber,
        ListFault::EvictedMaskedIsACandidate,
        ListFault::RetractedMaskedIsACandidate,
        ListFault::MaskKeepsTheNumber,
        ListFault::UnreadableCounted,
        ListFault::AllCounted,
        ListFault::UnreadablePassedOver,
        ListFault::UnsoundStartAnswersAll,
    ];

    /// Whether an unsound start is needed to tell.
    pub fn is_of_unsound_starts(self) -> bool {
        matches!(
            self,
            ListFault::FirstCommandUntested
                | ListFault::StartForgets(_)
                | ListFault::OnlyTheFirstRefused
                | ListFault::UnsoundStartRepaired
                | ListFault::UnsoundStartAnswersAll
        )
    }
}

/// The reference model with lists of this form.
#[derive(Clone, Copy, Debug)]
pub struct FaultyList {
    pub fault: ListFault,
}

/// What is kept of the cores and sources: the least of the one and the greatest of the other are the next that a delivery joins.
struct Kept {
    /// Current priority, whether the box is empty, and the core.
    cores: Vec<(u16, bool, u16)>,
    /// Of a candidate its priority and id.
    sources: Vec<Option<(u16, Reverse<u16>)>>,
}

impl Kept {
    fn of(state: &Controller) -> Kept {
        let mut kept = Kept {
            cores: vec![(0, false, 0); usize::from(state.m)],
            sources: vec![None; MAX_SOURCES],
        };
        state.core_numbers().for_each(|k| kept.renew_core(state, k));
        state.ids().for_each(|id| kept.renew_source(state, id));
        kept
    }

    fn renew_core(&mut self, state: &Controller, k: CoreNumber) {
        let core = state.core(k);
        let number = (core.current_priority(), !core.message.filled, k.0);
        self.cores[usize::from(k.0)] = number;
    }

    fn renew_source(&mut self, state: &Controller, id: SourceId) {
        let source = state.source(id);
        let number = source.is_candidate().then(|| numbered(source, id));
        self.sources[usize::from(id.0) - 1] = number;
    }

    fn least(&self) -> (u16, CoreNumber) {
        let &(current, _, k) = self.cores.iter().min().expect("there is a core");
        (current, CoreNumber(k))
    }

    fn highest(&self) -> Option<(u16, SourceId)> {
        let &(priority, Reverse(id)) = self.sources.iter().flatten().max()?;
        Some((priority, SourceId(id)))
    }

    /// The priority of a candidate, by its number.
    fn offered(&self, id: SourceId) -> Option<u16> {
        self.sources[usize::from(id.0) - 1].map(|(priority, _)| priority)
    }
}

fn numbered(source: &Source, id: SourceId) -> (u16, Reverse<u16>) {
    (source.request, Reverse(id.0))
}

/// Whether commands can go on from a state, sound or not: all that they reach for is there.
fn can_go_on(state: &Controller) -> bool {
    let names_one = |core: &Core| {
        !core.message.filled || (1..=MAX_SOURCES).contains(&usize::from(core.message.id))
    };
    sizes_in_range(state.n, state.m) && state.used_cores().iter().all(names_one)
}

/// The state with blank and spare records made fresh.
fn repaired(state: &Controller) -> Controller {
    let mut good = state.clone();
    let (n, m) = (usize::from(state.n), usize::from(state.m));
    good.sources[n.min(MAX_SOURCES)..].fill(Source::RESET);
    good.cores[m.min(MAX_CORES)..].fill(Core::RESET);
    for source in good.sources.iter_mut().filter(|source| !source.pending) {
        (source.delivered, source.request) = (false, 0);
    }
    for core in &mut good.cores {
        core.message.dirty = false;
        if !core.message.filled {
            core.message = MessageBox::EMPTY;
        }
    }
    good
}

impl FaultyList {
    fn has(&self, fault: ListFault) -> bool {
        self.fault == fault
    }

    /// Whether the start is taken for sound.
    fn is_sound(&self, state: &Controller) -> bool {
        match self.fault {
            ListFault::StartForgets(clause) => violated(state).iter().all(|&v| v == clause),
            _ => well_formed(state),
        }
    }

    /// The command at this place of a list, of which the start was tested, on a state that can go on or not.
    fn listed(
        &self,
        state: &mut Controller,
        kept: &mut Option<Kept>,
        place: usize,
        sound: bool,
        command: Command,
    ) -> Answer {
        let runs = match self.fault {
            ListFault::FirstCommandUntested => place == 0 || well_formed(state),
            ListFault::OnlyTheFirstRefused => sound || place > 0,
            _ => sound,
        };
        if !runs {
            return Answer::refused(Refusal::Unsound);
        }
        if !can_go_on(state) {
            return accepted(0, 0);
        }
        let kept = kept.get_or_insert_with(|| Kept::of(state));
        self.step(state, kept, command)
    }

    fn step(&self, state: &mut Controller, kept: &mut Kept, command: Command) -> Answer {
        if let Err(refusal) = reference::check_command(state, command) {
            self.store_refused(state, kept, command, refusal);
            return match refusal {
                Refusal::Pending if self.has(ListFault::DropsNotCounted) => {
                    Answer::refused(refusal)
                }
                _ => reference::refuse(state, command, refusal),
            };
        }
        let id = reference::apply(state, command);
        let cycles = match command {
            Command::SetCorePriority(core, _) => self.settle(state, kept, core),
            Command::Claim(core) => {
                if !self.has(ListFault::ClaimedCoreKeepsItsNumber) {
                    kept.renew_core(state, core);
                }
                0
            }
            Command::Mask(_) if self.has(ListFault::MaskKeepsTheNumber) => 0,
            Command::SetSourcePriority(id, _)
            | Command::Mask(id)
            | Command::Unmask(id)
            | Command::Trigger(id)
            | Command::Redeliver(id)
            | Command::Complete(id) => {
                kept.renew_source(state, id);
                self.offer(state, kept, id)
            }
        };
        accepted(id, cycles)
    }

    /// What a refused command leaves besides a count: nothing, unless that is the fault.
    fn store_refused(
        &self,
        state: &mut Controller,
        kept: &mut Kept,
        command: Command,
        refusal: Refusal,
    ) {
        match (self.fault, refusal, command) {
            (
                ListFault::BadPriorityStored,
                Refusal::Priority,
                Command::SetSourcePriority(id, p),
            ) => {
                state.source_mut(id).configured = p;
            }
            (
                ListFault::BadPriorityStored,
                Refusal::Priority,
                Command::SetCorePriority(core, p),
            ) => {
                state.core_mut(core).configured = p;
                kept.renew_core(state, core);
            }
            (ListFault::PendingTriggerStored, Refusal::Pending, Command::Trigger(id)) => {
                let source = state.source_mut(id);
                source.request = source.configured;
                kept.renew_source(state, id);
            }
            (ListFault::EmptyBoxClaimed, Refusal::Empty, Command::Claim(core)) => {
                let core_record = state.core_mut(core);
                core_record.configured = core_record.message.priority;
                kept.renew_core(state, core);
            }
            (ListFault::BoxedRequestWaits, Refusal::NotClaimed, Command::Redeliver(id)) => {
                state.source_mut(id).delivered = false;
                kept.renew_source(state, id);
            }
            _ => {}
        }
    }

    /// The request of a source goes to the least core, if it is a candidate above it.
    fn offer(&self, state: &mut Controller, kept: &mut Kept, id: SourceId) -> u16 {
        let (current, core) = kept.least();
        let above = kept.offered(id).is_some_and(|priority| priority > current);
        if above {
            self.deliver(state, kept, id, core);
        }
        u16::from(above)
    }

    /// After set core priority: every box is emptied, then at most m deliveries.
    fn settle(&self, state: &mut Controller, kept: &mut Kept, written: CoreNumber) -> u16 {
        let filled = |&core: &CoreNumber| state.core(core).message.filled;
        let boxes: Vec<CoreNumber> = state.core_numbers().filter(filled).collect();
        for &core in &boxes {
            let id = SourceId(state.core(core).message.id);
            reference::retract(state, core);
            kept.renew_core(state, core);
            let as_candidate = self.has(ListFault::RetractedMaskedIsACandidate);
            put_back(state, kept, id, as_candidate);
        }
        kept.renew_core(state, written);
        let most = match self.fault {
            ListFault::SetCoreDeliversOnce => 1,
            _ => state.m,
        };
        let mut deliveries = 0;
        while let Some((priority, id)) = kept.highest() {
            let (current, core) = kept.least();
            if priority <= current || deliveries == most {
                break;
            }
            self.deliver(state, kept, id, core);
            deliveries += 1;
        }
        boxes.len() as u16 + deliveries
    }

    fn deliver(&self, state: &mut Controller, kept: &mut Kept, id: SourceId, core: CoreNumber) {
        let MessageBox {
            filled,
            id: evicted,
            ..
        } = state.core(core).message;
        reference::deliver(state, id, core);
        if filled {
            let as_candidate = self.has(ListFault::EvictedMaskedIsACandidate);
            put_back(state, kept, SourceId(evicted), as_candidate);
        }
        if !self.has(ListFault::DeliveredKeepsItsNumber) {
            kept.renew_source(state, id);
        }
        if !self.has(ListFault::FilledCoreKeepsItsNumber) {
            kept.renew_core(state, core);
        }
    }
}

/// Renews the number of a request that came out of a box, as a candidate's in any case if that is asked for.
fn put_back(state: &Controller, kept: &mut Kept, id: SourceId, as_candidate: bool) {
    kept.renew_source(state, id);
    if as_candidate {
        kept.sources[usize::from(id.0) - 1] = Some(numbered(state.source(id), id));
    }
}

fn accepted(id: u16, cycles: u16) -> Answer {
    Answer {
        number: 0,
        id,
        cycles,
    }
}

impl Model for FaultyList {
    type State = Controller;

    fn name(&self) -> String {
        format!("{:?}", self.fault)
    }

    fn make(&self, n: u16, m: u16) -> (u8, Controller) {
        reference::make(n, m)
    }

    fn execute(&self, state: &mut Controller, command: Command) -> Answer {
        reference::execute(state, command)
    }

    fn run(&self, state: &mut Controller, commands: &[Command]) -> Vec<Answer> {
        let list: Vec<Listed> = commands.iter().copied().map(Listed::Command).collect();
        self.run_listed(state, &list).answers
    }

    fn run_listed(&self, state: &mut Controller, list: &[Listed]) -> Ran {
        let start = state.clone();
        let sound = self.is_sound(state);
        let mut kept = None;
        let mut answers = Vec::new();
        let mut taken = 0;
        for (place, entry) in list.iter().enumerate() {
            match entry.command() {
                Some(command) => {
                    answers.push(self.listed(state, &mut kept, place, sound, command));
                }
                None if self.has(ListFault::UnreadablePassedOver) => continue,
                None if self.has(ListFault::UnsoundStartAnswersAll) && !sound => {
                    answers.push(Answer::refused(Refusal::Unsound));
                }
                None => {
                    taken += u64::from(self.has(ListFault::UnreadableCounted));
                    break;
                }
            }
            taken += 1;
        }
        if self.has(ListFault::AllCounted) {
            taken = list.len() as u64;
        }
        if self.has(ListFault::UnsoundStartRepaired) && !sound && !list.is_empty() {
            *state = repaired(&start);
        }
        if self.has(ListFault::DropsCountedOnce) {
            for (after, before) in state.sources.iter_mut().zip(&start.sources) {
                after.dropped = after.dropped.min(before.dropped.saturating_add(1));
            }
        }
        Ran { taken, answers }
    }

    fn load(&self, controller: &Controller) -> Controller {
        controller.clone()
    }

    fn read(&self, state: &Controller) -> Controller {
        state.clone()
    }

    fn highest_in(&self, sources: &[Source]) -> (u8, u16) {
        reference::highest_in(sources)
    }

    fn ranges_in(&self, sources: &[Source]) -> (u8, u16) {
        reference::ranges_in(sources)
    }

    fn claim_in_place(&self, core: &mut Core) -> (u8, u16) {
        reference::claim_in_place(core)
    }
}
