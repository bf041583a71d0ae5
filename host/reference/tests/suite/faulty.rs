//! Models that are wrong in one point each, for the checks to find.

use psic_reference::model::Model;
use psic_reference::records::{
    Answer, Command, Controller, Core, CoreNumber, Refusal, Source, SourceId,
};
use psic_reference::reference;
use psic_reference::well_formed::{violated, Clause};

/// The point in which a model is wrong.
#[derive(Clone, Copy, Debug, PartialEq, Eq)]
pub enum Fault {
    // The seller's errors.
    AtLeast,
    OnlyWrittenBoxDirty,
    AnyCoreBelow,
    ConfiguredForRequest,
    CompleteLowersTheCore,
    // The dummies.
    RefusesEverything,
    HandsBackTheResetState,
    ChangesNothing,
    OnlySetsFlagsAfterTheFirstDelivery,
    AlwaysReports2mCycles,
    // Slips that come easily.
    TieToTheHigherId,
    TieToTheHigherCore,
    DeliversMasked,
    BoxedRequestsComplete,
    PriorityCheckedBeforeTheId,
    // Ties between cores that request 2/14 rules out.
    TieToTheLowestNumber,
    TieToTheEmptyBox,
    TieToTheHigherFilledBox,
    TieToTheHigherEmptyBox,
    FilledBoxBeforeALowerPriority,
    // Its clause of a sound state, wrong.
    /// A covered priority isn't above any filled box's.
    ClauseNotAbove,
    /// A covered priority is below every core's current priority.
    ClauseOfTheLeastCurrent,
    /// Each core is compared with its own box only.
    ClauseOfTheOwnBox,
    /// Each core is compared with every box but its own, by either clause.
    ClauseOfOtherBoxes,
    /// Each core is compared with the boxes up to its own, as a pass meets them.
    ClauseOfBoxesBefore,
    /// Neither its tie nor its clause.
    WithoutRequest2,
    /// A state that violates this clause alone is taken for sound and handed back.
    Forgets(Clause),
    /// An accepted command hands back the right state but for this field of one record.
    Writes(Field),
    MakesSizesOutOfRange,
    /// A list stops after its first refused command.
    ListEndsAtARefusal,
    SearchSkipsPriority0,
    SearchTakesLongLists,
    ClaimsDirtyRecords,
    RefusedClaimEmptiesTheRecord,
    ClaimedRecordIsDirty,
    // Counts of the ranges looked into that request 3/14 rules out.
    /// The search stops at pairs, and so does the count.
    CountsNoSingleSources,
    /// A half without a candidate is counted, and not looked into.
    CountsSkippedRanges,
    CountsTheRightHalfLarger,
    CountSkipsPriority0,
    /// The tree is over 128 sources, whatever the list's length.
    CountsOver128,
    /// At most d for each candidate, not d + 1.
    CountsAtMostTheDepth,
    CountsLongLists,
    // Settings of a source's priority that request 5/14 rules out.
    InUseBeforeThePriority,
    InUseBeforeTheId,
    OnlyWaitingProtected,
    ClaimedOpenToChange,
    SamePriorityAccepted,
    IdleSourceRefused,
    NotClaimedForInUse,
    /// A state whose requests differ from their sources in priority is taken for broken.
    SetApartUnsound,
    WithoutRequest5,
    // What demand 3 alone can tell.
    Reports2mPlus1Cycles,
    BoxNamesAnIdleSource,
    BoxesOneOfTwoEqualRequestsTwice,
}

/// A field of a state: of its sizes, of a source or of a core.
#[derive(Clone, Copy, Debug, PartialEq, Eq)]
pub enum Field {
    N,
    M,
    SourceConfigured,
    Masked,
    Pending,
    Delivered,
    Request,
    Dropped,
    CoreConfigured,
    Filled,
    Dirty,
    BoxId,
    BoxPriority,
}

impl Field {
    pub const ALL: [Field; 13] = [
        Field::N,
        Field::M,
        Field::SourceConfigured,
        Field::Masked,
        Field::Pending,
        Field::Delivered,
        Field::Request,
        Field::Dropped,
        Field::CoreConfigured,
        Field::Filled,
        Field::Dirty,
        Field::BoxId,
        Field::BoxPriority,
    ];

    /// Gives the field another value: of the last source or of the last core.
    fn write(self, controller: &mut Controller) {
        let source = &mut controller.sources[127];
        let core = &mut controller.cores[31];
        match self {
            Field::N => controller.n ^= 1,
            Field::M => controller.m ^= 1,
            Field::SourceConfigured => source.configured ^= 1,
            Field::Masked => source.masked ^= true,
            Field::Pending => source.pending ^= true,
            Field::Delivered => source.delivered ^= true,
            Field::Request => source.request ^= 1,
            Field::Dropped => source.dropped ^= 1,
            Field::CoreConfigured => core.configured ^= 1,
            Field::Filled => core.message.filled ^= true,
            Field::Dirty => core.message.dirty ^= true,
            Field::BoxId => core.message.id ^= 1,
            Field::BoxPriority => core.message.priority ^= 1,
        }
    }

    /// The field as a difference names it.
    pub fn name(self) -> &'static str {
        match self {
            Field::N => "n",
            Field::M => "m",
            Field::SourceConfigured => "source 128 configured",
            Field::Masked => "source 128 masked",
            Field::Pending => "source 128 pending",
            Field::Delivered => "source 128 delivered",
            Field::Request => "source 128 request",
            Field::Dropped => "source 128 dropped",
            Field::CoreConfigured => "core 31 configured",
            Field::Filled => "core 31 box filled",
            Field::Dirty => "core 31 box dirty",
            Field::BoxId => "core 31 box id",
            Field::BoxPriority => "core 31 box priority",
        }
    }
}

impl Fault {
    /// Wrong choices between cores of least current priority, and the one that goes past it.
    pub const TIES: [Fault; 6] = [
        Fault::TieToTheHigherCore,
        Fault::TieToTheLowestNumber,
        Fault::TieToTheEmptyBox,
        Fault::TieToTheHigherFilledBox,
        Fault::TieToTheHigherEmptyBox,
        Fault::FilledBoxBeforeALowerPriority,
    ];

    /// Wrong clauses of covered priorities below boxes. That it is left out is [`Fault::Forgets`].
    pub const CLAUSES: [Fault; 5] = [
        Fault::ClauseNotAbove,
        Fault::ClauseOfTheLeastCurrent,
        Fault::ClauseOfTheOwnBox,
        Fault::ClauseOfOtherBoxes,
        Fault::ClauseOfBoxesBefore,
    ];

    /// Wrong counts of the ranges that the search over a lent list looks into.
    pub const COUNTS: [Fault; 7] = [
        Fault::CountsNoSingleSources,
        Fault::CountsSkippedRanges,
        Fault::CountsTheRightHalfLarger,
        Fault::CountSkipsPriority0,
        Fault::CountsOver128,
        Fault::CountsAtMostTheDepth,
        Fault::CountsLongLists,
    ];

    /// Wrong answers to set source priority on pending and on idle sources, and the clause that request 5/14 doesn't ask for.
    pub const SETTINGS: [Fault; 9] = [
        Fault::InUseBeforeThePriority,
        Fault::InUseBeforeTheId,
        Fault::OnlyWaitingProtected,
        Fault::ClaimedOpenToChange,
        Fault::SamePriorityAccepted,
        Fault::IdleSourceRefused,
        Fault::NotClaimedForInUse,
        Fault::SetApartUnsound,
        Fault::WithoutRequest5,
    ];

    /// Of the wrong settings one is a clause of a sound state; the others answer set source priority.
    pub fn adds_a_clause(self) -> bool {
        self == Fault::SetApartUnsound
    }

    /// Of the wrong clauses one refuses sound states; the others take broken ones.
    pub fn is_too_strict(self) -> bool {
        self == Fault::ClauseOfTheLeastCurrent
    }

    /// All faults but the ties, the clauses, the counts, the settings, the forgotten ones and the written fields.
    pub const ALL: [Fault; 25] = [
        Fault::AtLeast,
        Fault::OnlyWrittenBoxDirty,
        Fault::AnyCoreBelow,
        Fault::ConfiguredForRequest,
        Fault::CompleteLowersTheCore,
        Fault::RefusesEverything,
        Fault::HandsBackTheResetState,
        Fault::ChangesNothing,
        Fault::OnlySetsFlagsAfterTheFirstDelivery,
        Fault::AlwaysReports2mCycles,
        Fault::TieToTheHigherId,
        Fault::DeliversMasked,
        Fault::BoxedRequestsComplete,
        Fault::PriorityCheckedBeforeTheId,
        Fault::WithoutRequest2,
        Fault::MakesSizesOutOfRange,
        Fault::ListEndsAtARefusal,
        Fault::SearchSkipsPriority0,
        Fault::SearchTakesLongLists,
        Fault::ClaimsDirtyRecords,
        Fault::RefusedClaimEmptiesTheRecord,
        Fault::ClaimedRecordIsDirty,
        Fault::Reports2mPlus1Cycles,
        Fault::BoxNamesAnIdleSource,
        Fault::BoxesOneOfTwoEqualRequestsTwice,
    ];
}

/// The reference model with a fault.
#[derive(Clone, Copy, Debug)]
pub struct Faulty {
    pub fault: Fault,
}

impl Faulty {
    fn has(&self, fault: Fault) -> bool {
        self.fault == fault
    }

    /// Whether a state is taken for sound.
    fn is_sound(&self, controller: &Controller) -> bool {
        let mut violated = violated(controller);
        if Fault::CLAUSES.contains(&self.fault) || self.has(Fault::WithoutRequest2) {
            violated.retain(|&clause| clause != Clause::ConfiguredUnderBoxBelowBoxes);
        }
        if self.has(Fault::ClauseOfOtherBoxes) {
            violated.retain(|&clause| clause != Clause::BoxAboveConfigured);
        }
        let apart = |s: &Source| s.pending && s.request != s.configured;
        if self.has(Fault::SetApartUnsound) && controller.sources.iter().any(apart) {
            return false;
        }
        violated.is_empty() && self.wrong_clause_holds(controller)
    }

    /// What the model has in place of the clause of request 2/14.
    fn wrong_clause_holds(&self, controller: &Controller) -> bool {
        let cores = controller.used_cores().iter().enumerate();
        let filled: Vec<(usize, &Core)> = cores.filter(|(_, core)| core.message.filled).collect();
        let least = controller.current_priorities().into_iter().min();
        filled.iter().all(|&(at, core)| {
            let covered = core.configured;
            filled.iter().all(|&(other, Core { message, .. })| {
                let below = covered < message.priority;
                match self.fault {
                    Fault::ClauseNotAbove => covered <= message.priority,
                    Fault::ClauseOfTheLeastCurrent => Some(covered) < least,
                    Fault::ClauseOfTheOwnBox => below || other != at,
                    Fault::ClauseOfOtherBoxes => below || other == at,
                    Fault::ClauseOfBoxesBefore => below || other > at,
                    _ => true,
                }
            })
        })
    }

    fn check(&self, controller: &Controller, command: Command) -> Result<(), Refusal> {
        let checked = if self.is_sound(controller) {
            reference::check_command(controller, command)
        } else {
            Err(Refusal::Unsound)
        };
        match (checked, command) {
            (Ok(()), _) if self.has(Fault::RefusesEverything) => Err(Refusal::Unsound),
            (Err(Refusal::Source), Command::SetSourcePriority(_, 0))
                if self.has(Fault::PriorityCheckedBeforeTheId) =>
            {
                Err(Refusal::Priority)
            }
            (checked, Command::SetSourcePriority(id, priority)) => {
                self.setting(controller, id, priority, checked)
            }
            (Err(Refusal::NotClaimed), Command::Complete(id))
                if self.has(Fault::BoxedRequestsComplete) && controller.is_boxed(id) =>
            {
                Ok(())
            }
            _ => checked,
        }
    }

    /// What a wrong setting of a source's priority makes of the right check.
    fn setting(
        &self,
        controller: &Controller,
        id: SourceId,
        priority: u16,
        checked: Result<(), Refusal>,
    ) -> Result<(), Refusal> {
        if checked == Err(Refusal::Unsound) {
            return checked;
        }
        // Of an id out of range the record that its low bits name.
        let near = SourceId(id.0.wrapping_sub(1) % controller.n + 1);
        let source = controller.source(near);
        match (self.fault, checked) {
            (Fault::InUseBeforeThePriority, Err(Refusal::Priority))
            | (Fault::InUseBeforeTheId, Err(Refusal::Source))
                if source.pending =>
            {
                Err(Refusal::InUse)
            }
            (Fault::OnlyWaitingProtected, Err(Refusal::InUse)) if !source.is_waiting() => Ok(()),
            (Fault::ClaimedOpenToChange, Err(Refusal::InUse)) if controller.is_claimed(id) => {
                Ok(())
            }
            (Fault::SamePriorityAccepted, Err(Refusal::InUse)) if priority == source.configured => {
                Ok(())
            }
            (Fault::IdleSourceRefused, Ok(())) => Err(Refusal::InUse),
            (Fault::NotClaimedForInUse, Err(Refusal::InUse)) => Err(Refusal::NotClaimed),
            (Fault::WithoutRequest5, Err(Refusal::InUse)) => Ok(()),
            _ => checked,
        }
    }

    fn apply(&self, controller: &mut Controller, command: Command) -> u16 {
        let id = reference::apply(controller, command);
        match command {
            Command::SetCorePriority(written, _) if self.has(Fault::OnlyWrittenBoxDirty) => {
                let others = controller.core_numbers().filter(|&core| core != written);
                for core in others {
                    controller.core_mut(core).message.dirty = false;
                }
            }
            Command::Complete(_) if self.has(Fault::CompleteLowersTheCore) => {
                controller.cores[0].configured = 0;
            }
            _ => {}
        }
        id
    }

    /// Settles at most 2m cycles, since a fault may keep settling from ending.
    fn settle(&self, controller: &mut Controller) -> u16 {
        let mut cycles = 0;
        while cycles < 2 * controller.m && self.settle_cycle(controller) {
            cycles += 1;
        }
        cycles
    }

    fn settle_cycle(&self, controller: &mut Controller) -> bool {
        if let Some(core) = reference::first_dirty(controller) {
            reference::retract(controller, core);
            return true;
        }
        let Some(id) = self.candidate(controller) else {
            return false;
        };
        let request = self.request_priority(controller.source(id));
        let core = self.target(controller, request);
        let current = controller.core(core).current_priority();
        let above = request > current || self.has(Fault::AtLeast) && request == current;
        let first = controller.sources.iter().all(|source| !source.delivered);
        if above && self.has(Fault::OnlySetsFlagsAfterTheFirstDelivery) && !first {
            controller.source_mut(id).delivered = true;
            return false;
        }
        if above {
            reference::deliver(controller, id, core);
            self.misname(controller, core);
        }
        above
    }

    /// The request that was put into the core's box gets another one's id, its priority being right.
    fn misname(&self, controller: &mut Controller, core: CoreNumber) {
        let boxed = controller.core(core).message;
        let mut ids = controller.ids();
        let mut others = controller.core_numbers().filter(|&other| other != core);
        let same_priority = |&other: &CoreNumber| {
            let message = controller.core(other).message;
            message.filled && message.priority == boxed.priority
        };
        let name = match self.fault {
            Fault::BoxNamesAnIdleSource => ids.find(|&id| !controller.source(id).pending),
            Fault::BoxesOneOfTwoEqualRequestsTwice => others
                .find(same_priority)
                .map(|other| SourceId(controller.core(other).message.id)),
            _ => None,
        };
        if let Some(id) = name {
            controller.core_mut(core).message.id = id.0;
        }
    }

    fn candidate(&self, controller: &Controller) -> Option<SourceId> {
        let fits = |id: &SourceId| {
            let source = controller.source(*id);
            source.is_candidate() || self.has(Fault::DeliversMasked) && source.is_waiting()
        };
        let rank = |id: &SourceId| {
            let tie = if self.has(Fault::TieToTheHigherId) {
                id.0
            } else {
                u16::MAX - id.0
            };
            (self.request_priority(controller.source(*id)), tie)
        };
        controller.ids().filter(fits).max_by_key(rank)
    }

    fn request_priority(&self, source: &Source) -> u16 {
        if self.has(Fault::ConfiguredForRequest) {
            source.configured
        } else {
            source.request
        }
    }

    fn target(&self, controller: &Controller, request: u16) -> CoreNumber {
        let current = |&core: &CoreNumber| controller.core(core).current_priority();
        let filled = |core: &CoreNumber| controller.core(*core).message.filled;
        let least = reference::least_core(controller);
        let mut numbers = controller.core_numbers();
        let mut tied = reference::least_cores(controller).into_iter();
        let chosen = match self.fault {
            Fault::AnyCoreBelow => numbers.find(|core| current(core) < request),
            Fault::TieToTheHigherCore => tied.last(),
            Fault::TieToTheLowestNumber | Fault::WithoutRequest2 => tied.next(),
            Fault::TieToTheEmptyBox => tied.find(|core| !filled(core)),
            Fault::TieToTheHigherFilledBox => tied.rfind(filled),
            Fault::TieToTheHigherEmptyBox if !filled(&least) => tied.last(),
            Fault::FilledBoxBeforeALowerPriority => numbers.filter(filled).min_by_key(current),
            _ => None,
        };
        chosen.unwrap_or(least)
    }
}

impl Model for Faulty {
    type State = Controller;

    fn name(&self) -> String {
        format!("{:?}", self.fault)
    }

    fn make(&self, n: u16, m: u16) -> (u8, Controller) {
        if self.has(Fault::MakesSizesOutOfRange) {
            return (0, Controller::reset(n, m));
        }
        reference::make(n, m)
    }

    fn execute(&self, state: &mut Controller, command: Command) -> Answer {
        if let Fault::Forgets(clause) = self.fault {
            if violated(state) == [clause] {
                return Answer {
                    number: 0,
                    id: 0,
                    cycles: 0,
                };
            }
        }
        if let Err(refusal) = self.check(state, command) {
            return reference::refuse(state, command, refusal);
        }
        let before = state.clone();
        let id = self.apply(state, command);
        let cycles = self.settle(state);
        match self.fault {
            Fault::HandsBackTheResetState => *state = Controller::reset(before.n, before.m),
            Fault::ChangesNothing => *state = before,
            Fault::Writes(field) => field.write(state),
            _ => {}
        }
        let cycles = match self.fault {
            Fault::AlwaysReports2mCycles => 2 * state.m,
            Fault::Reports2mPlus1Cycles => 2 * state.m + 1,
            _ => cycles,
        };
        Answer {
            number: 0,
            id,
            cycles,
        }
    }

    fn run(&self, state: &mut Controller, commands: &[Command]) -> Vec<Answer> {
        let mut ended = false;
        let execute = |&command: &Command| {
            if ended && self.has(Fault::ListEndsAtARefusal) {
                return Answer::refused(Refusal::Unsound);
            }
            let answer = self.execute(state, command);
            ended |= answer.number != 0;
            answer
        };
        commands.iter().map(execute).collect()
    }

    fn load(&self, controller: &Controller) -> Controller {
        controller.clone()
    }

    fn read(&self, state: &Controller) -> Controller {
        state.clone()
    }

    fn highest_in(&self, sources: &[Source]) -> (u8, u16) {
        match self.fault {
            Fault::SearchSkipsPriority0 => {
                let (number, id) = reference::highest_in(sources);
                let at_0 = id != 0 && sources[usize::from(id) - 1].request == 0;
                (number, if at_0 { 0 } else { id })
            }
            Fault::SearchTakesLongLists => {
                let id = reference::highest_candidate(sources);
                (0, id.map_or(0, |id| id.0))
            }
            _ => reference::highest_in(sources),
        }
    }

    fn ranges_in(&self, sources: &[Source]) -> (u8, u16) {
        let (number, ranges) = reference::ranges_in(sources);
        if number != 0 && !self.has(Fault::CountsLongLists) {
            return (number, ranges);
        }
        let candidates = sources.iter().filter(|source| source.is_candidate());
        let candidates = candidates.count() as u16;
        let depth = sources.len().next_power_of_two().trailing_zeros() as u16;
        let count = match self.fault {
            Fault::CountsNoSingleSources => ranges - candidates,
            Fault::CountsAtMostTheDepth => ranges.min(depth * candidates),
            Fault::CountsOver128 => {
                let mut all = sources.to_vec();
                all.resize(128, Source::RESET);
                reference::ranges_in(&all).1
            }
            Fault::CountSkipsPriority0 => {
                let above_0 = |source: &Source| source.is_candidate() && source.request > 0;
                counted(sources, &above_0, Half::Left)
            }
            Fault::CountsTheRightHalfLarger => counted(sources, &Source::is_candidate, Half::Right),
            Fault::CountsSkippedRanges => with_skipped(sources),
            Fault::CountsLongLists => counted(sources, &Source::is_candidate, Half::Left),
            _ => ranges,
        };
        (0, count)
    }

    fn claim_in_place(&self, core: &mut Core) -> (u8, u16) {
        if self.has(Fault::ClaimsDirtyRecords) {
            core.message.dirty = false;
        }
        let answer = reference::claim_in_place(core);
        if self.has(Fault::RefusedClaimEmptiesTheRecord) && answer.0 != 0 {
            *core = Core::RESET;
        }
        if self.has(Fault::ClaimedRecordIsDirty) && answer.0 == 0 {
            core.message.dirty = true;
        }
        answer
    }
}

/// Which half of an odd range is the larger.
#[derive(Clone, Copy)]
enum Half {
    Left,
    Right,
}

/// The ranges of a tree that hold a record of which the test holds.
fn counted(range: &[Source], test: &impl Fn(&Source) -> bool, larger: Half) -> u16 {
    if !range.iter().any(test) {
        return 0;
    }
    if range.len() == 1 {
        return 1;
    }
    let middle = match larger {
        Half::Left => range.len().div_ceil(2),
        Half::Right => range.len() / 2,
    };
    let (left, right) = range.split_at(middle);
    1 + counted(left, test, larger) + counted(right, test, larger)
}

/// The ranges that are looked into, and those that are skipped on the way.
fn with_skipped(range: &[Source]) -> u16 {
    if range.len() <= 1 || !range.iter().any(Source::is_candidate) {
        return range.len().min(1) as u16;
    }
    let (left, right) = range.split_at(range.len().div_ceil(2));
    1 + with_skipped(left) + with_skipped(right)
}
