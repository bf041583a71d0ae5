//! Models that are wrong in one point each about dropped triggers, for the checks to find: what a trigger refused by 6 counts, what
//! leaves the counts alone, and what a sound state asks of them.

use psic_reference::model::Model;
use psic_reference::records::{Answer, Command, Controller, Core, Source, SourceId};
use psic_reference::reference;
use psic_reference::well_formed::well_formed;

/// The point in which a model is wrong.
#[derive(Clone, Copy, Debug, PartialEq, Eq)]
pub enum DropFault {
    /// The model is right.
    None,
    // What a refused trigger counts.
    NotCounted,
    /// After 65,535 comes 0.
    Wraps,
    HeldAt65534,
    /// The count has eight bits.
    HeldAt255,
    /// In the record of the next source, after the last one in that of the first.
    OfTheNextSource,
    OnlyWaitingCounted,
    MaskedNotCounted,
    BoxedNotCounted,
    ClaimedNotCounted,
    // What the refusal does besides.
    /// Its request's box becomes dirty, and the state settles.
    Settles,
    /// The configured priority is copied, as that of a new request.
    CopiesThePriority,
    // What else counts, or clears a count.
    AcceptedCounted,
    /// Trigger of an unknown source, in the record that its low bits name.
    UnknownSourceCounted,
    UnsoundStateCounted,
    /// Redeliver and complete, refused by 8.
    NotClaimedCounted,
    /// Set source priority, refused by 9.
    SettingCounted,
    TriggerClears,
    CompleteClears,
    RedeliverClears,
    MaskClears,
    /// Of the source whose request is claimed.
    ClaimClears,
    /// Of every source in a box, as its record is written anew.
    RetractionClears,
    /// A state that is stored and taken up again has lost its counts.
    LostInStorage,
    /// It has lost their upper bytes.
    UpperByteLostInStorage,
    // The test.
    SpareCountsForgotten,
    /// Only the first source past n is looked at.
    OnlyTheFirstSpareTested,
    /// The count of a source in use must be 0.
    UsedCountsTested,
    /// It must be 0 unless something is pending.
    IdleCountsTested,
    // The search over a lent list.
    /// Of candidates of one priority it finds the one with the higher count.
    SearchComparesCounts,
}

impl DropFault {
    /// Told by runs from a fresh controller, by the answers and the counts alone.
    pub const OF_RUNS: [DropFault; 17] = [
        DropFault::NotCounted,
        DropFault::OfTheNextSource,
        DropFault::OnlyWaitingCounted,
        DropFault::MaskedNotCounted,
        DropFault::BoxedNotCounted,
        DropFault::ClaimedNotCounted,
        DropFault::Settles,
        DropFault::AcceptedCounted,
        DropFault::UnknownSourceCounted,
        DropFault::NotClaimedCounted,
        DropFault::SettingCounted,
        DropFault::TriggerClears,
        DropFault::CompleteClears,
        DropFault::RedeliverClears,
        DropFault::MaskClears,
        DropFault::ClaimClears,
        DropFault::RetractionClears,
    ];

    /// Told by a run of 65,536 refusals, and by states with such counts.
    pub const OF_HIGH_COUNTS: [DropFault; 3] = [
        DropFault::Wraps,
        DropFault::HeldAt65534,
        DropFault::HeldAt255,
    ];

    /// Told by states that no run from a fresh controller reaches, or by what is stored or lent.
    pub const OF_OTHER_STATES: [DropFault; 9] = [
        DropFault::CopiesThePriority,
        DropFault::UnsoundStateCounted,
        DropFault::LostInStorage,
        DropFault::UpperByteLostInStorage,
        DropFault::SpareCountsForgotten,
        DropFault::OnlyTheFirstSpareTested,
        DropFault::UsedCountsTested,
        DropFault::IdleCountsTested,
        DropFault::SearchComparesCounts,
    ];

    /// All of them.
    pub fn all() -> Vec<DropFault> {
        let mut all = DropFault::OF_RUNS.to_vec();
        all.extend(DropFault::OF_HIGH_COUNTS);
        all.extend(DropFault::OF_OTHER_STATES);
        all
    }
}

/// The reference model with a fault.
#[derive(Clone, Copy, Debug)]
pub struct FaultyDrops {
    pub fault: DropFault,
}

/// The source 1 to n whose id this is, or has its low bits.
fn near(state: &Controller, id: SourceId) -> SourceId {
    SourceId(id.0.wrapping_sub(1) % state.n.clamp(1, 128) + 1)
}

fn add_one(count: &mut u16) {
    *count = count.saturating_add(1);
}

impl FaultyDrops {
    fn has(&self, fault: DropFault) -> bool {
        self.fault == fault
    }

    /// Whether a state is taken for sound.
    fn is_sound(&self, state: &Controller) -> bool {
        let mut seen = state.clone();
        let spare = usize::from(state.n).min(128);
        match self.fault {
            DropFault::SpareCountsForgotten => clear(&mut seen.sources[spare..]),
            DropFault::OnlyTheFirstSpareTested => clear(&mut seen.sources[(spare + 1).min(128)..]),
            _ => {}
        }
        let used = &state.sources[..spare];
        let used_fit = match self.fault {
            DropFault::UsedCountsTested => used.iter().all(|s| s.dropped == 0),
            DropFault::IdleCountsTested => used.iter().all(|s| s.pending || s.dropped == 0),
            _ => true,
        };
        used_fit && well_formed(&seen)
    }

    /// Whether the count of a refused trigger is left out.
    fn left_out(&self, state: &Controller, id: SourceId) -> bool {
        let source = state.source(id);
        match self.fault {
            DropFault::NotCounted => true,
            DropFault::OnlyWaitingCounted => !source.is_waiting(),
            DropFault::MaskedNotCounted => source.masked,
            DropFault::BoxedNotCounted => state.is_boxed(id),
            DropFault::ClaimedNotCounted => state.is_claimed(id),
            _ => false,
        }
    }

    /// A trigger that is refused by 6.
    fn dropped(&self, state: &mut Controller, id: SourceId) -> Answer {
        let counted = match self.fault {
            DropFault::OfTheNextSource => SourceId(id.0 % state.n + 1),
            _ => id,
        };
        let left_out = self.left_out(state, id);
        let count = &mut state.source_mut(counted).dropped;
        *count = match self.fault {
            _ if left_out => *count,
            DropFault::Wraps => count.wrapping_add(1),
            DropFault::HeldAt65534 if *count == 65_534 => 65_534,
            DropFault::HeldAt255 if *count == 255 => 255,
            _ => count.saturating_add(1),
        };
        if self.has(DropFault::CopiesThePriority) {
            let source = state.source_mut(id);
            source.request = source.configured;
        }
        let mut answer = Answer {
            number: 6,
            id: 0,
            cycles: 0,
        };
        if self.has(DropFault::Settles) {
            let mut cores = state.cores.iter_mut();
            let holder = cores.find(|core| core.message.filled && core.message.id == id.0);
            if let Some(core) = holder {
                core.message.dirty = true;
            }
            answer.cycles = reference::settle(state);
        }
        answer
    }

    /// What another refusal counts, wrongly.
    fn refused(&self, state: &mut Controller, command: Command, number: u8) {
        let counts = match (self.fault, command, number) {
            (DropFault::UnknownSourceCounted, Command::Trigger(id), 4) => Some(near(state, id)),
            (DropFault::UnsoundStateCounted, Command::Trigger(id), 1) => Some(near(state, id)),
            (DropFault::NotClaimedCounted, Command::Redeliver(id) | Command::Complete(id), 8) => {
                Some(id)
            }
            (DropFault::SettingCounted, Command::SetSourcePriority(id, _), 9) => Some(id),
            _ => None,
        };
        if let Some(id) = counts {
            add_one(&mut state.source_mut(id).dropped);
        }
    }

    /// What an accepted command does to counts, wrongly. The id is the answered one.
    fn accepted(&self, before: &Controller, state: &mut Controller, command: Command, id: u16) {
        match (self.fault, command) {
            (DropFault::AcceptedCounted, Command::Trigger(id)) => {
                add_one(&mut state.source_mut(id).dropped)
            }
            (DropFault::TriggerClears, Command::Trigger(id))
            | (DropFault::CompleteClears, Command::Complete(id))
            | (DropFault::RedeliverClears, Command::Redeliver(id))
            | (DropFault::MaskClears, Command::Mask(id)) => state.source_mut(id).dropped = 0,
            (DropFault::ClaimClears, Command::Claim(_)) => {
                state.source_mut(SourceId(id)).dropped = 0
            }
            (DropFault::RetractionClears, Command::SetCorePriority(..)) => {
                for id in before.ids().filter(|&id| before.is_boxed(id)) {
                    state.source_mut(id).dropped = 0;
                }
            }
            _ => {}
        }
    }
}

fn clear(sources: &mut [Source]) {
    sources.iter_mut().for_each(|source| source.dropped = 0);
}

/// The lent list with each candidate's count in the lower bits of a wider priority.
fn highest_by_counts(sources: &[Source]) -> u16 {
    let rank = |&(place, source): &(usize, &Source)| {
        let (request, dropped) = (source.request, source.dropped);
        (request, dropped, usize::MAX - place)
    };
    let candidates = sources.iter().enumerate().filter(|(_, s)| s.is_candidate());
    candidates
        .max_by_key(rank)
        .map_or(0, |(place, _)| place as u16 + 1)
}

impl Model for FaultyDrops {
    type State = Controller;

    fn name(&self) -> String {
        format!("{:?}", self.fault)
    }

    fn make(&self, n: u16, m: u16) -> (u8, Controller) {
        reference::make(n, m)
    }

    fn execute(&self, state: &mut Controller, command: Command) -> Answer {
        let sound = self.is_sound(state);
        if sound != well_formed(state) {
            // Taken for sound and isn't, or the other way round: the number tells.
            let number = u8::from(!sound);
            return Answer {
                number,
                id: 0,
                cycles: 0,
            };
        }
        let before = state.clone();
        let answer = reference::execute(state, command);
        match (command, answer.number) {
            (Command::Trigger(id), 6) => {
                *state = before;
                self.dropped(state, id)
            }
            (_, 0) => {
                self.accepted(&before, state, command, answer.id);
                answer
            }
            (_, number) => {
                self.refused(state, command, number);
                answer
            }
        }
    }

    fn load(&self, controller: &Controller) -> Controller {
        let mut loaded = controller.clone();
        let used = usize::from(controller.n).min(128);
        for source in &mut loaded.sources[..used] {
            match self.fault {
                DropFault::LostInStorage => source.dropped = 0,
                DropFault::UpperByteLostInStorage => source.dropped &= 255,
                _ => {}
            }
        }
        loaded
    }

    fn read(&self, state: &Controller) -> Controller {
        state.clone()
    }

    fn highest_in(&self, sources: &[Source]) -> (u8, u16) {
        match reference::highest_in(sources) {
            (0, _) if self.has(DropFault::SearchComparesCounts) => (0, highest_by_counts(sources)),
            answer => answer,
        }
    }

    fn ranges_in(&self, sources: &[Source]) -> (u8, u16) {
        reference::ranges_in(sources)
    }

    fn claim_in_place(&self, core: &mut Core) -> (u8, u16) {
        reference::claim_in_place(core)
    }
}
