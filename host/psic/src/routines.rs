//! A simulation of the interrupt routines on all cores, and the table of handovers.

use std::array;
use std::fmt;

use crate::answer::{Answer, Refusal, ANSWER_SIZE};
use crate::bytes::STATE_SIZE;
use crate::controller::Controller;
use crate::raw;
use crate::records::{CoreId, SourceId, MAX_CORES, MAX_SOURCES};
use crate::routine_call::RoutineCall;

/// Where the active ids and the last holders begin in a simulation's bytes (docs/ENCODING.md).
const ACTIVE_AT: usize = STATE_SIZE;
const HOLDER_AT: usize = ACTIVE_AT + 2 * MAX_CORES;

/// The bytes of a simulation.
pub const ROUTINES_SIZE: usize = HOLDER_AT + 2 * MAX_SOURCES;

/// A simulation of the published entry and exit code (Listing 1 of source document 002) on all cores: a controller, the request that is
/// active on each core, and the core that last held each request. It is made, changed by calls, and read; a refused call changes nothing,
/// but for a trigger of a pending source, which its controller counts.
///
/// A request runs on core 0, is interrupted there, waits, and is claimed by core 1: a handover from 0 to 1.
///
/// ```
/// use psic::{CoreId, Handovers, Refusal, Routines, SourceId};
///
/// # fn main() -> Result<(), Refusal> {
/// let (core_0, core_1) = (CoreId(0), CoreId(1));
/// let mut routines = Routines::new(3, 2)?;
/// let mut handovers = Handovers::default();
/// for id in 1..=3 {
///     routines.set_source_priority(SourceId(id), id)?;
///     routines.unmask(SourceId(id))?;
/// }
/// routines.trigger(SourceId(1))?;
/// assert_eq!(routines.enter(core_0, &mut handovers)?.claimed, Some(SourceId(1)));
/// routines.trigger(SourceId(2))?;
/// routines.enter(core_1, &mut handovers)?;
/// routines.trigger(SourceId(3))?;
/// routines.enter(core_0, &mut handovers)?;
/// assert_eq!(routines.active(core_0), Some(SourceId(3)));
/// routines.exit(core_1)?;
/// assert_eq!(routines.enter(core_1, &mut handovers)?.claimed, Some(SourceId(1)));
/// assert_eq!(handovers.get(core_0, core_1), 1);
/// assert_eq!(routines.last_holder(SourceId(1)), Some(core_1));
/// # Ok(())
/// # }
/// ```
#[derive(Clone, Debug, PartialEq, Eq, Hash)]
pub struct Routines {
    controller: Controller,
    /// By core: the active id, 0 if it is idle.
    active: [u16; MAX_CORES],
    /// By source, source 1 first: the last holder plus one, 0 for none.
    holder: [u16; MAX_SOURCES],
}

impl Routines {
    /// A fresh simulation: a fresh controller, every core idle, nothing held. Refused by [`Refusal::BadSize`] unless n is 1 to 128 and m
    /// is 1 to 32.
    pub fn new(n: u16, m: u16) -> Result<Routines, Refusal> {
        let mut state = [0; STATE_SIZE];
        let (mut active, mut holder) = ([0; MAX_CORES], [0; MAX_SOURCES]);
        let made = raw::make_routines(n, m, &mut state, &mut active, &mut holder);
        Answer::unpacked(made)?;
        let controller = Controller::from_bytes(&state)?;
        Ok(Routines {
            controller,
            active,
            holder,
        })
    }

    /// The simulation that the bytes encode, sound or not. Refused by [`Refusal::Unreadable`] unless there are [`ROUTINES_SIZE`] of them
    /// and each flag is 0 or 1.
    pub fn from_bytes(bytes: &[u8]) -> Result<Routines, Refusal> {
        let bytes: &[u8; ROUTINES_SIZE] = bytes.try_into().map_err(|_| Refusal::Unreadable)?;
        let word = |at: usize| u16::from_le_bytes([bytes[at], bytes[at + 1]]);
        Ok(Routines {
            controller: Controller::from_bytes(&bytes[..STATE_SIZE])?,
            active: array::from_fn(|k| word(ACTIVE_AT + 2 * k)),
            holder: array::from_fn(|i| word(HOLDER_AT + 2 * i)),
        })
    }

    /// The simulation as bytes (docs/ENCODING.md).
    pub fn to_bytes(&self) -> [u8; ROUTINES_SIZE] {
        let mut bytes = [0; ROUTINES_SIZE];
        bytes[..STATE_SIZE].copy_from_slice(self.controller.as_bytes());
        let words = self.active.iter().chain(&self.holder);
        for (place, word) in bytes[ACTIVE_AT..].chunks_exact_mut(2).zip(words) {
            place.copy_from_slice(&word.to_le_bytes());
        }
        bytes
    }

    // ---- calls

    /// Runs a list of calls, refused ones included, counts the handovers in it on in the table, and gives the answer of each call.
    pub fn simulate(
        &mut self,
        calls: &[RoutineCall],
        handovers: &mut Handovers,
    ) -> Vec<Result<Answer, Refusal>> {
        let list: Vec<u8> = calls.iter().flat_map(|call| call.to_bytes()).collect();
        let mut answers = vec![[0; ANSWER_SIZE]; calls.len()];
        self.put(&list, &mut answers, handovers);
        answers.into_iter().map(Answer::from_bytes).collect()
    }

    /// Runs one call as a list of one: a handover is counted on in the table.
    pub fn call(
        &mut self,
        call: RoutineCall,
        handovers: &mut Handovers,
    ) -> Result<Answer, Refusal> {
        let mut answers = [[0; ANSWER_SIZE]];
        self.put(&call.to_bytes(), &mut answers, handovers);
        Answer::from_bytes(answers[0])
    }

    fn put(&mut self, list: &[u8], answers: &mut [[u8; ANSWER_SIZE]], handovers: &mut Handovers) {
        let taken = raw::simulate(
            self.controller.bytes_mut(),
            &mut self.active,
            &mut self.holder,
            list,
            answers.as_flattened_mut(),
            handovers.counts.as_flattened_mut(),
        );
        let all = answers.len() as u64;
        assert_eq!(taken, all, "a simulation and whole calls can be read");
    }

    /// Runs a command, which counts no handover.
    fn command(&mut self, call: RoutineCall) -> Result<Answer, Refusal> {
        self.call(call, &mut Handovers::default())
    }

    /// Entry of a routine on a core: claims the request in its box, redelivers the interrupted request if there is one, and makes the new
    /// one active. The answer has the claimed id, and the cycles of both commands. A handover is counted on in the table; only an entry
    /// counts, so that the other calls take none. [`crate::raw::enter`] doesn't count.
    pub fn enter(&mut self, core: CoreId, handovers: &mut Handovers) -> Result<Answer, Refusal> {
        self.call(RoutineCall::Enter(core), handovers)
    }

    /// Exit of the routine that is active on a core: completes its request, and sets the core to 0. The answer has the cycles of both
    /// commands. [`Refusal::NotClaimed`] if the core is idle.
    pub fn exit(&mut self, core: CoreId) -> Result<Answer, Refusal> {
        Answer::unpacked(raw::exit(
            self.controller.bytes_mut(),
            &mut self.active,
            &mut self.holder,
            core.0,
        ))
    }

    /// As [`Controller::set_source_priority`].
    pub fn set_source_priority(
        &mut self,
        source: SourceId,
        priority: u16,
    ) -> Result<Answer, Refusal> {
        self.command(RoutineCall::SetSourcePriority(source, priority))
    }

    /// As [`Controller::mask`].
    pub fn mask(&mut self, source: SourceId) -> Result<Answer, Refusal> {
        self.command(RoutineCall::Mask(source))
    }

    /// As [`Controller::unmask`].
    pub fn unmask(&mut self, source: SourceId) -> Result<Answer, Refusal> {
        self.command(RoutineCall::Unmask(source))
    }

    /// As [`Controller::trigger`], a dropped one counted too. "A new trigger is a new request": nobody has held it.
    pub fn trigger(&mut self, source: SourceId) -> Result<Answer, Refusal> {
        self.command(RoutineCall::Trigger(source))
    }

    // ---- what it holds

    /// The controller, to be read.
    pub fn controller(&self) -> &Controller {
        &self.controller
    }

    /// The request that is active on a core; none if the core is idle, or m or above.
    pub fn active(&self, core: CoreId) -> Option<SourceId> {
        self.controller.core(core)?;
        let id = self.active[usize::from(core.0)];
        (id != 0).then_some(SourceId(id))
    }

    /// The core that last held the source's request, also after the request's exit, until the next trigger; none if no core did or there
    /// is no such source.
    pub fn last_holder(&self, source: SourceId) -> Option<CoreId> {
        self.controller.source(source)?;
        let holder = self.holder[usize::from(source.0) - 1];
        holder.checked_sub(1).map(CoreId)
    }

    /// Whether the simulation is sound, so that calls are taken. One that [`Routines::new`] made always is.
    pub fn is_sound(&self) -> bool {
        // No core has this number, so that the call is refused by 1 or by 3, and changes nothing.
        let refused = self.clone().exit(CoreId(u16::MAX));
        refused != Err(Refusal::Unsound)
    }
}

/// For people: the current priorities and the active ids, core 0 first, `-` for an idle core, and the owner of each pending request:
/// `[4,5]  active [4,-]  4: software  5: box 1`.
impl fmt::Display for Routines {
    fn fmt(&self, f: &mut fmt::Formatter<'_>) -> fmt::Result {
        let active = self.controller.cores().map(|(core, _)| {
            let id = self.active(core);
            id.map_or("-".to_string(), |id| id.to_string())
        });
        let active: Vec<String> = active.collect();
        self.controller.write_priorities(f)?;
        write!(f, "  active [{}]", active.join(","))?;
        self.controller.write_owners(f)
    }
}

/// The count of handovers: "a table of cores by cores, how often a request last held by one (the row) was next claimed by another (a new
/// trigger is a new request), held at 65,535". At first all counts are 0.
#[derive(Clone, Debug, Default, PartialEq, Eq, Hash)]
pub struct Handovers {
    /// The rows, core 0 first. Any counts may be handed in, and are counted on from.
    pub counts: [[u16; MAX_CORES]; MAX_CORES],
}

impl Handovers {
    /// How often a request last held by one core was next claimed by another; 0 if there is no such core.
    pub fn get(&self, row: CoreId, column: CoreId) -> u16 {
        let cells = self.counts.get(usize::from(row.0));
        let cell = cells.and_then(|cells| cells.get(usize::from(column.0)));
        cell.copied().unwrap_or(0)
    }

    /// The counts that aren't 0, row by row, with their row and column.
    pub fn seen(&self) -> impl Iterator<Item = (CoreId, CoreId, u16)> + '_ {
        let cores = || (0..MAX_CORES as u16).map(CoreId);
        let cells = cores().flat_map(move |row| cores().map(move |column| (row, column)));
        let counted = cells.map(|(row, column)| (row, column, self.get(row, column)));
        counted.filter(|&(_, _, count)| count != 0)
    }
}
