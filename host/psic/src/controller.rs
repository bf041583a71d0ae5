//! A controller that owns its state.

use std::fmt;

use crate::answer::{Answer, Refusal, ANSWER_SIZE};
use crate::bytes::{self, STATE_SIZE};
use crate::command::Command;
use crate::records::{Core, CoreId, MessageBox, Owner, Source, SourceId, MAX_CORES, MAX_SOURCES};

/// Where the records begin in a state's bytes, and how long each is (docs/ENCODING.md).
const SOURCES_AT: usize = 4;
const SOURCE_SIZE: usize = 9;
const CORES_AT: usize = 1156;
const CORE_SIZE: usize = 8;

/// A controller of n sources and m cores. It is made, changed by commands, and read; a refused command changes nothing, but for a trigger
/// of a pending source, which that source counts ([`Controller::dropped`]).
///
/// ```
/// use psic::{Controller, CoreId, Owner, Refusal, SourceId};
///
/// # fn main() -> Result<(), Refusal> {
/// let mut controller = Controller::new(32, 2)?;
/// controller.unmask(SourceId(4))?;
/// assert_eq!(controller.trigger(SourceId(4))?.cycles, 1);
/// assert_eq!(controller.current_priorities(), [1, 0]);
/// assert_eq!(controller.owner(SourceId(4)), Some(Owner::Box(CoreId(0))));
/// assert_eq!(controller.claim(CoreId(0))?.claimed, Some(SourceId(4)));
/// assert_eq!(controller.claim(CoreId(0)), Err(Refusal::EmptyBox));
/// # Ok(())
/// # }
/// ```
#[derive(Clone, PartialEq, Eq, Hash)]
pub struct Controller {
    bytes: [u8; STATE_SIZE],
}

impl Controller {
    /// A fresh controller: "every source masked, configured priority 1, nothing pending; every core at 0, boxes empty"; nothing dropped.
    /// Refused by [`Refusal::BadSize`] unless n is 1 to 128 and m is 1 to 32.
    pub fn new(n: u16, m: u16) -> Result<Controller, Refusal> {
        let mut bytes = [0; STATE_SIZE];
        bytes::make(n, m, &mut bytes)?;
        Ok(Controller { bytes })
    }

    /// The controller that the bytes encode, sound or not. Refused by [`Refusal::Unreadable`] unless there are [`STATE_SIZE`] of them and
    /// each flag is 0 or 1.
    pub fn from_bytes(bytes: &[u8]) -> Result<Controller, Refusal> {
        let mut bytes: [u8; STATE_SIZE] = bytes.try_into().map_err(|_| Refusal::Unreadable)?;
        // An empty list changes nothing, and is refused exactly where the bytes encode no state.
        bytes::run(&mut bytes, &[], &mut [])?;
        Ok(Controller { bytes })
    }

    /// The state as bytes (docs/ENCODING.md).
    pub fn as_bytes(&self) -> &[u8; STATE_SIZE] {
        &self.bytes
    }

    /// The bytes for a call of the library that leaves them those of a state.
    pub(crate) fn bytes_mut(&mut self) -> &mut [u8; STATE_SIZE] {
        &mut self.bytes
    }

    // ---- commands

    /// Runs one command.
    pub fn execute(&mut self, command: Command) -> Result<Answer, Refusal> {
        bytes::execute(&mut self.bytes, command)
    }

    /// Runs a list of commands in one call, refused ones included, and gives the answer of each.
    pub fn run(&mut self, commands: &[Command]) -> Vec<Result<Answer, Refusal>> {
        let list: Vec<u8> = commands
            .iter()
            .flat_map(|command| command.to_bytes())
            .collect();
        let mut answers = vec![[0; ANSWER_SIZE]; commands.len()];
        let taken = bytes::run(&mut self.bytes, &list, answers.as_flattened_mut());
        assert_eq!(
            taken,
            Ok(commands.len()),
            "a state and whole commands can be read"
        );
        answers.into_iter().map(Answer::from_bytes).collect()
    }

    /// Sets the priority of the source's next request. [`Refusal::PriorityInUse`] while one is pending.
    pub fn set_source_priority(
        &mut self,
        source: SourceId,
        priority: u16,
    ) -> Result<Answer, Refusal> {
        self.execute(Command::SetSourcePriority(source, priority))
    }

    /// Masks a source: its request is not delivered. A box keeps what it has.
    pub fn mask(&mut self, source: SourceId) -> Result<Answer, Refusal> {
        self.execute(Command::Mask(source))
    }

    /// Unmasks a source: its request may be delivered.
    pub fn unmask(&mut self, source: SourceId) -> Result<Answer, Refusal> {
        self.execute(Command::Unmask(source))
    }

    /// Sets a core's configured priority. The requests of all boxes are taken back and delivered anew.
    pub fn set_core_priority(&mut self, core: CoreId, priority: u16) -> Result<Answer, Refusal> {
        self.execute(Command::SetCorePriority(core, priority))
    }

    /// Opens a request of the source, at its configured priority, also when it is masked. [`Refusal::Pending`] if it has one: then the
    /// trigger is dropped, and counted.
    ///
    /// ```
    /// use psic::{Controller, Refusal, SourceId};
    /// let mut controller = Controller::new(32, 2).unwrap();
    /// controller.trigger(SourceId(4)).unwrap();
    /// assert_eq!(controller.trigger(SourceId(4)), Err(Refusal::Pending));
    /// assert_eq!(controller.dropped(SourceId(4)), Some(1));
    /// ```
    pub fn trigger(&mut self, source: SourceId) -> Result<Answer, Refusal> {
        self.execute(Command::Trigger(source))
    }

    /// Takes the request out of a core's box; the core rises to its priority. The answer has the id.
    pub fn claim(&mut self, core: CoreId) -> Result<Answer, Refusal> {
        self.execute(Command::Claim(core))
    }

    /// Hands a claimed request back: it waits again.
    pub fn redeliver(&mut self, source: SourceId) -> Result<Answer, Refusal> {
        self.execute(Command::Redeliver(source))
    }

    /// Ends a claimed request. The core keeps its priority.
    pub fn complete(&mut self, source: SourceId) -> Result<Answer, Refusal> {
        self.execute(Command::Complete(source))
    }

    // ---- what it holds

    /// How many sources there are: n.
    pub fn source_count(&self) -> u16 {
        self.word(0)
    }

    /// How many cores there are: m.
    pub fn core_count(&self) -> u16 {
        self.word(2)
    }

    /// The top priority, 2^P - 1 with P = floor(log2 n) + 2; 0 if there is no source.
    pub fn top_priority(&self) -> u16 {
        let levels = self
            .source_count()
            .checked_ilog2()
            .map_or(1, |log| 4 << log);
        (levels - 1u32) as u16
    }

    /// Whether the state is sound, so that commands are taken. One that [`Controller::new`] made always is.
    pub fn is_sound(&self) -> bool {
        // No core has this number, so that the command is refused by 1 or by 3, and changes nothing.
        let refused = self.clone().claim(CoreId(u16::MAX));
        refused != Err(Refusal::Unsound)
    }

    /// The record of a source; none if the id is 0 or above n.
    pub fn source(&self, source: SourceId) -> Option<Source> {
        let position = usize::from(source.0).checked_sub(1)?;
        (position < self.held_sources()).then(|| self.source_at(position))
    }

    /// How many triggers of a source were refused because it was pending; [`MAX_DROPPED`](crate::MAX_DROPPED) stands for so many or more.
    /// None if the id is 0 or above n. From a fresh controller on it is the number of triggers of this source that were answered
    /// [`Refusal::Pending`].
    pub fn dropped(&self, source: SourceId) -> Option<u16> {
        self.source(source).map(|source| source.dropped)
    }

    /// The record of a core; none if it is m or above.
    pub fn core(&self, core: CoreId) -> Option<Core> {
        let position = usize::from(core.0);
        (position < self.held_cores()).then(|| self.core_at(position))
    }

    /// A core's box; none if the core is m or above.
    pub fn message_box(&self, core: CoreId) -> Option<MessageBox> {
        self.core(core).map(|core| core.message)
    }

    /// A core's current priority; none if the core is m or above.
    pub fn current_priority(&self, core: CoreId) -> Option<u16> {
        self.core(core).map(|core| core.current_priority())
    }

    /// The current priorities, core 0 first.
    pub fn current_priorities(&self) -> Vec<u16> {
        self.cores()
            .map(|(_, core)| core.current_priority())
            .collect()
    }

    /// Who owns the source's request; none if nothing is pending or there is no such source.
    pub fn owner(&self, source: SourceId) -> Option<Owner> {
        let record = self.source(source).filter(|record| record.pending)?;
        if !record.delivered {
            return Some(Owner::Source);
        }
        let holder = self
            .cores()
            .find(|(_, core)| core.message.filled && core.message.source == source);
        Some(holder.map_or(Owner::Software, |(core, _)| Owner::Box(core)))
    }

    /// The sources 1 to n with their records.
    pub fn sources(&self) -> impl Iterator<Item = (SourceId, Source)> + '_ {
        (0..self.held_sources())
            .map(|position| (SourceId(position as u16 + 1), self.source_at(position)))
    }

    /// The cores 0 to m - 1 with their records.
    pub fn cores(&self) -> impl Iterator<Item = (CoreId, Core)> + '_ {
        (0..self.held_cores()).map(|position| (CoreId(position as u16), self.core_at(position)))
    }

    /// n, but no more than there are records: a state that isn't sound may say more.
    fn held_sources(&self) -> usize {
        usize::from(self.source_count()).min(MAX_SOURCES)
    }

    fn held_cores(&self) -> usize {
        usize::from(self.core_count()).min(MAX_CORES)
    }

    fn source_at(&self, position: usize) -> Source {
        let at = SOURCES_AT + SOURCE_SIZE * position;
        Source {
            configured: self.word(at),
            masked: self.flag(at + 2),
            pending: self.flag(at + 3),
            delivered: self.flag(at + 4),
            priority: self.word(at + 5),
            dropped: self.word(at + 7),
        }
    }

    fn core_at(&self, position: usize) -> Core {
        let at = CORES_AT + CORE_SIZE * position;
        let message = MessageBox {
            filled: self.flag(at + 2),
            dirty: self.flag(at + 3),
            source: SourceId(self.word(at + 4)),
            priority: self.word(at + 6),
        };
        Core {
            configured: self.word(at),
            message,
        }
    }

    fn word(&self, at: usize) -> u16 {
        u16::from_le_bytes([self.bytes[at], self.bytes[at + 1]])
    }

    fn flag(&self, at: usize) -> bool {
        self.bytes[at] == 1
    }

    pub(crate) fn write_priorities(&self, f: &mut fmt::Formatter<'_>) -> fmt::Result {
        let priorities: Vec<String> = self
            .current_priorities()
            .iter()
            .map(u16::to_string)
            .collect();
        write!(f, "[{}]", priorities.join(","))
    }

    pub(crate) fn write_owners(&self, f: &mut fmt::Formatter<'_>) -> fmt::Result {
        for (id, _) in self.sources() {
            if let Some(owner) = self.owner(id) {
                write!(f, "  {id}: {owner}")?;
            }
        }
        Ok(())
    }
}

/// For people: the current priorities, core 0 first, and the owner of each pending request: `[4,5]  3: source  4: box 0  5: box 1`.
impl fmt::Display for Controller {
    fn fmt(&self, f: &mut fmt::Formatter<'_>) -> fmt::Result {
        self.write_priorities(f)?;
        self.write_owners(f)
    }
}

/// For developers: the records of the sources and cores.
impl fmt::Debug for Controller {
    fn fmt(&self, f: &mut fmt::Formatter<'_>) -> fmt::Result {
        f.debug_struct("Controller")
            .field("n", &self.source_count())
            .field("m", &self.core_count())
            .field("sources", &self.sources().collect::<Vec<_>>())
            .field("cores", &self.cores().collect::<Vec<_>>())
            .finish()
    }
}
