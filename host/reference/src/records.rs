//! What is held, what is asked and what is answered.
//!
//! Numbers are `u16` throughout, so that a broken state and an argument out of range can be
//! written down as they are.

/// The most sources a controller has.
pub const MAX_SOURCES: usize = 128;

/// The most cores a controller has.
pub const MAX_CORES: usize = 32;

/// The top priority of the largest controller, n = 128.
pub const MAX_PRIORITY: u16 = 511;

/// A source's id, 1 to n. 0 means none.
#[derive(Clone, Copy, Debug, PartialEq, Eq, Hash)]
pub struct SourceId(pub u16);

/// A core's number, 0 to m-1.
#[derive(Clone, Copy, Debug, PartialEq, Eq, Hash)]
pub struct CoreNumber(pub u16);

/// A source and its request.
#[derive(Clone, Copy, Debug, PartialEq, Eq, Hash)]
pub struct Source {
    /// The configured priority.
    pub configured: u16,
    /// Its request isn't delivered while this is on.
    pub masked: bool,
    /// It has a request.
    pub pending: bool,
    /// The request lies in a box or is claimed.
    pub delivered: bool,
    /// The request's priority, copied from the configured one at trigger.
    pub request: u16,
    /// The triggers refused by 6, held at 65,535 (request 7/14).
    pub dropped: u16,
}

impl Source {
    /// Fresh: masked, configured priority 1, nothing pending, nothing dropped.
    pub const RESET: Source = Source {
        configured: 1,
        masked: true,
        pending: false,
        delivered: false,
        request: 0,
        dropped: 0,
    };

    /// "Waiting" means pending and not delivered.
    pub fn is_waiting(&self) -> bool {
        self.pending && !self.delivered
    }

    /// A candidate is waiting and unmasked.
    pub fn is_candidate(&self) -> bool {
        self.is_waiting() && !self.masked
    }
}

/// A core's box.
#[derive(Clone, Copy, Debug, PartialEq, Eq, Hash)]
pub struct MessageBox {
    /// A request lies in it.
    pub filled: bool,
    /// The request is to be retracted.
    pub dirty: bool,
    /// The source id.
    pub id: u16,
    /// The request's priority.
    pub priority: u16,
}

impl MessageBox {
    /// An empty box has id 0, priority 0 and isn't dirty.
    pub const EMPTY: MessageBox = MessageBox {
        filled: false,
        dirty: false,
        id: 0,
        priority: 0,
    };
}

/// A core and its box.
#[derive(Clone, Copy, Debug, PartialEq, Eq, Hash)]
pub struct Core {
    /// The configured priority.
    pub configured: u16,
    /// The box.
    pub message: MessageBox,
}

impl Core {
    /// Fresh: priority 0, the box empty.
    pub const RESET: Core = Core {
        configured: 0,
        message: MessageBox::EMPTY,
    };

    /// Current priority of a core: the box's if filled, else the configured one.
    pub fn current_priority(&self) -> u16 {
        if self.message.filled {
            self.message.priority
        } else {
            self.configured
        }
    }
}

/// A controller of n sources and m cores.
#[derive(Clone, Debug, PartialEq, Eq, Hash)]
pub struct Controller {
    /// The number of sources, 1 to 128.
    pub n: u16,
    /// The number of cores, 1 to 32.
    pub m: u16,
    /// The source with id i is at i-1. Records past n are kept as fresh ones.
    pub sources: [Source; MAX_SOURCES],
    /// The core with number c is at c. Records past m are kept as fresh ones.
    pub cores: [Core; MAX_CORES],
}

impl Controller {
    /// The fresh state of the sizes n and m.
    pub fn reset(n: u16, m: u16) -> Controller {
        Controller {
            n,
            m,
            sources: [Source::RESET; MAX_SOURCES],
            cores: [Core::RESET; MAX_CORES],
        }
    }

    /// The sources 1 to n. The sizes must be in range.
    pub fn used_sources(&self) -> &[Source] {
        &self.sources[..usize::from(self.n)]
    }

    /// The cores 0 to m-1. The sizes must be in range.
    pub fn used_cores(&self) -> &[Core] {
        &self.cores[..usize::from(self.m)]
    }

    /// The source with this id, which must be 1 to 128.
    pub fn source(&self, id: SourceId) -> &Source {
        &self.sources[usize::from(id.0) - 1]
    }

    /// The source with this id, which must be 1 to 128.
    pub fn source_mut(&mut self, id: SourceId) -> &mut Source {
        &mut self.sources[usize::from(id.0) - 1]
    }

    /// The core with this number, which must be below 32.
    pub fn core(&self, core: CoreNumber) -> &Core {
        &self.cores[usize::from(core.0)]
    }

    /// The core with this number, which must be below 32.
    pub fn core_mut(&mut self, core: CoreNumber) -> &mut Core {
        &mut self.cores[usize::from(core.0)]
    }

    /// The ids 1 to n.
    pub fn ids(&self) -> impl Iterator<Item = SourceId> {
        (1..=self.n).map(SourceId)
    }

    /// The core numbers 0 to m-1.
    pub fn core_numbers(&self) -> impl Iterator<Item = CoreNumber> {
        (0..self.m).map(CoreNumber)
    }

    /// A filled box of a core 0 to m-1 names this source.
    pub fn is_boxed(&self, id: SourceId) -> bool {
        self.used_cores()
            .iter()
            .any(|core| core.message.filled && core.message.id == id.0)
    }

    /// "Claimed": the request is delivered and lies in no box.
    pub fn is_claimed(&self, id: SourceId) -> bool {
        let source = self.source(id);
        source.pending && source.delivered && !self.is_boxed(id)
    }

    /// The current priorities of the cores 0 to m-1.
    pub fn current_priorities(&self) -> Vec<u16> {
        self.used_cores()
            .iter()
            .map(Core::current_priority)
            .collect()
    }
}

/// The eight commands. Arguments may be any numbers.
#[derive(Clone, Copy, Debug, PartialEq, Eq, Hash)]
pub enum Command {
    /// Set source priority (id, p).
    SetSourcePriority(SourceId, u16),
    /// Mask (id).
    Mask(SourceId),
    /// Unmask (id).
    Unmask(SourceId),
    /// Set core priority (core, p).
    SetCorePriority(CoreNumber, u16),
    /// Trigger (id).
    Trigger(SourceId),
    /// Claim (core).
    Claim(CoreNumber),
    /// Redeliver (id).
    Redeliver(SourceId),
    /// Complete (id).
    Complete(SourceId),
}

/// An entry of a list as a host hands it over.
#[derive(Clone, Copy, Debug, PartialEq, Eq, Hash)]
pub enum Listed {
    /// One of the eight commands.
    Command(Command),
    /// A number above 7, which names no command and ends the list, and the numbers beside it.
    Unreadable {
        /// What stands for the command, 8 to 255.
        number: u8,
        /// What stands for the id or the core.
        at: u16,
        /// What stands for the priority.
        priority: u16,
    },
}

impl Listed {
    /// The command, if it is one.
    pub fn command(self) -> Option<Command> {
        match self {
            Listed::Command(command) => Some(command),
            Listed::Unreadable { .. } => None,
        }
    }
}

/// What a command answers.
#[derive(Clone, Copy, Debug, PartialEq, Eq, Hash)]
pub struct Answer {
    /// 0 on success, else the number for no.
    pub number: u8,
    /// The claimed id. Only claim answers an id other than 0.
    pub id: u16,
    /// Retractions plus deliveries.
    pub cycles: u16,
}

impl Answer {
    /// A refused command answers id 0 and 0 cycles.
    pub fn refused(refusal: Refusal) -> Answer {
        Answer {
            number: refusal.number(),
            id: 0,
            cycles: 0,
        }
    }
}

/// The numbers for no.
#[derive(Clone, Copy, Debug, PartialEq, Eq, Hash)]
pub enum Refusal {
    /// 1: the state isn't sound, or a filled lent record is bad.
    Unsound = 1,
    /// 2: a controller is asked for with n or m out of range, or a lent list is too long.
    Size = 2,
    /// 3: core is m or above.
    Core = 3,
    /// 4: id is 0 or above n.
    Source = 4,
    /// 5: source priority 0 or above top; core priority above top.
    Priority = 5,
    /// 6: trigger of a pending source.
    Pending = 6,
    /// 7: claim on an empty box, in a state or in a lent record.
    Empty = 7,
    /// 8: redeliver or complete of a request that isn't claimed.
    NotClaimed = 8,
    /// 9: set source priority on a pending source (request 5/14).
    InUse = 9,
}

impl Refusal {
    /// The number itself.
    pub fn number(self) -> u8 {
        self as u8
    }
}
