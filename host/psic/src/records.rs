//! What a controller holds: ids, core numbers, and the records of sources and cores, in C's layout.

use std::fmt;

/// The most sources that a controller has: "n sources, 1 to 128".
pub const MAX_SOURCES: usize = 128;

/// The most cores that a controller has: "m cores, 1 to 32".
pub const MAX_CORES: usize = 32;

/// What a source's count of dropped triggers is held at.
pub const MAX_DROPPED: u16 = 65_535;

/// A source's id, 1 to n; 0 means none.
#[repr(transparent)]
#[derive(Clone, Copy, Debug, PartialEq, Eq, PartialOrd, Ord, Hash)]
pub struct SourceId(pub u16);

/// A core's number, 0 to m - 1. It can't be handed where a source is due:
///
/// ```compile_fail,E0308
/// use psic::{Controller, CoreId};
/// let mut controller = Controller::new(32, 2).unwrap();
/// controller.trigger(CoreId(0));
/// ```
#[repr(transparent)]
#[derive(Clone, Copy, Debug, PartialEq, Eq, PartialOrd, Ord, Hash)]
pub struct CoreId(pub u16);

impl fmt::Display for SourceId {
    fn fmt(&self, f: &mut fmt::Formatter<'_>) -> fmt::Result {
        self.0.fmt(f)
    }
}

impl fmt::Display for CoreId {
    fn fmt(&self, f: &mut fmt::Formatter<'_>) -> fmt::Result {
        self.0.fmt(f)
    }
}

/// A source and its request.
#[repr(C)]
#[derive(Clone, Copy, Debug, PartialEq, Eq, Hash)]
pub struct Source {
    /// The configured priority: that of its next request.
    pub configured: u16,
    /// Whether it is masked.
    pub masked: bool,
    /// Whether it has a request.
    pub pending: bool,
    /// Whether the request lies in a box or is claimed. Off if nothing is pending.
    pub delivered: bool,
    /// The request's own priority, copied from the configured one at trigger. 0 if nothing is pending.
    pub priority: u16,
    /// The triggers refused because something was pending ([`Refusal::Pending`](crate::Refusal::Pending)), held at [`MAX_DROPPED`].
    pub dropped: u16,
}

/// A core's box. An empty one has id 0, priority 0 and isn't dirty.
#[repr(C)]
#[derive(Clone, Copy, Debug, PartialEq, Eq, Hash)]
pub struct MessageBox {
    /// Whether a request lies in it.
    pub filled: bool,
    /// Whether that request is to be taken back. No box of a settled state is dirty.
    pub dirty: bool,
    /// The source whose request it is.
    pub source: SourceId,
    /// The request's priority.
    pub priority: u16,
}

/// A core's configured priority and its box.
#[repr(C)]
#[derive(Clone, Copy, Debug, PartialEq, Eq, Hash)]
pub struct Core {
    /// The configured priority.
    pub configured: u16,
    /// The box.
    pub message: MessageBox,
}

const _: () = assert!(size_of::<SourceId>() == 2 && size_of::<CoreId>() == 2);
const _: () =
    assert!(size_of::<Source>() == 10 && size_of::<MessageBox>() == 6 && size_of::<Core>() == 8);

impl Core {
    /// The current priority: "the box's if filled, else the configured one".
    pub fn current_priority(&self) -> u16 {
        if self.message.filled {
            self.message.priority
        } else {
            self.configured
        }
    }
}

/// Who owns a pending request.
#[derive(Clone, Copy, Debug, PartialEq, Eq, Hash)]
pub enum Owner {
    /// The source: the request waits.
    Source,
    /// The box of this core.
    Box(CoreId),
    /// The software: the request is claimed.
    Software,
}

impl fmt::Display for Owner {
    fn fmt(&self, f: &mut fmt::Formatter<'_>) -> fmt::Result {
        match self {
            Owner::Source => write!(f, "source"),
            Owner::Box(core) => write!(f, "box {core}"),
            Owner::Software => write!(f, "software"),
        }
    }
}
