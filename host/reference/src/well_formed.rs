//! A sound state, clause by clause.
//!
//! Every clause but the first speaks of a state whose sizes are in range. Apart from the sizes, a
//! record may hold any numbers: a bad id in a box is answered, not followed.

use crate::records::{Controller, Core, MessageBox, Source, MAX_CORES, MAX_SOURCES};
use crate::reference::top_priority;

/// The clauses of a sound state, in the order in which they are tested.
#[derive(Clone, Copy, Debug, PartialEq, Eq)]
pub enum Clause {
    /// Sizes in range.
    SizesInRange,
    /// Configured source priorities 1 to top.
    ConfiguredSourcePriorities,
    /// Pending request priorities 1 to top.
    PendingRequestPriorities,
    /// Core priorities 0 to top.
    CorePriorities,
    /// Not pending: delivered is off and request priority is 0.
    NotPendingIsBlank,
    /// An empty box has id 0, priority 0 and isn't dirty.
    EmptyBoxIsBlank,
    /// Records past n or m are fresh ones.
    RecordsPastSizesAreReset,
    /// Every filled box names a source that is pending and delivered.
    BoxNamesDelivered,
    /// Every filled box has its request's priority.
    BoxHasRequestPriority,
    /// Every filled box is strictly above its core's configured priority.
    BoxAboveConfigured,
    /// No source in two boxes.
    NoSourceInTwoBoxes,
    /// No box dirty.
    NoBoxDirty,
    /// No candidate above the least current priority.
    NoCandidateAboveLeast,
    /// The configured priority under a filled box isn't above any core's current priority.
    ConfiguredUnderBoxNotAbove,
    /// Each configured priority under a filled box is strictly below every filled box's priority
    /// (request 2/14). A box and its own core are such a pair, so it says [`Clause::BoxAboveConfigured`] too.
    ConfiguredUnderBoxBelowBoxes,
}

impl Clause {
    /// All clauses. The sizes come first, since the other clauses rest on them.
    pub const ALL: [Clause; 15] = [
        Clause::SizesInRange,
        Clause::ConfiguredSourcePriorities,
        Clause::PendingRequestPriorities,
        Clause::CorePriorities,
        Clause::NotPendingIsBlank,
        Clause::EmptyBoxIsBlank,
        Clause::RecordsPastSizesAreReset,
        Clause::BoxNamesDelivered,
        Clause::BoxHasRequestPriority,
        Clause::BoxAboveConfigured,
        Clause::NoSourceInTwoBoxes,
        Clause::NoBoxDirty,
        Clause::NoCandidateAboveLeast,
        Clause::ConfiguredUnderBoxNotAbove,
        Clause::ConfiguredUnderBoxBelowBoxes,
    ];

    /// Whether the clause holds of a state; every clause but the first rests on it.
    pub fn holds(self, controller: &Controller) -> bool {
        match self {
            Clause::SizesInRange => sizes_in_range(controller.n, controller.m),
            Clause::ConfiguredSourcePriorities => configured_source_priorities(controller),
            Clause::PendingRequestPriorities => pending_request_priorities(controller),
            Clause::CorePriorities => core_priorities(controller),
            Clause::NotPendingIsBlank => not_pending_is_blank(controller),
            Clause::EmptyBoxIsBlank => empty_box_is_blank(controller),
            Clause::RecordsPastSizesAreReset => records_past_sizes_are_reset(controller),
            Clause::BoxNamesDelivered => box_names_delivered(controller),
            Clause::BoxHasRequestPriority => box_has_request_priority(controller),
            Clause::BoxAboveConfigured => box_above_configured(controller),
            Clause::NoSourceInTwoBoxes => no_source_in_two_boxes(controller),
            Clause::NoBoxDirty => no_box_dirty(controller),
            Clause::NoCandidateAboveLeast => no_candidate_above_least(controller),
            Clause::ConfiguredUnderBoxNotAbove => configured_under_box_not_above(controller),
            Clause::ConfiguredUnderBoxBelowBoxes => configured_under_box_below_boxes(controller),
        }
    }
}

/// The state is sound: all clauses hold.
pub fn well_formed(controller: &Controller) -> bool {
    Clause::ALL.iter().all(|clause| clause.holds(controller))
}

/// The clauses that don't hold. With sizes out of range the others say nothing.
pub fn violated(controller: &Controller) -> Vec<Clause> {
    if !Clause::SizesInRange.holds(controller) {
        return vec![Clause::SizesInRange];
    }
    Clause::ALL
        .into_iter()
        .filter(|clause| !clause.holds(controller))
        .collect()
}

/// Sizes in range: n sources, 1 to 128; m cores, 1 to 32.
pub fn sizes_in_range(n: u16, m: u16) -> bool {
    (1..=MAX_SOURCES).contains(&usize::from(n)) && (1..=MAX_CORES).contains(&usize::from(m))
}

/// Configured source priorities 1 to top.
fn configured_source_priorities(controller: &Controller) -> bool {
    let top = top_priority(controller.n);
    controller
        .used_sources()
        .iter()
        .all(|source| (1..=top).contains(&source.configured))
}

/// Pending request priorities 1 to top.
fn pending_request_priorities(controller: &Controller) -> bool {
    let top = top_priority(controller.n);
    controller
        .used_sources()
        .iter()
        .filter(|source| source.pending)
        .all(|source| (1..=top).contains(&source.request))
}

/// Core priorities 0 to top.
fn core_priorities(controller: &Controller) -> bool {
    let top = top_priority(controller.n);
    controller
        .used_cores()
        .iter()
        .all(|core| core.configured <= top)
}

/// Not pending: delivered is off and request priority is 0.
fn not_pending_is_blank(controller: &Controller) -> bool {
    controller
        .used_sources()
        .iter()
        .filter(|source| !source.pending)
        .all(|source| !source.delivered && source.request == 0)
}

/// An empty box has id 0, priority 0 and isn't dirty.
fn empty_box_is_blank(controller: &Controller) -> bool {
    controller
        .used_cores()
        .iter()
        .filter(|core| !core.message.filled)
        .all(|core| core.message == MessageBox::EMPTY)
}

/// Records past n or m are kept as fresh ones.
fn records_past_sizes_are_reset(controller: &Controller) -> bool {
    let sources_past = &controller.sources[usize::from(controller.n)..];
    let cores_past = &controller.cores[usize::from(controller.m)..];
    sources_past.iter().all(|source| *source == Source::RESET)
        && cores_past.iter().all(|core| *core == Core::RESET)
}

/// Every filled box names a source that is pending and delivered.
fn box_names_delivered(controller: &Controller) -> bool {
    filled_boxes(controller).all(|message| {
        named_source(controller, message).is_some_and(|source| source.pending && source.delivered)
    })
}

/// Every filled box has the same priority as the request of the source it names. A box that names
/// no source falls to the clause before.
fn box_has_request_priority(controller: &Controller) -> bool {
    filled_boxes(controller).all(|message| {
        named_source(controller, message).is_none_or(|source| source.request == message.priority)
    })
}

/// Every filled box's priority is strictly above its core's configured priority.
fn box_above_configured(controller: &Controller) -> bool {
    controller
        .used_cores()
        .iter()
        .filter(|core| core.message.filled)
        .all(|core| core.message.priority > core.configured)
}

/// No source in two boxes.
fn no_source_in_two_boxes(controller: &Controller) -> bool {
    let ids: Vec<u16> = filled_boxes(controller).map(|message| message.id).collect();
    (0..ids.len()).all(|at| !ids[..at].contains(&ids[at]))
}

/// No box dirty.
fn no_box_dirty(controller: &Controller) -> bool {
    controller
        .used_cores()
        .iter()
        .all(|core| !core.message.dirty)
}

/// No candidate above the least current priority.
fn no_candidate_above_least(controller: &Controller) -> bool {
    controller
        .used_sources()
        .iter()
        .filter(|source| source.is_candidate())
        .all(|source| !above_some_core(controller, source.request))
}

/// The configured priority under a filled box isn't above any core's current priority.
fn configured_under_box_not_above(controller: &Controller) -> bool {
    controller
        .used_cores()
        .iter()
        .filter(|core| core.message.filled)
        .all(|core| !above_some_core(controller, core.configured))
}

/// Each configured priority under a filled box is strictly below every filled box's priority.
fn configured_under_box_below_boxes(controller: &Controller) -> bool {
    controller
        .used_cores()
        .iter()
        .filter(|core| core.message.filled)
        .all(|core| filled_boxes(controller).all(|message| core.configured < message.priority))
}

/// The priority is strictly above some core's current priority.
fn above_some_core(controller: &Controller, priority: u16) -> bool {
    controller
        .used_cores()
        .iter()
        .any(|core| priority > core.current_priority())
}

fn filled_boxes(controller: &Controller) -> impl Iterator<Item = &MessageBox> {
    controller
        .used_cores()
        .iter()
        .map(|core| &core.message)
        .filter(|message| message.filled)
}

/// The source 1 to n that the box names, if its id is one of these.
fn named_source<'a>(controller: &'a Controller, message: &MessageBox) -> Option<&'a Source> {
    let position = usize::from(message.id).checked_sub(1)?;
    controller.used_sources().get(position)
}
