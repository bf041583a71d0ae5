//! What the calls of a run and their answers alone say: nothing here looks at a simulation.

use super::{Call, NONE};
use crate::records::{Answer, CoreNumber, SourceId, MAX_CORES};

/// A call, with the number and the id that it answered.
#[derive(Clone, Copy, Debug, PartialEq, Eq)]
pub struct Event {
    /// The call.
    pub call: Call,
    /// The number it answered.
    pub number: u8,
    /// The id it answered.
    pub id: SourceId,
}

impl Event {
    /// A call and its answer.
    pub fn of(call: Call, answer: Answer) -> Event {
        Event {
            call,
            number: answer.number,
            id: SourceId(answer.id),
        }
    }
}

/// Handovers by row and column, however many there are.
pub type Counts = [[usize; MAX_CORES]; MAX_CORES];

/// The accepted events, the newest first. A refused call changed nothing but a count.
fn accepted(history: &[Event]) -> impl Iterator<Item = &Event> {
    history.iter().rev().filter(|event| event.number == 0)
}

/// The core that last held the request of this source, if one did since its last trigger.
pub fn last_holder(history: &[Event], id: SourceId) -> Option<CoreNumber> {
    let mut told = accepted(history).filter_map(|event| match event.call {
        Call::Enter(core) if event.id == id => Some(Some(core)),
        Call::Trigger(triggered) if triggered == id => Some(None),
        _ => None,
    });
    told.next().flatten()
}

/// What runs on this core: what its last entry answered, unless it has exited since.
pub fn running(history: &[Event], core: CoreNumber) -> SourceId {
    let mut told = accepted(history).filter_map(|event| match event.call {
        Call::Enter(entered) if entered == core => Some(event.id),
        Call::Exit(exited) if exited == core => Some(NONE),
        _ => None,
    });
    told.next().unwrap_or(NONE)
}

/// The handover that the newest event is, from one core to another, if it is one.
pub fn newest_handover(history: &[Event]) -> Option<(CoreNumber, CoreNumber)> {
    let (newest, before) = history.split_last()?;
    let Call::Enter(core) = newest.call else {
        return None;
    };
    let last = last_holder(before, newest.id).filter(|_| newest.number == 0)?;
    (last != core).then_some((last, core))
}

/// The handovers of a whole run.
pub fn handovers(history: &[Event]) -> Counts {
    let mut counts = [[0; MAX_CORES]; MAX_CORES];
    for length in 1..=history.len() {
        if let Some((from, to)) = newest_handover(&history[..length]) {
            counts[usize::from(from.0)][usize::from(to.0)] += 1;
        }
    }
    counts
}
