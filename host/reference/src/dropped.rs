//! Request 7/14, checked after every command of a run: each source's count of dropped triggers is
//! what the commands and their answers alone say, and a refused command does nothing else.

use crate::generate::History;
use crate::model::Model;
use crate::records::{Answer, Command, Controller, SourceId};

/// What a count is held at.
pub const MOST: u16 = 65_535;

/// For each source how many of its triggers were answered 6, however many. It is fed each command
/// and the number it answered, nothing else.
#[derive(Clone, Debug, PartialEq, Eq)]
pub struct Drops {
    /// The source with id i is at i-1.
    counts: Vec<u64>,
}

impl Drops {
    /// Of a fresh controller of n sources, or a fresh simulation.
    pub fn reset(n: u16) -> Drops {
        Drops {
            counts: vec![0; usize::from(n)],
        }
    }

    /// A trigger of this source answered this number. Of a source that there isn't 6 is no answer, and counts nothing.
    pub fn triggered(&mut self, id: SourceId, number: u8) {
        if let (Some(count), 6) = (self.counts.get_mut(place(id)), number) {
            *count += 1;
        }
    }

    /// A command answered this number.
    pub fn enter(&mut self, command: Command, number: u8) {
        if let Command::Trigger(id) = command {
            self.triggered(id, number);
        }
    }

    /// How many there were in all, however many.
    pub fn all(&self) -> u64 {
        self.counts.iter().sum()
    }

    /// Each count of the state is the number of these refusals, or 65,535 if there were more.
    pub fn check(&self, after: &Controller) -> Result<(), String> {
        for (source, &refused) in after.sources.iter().zip(&self.counts) {
            if u64::from(source.dropped) != refused.min(u64::from(MOST)) {
                let dropped = source.dropped;
                return Err(format!("a count is {dropped}, by the answers {refused}"));
            }
        }
        Ok(())
    }
}

/// A source's place in a list of them; of id 0 a place that no list has.
fn place(id: SourceId) -> usize {
    usize::from(id.0).wrapping_sub(1)
}

/// A refused command hands back the state that it was given, but for one count: that of the source
/// whose trigger is answered 6 is one more, or stays at 65,535.
pub fn check_refused(
    before: &Controller,
    command: Command,
    number: u8,
    after: &Controller,
) -> Result<(), String> {
    let mut expected = before.clone();
    if let (Command::Trigger(id), 6) = (command, number) {
        let named = expected.sources.get_mut(place(id));
        if let Some(source) = named.filter(|source| source.dropped != MOST) {
            source.dropped += 1;
        }
    }
    match number == 0 || *after == expected {
        true => Ok(()),
        false => Err(format!("refused by {number}, it changed the state")),
    }
}

/// An accepted command leaves every count.
pub fn check_accepted(before: &Controller, number: u8, after: &Controller) -> Result<(), String> {
    let counts = |state: &Controller| state.sources.map(|source| source.dropped);
    match number != 0 || counts(before) == counts(after) {
        true => Ok(()),
        false => Err("accepted, it changed a count".to_string()),
    }
}

/// Where a run through a model breaks one of these, and why: a position and a reason.
pub fn first_breach<M: Model>(model: &M, history: &History) -> Option<(usize, String)> {
    let (_, mut state) = model.make(history.n, history.m);
    let mut drops = Drops::reset(history.n);
    let mut before = model.read(&state);
    for (index, &command) in history.commands.iter().enumerate() {
        let Answer { number, id, cycles } = model.execute(&mut state, command);
        let after = model.read(&state);
        drops.enter(command, number);
        let checked = check_refused(&before, command, number, &after)
            .and_then(|()| check_accepted(&before, number, &after))
            .and_then(|()| drops.check(&after));
        if let Err(reason) = checked {
            return Some((index, reason));
        }
        if number != 0 && (id, cycles) != (0, 0) {
            return Some((index, format!("refused by {number}, {cycles} cycles")));
        }
        before = after;
    }
    None
}
