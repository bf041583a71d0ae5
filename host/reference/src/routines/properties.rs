//! What holds after every call of a run from a fresh simulation, of any simulation of the routines.

use super::compare::Simulator;
use super::history::{self, Counts, Event};
use super::runs::Run;
use super::{no_box_filled, none_above, none_idle, violated, Call, Routines, Simulation, NONE};
use crate::dropped::{check_accepted, check_refused, Drops};
use crate::records::{Answer, SourceId, MAX_CORES};

/// How often a run meets what the properties speak of.
#[derive(Clone, Debug, Default, PartialEq, Eq)]
pub struct Seen {
    /// Handovers, by the history.
    pub handovers: usize,
    /// Entries on a core that ran a request.
    pub interruptions: usize,
    /// Entries with a request that the same core held last.
    pub returns: usize,
    /// Calls after which no box is filled, and a request waits unmasked below running ones.
    pub waiting_at_rest: usize,
    /// Calls after which no box is filled, and a core idles.
    pub idle_at_rest: usize,
    /// Calls by the number that they answered, 0 to 9.
    pub numbers: [usize; 10],
}

/// A simulation that is followed call by call.
pub struct Followed<'a, S: Simulator> {
    simulator: &'a S,
    state: S::State,
    /// The calls and their answers.
    pub history: Vec<Event>,
    /// The handovers in the history.
    pub counts: Counts,
    /// The dropped triggers in the history.
    pub drops: Drops,
    /// What was met.
    pub seen: Seen,
}

impl<'a, S: Simulator> Followed<'a, S> {
    /// From a fresh simulation, sizes in range.
    pub fn fresh(simulator: &'a S, n: u16, m: u16) -> Followed<'a, S> {
        let (number, state) = simulator.make(n, m);
        assert_eq!(number, 0, "sizes in range");
        Followed {
            simulator,
            state,
            history: Vec::new(),
            counts: [[0; MAX_CORES]; MAX_CORES],
            drops: Drops::reset(n),
            seen: Seen::default(),
        }
    }

    /// The simulation as it stands.
    pub fn simulation(&self) -> Simulation {
        self.simulator.read(&self.state)
    }

    /// Runs one call and checks what holds after it.
    pub fn call(&mut self, call: Call) -> Result<Answer, String> {
        let before = self.simulation();
        let answer = self.simulator.call(&mut self.state, call);
        let after = self.simulation();
        self.history.push(Event::of(call, answer));
        check_answer(call, answer, &before, &after)?;
        if let Some((from, to)) = history::newest_handover(&self.history) {
            self.counts[usize::from(from.0)][usize::from(to.0)] += 1;
        }
        if let Call::Trigger(id) = call {
            self.drops.triggered(id, answer.number);
        }
        self.see(&before.routines, call, answer, &after.routines);
        check_state(&after.routines)?;
        check_table(&after, &self.counts)?;
        self.drops.check(&after.routines.controller)?;
        self.check_running(&after.routines)?;
        let held = match call {
            Call::Enter(_) if answer.number == 0 => Some(SourceId(answer.id)),
            Call::Exit(core) if answer.number == 0 => Some(before.routines.active(core)),
            Call::Trigger(id) if [0, 6].contains(&answer.number) => Some(id),
            _ => None,
        };
        if let Some(id) = held {
            self.check_holder(&after.routines, id)?;
        }
        Ok(answer)
    }

    fn see(&mut self, before: &Routines, call: Call, answer: Answer, after: &Routines) {
        let seen = &mut self.seen;
        seen.numbers[usize::from(answer.number).min(9)] += 1;
        if let (Call::Enter(core), 0) = (call, answer.number) {
            let holder = before.holder(SourceId(answer.id));
            seen.handovers += usize::from(history::newest_handover(&self.history).is_some());
            seen.returns += usize::from(holder == Some(core));
            seen.interruptions += usize::from(before.active(core) != NONE);
        }
        if no_box_filled(after) {
            let mut sources = after.controller.used_sources().iter();
            let waits = sources.any(|source| source.is_candidate());
            seen.waiting_at_rest += usize::from(waits);
            seen.idle_at_rest += usize::from(after.cores_of(NONE).next().is_some());
        }
    }

    /// What runs is what the history says.
    fn check_running(&self, after: &Routines) -> Result<(), String> {
        for core in after.controller.core_numbers() {
            let told = history::running(&self.history, core);
            if after.active(core) != told {
                return Err(format!("{:?} runs on {core:?}", after.active(core)));
            }
        }
        Ok(())
    }

    /// Who held the request of this source last is what the history says.
    fn check_holder(&self, after: &Routines, id: SourceId) -> Result<(), String> {
        let told = history::last_holder(&self.history, id);
        match after.holder(id) == told {
            true => Ok(()),
            false => Err(format!("{id:?} last held by {:?}", after.holder(id))),
        }
    }

    /// At the end of a run: every last holder, and the handovers counted once more.
    pub fn check_end(&self) -> Result<(), String> {
        let end = self.simulation();
        for id in end.routines.controller.ids() {
            self.check_holder(&end.routines, id)?;
        }
        check_table(&end, &history::handovers(&self.history))
    }
}

/// From a fresh simulation no call is refused by 1 or 2. A refused call answers id 0 and 0 cycles
/// and changes nothing but the count of a trigger that is refused by 6. An accepted one leaves the
/// counts. Only an entry answers an id. No call makes more than 2m cycles.
fn check_answer(
    call: Call,
    answer: Answer,
    before: &Simulation,
    after: &Simulation,
) -> Result<(), String> {
    let refused = answer.number != 0;
    let entered = matches!(call, Call::Enter(_)) && !refused;
    let (controller, changed) = (&before.routines.controller, &after.routines.controller);
    let mut beside = after.clone();
    if let Some(command) = call.command() {
        check_refused(controller, command, answer.number, changed)?;
        beside.routines.controller = controller.clone();
    }
    check_accepted(controller, answer.number, changed)?;
    let holds = ![1, 2].contains(&answer.number)
        && (!refused || *before == beside && answer.cycles == 0)
        && (answer.id != 0) == entered
        && answer.cycles <= 2 * controller.m;
    match holds {
        true => Ok(()),
        false => Err(format!("answered {answer:?}, or a refused call changed it")),
    }
}

/// The simulation is sound, and both clauses hold.
fn check_state(after: &Routines) -> Result<(), String> {
    let violated = violated(after);
    if !violated.is_empty() {
        return Err(format!("unsound: {violated:?}"));
    }
    if !none_above(after) {
        return Err("a waiting unmasked request is above a running one".to_string());
    }
    if !none_idle(after) {
        return Err("a core idles and a request waits unmasked".to_string());
    }
    Ok(())
}

/// Each cell is the count, or 65,535 if there were more; the diagonal is 0.
fn check_table(after: &Simulation, counts: &Counts) -> Result<(), String> {
    for (row, cells) in after.handovers.cells.iter().enumerate() {
        for (column, &cell) in cells.iter().enumerate() {
            let count = counts[row][column].min(65_535);
            if usize::from(cell) != count || row == column && cell != 0 {
                let place = format!("handovers {row} to {column}");
                return Err(format!("{place}: {cell}, by the history {count}"));
            }
        }
    }
    Ok(())
}

/// Follows a run to its end, or to the first call after which something doesn't hold.
pub fn follow(simulator: &impl Simulator, run: &Run) -> Result<Seen, String> {
    let mut followed = Followed::fresh(simulator, run.n, run.m);
    let named = |index: usize, what: String| {
        let Run { seed, n, m, .. } = *run;
        format!("seed {seed}, n = {n}, m = {m}, index {index}: {what}")
    };
    for (index, &call) in run.calls.iter().enumerate() {
        let checked = followed.call(call);
        checked.map_err(|what| named(index, format!("{call:?}: {what}")))?;
    }
    let checked = followed.check_end();
    checked.map_err(|what| named(run.calls.len(), what))?;
    Ok(followed.seen)
}
