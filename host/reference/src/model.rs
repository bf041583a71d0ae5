//! What every model of the controller offers, so that one workload runs through any of them.

use crate::records::{Answer, Command, Controller, Core, Listed, Source};
use crate::reference;

/// What a list leaves besides the state.
#[derive(Clone, Debug, PartialEq, Eq)]
pub struct Ran {
    /// How many commands were taken.
    pub taken: u64,
    /// Every answer that was written.
    pub answers: Vec<Answer>,
}

/// A model of the controller. It holds its state in a form of its own.
pub trait Model {
    /// A state in the model's own form.
    type State;

    /// The model's name in reports.
    fn name(&self) -> String;

    /// Makes a fresh controller and answers the number. With a number other than 0 the state is not looked at.
    fn make(&self, n: u16, m: u16) -> (u8, Self::State);

    /// Runs one command on a state, sound or not.
    fn execute(&self, state: &mut Self::State, command: Command) -> Answer;

    /// Runs a list of commands, refused ones included: one after the other, unless the model has a call for it.
    fn run(&self, state: &mut Self::State, commands: &[Command]) -> Vec<Answer> {
        let execute = |&command: &Command| self.execute(state, command);
        commands.iter().map(execute).collect()
    }

    /// Runs a list up to the first entry that is no command: what comes before it, unless the model has a call for it.
    fn run_listed(&self, state: &mut Self::State, list: &[Listed]) -> Ran {
        let commands: Vec<Command> = list.iter().map_while(|entry| entry.command()).collect();
        Ran {
            taken: commands.len() as u64,
            answers: self.run(state, &commands),
        }
    }

    /// Takes over a state as it is, sound or not.
    fn load(&self, controller: &Controller) -> Self::State;

    /// Writes the state out, field by field.
    fn read(&self, state: &Self::State) -> Controller;

    /// The search over a lent list: number, then position plus one or 0.
    fn highest_in(&self, sources: &[Source]) -> (u8, u16);

    /// The ranges that this search looks into: number, then how many.
    fn ranges_in(&self, sources: &[Source]) -> (u8, u16);

    /// The claim of a lent core record: number and id.
    fn claim_in_place(&self, core: &mut Core) -> (u8, u16);
}

/// The reference model.
#[derive(Clone, Copy, Debug)]
pub struct Reference;

impl Model for Reference {
    type State = Controller;

    fn name(&self) -> String {
        "reference".to_string()
    }

    fn make(&self, n: u16, m: u16) -> (u8, Controller) {
        reference::make(n, m)
    }

    fn execute(&self, state: &mut Controller, command: Command) -> Answer {
        reference::execute(state, command)
    }

    fn load(&self, controller: &Controller) -> Controller {
        controller.clone()
    }

    fn read(&self, state: &Controller) -> Controller {
        state.clone()
    }

    fn highest_in(&self, sources: &[Source]) -> (u8, u16) {
        reference::highest_in(sources)
    }

    fn ranges_in(&self, sources: &[Source]) -> (u8, u16) {
        reference::ranges_in(sources)
    }

    fn claim_in_place(&self, core: &mut Core) -> (u8, u16) {
        reference::claim_in_place(core)
    }
}
