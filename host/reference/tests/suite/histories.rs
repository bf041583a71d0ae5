//! Runs that the tests share: the table's setting, a history step by step, random histories.

use psic_reference::dropped;
use psic_reference::generate::{self, History, Mix};
use psic_reference::ledger::Ledger;
use psic_reference::random::Random;
use psic_reference::records::{Answer, Command, Controller, CoreNumber, Source, SourceId};
use psic_reference::reference::{self, Cycle};

pub fn set_source(id: u16, priority: u16) -> Command {
    Command::SetSourcePriority(SourceId(id), priority)
}

pub fn mask(id: u16) -> Command {
    Command::Mask(SourceId(id))
}

pub fn unmask(id: u16) -> Command {
    Command::Unmask(SourceId(id))
}

pub fn set_core(core: u16, priority: u16) -> Command {
    Command::SetCorePriority(CoreNumber(core), priority)
}

pub fn trigger(id: u16) -> Command {
    Command::Trigger(SourceId(id))
}

pub fn claim(core: u16) -> Command {
    Command::Claim(CoreNumber(core))
}

pub fn redeliver(id: u16) -> Command {
    Command::Redeliver(SourceId(id))
}

pub fn complete(id: u16) -> Command {
    Command::Complete(SourceId(id))
}

/// A controller under test with the checks of the table of runs.
#[derive(Clone)]
pub struct Run {
    pub controller: Controller,
}

impl Run {
    /// n = 32, m = 2, every source unmasked with priority equal to its id.
    pub fn table() -> Run {
        Run::table_but_masked(0)
    }

    /// The same with one source still masked; 0 means none.
    pub fn table_but_masked(masked: u16) -> Run {
        Run::unmasked(Controller::reset(32, 2), masked)
    }

    /// The table's sources on cores set to these priorities.
    pub fn on_cores(priorities: &[u16]) -> Run {
        let fresh = Controller::reset(32, priorities.len() as u16);
        let mut run = Run::unmasked(fresh, 0);
        for (core, &priority) in (0..).zip(priorities) {
            run.accept(set_core(core, priority));
        }
        run
    }

    /// A fresh controller of 32 sources, set as the table has them.
    fn unmasked(controller: Controller, masked: u16) -> Run {
        let mut run = Run { controller };
        for id in 1..=32 {
            run.accept(set_source(id, id));
            if id != masked {
                run.accept(unmask(id));
            }
        }
        run
    }

    pub fn execute(&mut self, command: Command) -> Answer {
        reference::execute(&mut self.controller, command)
    }

    pub fn accept(&mut self, command: Command) -> Answer {
        let answer = self.execute(command);
        assert_eq!(answer.number, 0, "{command:?}");
        answer
    }

    /// The command is accepted with id 0, these cycles and these current priorities.
    pub fn settles<const M: usize>(&mut self, command: Command, cycles: u16, current: [u16; M]) {
        let answer = self.accept(command);
        assert_eq!((answer.id, answer.cycles), (0, cycles), "{command:?}");
        assert_eq!(self.controller.current_priorities(), current, "{command:?}");
    }

    /// The command is refused by this number, with id 0, 0 cycles and the state as given, but for the count of a trigger refused by 6.
    pub fn refuses(&mut self, command: Command, number: u8) {
        let before = self.controller.clone();
        let answer = self.execute(command);
        let expected = Answer {
            number,
            id: 0,
            cycles: 0,
        };
        assert_eq!(answer, expected, "{command:?}");
        let checked = dropped::check_refused(&before, command, number, &self.controller);
        assert_eq!(checked, Ok(()), "{command:?}");
    }

    pub fn source(&self, id: u16) -> &Source {
        self.controller.source(SourceId(id))
    }

    /// The ids in the boxes, 0 for an empty one.
    pub fn boxes(&self) -> Vec<u16> {
        let cores = self.controller.used_cores().iter();
        cores.map(|core| core.message.id).collect()
    }
}

/// The retractions and deliveries of a command that isn't refused.
pub fn cycles_of(controller: &Controller, command: Command) -> (u16, u16) {
    let mut controller = controller.clone();
    reference::apply(&mut controller, command);
    let (mut retractions, mut deliveries) = (0, 0);
    while let Some(cycle) = reference::settle_cycle(&mut controller) {
        match cycle {
            Cycle::Retraction => retractions += 1,
            Cycle::Delivery => deliveries += 1,
        }
    }
    (retractions, deliveries)
}

/// The states from which a command that isn't refused delivers, one for each delivery.
pub fn deliveries_of(controller: &Controller, command: Command) -> Vec<Controller> {
    let mut controller = controller.clone();
    reference::apply(&mut controller, command);
    let mut delivering = Vec::new();
    loop {
        let before = controller.clone();
        match reference::settle_cycle(&mut controller) {
            Some(Cycle::Retraction) => {}
            Some(Cycle::Delivery) => delivering.push(before),
            None => return delivering,
        }
    }
}

/// One command of a history, with the states around it and the ledger after it.
pub struct Step<'a> {
    pub before: &'a Controller,
    pub command: Command,
    pub answer: Answer,
    pub after: &'a Controller,
    pub ledger: &'a Ledger,
}

/// Runs a history through the reference model.
pub fn for_each_step(history: &History, mut visit: impl FnMut(usize, Step)) {
    let (_, mut controller) = reference::make(history.n, history.m);
    let mut ledger = Ledger::reset(history.n, history.m);
    for (index, &command) in history.commands.iter().enumerate() {
        let before = controller.clone();
        let answer = reference::execute(&mut controller, command);
        ledger.enter(command, answer.number, answer.id).unwrap();
        visit(
            index,
            Step {
                before: &before,
                command,
                answer,
                after: &controller,
                ledger: &ledger,
            },
        );
    }
}

/// The run of request 2/14: source 3 at 3 and source 9 at 9, on cores at 3 and 1.
pub fn run_of_request_2() -> History {
    let mut commands = Vec::new();
    for id in [3, 9] {
        commands.extend([set_source(id, id), unmask(id)]);
    }
    commands.extend([set_core(0, 3), set_core(1, 1), trigger(3), trigger(9)]);
    History {
        seed: 0,
        n: 32,
        m: 2,
        commands,
    }
}

/// Random histories of any size, in every mix.
pub fn random_histories(seed: u64, count: usize, length: usize) -> Vec<History> {
    let mut random = Random::new(seed);
    (0..count)
        .map(|index| {
            let (n, m) = generate::sizes(&mut random);
            let mix = Mix::ALL[index % Mix::ALL.len()];
            generate::history(random.bits(), n, m, length, mix)
        })
        .collect()
}
