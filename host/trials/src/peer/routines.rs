//! The interrupt routines over this model: a list tests its start once, and an entry or exit is two of the model's own commands.

use psic::{ANSWER_SIZE, COMMAND_SIZE};
use psic_reference::model::Ran;
use psic_reference::records::{Answer, Command, CoreNumber, SourceId};
use psic_reference::routines::compare::{Reference, Simulator};
use psic_reference::routines::{Call, Listed, Simulation};

use super::{refusal, refuse_if, Controller, CORES, SOURCES};
use crate::library::{answer_bytes, answer_of};
use crate::simulations::{list_bytes, Memory};

/// A simulation and its table, sound or not, changed in place.
#[derive(Clone)]
pub struct Routines {
    controller: Controller,
    /// By core the active id, 0 for none.
    active: [u16; CORES],
    /// By source the last holder plus one, 0 for none.
    holder: [u16; SOURCES],
    table: [[u16; CORES]; CORES],
}

impl Routines {
    /// The same simulation in this form.
    pub fn load(simulation: &Simulation) -> Routines {
        let memory = Memory::of(simulation);
        Routines {
            controller: Controller::load(&simulation.routines.controller),
            active: std::array::from_fn(|k| memory.active[k]),
            holder: std::array::from_fn(|i| memory.holder[i]),
            table: simulation.handovers.cells,
        }
    }

    /// The simulation in the reference's form.
    pub fn read(&self) -> Simulation {
        let held_by = |plus_one: u16| plus_one.checked_sub(1).map(CoreNumber);
        let mut simulation = Simulation::fresh(1, 1);
        simulation.routines.controller = self.controller.read();
        simulation.routines.active = self.active.map(SourceId);
        simulation.routines.holder = self.holder.map(held_by);
        simulation.handovers.cells = self.table;
        simulation
    }

    /// Runs a list of calls, 5 bytes each, writes an answer of 5 bytes for each, and gives how many there were before a number that names
    /// none. The simulation is tested once, at the start.
    pub fn run(&mut self, list: &[u8], answers: &mut [u8]) -> usize {
        let sound = self.is_sound();
        let mut taken = 0;
        let places = answers.chunks_exact_mut(ANSWER_SIZE);
        for (call, place) in list.chunks_exact(COMMAND_SIZE).zip(places) {
            let at = u16::from_le_bytes([call[1], call[2]]);
            let priority = u16::from_le_bytes([call[3], call[4]]);
            let id = SourceId(at);
            let answer = match call[0] {
                0 | 1 | 2 | 4 | 16 | 17 if !sound => refusal(1),
                0 => self.execute(Command::SetSourcePriority(id, priority)),
                1 => self.execute(Command::Mask(id)),
                2 => self.execute(Command::Unmask(id)),
                4 => self.trigger(at),
                16 => self.enter(at).unwrap_or_else(refusal),
                17 => self.exit(at).unwrap_or_else(refusal),
                _ => break,
            };
            place.copy_from_slice(&answer_bytes(answer));
            taken += 1;
        }
        taken
    }

    fn execute(&mut self, command: Command) -> Answer {
        self.controller.execute_sound(command)
    }

    fn trigger(&mut self, id: u16) -> Answer {
        let answer = self.execute(Command::Trigger(SourceId(id)));
        if answer.number == 0 {
            self.holder[usize::from(id) - 1] = 0;
        }
        answer
    }

    fn enter(&mut self, core: u16) -> Result<Answer, u8> {
        let (id, _) = self.controller.accepted(Command::Claim(CoreNumber(core)))?;
        let (k, i) = (usize::from(core), usize::from(id) - 1);
        let mut cycles = 0;
        if self.active[k] != 0 {
            let back = Command::Redeliver(SourceId(self.active[k]));
            cycles = self.controller.accepted(back)?.1;
        }
        let last = usize::from(self.holder[i]);
        if last != 0 && last != k + 1 {
            let cell = &mut self.table[last - 1][k];
            *cell = cell.saturating_add(1);
        }
        self.active[k] = id;
        self.holder[i] = core + 1;
        Ok(Answer {
            number: 0,
            id,
            cycles,
        })
    }

    fn exit(&mut self, core: u16) -> Result<Answer, u8> {
        let k = self.controller.core(CoreNumber(core))?;
        refuse_if(self.active[k] == 0, 8)?;
        let id = SourceId(self.active[k]);
        self.controller.accepted(Command::Complete(id))?;
        self.active[k] = 0;
        Ok(Answer {
            number: 0,
            id: 0,
            cycles: self.controller.set_core_priority(k, 0),
        })
    }

    /// Document 02, 4/14: "1, in any call of the simulation".
    fn is_sound(&self) -> bool {
        if !self.controller.is_sound() {
            return false;
        }
        let Controller {
            n,
            m,
            sources,
            cores,
        } = &self.controller;
        // Claimed is what is delivered and lies in no box.
        let mut claimed = sources.delivered;
        for k in (0..usize::from(*m)).filter(|&k| cores.filled[k]) {
            claimed[usize::from(cores.id[k]) - 1] = false;
        }
        for k in 0..CORES {
            let id = self.active[k];
            if id == 0 && cores.configured[k] == 0 {
                continue;
            }
            if id == 0 || id > *n || k >= usize::from(*m) {
                return false;
            }
            let i = usize::from(id) - 1;
            let held = usize::from(self.holder[i]) == k + 1;
            if !claimed[i] || cores.configured[k] != sources.request[i] || !held {
                return false;
            }
            // A second core that runs it, and a request that runs nowhere, are told by this.
            claimed[i] = false;
        }
        let runs = claimed.iter().fold(true, |all, &left| all & !left);
        runs && self
            .holder
            .iter()
            .fold(true, |all, holder| all & (holder <= m))
    }
}

/// This simulation in the reference's trait, for comparisons.
#[derive(Clone, Copy, Debug)]
pub struct Peer;

impl Simulator for Peer {
    type State = Routines;

    fn name(&self) -> String {
        "peer".to_string()
    }

    fn make(&self, n: u16, m: u16) -> (u8, Routines) {
        let (number, made) = Reference.make(n, m);
        (number, Routines::load(&made))
    }

    fn call(&self, state: &mut Routines, call: Call) -> Answer {
        self.run_listed(state, &[Listed::Call(call)]).answers[0]
    }

    fn run_listed(&self, state: &mut Routines, list: &[Listed]) -> Ran {
        let mut answers = vec![0; ANSWER_SIZE * list.len()];
        let taken = state.run(&list_bytes(list), &mut answers);
        let written = answers.chunks_exact(ANSWER_SIZE).take(taken);
        Ran {
            taken: taken as u64,
            answers: written.map(answer_of).collect(),
        }
    }

    fn load(&self, simulation: &Simulation) -> Routines {
        Routines::load(simulation)
    }

    fn read(&self, state: &Routines) -> Simulation {
        state.read()
    }
}
