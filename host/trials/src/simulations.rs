//! The proved library's simulation of the routines, and the typed wrapper over it, behind the reference's trait.

use psic::{raw, CoreId, Handovers, RoutineCall, ANSWER_SIZE, COMMAND_SIZE, STATE_SIZE};
use psic_reference::model::Ran;
use psic_reference::records::{Answer, CoreNumber, SourceId, MAX_CORES, MAX_SOURCES};
use psic_reference::routines::compare::Simulator;
use psic_reference::routines::{self, Call, Listed, Routines, Simulation};

use crate::library::{answer_of, bytes_of, controller_of};
use crate::wrapper;

/// A simulation and its table in a host's memory, as docs/ENCODING.md lays them out.
#[derive(Clone, Debug, PartialEq, Eq)]
pub struct Memory {
    /// The bytes of the controller's state.
    pub state: Vec<u8>,
    /// By core the active id, 0 for none.
    pub active: Vec<u16>,
    /// By source the last holder plus one, 0 for none.
    pub holder: Vec<u16>,
    /// The handovers, row after row.
    pub table: Vec<u16>,
}

impl Memory {
    /// A simulation, sound or not.
    pub fn of(simulation: &Simulation) -> Memory {
        let Routines {
            controller,
            active,
            holder,
        } = &simulation.routines;
        let plus_one = |holder: &Option<CoreNumber>| holder.map_or(0, |core| core.0 + 1);
        Memory {
            state: bytes_of(controller),
            active: active.iter().map(|id| id.0).collect(),
            holder: holder.iter().map(plus_one).collect(),
            table: simulation.handovers.cells.as_flattened().to_vec(),
        }
    }

    /// The simulation that the memory holds. All of the memory is its, so that comparing simulations compares all of it.
    pub fn simulation(&self) -> Simulation {
        let mut simulation = Simulation::fresh(1, 1);
        let Routines {
            controller,
            active,
            holder,
        } = &mut simulation.routines;
        *controller = controller_of(&self.state);
        for (id, &number) in active.iter_mut().zip(&self.active) {
            *id = SourceId(number);
        }
        for (holder, &plus_one) in holder.iter_mut().zip(&self.holder) {
            *holder = plus_one.checked_sub(1).map(CoreNumber);
        }
        let cells = simulation.handovers.cells.as_flattened_mut();
        cells.copy_from_slice(&self.table);
        assert!(Memory::of(&simulation) == *self, "{self:?}");
        simulation
    }

    /// `psic_make_routines` on memory that held something else, and an empty table.
    pub fn made(n: u16, m: u16) -> (u64, Memory) {
        let mut memory = Memory {
            state: vec![0xc3; STATE_SIZE],
            active: vec![0xc3c3; MAX_CORES],
            holder: vec![0xc3c3; MAX_SOURCES],
            table: vec![0; MAX_CORES * MAX_CORES],
        };
        let Memory {
            state,
            active,
            holder,
            ..
        } = &mut memory;
        let packed = raw::make_routines(n, m, state, active, holder);
        (packed, memory)
    }

    /// `psic_simulate`: how many calls were taken.
    pub fn simulate(&mut self, list: &[u8], answers: &mut [u8]) -> u64 {
        raw::simulate(
            &mut self.state,
            &mut self.active,
            &mut self.holder,
            list,
            answers,
            &mut self.table,
        )
    }

    /// `psic_enter`: the packed answer.
    pub fn enter(&mut self, core: u16) -> u64 {
        raw::enter(&mut self.state, &mut self.active, &mut self.holder, core)
    }

    /// `psic_exit`: the packed answer.
    pub fn exit(&mut self, core: u16) -> u64 {
        raw::exit(&mut self.state, &mut self.active, &mut self.holder, core)
    }
}

/// The bytes of an entry of a list: four commands by their numbers, 16 for entry, 17 for exit.
pub fn entry_bytes(entry: Listed) -> [u8; COMMAND_SIZE] {
    let (number, at, priority) = match entry {
        Listed::Call(Call::SetSourcePriority(id, p)) => (0, id.0, p),
        Listed::Call(Call::Mask(id)) => (1, id.0, 0),
        Listed::Call(Call::Unmask(id)) => (2, id.0, 0),
        Listed::Call(Call::Trigger(id)) => (4, id.0, 0),
        Listed::Call(Call::Enter(core)) => (16, core.0, 0),
        Listed::Call(Call::Exit(core)) => (17, core.0, 0),
        Listed::Unreadable {
            number,
            at,
            priority,
        } => (number, at, priority),
    };
    let ([a, b], [c, d]) = (at.to_le_bytes(), priority.to_le_bytes());
    [number, a, b, c, d]
}

/// The bytes of a list.
pub fn list_bytes(list: &[Listed]) -> Vec<u8> {
    list.iter().flat_map(|&entry| entry_bytes(entry)).collect()
}

/// What the answers' bytes hold before a list is run. No answer has such a number.
const PATTERN: u8 = 0xc3;

/// The proved library: every call, or every list, is one `psic_simulate`.
#[derive(Clone, Copy, Debug)]
pub struct Library;

impl Simulator for Library {
    type State = Memory;

    fn name(&self) -> String {
        "library".to_string()
    }

    fn make(&self, n: u16, m: u16) -> (u8, Memory) {
        let (packed, memory) = Memory::made(n, m);
        assert!(packed < 256, "making answers no id and no cycles");
        (packed as u8, memory)
    }

    fn call(&self, state: &mut Memory, call: Call) -> Answer {
        let ran = self.run_listed(state, &[Listed::Call(call)]);
        assert_eq!((ran.taken, ran.answers.len()), (1, 1), "{call:?}");
        ran.answers[0]
    }

    /// The count, and the answers up to the last one that was counted or written.
    fn run_listed(&self, state: &mut Memory, list: &[Listed]) -> Ran {
        let mut answers = vec![[PATTERN; ANSWER_SIZE]; list.len()];
        let taken = state.simulate(&list_bytes(list), answers.as_flattened_mut());
        let written = answers
            .iter()
            .rposition(|answer| *answer != [PATTERN; ANSWER_SIZE]);
        let written = written.map_or(0, |last| last + 1);
        let counted = usize::try_from(taken).map_or(list.len(), |taken| taken.min(list.len()));
        let answers = &answers[..written.max(counted)];
        Ran {
            taken,
            answers: answers.iter().map(|answer| answer_of(answer)).collect(),
        }
    }

    fn load(&self, simulation: &Simulation) -> Memory {
        Memory::of(simulation)
    }

    fn read(&self, state: &Memory) -> Simulation {
        state.simulation()
    }
}

/// A [`psic::Routines`] with its table, put to calls by its methods and read by its accessors.
#[derive(Clone, Copy, Debug)]
pub struct Wrapper;

impl Simulator for Wrapper {
    type State = (psic::Routines, Handovers);

    fn name(&self) -> String {
        "wrapper".to_string()
    }

    fn make(&self, n: u16, m: u16) -> (u8, Self::State) {
        match psic::Routines::new(n, m) {
            Ok(routines) => (0, (routines, Handovers::default())),
            // A refused call gives no simulation; the trait asks for one.
            Err(refusal) => (refusal.number(), self.load(&Simulation::fresh(1, 1))),
        }
    }

    fn call(&self, (routines, handovers): &mut Self::State, call: Call) -> Answer {
        let source = |id: SourceId| psic::SourceId(id.0);
        wrapper::answer_of(match call {
            Call::SetSourcePriority(id, p) => routines.set_source_priority(source(id), p),
            Call::Mask(id) => routines.mask(source(id)),
            Call::Unmask(id) => routines.unmask(source(id)),
            Call::Trigger(id) => routines.trigger(source(id)),
            Call::Enter(core) => routines.enter(CoreId(core.0), handovers),
            Call::Exit(core) => routines.exit(CoreId(core.0)),
        })
    }

    /// What comes before the first entry that is no call; the types have none for it.
    fn run_listed(&self, (routines, handovers): &mut Self::State, list: &[Listed]) -> Ran {
        let calls = list.iter().map_while(|entry| entry.call());
        let calls: Vec<RoutineCall> = calls.map(typed).collect();
        let answers = routines.simulate(&calls, handovers).into_iter();
        let answers: Vec<Answer> = answers.map(wrapper::answer_of).collect();
        Ran {
            taken: answers.len() as u64,
            answers,
        }
    }

    fn load(&self, simulation: &Simulation) -> Self::State {
        let memory = Memory::of(simulation);
        let words = memory.active.iter().chain(&memory.holder);
        let mut bytes = memory.state.clone();
        bytes.extend(words.flat_map(|word| word.to_le_bytes()));
        let routines = psic::Routines::from_bytes(&bytes).expect("they encode a simulation");
        let counts = simulation.handovers.cells;
        (routines, Handovers { counts })
    }

    /// By the bytes, which the accessors must agree with.
    fn read(&self, (routines, handovers): &Self::State) -> Simulation {
        let bytes = routines.to_bytes();
        let (state, words) = bytes.split_at(STATE_SIZE);
        assert_eq!(routines.controller().as_bytes(), state);
        let word = |pair: &[u8]| u16::from_le_bytes([pair[0], pair[1]]);
        let words: Vec<u16> = words.chunks_exact(2).map(word).collect();
        let (active, holder) = words.split_at(MAX_CORES);
        let memory = Memory {
            state: state.to_vec(),
            active: active.to_vec(),
            holder: holder.to_vec(),
            table: handovers.counts.as_flattened().to_vec(),
        };
        let simulation = memory.simulation();
        check_accessors(routines, &simulation.routines);
        simulation
    }
}

/// The accessors say what the simulation holds, and nothing of cores and sources that it hasn't.
fn check_accessors(routines: &psic::Routines, held: &Routines) {
    for core in (0..MAX_CORES as u16).map(CoreNumber) {
        let id = held.active(core).0;
        let shown = (core.0 < held.controller.m && id != 0).then_some(psic::SourceId(id));
        assert_eq!(routines.active(CoreId(core.0)), shown, "{core:?}");
    }
    for id in (1..=MAX_SOURCES as u16).map(SourceId) {
        let holder = held.holder(id).filter(|_| id.0 <= held.controller.n);
        let shown = holder.map(|core| CoreId(core.0));
        assert_eq!(routines.last_holder(psic::SourceId(id.0)), shown, "{id:?}");
    }
}

/// The wrapper's form of a call.
pub fn typed(call: Call) -> RoutineCall {
    let source = |id: SourceId| psic::SourceId(id.0);
    match call {
        Call::SetSourcePriority(id, p) => RoutineCall::SetSourcePriority(source(id), p),
        Call::Mask(id) => RoutineCall::Mask(source(id)),
        Call::Unmask(id) => RoutineCall::Unmask(source(id)),
        Call::Trigger(id) => RoutineCall::Trigger(source(id)),
        Call::Enter(core) => RoutineCall::Enter(CoreId(core.0)),
        Call::Exit(core) => RoutineCall::Exit(CoreId(core.0)),
    }
}

/// Whether the reference takes a simulation for sound.
pub fn is_sound(simulation: &Simulation) -> bool {
    routines::sound(&simulation.routines)
}
