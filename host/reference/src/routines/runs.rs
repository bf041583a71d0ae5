//! Runs of the simulation, and lists of calls, each determined by a seed.

use super::{Call, Handovers, Listed, Routines, Simulation, NONE};
use crate::generate::{self, palette, pick_core, pick_source};
use crate::random::Random;
use crate::records::{CoreNumber, Source, SourceId, MAX_CORES};
use crate::reference::{highest_candidate, top_priority};

/// Calls put to a fresh simulation.
#[derive(Clone, Debug, PartialEq, Eq)]
pub struct Run {
    /// The seed that it was made from.
    pub seed: u64,
    /// The number of sources.
    pub n: u16,
    /// The number of cores.
    pub m: u16,
    /// The calls, in order.
    pub calls: Vec<Call>,
}

/// How often each kind of call comes.
#[derive(Clone, Copy, Debug, PartialEq, Eq)]
pub enum Mix {
    /// Each kind alike.
    Even,
    /// Sources get priorities and are unmasked first, and requests come and go.
    Turnover,
    /// The same, and most calls are steps to a handover.
    Handing,
}

impl Mix {
    /// All mixes.
    pub const ALL: [Mix; 3] = [Mix::Even, Mix::Turnover, Mix::Handing];
}

/// Makes a run. About one call in eight is refused: an argument out of range, or a call that doesn't
/// fit the simulation.
pub fn run(seed: u64, n: u16, m: u16, length: usize, mix: Mix) -> Run {
    let mut generator = Generator::new(seed, n, m, mix);
    let calls = (0..length).map(|_| generator.call()).collect();
    Run { seed, n, m, calls }
}

/// The simulation that the reference reaches by a run.
pub fn end(run: &Run) -> Simulation {
    let mut simulation = Simulation::fresh(run.n, run.m);
    for &call in &run.calls {
        simulation.call(call);
    }
    simulation
}

/// The calls of a run that goes on from sound routines.
pub fn calls_from(seed: u64, sound: &Routines, length: usize, mix: Mix) -> Vec<Call> {
    let mut generator = Generator::going_on(seed, sound.clone(), mix);
    (0..length).map(|_| generator.call()).collect()
}

/// Calls that go on from sound routines, every other one a trigger of a pending source, if there is
/// one.
pub fn dropping_from(seed: u64, sound: &Routines, length: usize, mix: Mix) -> Vec<Call> {
    let mut generator = Generator::going_on(seed, sound.clone(), mix);
    let call = |place| match place % 2 {
        0 => generator.call(),
        _ => generator.dropped(),
    };
    (0..length).map(call).collect()
}

/// The same routines with any counts of dropped triggers: sound.
pub fn counted(random: &mut Random, sound: &Routines) -> Routines {
    Routines {
        controller: generate::counted(random, &sound.controller),
        ..sound.clone()
    }
}

/// Lists for sound routines, or broken ones made from them: of no call, of one, of two and of 3 to
/// 40, each once whole, and once with a number in the place of a call that names none.
pub fn lists_from(random: &mut Random, sound: &Routines) -> Vec<Vec<Listed>> {
    let list = |random: &mut Random, length| {
        let mix = random.pick(&Mix::ALL);
        let calls = calls_from(random.bits(), sound, length, mix);
        calls.into_iter().map(Listed::Call).collect()
    };
    generate::lists_with(random, list, |random| unreadable(random, sound))
}

/// The numbers of the six calls: the commands' own, and two apart from them.
pub const NUMBERS: [u8; 6] = [0, 1, 2, 4, 16, 17];

/// A number that names no call, often one of the four commands that are none, or a call's with
/// another bit; what stands beside it is mostly in range.
fn unreadable(random: &mut Random, sound: &Routines) -> Listed {
    let number = loop {
        let near = random.pick(&NUMBERS) ^ (1 << random.below(8));
        let number = match random.below(3) {
            0 => random.pick(&[3, 5, 6, 7]),
            1 => near,
            _ => random.any() as u8,
        };
        if !NUMBERS.contains(&number) {
            break number;
        }
    };
    Listed::Unreadable {
        number,
        at: random.within(0..=sound.controller.n),
        priority: random.within(0..=top_priority(sound.controller.n)),
    }
}

/// Sizes in range; mostly some at which a request can be handed over: more than one core, and more
/// sources than cores.
pub fn sizes(random: &mut Random) -> (u16, u16) {
    if random.one_in(3) {
        return generate::sizes(random);
    }
    let m = match random.below(4) {
        0 => 2,
        1 => random.within(2..=16),
        _ => random.within(2..=5),
    };
    let n = match random.below(3) {
        0 => 128,
        1 => random.within(m + 1..=128),
        _ => random.within(m + 1..=3 * m),
    };
    (n, m)
}

/// A table as a host may hand it in: empty, full, nearly so, or of any numbers.
pub fn table(random: &mut Random) -> Handovers {
    let mut handovers = Handovers::NONE;
    let kind = random.below(4);
    for cell in handovers.cells.as_flattened_mut() {
        *cell = match kind {
            0 => 0,
            1 => u16::MAX,
            2 => random.pick(&[0, u16::MAX - 1, u16::MAX]),
            _ => random.any(),
        };
    }
    handovers
}

/// One call of each kind, arguments mostly in range for these sizes, which may be broken.
pub fn one_of_each(random: &mut Random, n: u16, m: u16) -> [Call; 6] {
    let mut id = || match random.below(8) {
        0 => SourceId(random.any()),
        _ => SourceId(random.within(1..=n.clamp(1, 128))),
    };
    let ids = [id(), id(), id(), id()];
    let mut core = || match random.below(8) {
        0 => CoreNumber(random.any()),
        _ => CoreNumber(random.within(0..=m.clamp(1, MAX_CORES as u16) - 1)),
    };
    let cores = [core(), core()];
    [
        Call::SetSourcePriority(ids[0], random.within(0..=8)),
        Call::Mask(ids[1]),
        Call::Unmask(ids[2]),
        Call::Trigger(ids[3]),
        Call::Enter(cores[0]),
        Call::Exit(cores[1]),
    ]
}

/// The kinds of call.
#[derive(Clone, Copy)]
enum Kind {
    SetSourcePriority,
    Mask,
    Unmask,
    Trigger,
    Enter,
    Exit,
}

const EVEN: [Kind; 6] = [
    Kind::SetSourcePriority,
    Kind::Mask,
    Kind::Unmask,
    Kind::Trigger,
    Kind::Enter,
    Kind::Exit,
];

/// Triggers, entries and exits outweigh the rest. An interrupted request is entered again, so that
/// there are more entries than triggers.
const TURNOVER: [Kind; 19] = [
    Kind::SetSourcePriority,
    Kind::Mask,
    Kind::Unmask,
    Kind::Unmask,
    Kind::Trigger,
    Kind::Trigger,
    Kind::Trigger,
    Kind::Trigger,
    Kind::Trigger,
    Kind::Enter,
    Kind::Enter,
    Kind::Enter,
    Kind::Enter,
    Kind::Enter,
    Kind::Enter,
    Kind::Exit,
    Kind::Exit,
    Kind::Exit,
    Kind::Exit,
];

/// Draws calls with the reference simulation at hand, so that most of them are accepted.
struct Generator {
    random: Random,
    routines: Routines,
    mix: Mix,
    /// The source priorities that this run uses. Few of them make equal priorities often.
    palette: Vec<u16>,
    /// Calls that come first.
    opening: Vec<Call>,
}

impl Generator {
    fn new(seed: u64, n: u16, m: u16, mix: Mix) -> Generator {
        let mut generator = Generator::going_on(seed, Routines::fresh(n, m), mix);
        let (random, palette) = (&mut generator.random, &generator.palette);
        if mix != Mix::Even {
            // Enough sources for all cores to be busy, and several times as many.
            let enough = 4 * usize::from(m) + 8;
            let ids = (1..=n).map(SourceId);
            let chosen: Vec<SourceId> = ids
                .filter(|_| random.below(usize::from(n)) < enough)
                .collect();
            for id in chosen {
                let priority = random.pick(palette);
                let prepared = [Call::SetSourcePriority(id, priority), Call::Unmask(id)];
                generator.opening.extend(prepared);
            }
        }
        generator
    }

    /// Goes on from sound routines.
    fn going_on(seed: u64, routines: Routines, mix: Mix) -> Generator {
        let mut random = Random::new(seed);
        let top = top_priority(routines.controller.n);
        // Of equal priorities none interrupts another, so that a handover asks for several.
        let palette = match mix {
            Mix::Handing if random.flag() => (1..=top).collect(),
            Mix::Handing => vec![1, 2, 3.min(top), top],
            _ => palette(&mut random, top),
        };
        Generator {
            random,
            routines,
            mix,
            palette,
            opening: Vec::new(),
        }
    }

    fn call(&mut self) -> Call {
        let call = if self.random.one_in(8) {
            self.refused()
        } else if let Some(call) = self.opening.pop() {
            call
        } else {
            self.accepted()
        };
        super::call(&mut self.routines, call);
        call
    }

    /// A trigger that is refused by 6, or another call if nothing is pending.
    fn dropped(&mut self) -> Call {
        let Some(call) = self.unfitting(Kind::Trigger) else {
            return self.call();
        };
        super::call(&mut self.routines, call);
        call
    }

    fn accepted(&mut self) -> Call {
        if self.mix == Mix::Handing && !self.random.one_in(4) {
            if let Some(call) = self.towards_a_handover() {
                return call;
            }
        }
        loop {
            let kind = match self.mix {
                Mix::Even => self.random.pick(&EVEN),
                Mix::Turnover | Mix::Handing => self.random.pick(&TURNOVER),
            };
            if let Some(call) = self.fitting(kind) {
                return call;
            }
        }
    }

    /// A step to a handover, if there is one: a core claims what another one held; or a core that
    /// runs something gives way to what another one held and waits; or a core that runs something
    /// is interrupted; or a request comes that interrupts one.
    fn towards_a_handover(&mut self) -> Option<Call> {
        let (random, routines) = (&mut self.random, &self.routines);
        let cores: Vec<CoreNumber> = routines.controller.core_numbers().collect();
        let boxed = |&core: &CoreNumber| {
            let message = routines.core(core).message;
            message.filled.then_some((core, SourceId(message.id)))
        };
        let held_by_another = |&(core, id): &(CoreNumber, SourceId)| {
            routines.holder(id).is_some_and(|holder| holder != core)
        };
        let filled: Vec<(CoreNumber, SourceId)> = cores.iter().filter_map(boxed).collect();
        if let Some((core, _)) = random.pick_if_any(filled.iter().copied().filter(held_by_another))
        {
            return Some(Call::Enter(core));
        }
        let running = |&core: &CoreNumber| routines.active(core) != NONE;
        let configured = |&core: &CoreNumber| routines.core(core).configured;
        if let Some(holder) = holder_of_the_next(routines) {
            // Now and then the core that held it exits, and gets it back.
            let back = random.one_in(8);
            let others = cores
                .iter()
                .copied()
                .filter(|core| (*core == holder) == back);
            if let Some(core) = random.pick_if_any(others.filter(running)) {
                return Some(Call::Exit(core));
            }
        }
        if let Some(&(core, _)) = filled.iter().find(|(core, _)| running(core)) {
            return Some(Call::Enter(core));
        }
        let highest = cores.iter().copied().filter(running).max_by_key(configured);
        let step = self.towards_an_interruption();
        step.or(highest.map(Call::Exit))
    }

    /// A request above the least current priority, or an entry if there is none to come, or a step to
    /// such a request.
    fn towards_an_interruption(&mut self) -> Option<Call> {
        let (random, controller) = (&mut self.random, &self.routines.controller);
        let least = controller.current_priorities().into_iter().min()?;
        let fits = |s: &Source| !s.pending && !s.masked && s.configured > least;
        if let Some(id) = pick_source(random, controller, fits) {
            return Some(Call::Trigger(id));
        }
        if let Some(core) = pick_core(random, controller, |core| core.message.filled) {
            return Some(Call::Enter(core));
        }
        if let Some(id) = pick_source(random, controller, |s| s.masked) {
            return Some(Call::Unmask(id));
        }
        let above = least + 1..=top_priority(controller.n);
        let free = pick_source(random, controller, |s| !s.pending);
        free.filter(|_| !above.is_empty())
            .map(|id| Call::SetSourcePriority(id, random.within(above)))
    }

    /// A call of this kind that is accepted, if there is one.
    fn fitting(&mut self, kind: Kind) -> Option<Call> {
        let (random, routines) = (&mut self.random, &self.routines);
        let controller = &routines.controller;
        let any_id = SourceId(random.within(1..=controller.n));
        match kind {
            Kind::SetSourcePriority => {
                let priority = random.pick(&self.palette);
                pick_source(random, controller, |s| !s.pending)
                    .map(|id| Call::SetSourcePriority(id, priority))
            }
            Kind::Mask => Some(Call::Mask(any_id)),
            Kind::Unmask => Some(Call::Unmask(any_id)),
            Kind::Trigger => pick_source(random, controller, |s| !s.pending).map(Call::Trigger),
            Kind::Enter => pick_core(random, controller, |c| c.message.filled).map(Call::Enter),
            Kind::Exit => pick_running(random, routines, true).map(Call::Exit),
        }
    }

    /// A call that is refused: an argument out of range, or one that doesn't fit the simulation.
    fn refused(&mut self) -> Call {
        loop {
            let kind = self.random.pick(&EVEN);
            let call = if self.random.flag() {
                Some(self.out_of_range(kind))
            } else {
                self.unfitting(kind)
            };
            if let Some(call) = call {
                return call;
            }
        }
    }

    /// A call of this kind with an argument out of range, or with two.
    fn out_of_range(&mut self, kind: Kind) -> Call {
        let (n, m) = (self.routines.controller.n, self.routines.controller.m);
        let random = &mut self.random;
        let top = top_priority(n);
        // A good number plus 256 or 512 is good again if only the low bits are read.
        let (good_id, good_core) = (random.within(1..=n), random.within(0..=m - 1));
        let any_id = random.within(n + 1..=u16::MAX);
        let id = SourceId(random.pick(&[0, n + 1, 256 + good_id, any_id, u16::MAX]));
        let any_core = random.within(m..=u16::MAX);
        let core = CoreNumber(random.pick(&[m, 31.max(m), 256 + good_core, any_core, u16::MAX]));
        let any_priority = random.within(top + 1..=u16::MAX);
        let priority = random.pick(&[0, top + 1, 512 + top, any_priority, u16::MAX]);
        match kind {
            Kind::SetSourcePriority => match random.below(3) {
                0 => Call::SetSourcePriority(id, 1),
                1 => Call::SetSourcePriority(SourceId(good_id), priority),
                _ => Call::SetSourcePriority(id, priority),
            },
            Kind::Mask => Call::Mask(id),
            Kind::Unmask => Call::Unmask(id),
            Kind::Trigger => Call::Trigger(id),
            Kind::Enter => Call::Enter(core),
            Kind::Exit => Call::Exit(core),
        }
    }

    /// A call of this kind, arguments in range, that doesn't fit the simulation, if there is one.
    fn unfitting(&mut self, kind: Kind) -> Option<Call> {
        let (random, routines) = (&mut self.random, &self.routines);
        let controller = &routines.controller;
        match kind {
            Kind::Trigger => pick_source(random, controller, |s| s.pending).map(Call::Trigger),
            Kind::Enter => pick_core(random, controller, |c| !c.message.filled).map(Call::Enter),
            Kind::Exit => pick_running(random, routines, false).map(Call::Exit),
            Kind::SetSourcePriority => {
                let other = random.pick(&self.palette);
                let id = pick_source(random, controller, |s| s.pending)?;
                let own = controller.source(id).configured;
                let priority = random.pick(&[other, own]);
                Some(Call::SetSourcePriority(id, priority))
            }
            Kind::Mask | Kind::Unmask => None,
        }
    }
}

/// The core that last held the request that is to be delivered next, if one did.
fn holder_of_the_next(routines: &Routines) -> Option<CoreNumber> {
    let next = highest_candidate(routines.controller.used_sources())?;
    routines.holder(next)
}

/// One of the cores on which a request is active, or one of the idle ones, if there is one.
pub(super) fn pick_running(
    random: &mut Random,
    routines: &Routines,
    running: bool,
) -> Option<CoreNumber> {
    let cores = routines.controller.core_numbers();
    random.pick_if_any(cores.filter(|&core| (routines.active(core) != NONE) == running))
}
