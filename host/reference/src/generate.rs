//! Histories of commands, and records to lend, each determined by a seed.

use std::ops::RangeInclusive;

use crate::random::Random;
use crate::records::{
    Command, Controller, Core, CoreNumber, Listed, MessageBox, Source, SourceId, MAX_PRIORITY,
    MAX_SOURCES,
};
use crate::reference::{self, top_priority};

/// A list of commands put to a fresh controller.
#[derive(Clone, Debug, PartialEq, Eq)]
pub struct History {
    /// The seed that it was made from.
    pub seed: u64,
    /// The number of sources.
    pub n: u16,
    /// The number of cores.
    pub m: u16,
    /// The commands, in order.
    pub commands: Vec<Command>,
}

/// How often each kind of command comes.
#[derive(Clone, Copy, Debug, PartialEq, Eq)]
pub enum Mix {
    /// Each kind alike.
    Even,
    /// Sources are unmasked first, and the kinds are weighed so that boxes stay filled.
    Busy,
    /// As busy, and most commands are steps to a tie between a filled and an empty box, and to a
    /// request that the tie decides about.
    Tied,
    /// Sources are unmasked first, and requests come and go: what is triggered is claimed, and what
    /// is claimed ends.
    Turnover,
}

impl Mix {
    /// All mixes.
    pub const ALL: [Mix; 4] = [Mix::Even, Mix::Busy, Mix::Tied, Mix::Turnover];
}

/// Makes a history. About one command in eight is refused: an argument out of range, or a command
/// that doesn't fit the state.
pub fn history(seed: u64, n: u16, m: u16, length: usize, mix: Mix) -> History {
    let mut generator = Generator::new(seed, n, m, mix);
    let commands = (0..length).map(|_| generator.command()).collect();
    History {
        seed,
        n,
        m,
        commands,
    }
}

/// The state that the reference model reaches by a history.
pub fn final_state(history: &History) -> Controller {
    let (_, mut controller) = reference::make(history.n, history.m);
    for &command in &history.commands {
        reference::execute(&mut controller, command);
    }
    controller
}

/// The commands of a history that goes on from a sound state.
pub fn commands_from(seed: u64, sound: &Controller, length: usize, mix: Mix) -> Vec<Command> {
    let mut generator = Generator::going_on(seed, sound.clone(), mix);
    (0..length).map(|_| generator.command()).collect()
}

/// The same state with any configured priorities under its pending requests: sound, and no history
/// from a fresh controller ends in it unless they are the requests' own (request 5/14).
pub fn set_apart(random: &mut Random, sound: &Controller) -> Controller {
    let mut apart = sound.clone();
    let top = top_priority(sound.n);
    for id in sound.ids().filter(|&id| sound.source(id).pending) {
        apart.source_mut(id).configured = random.within(1..=top);
    }
    apart
}

/// The same state with any counts of dropped triggers: sound.
pub fn counted(random: &mut Random, sound: &Controller) -> Controller {
    let mut counted = sound.clone();
    for id in sound.ids() {
        counted.source_mut(id).dropped = count(random);
    }
    counted
}

/// A count of dropped triggers: none, one, a full byte, the last two, or any.
fn count(random: &mut Random) -> u16 {
    let any = random.any();
    random.pick(&[0, 1, 255, 65_534, 65_535, any])
}

/// Commands that go on from a sound state, every other one a trigger of a pending source, if there is
/// one.
pub fn dropping_from(seed: u64, sound: &Controller, length: usize, mix: Mix) -> Vec<Command> {
    let mut generator = Generator::going_on(seed, sound.clone(), mix);
    let command = |place| match place % 2 {
        0 => generator.command(),
        _ => generator.dropped(),
    };
    (0..length).map(command).collect()
}

/// Lists for a sound state, or one made from it: of no command, of one, of two and of 3 to 40, each
/// once whole, and once with a number above 7 in the place of a command.
pub fn lists_from(random: &mut Random, sound: &Controller) -> Vec<Vec<Listed>> {
    let list = |random: &mut Random, length| {
        let mix = random.pick(&Mix::ALL);
        let commands = commands_from(random.bits(), sound, length, mix);
        commands.into_iter().map(Listed::Command).collect()
    };
    lists_with(random, list, |random| unreadable(random, sound))
}

/// Lists of no entry, of one, of two and of 3 to 40, each once whole, and once with an entry that can't be read in the place of one.
pub(crate) fn lists_with<T: Clone>(
    random: &mut Random,
    list: impl Fn(&mut Random, usize) -> Vec<T>,
    unreadable: impl Fn(&mut Random) -> T,
) -> Vec<Vec<T>> {
    let many = usize::from(random.within(3..=40));
    let mut lists = Vec::new();
    for length in [0, 1, 2, many] {
        let list = list(random, length);
        if let Some(place) = random.pick_if_any(0..length) {
            let mut ended = list.clone();
            ended[place] = unreadable(random);
            lists.push(ended);
        }
        lists.push(list);
    }
    lists
}

/// A number above 7, often one with a command's low bits; what stands beside it is mostly in range.
fn unreadable(random: &mut Random, sound: &Controller) -> Listed {
    let any = random.within(8..=255) as u8;
    Listed::Unreadable {
        number: random.pick(&[8, 8 + any % 8, 128 + any % 8, 255, any]),
        at: random.within(0..=sound.n),
        priority: random.within(0..=top_priority(sound.n)),
    }
}

/// Sizes in range; the smallest, the largest and the ones where the top priority changes come
/// often.
pub fn sizes(random: &mut Random) -> (u16, u16) {
    let n = match random.below(4) {
        0 => random.pick(&[1, 2, 127, 128]),
        1 => random.pick(&[3, 4, 7, 8, 15, 16, 31, 32, 63, 64]),
        2 => random.within(1..=12),
        _ => random.within(1..=128),
    };
    let m = match random.below(4) {
        0 => random.pick(&[1, 2, 32]),
        1 => random.within(1..=4),
        _ => random.within(1..=32),
    };
    (n, m)
}

/// Sizes in range and out of it: mostly a little over the largest, now and then any numbers.
pub(crate) fn any_sizes(random: &mut Random) -> (u16, u16) {
    match random.below(4) {
        0 => (random.any(), random.any()),
        _ => (random.within(0..=130), random.within(0..=34)),
    }
}

/// One command of each kind, arguments mostly in range for these sizes, which may be broken.
pub fn one_of_each(random: &mut Random, n: u16, m: u16) -> [Command; 8] {
    let mut id = || match random.below(8) {
        0 => SourceId(random.any()),
        _ => SourceId(random.within(1..=n.clamp(1, 128))),
    };
    let ids = [id(), id(), id(), id(), id(), id()];
    let mut core = || match random.below(8) {
        0 => CoreNumber(random.any()),
        _ => CoreNumber(random.within(0..=m.clamp(1, 32) - 1)),
    };
    let cores = [core(), core()];
    [
        Command::SetSourcePriority(ids[0], random.within(0..=8)),
        Command::Mask(ids[1]),
        Command::Unmask(ids[2]),
        Command::SetCorePriority(cores[0], random.within(0..=8)),
        Command::Trigger(ids[3]),
        Command::Claim(cores[1]),
        Command::Redeliver(ids[4]),
        Command::Complete(ids[5]),
    ]
}

/// A list of source records to lend, whatever they hold. Lists longer than 128 come now and then.
pub fn borrowed_sources(random: &mut Random) -> Vec<Source> {
    let length = match random.below(8) {
        0 => random.pick(&[0, 1, 2, MAX_SOURCES - 1, MAX_SOURCES]),
        1 => random.pick(&[MAX_SOURCES + 1, 2 * MAX_SOURCES, 1000]),
        _ => random.below(MAX_SOURCES + 1),
    };
    // A low spread makes ties; 0 and numbers above every top priority are lent too.
    let spread = random.pick(&[0, 1, 3, MAX_PRIORITY, u16::MAX]);
    let no_candidates = random.one_in(8);
    (0..length)
        .map(|_| Source {
            configured: random.any(),
            masked: no_candidates || random.one_in(4),
            pending: random.flag(),
            delivered: random.flag(),
            request: random.within(0..=spread),
            dropped: count(random),
        })
        .collect()
}

/// Lists of one length to lend: no candidate, one, few, half, all but one, all; each at priorities
/// that are all 0, and at any.
pub fn lists_of(random: &mut Random, length: usize) -> Vec<Vec<Source>> {
    let mut lists = Vec::new();
    for spread in [0, u16::MAX] {
        let mut chosen = vec![vec![false; length], vec![true; length]];
        if length > 0 {
            for all in [false, true] {
                let mut one = vec![all; length];
                one[random.below(length)] = !all;
                chosen.push(one);
            }
        }
        for times in [2, 16] {
            chosen.push((0..length).map(|_| random.one_in(times)).collect());
        }
        lists.extend(
            chosen
                .iter()
                .map(|chosen| list_with(random, chosen, spread)),
        );
    }
    lists
}

/// A list whose candidates are those that are chosen; the others are idle, masked or delivered.
fn list_with(random: &mut Random, chosen: &[bool], spread: u16) -> Vec<Source> {
    let record = |&candidate: &bool| {
        let flags = [
            [false, true, false],
            [false, false, false],
            [true, true, false],
            [false, true, true],
        ];
        let [masked, pending, delivered] = match candidate {
            true => flags[0],
            false => random.pick(&flags[1..]),
        };
        Source {
            configured: random.any(),
            masked,
            pending,
            delivered,
            request: random.within(0..=spread),
            dropped: count(random),
        }
    };
    chosen.iter().map(record).collect()
}

/// A core record to lend, whatever it holds. Most are filled and near a good one.
pub fn borrowed_core(random: &mut Random) -> Core {
    let configured = match random.below(4) {
        0 => random.any(),
        _ => random.within(0..=MAX_PRIORITY),
    };
    let id = match random.below(4) {
        0 => random.pick(&[0, 1, 128, 129, 256, 257, u16::MAX]),
        1 => random.any(),
        _ => random.within(1..=128),
    };
    let priority = match random.below(4) {
        0 => random.pick(&[0, 1, MAX_PRIORITY, MAX_PRIORITY + 1, u16::MAX]),
        1 => random.any(),
        2 => configured
            .wrapping_add(random.within(0..=2))
            .wrapping_sub(1),
        _ => random.within(1..=MAX_PRIORITY),
    };
    Core {
        configured,
        message: MessageBox {
            filled: !random.one_in(6),
            dirty: random.one_in(6),
            id,
            priority,
        },
    }
}

/// The kinds of command.
#[derive(Clone, Copy)]
enum Kind {
    SetSourcePriority,
    Mask,
    Unmask,
    SetCorePriority,
    Trigger,
    Claim,
    Redeliver,
    Complete,
}

const EVEN: [Kind; 8] = [
    Kind::SetSourcePriority,
    Kind::Mask,
    Kind::Unmask,
    Kind::SetCorePriority,
    Kind::Trigger,
    Kind::Claim,
    Kind::Redeliver,
    Kind::Complete,
];

/// Each kind as often as it is to come: triggers and completes outweigh claims, so that there are
/// requests to deliver, and cores are set more often than claims raise them.
const BUSY: [Kind; 16] = [
    Kind::SetSourcePriority,
    Kind::SetSourcePriority,
    Kind::Mask,
    Kind::Unmask,
    Kind::Unmask,
    Kind::SetCorePriority,
    Kind::SetCorePriority,
    Kind::SetCorePriority,
    Kind::Trigger,
    Kind::Trigger,
    Kind::Trigger,
    Kind::Trigger,
    Kind::Claim,
    Kind::Redeliver,
    Kind::Complete,
    Kind::Complete,
];

/// As many claims as completes and redelivers, so that requests don't pile up, and as many settings of a core.
const TURNOVER: [Kind; 26] = [
    Kind::SetSourcePriority,
    Kind::SetSourcePriority,
    Kind::Mask,
    Kind::Mask,
    Kind::Unmask,
    Kind::Unmask,
    Kind::Unmask,
    Kind::SetCorePriority,
    Kind::SetCorePriority,
    Kind::SetCorePriority,
    Kind::SetCorePriority,
    Kind::Trigger,
    Kind::Trigger,
    Kind::Trigger,
    Kind::Trigger,
    Kind::Claim,
    Kind::Claim,
    Kind::Claim,
    Kind::Claim,
    Kind::Claim,
    Kind::Redeliver,
    Kind::Redeliver,
    Kind::Complete,
    Kind::Complete,
    Kind::Complete,
    Kind::Complete,
];

/// Draws commands with the reference model's state at hand, so that most of them are accepted.
struct Generator {
    random: Random,
    controller: Controller,
    mix: Mix,
    /// The source priorities that this history uses. Few of them make equal priorities often.
    palette: Vec<u16>,
    /// Commands that come first.
    opening: Vec<Command>,
}

impl Generator {
    fn new(seed: u64, n: u16, m: u16, mix: Mix) -> Generator {
        let mut generator = Generator::going_on(seed, Controller::reset(n, m), mix);
        if mix != Mix::Even {
            let random = &mut generator.random;
            let unmasked = (1..=n).map(SourceId).filter(|_| !random.one_in(8));
            generator.opening = unmasked.map(Command::Unmask).collect();
        }
        generator
    }

    /// Goes on from a sound state.
    fn going_on(seed: u64, controller: Controller, mix: Mix) -> Generator {
        let mut random = Random::new(seed);
        let palette = palette(&mut random, top_priority(controller.n));
        Generator {
            random,
            controller,
            mix,
            palette,
            opening: Vec::new(),
        }
    }

    fn command(&mut self) -> Command {
        let command = if self.random.one_in(8) {
            self.refused()
        } else if let Some(command) = self.opening.pop() {
            command
        } else {
            self.accepted()
        };
        reference::execute(&mut self.controller, command);
        command
    }

    /// A trigger that is refused by 6, or another command if nothing is pending.
    fn dropped(&mut self) -> Command {
        let Some(command) = self.unfitting(Kind::Trigger) else {
            return self.command();
        };
        reference::execute(&mut self.controller, command);
        command
    }

    fn accepted(&mut self) -> Command {
        if self.mix == Mix::Tied && !self.random.one_in(4) {
            if let Some(command) = self.towards_a_tie() {
                return command;
            }
        }
        loop {
            let kind = match self.mix {
                Mix::Even => self.random.pick(&EVEN),
                Mix::Busy | Mix::Tied => self.random.pick(&BUSY),
                Mix::Turnover => self.random.pick(&TURNOVER),
            };
            if let Some(command) = self.fitting(kind) {
                return command;
            }
        }
    }

    /// A step to a tie between a filled and an empty box for the least current priority, or from
    /// there to a request above them, if there is one.
    fn towards_a_tie(&mut self) -> Option<Command> {
        let controller = &self.controller;
        let tied = reference::least_cores(controller);
        let least = controller.core(tied[0]).current_priority();
        let filled = |&&core: &&CoreNumber| controller.core(core).message.filled;
        match tied.iter().filter(filled).count() {
            0 => self.towards_another_level(&tied, least),
            // A core with an empty box comes down to the filled ones.
            all if all == tied.len() => {
                let empty = |core: &Core| !core.message.filled;
                let core = pick_core(&mut self.random, controller, empty)?;
                Some(Command::SetCorePriority(core, least))
            }
            _ => self.towards_a_request(least + 1..=top_priority(controller.n)),
        }
    }

    /// The least boxes are empty: a step to the next current priority above them. If an empty box
    /// has it, a request as high; else one of their cores is set to it, or to any if there is none.
    fn towards_another_level(&mut self, tied: &[CoreNumber], least: u16) -> Option<Command> {
        let cores = self.controller.used_cores().iter();
        let next = cores
            .filter(|core| core.current_priority() > least)
            .min_by_key(|core| (core.current_priority(), core.message.filled));
        let level = match next {
            Some(core) => core.current_priority(),
            None => self.random.pick(&self.palette),
        };
        if next.is_some_and(|core| !core.message.filled) {
            return self.towards_a_request(level..=level);
        }
        let core = self.random.pick(tied);
        Some(Command::SetCorePriority(core, level))
    }

    /// A step to a new request with one of these priorities, if a source is free for it.
    fn towards_a_request(&mut self, priorities: RangeInclusive<u16>) -> Option<Command> {
        let (random, controller) = (&mut self.random, &self.controller);
        if priorities.is_empty() {
            return None;
        }
        let fits = |source: &Source| !source.pending && priorities.contains(&source.configured);
        if let Some(id) = pick_source(random, controller, |source| fits(source) && !source.masked) {
            return Some(Command::Trigger(id));
        }
        if let Some(id) = pick_source(random, controller, fits) {
            return Some(Command::Unmask(id));
        }
        let id = pick_source(random, controller, |source| !source.pending)?;
        Some(Command::SetSourcePriority(id, random.within(priorities)))
    }

    /// A command of this kind that the state accepts, if there is one.
    fn fitting(&mut self, kind: Kind) -> Option<Command> {
        let random = &mut self.random;
        let controller = &self.controller;
        let any_id = SourceId(random.within(1..=controller.n));
        let any_core = CoreNumber(random.within(0..=controller.m - 1));
        match kind {
            Kind::SetSourcePriority => {
                let priority = random.pick(&self.palette);
                pick_source(random, controller, |source| !source.pending)
                    .map(|id| Command::SetSourcePriority(id, priority))
            }
            Kind::Mask => Some(Command::Mask(any_id)),
            Kind::Unmask => Some(Command::Unmask(any_id)),
            Kind::SetCorePriority => {
                let top = top_priority(controller.n);
                // Mostly 0, and often on a core without a request: claims leave it high.
                let empty = pick_core(random, controller, |core| !core.message.filled);
                let core = match empty {
                    Some(core) if random.flag() => core,
                    _ => any_core,
                };
                let priority = match random.below(12) {
                    0 => top,
                    1 => random.within(0..=top),
                    2 => random.pick(&self.palette),
                    3 => random.pick(&self.palette) - 1,
                    _ => 0,
                };
                Some(Command::SetCorePriority(core, priority))
            }
            Kind::Trigger => {
                pick_source(random, controller, |source| !source.pending).map(Command::Trigger)
            }
            Kind::Claim => {
                pick_core(random, controller, |core| core.message.filled).map(Command::Claim)
            }
            Kind::Redeliver => pick_claimed(random, controller, true).map(Command::Redeliver),
            Kind::Complete => pick_claimed(random, controller, true).map(Command::Complete),
        }
    }

    /// A command that is refused: an argument out of range, or one that doesn't fit the state.
    fn refused(&mut self) -> Command {
        loop {
            let kind = self.random.pick(&EVEN);
            let command = if self.random.flag() {
                Some(self.out_of_range(kind))
            } else {
                self.unfitting(kind)
            };
            if let Some(command) = command {
                return command;
            }
        }
    }

    /// A command of this kind with an argument out of range, or with two.
    fn out_of_range(&mut self, kind: Kind) -> Command {
        let random = &mut self.random;
        let Controller { n, m, .. } = self.controller;
        let top = top_priority(n);
        // A good number plus 256 or 512 is good again if only the low bits are read.
        let bad_id = match random.below(5) {
            0 => 0,
            1 => n + 1,
            2 => 256 + random.within(1..=n),
            3 => random.within(n + 1..=u16::MAX),
            _ => u16::MAX,
        };
        let bad_core = match random.below(4) {
            0 => m,
            1 => 256 + random.within(0..=m - 1),
            2 => random.within(m..=u16::MAX),
            _ => u16::MAX,
        };
        let too_high = match random.below(4) {
            0 => top + 1,
            1 => 512 + random.within(1..=top),
            2 => random.within(top + 1..=u16::MAX),
            _ => u16::MAX,
        };
        let source_priority = random.pick(&[0, too_high]);
        let bad_id = SourceId(bad_id);
        let bad_core = CoreNumber(bad_core);
        let good_id = SourceId(random.within(1..=n));
        let good_core = CoreNumber(random.within(0..=m - 1));
        match kind {
            Kind::SetSourcePriority => match random.below(3) {
                0 => Command::SetSourcePriority(bad_id, 1),
                1 => Command::SetSourcePriority(good_id, source_priority),
                _ => Command::SetSourcePriority(bad_id, source_priority),
            },
            Kind::SetCorePriority => match random.below(3) {
                0 => Command::SetCorePriority(bad_core, 0),
                1 => Command::SetCorePriority(good_core, too_high),
                _ => Command::SetCorePriority(bad_core, too_high),
            },
            Kind::Mask => Command::Mask(bad_id),
            Kind::Unmask => Command::Unmask(bad_id),
            Kind::Trigger => Command::Trigger(bad_id),
            Kind::Claim => Command::Claim(bad_core),
            Kind::Redeliver => Command::Redeliver(bad_id),
            Kind::Complete => Command::Complete(bad_id),
        }
    }

    /// A command of this kind, arguments in range, that doesn't fit the state, if there is one.
    fn unfitting(&mut self, kind: Kind) -> Option<Command> {
        let random = &mut self.random;
        let controller = &self.controller;
        match kind {
            Kind::Trigger => {
                pick_source(random, controller, |source| source.pending).map(Command::Trigger)
            }
            Kind::Claim => {
                pick_core(random, controller, |core| !core.message.filled).map(Command::Claim)
            }
            Kind::Redeliver => pick_claimed(random, controller, false).map(Command::Redeliver),
            Kind::Complete => pick_claimed(random, controller, false).map(Command::Complete),
            Kind::SetSourcePriority => {
                let other = random.pick(&self.palette);
                let id = pick_source(random, controller, |source| source.pending)?;
                // Also the priority that it has.
                let own = controller.source(id).configured;
                let priority = random.pick(&[other, own]);
                Some(Command::SetSourcePriority(id, priority))
            }
            Kind::Mask | Kind::Unmask | Kind::SetCorePriority => None,
        }
    }
}

/// One of the sources 1 to n that fit, if there is one. The sizes must be in range.
pub(crate) fn pick_source(
    random: &mut Random,
    controller: &Controller,
    fits: impl Fn(&Source) -> bool,
) -> Option<SourceId> {
    random.pick_if_any(controller.ids().filter(|&id| fits(controller.source(id))))
}

/// One of the cores 0 to m-1 that fit, if there is one. The sizes must be in range.
pub(crate) fn pick_core(
    random: &mut Random,
    controller: &Controller,
    fits: impl Fn(&Core) -> bool,
) -> Option<CoreNumber> {
    let numbers = controller.core_numbers();
    random.pick_if_any(numbers.filter(|&core| fits(controller.core(core))))
}

/// One of the sources whose request is claimed, or one of the others, if there is one.
fn pick_claimed(random: &mut Random, controller: &Controller, claimed: bool) -> Option<SourceId> {
    let ids = controller.ids();
    random.pick_if_any(ids.filter(|&id| controller.is_claimed(id) == claimed))
}

/// The source priorities of one history: all there are, a few, one alone, or the two ends.
pub(crate) fn palette(random: &mut Random, top: u16) -> Vec<u16> {
    match random.below(4) {
        0 => (1..=top).collect(),
        1 => (0..4).map(|_| random.within(1..=top)).collect(),
        2 => vec![random.within(1..=top)],
        _ => vec![1, top],
    }
}
