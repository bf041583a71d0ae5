//! The model that the library's speed is held against: document 01's rules as a Rust programmer writes them who wants them fast.
//!
//! - An array for each field, so that a scan reads what it asks about and nothing else. What the searches compare, a number for each source
//!   and each core, is kept up with the records; a search is one plain scan.
//! - A list tests its start once: every command keeps a sound state sound, and on an unsound one every command is refused by 1.
//! - A command is decided by the one record that it names, then applied.
//! - Trigger, unmask and redeliver settle by at most one delivery, of the source that they name: in a sound state no other candidate is
//!   above the least core, and a request that is put back isn't above the least core that is then.
//! - Set core priority empties every box, then delivers while the highest candidate is above the least core.

pub mod routines;
pub mod writing;

use psic::{ANSWER_SIZE, COMMAND_SIZE};
use psic_reference::model::{Model, Reference};
use psic_reference::records::{
    self, Answer, Command, Core, CoreNumber, MessageBox, Source, SourceId,
};
use psic_reference::reference;

use crate::library::{answer_bytes, answer_of, command_of, encoded};

const SOURCES: usize = records::MAX_SOURCES;
const CORES: usize = records::MAX_CORES;

/// A controller, sound or not, changed in place.
#[derive(Clone)]
pub struct Controller {
    n: u16,
    m: u16,
    sources: Sources,
    cores: Cores,
}

/// The source with id i is at i - 1.
#[derive(Clone)]
struct Sources {
    configured: [u16; SOURCES],
    masked: [bool; SOURCES],
    pending: [bool; SOURCES],
    delivered: [bool; SOURCES],
    request: [u16; SOURCES],
    dropped: [u16; SOURCES],
    /// [`Sources::rank`] of each, kept up with it.
    ranks: [u32; SOURCES],
}

#[derive(Clone)]
struct Cores {
    configured: [u16; CORES],
    filled: [bool; CORES],
    dirty: [bool; CORES],
    id: [u16; CORES],
    priority: [u16; CORES],
    /// [`Cores::key`] of each, kept up with it.
    keys: [u32; CORES],
}

impl Sources {
    fn is_candidate(&self, i: usize) -> bool {
        self.pending[i] & !self.delivered[i] & !self.masked[i]
    }

    /// Of two candidates the one with the higher rank goes first: the one of higher priority, on a tie the one with the lower id. No
    /// candidate has rank 0.
    fn rank(&self, i: usize) -> u32 {
        if self.is_candidate(i) {
            u32::from(self.request[i]) << 16 | (SOURCES - i) as u32
        } else {
            0
        }
    }

    /// After a change of what the rank is made from.
    fn renew(&mut self, i: usize) {
        self.ranks[i] = self.rank(i);
    }

    /// The candidate that goes first, if there is one.
    fn highest(&self, n: usize) -> Option<usize> {
        let rank = self.ranks[..n].iter().fold(0, |high, &rank| high.max(rank));
        (rank != 0).then(|| SOURCES - usize::from(rank as u16))
    }

    /// A request in a box waits again.
    fn put_back(&mut self, id: u16) {
        let i = usize::from(id) - 1;
        self.delivered[i] = false;
        self.renew(i);
    }
}

impl Cores {
    /// Current priority of a core: the box's if filled, else the configured one.
    fn current(&self, k: usize) -> u16 {
        if self.filled[k] {
            self.priority[k]
        } else {
            self.configured[k]
        }
    }

    /// The core with the lowest key goes first: the one of lower current priority, on a tie one with a filled box, and among these the one
    /// with the lowest number.
    fn key(&self, k: usize) -> u32 {
        let key = 2 * u32::from(self.current(k)) + u32::from(!self.filled[k]);
        key << 8 | k as u32
    }

    /// After a change of what the key is made from.
    fn renew(&mut self, k: usize) {
        self.keys[k] = self.key(k);
    }

    /// The core that goes first.
    fn least(&self, m: usize) -> usize {
        let key = self.keys[..m]
            .iter()
            .fold(u32::MAX, |low, &key| low.min(key));
        usize::from(key as u8)
    }

    fn fill(&mut self, k: usize, id: u16, priority: u16) {
        self.filled[k] = true;
        self.id[k] = id;
        self.priority[k] = priority;
        self.renew(k);
    }

    fn empty(&mut self, k: usize) {
        self.filled[k] = false;
        self.id[k] = 0;
        self.priority[k] = 0;
        self.renew(k);
    }
}

impl Controller {
    /// A fresh controller.
    pub fn new(n: u16, m: u16) -> Controller {
        Controller::load(&records::Controller::reset(n, m))
    }

    /// The same state, sound or not, with an array for each field.
    pub fn load(state: &records::Controller) -> Controller {
        let (sources, cores) = (&state.sources, &state.cores);
        let mut loaded = Controller {
            n: state.n,
            m: state.m,
            sources: Sources {
                configured: sources.map(|source| source.configured),
                masked: sources.map(|source| source.masked),
                pending: sources.map(|source| source.pending),
                delivered: sources.map(|source| source.delivered),
                request: sources.map(|source| source.request),
                dropped: sources.map(|source| source.dropped),
                ranks: [0; SOURCES],
            },
            cores: Cores {
                configured: cores.map(|core| core.configured),
                filled: cores.map(|core| core.message.filled),
                dirty: cores.map(|core| core.message.dirty),
                id: cores.map(|core| core.message.id),
                priority: cores.map(|core| core.message.priority),
                keys: [0; CORES],
            },
        };
        (0..SOURCES).for_each(|i| loaded.sources.renew(i));
        (0..CORES).for_each(|k| loaded.cores.renew(k));
        loaded
    }

    /// The state record by record.
    pub fn read(&self) -> records::Controller {
        let (sources, cores) = (&self.sources, &self.cores);
        records::Controller {
            n: self.n,
            m: self.m,
            sources: std::array::from_fn(|i| Source {
                configured: sources.configured[i],
                masked: sources.masked[i],
                pending: sources.pending[i],
                delivered: sources.delivered[i],
                request: sources.request[i],
                dropped: sources.dropped[i],
            }),
            cores: std::array::from_fn(|k| Core {
                configured: cores.configured[k],
                message: MessageBox {
                    filled: cores.filled[k],
                    dirty: cores.dirty[k],
                    id: cores.id[k],
                    priority: cores.priority[k],
                },
            }),
        }
    }

    /// Runs a list of commands, 5 bytes each, and writes an answer of 5 bytes for each. The state is tested once, at the start.
    pub fn run(&mut self, list: &[u8], answers: &mut [u8]) {
        if self.is_sound() {
            return self.run_sound(list, answers);
        }
        let refused = answer_bytes(refusal(1));
        for answer in answers.chunks_exact_mut(ANSWER_SIZE) {
            answer.copy_from_slice(&refused);
        }
    }

    /// The same on a state that is known to be sound: nothing is tested.
    pub fn run_sound(&mut self, list: &[u8], answers: &mut [u8]) {
        let commands = list.chunks_exact(COMMAND_SIZE);
        for (command, answer) in commands.zip(answers.chunks_exact_mut(ANSWER_SIZE)) {
            answer.copy_from_slice(&answer_bytes(self.execute_sound(command_of(command))));
        }
    }

    /// Runs one command on a state that is sound or not.
    pub fn execute(&mut self, command: Command) -> Answer {
        if self.is_sound() {
            self.execute_sound(command)
        } else {
            refusal(1)
        }
    }

    /// Runs one command on a sound state.
    pub fn execute_sound(&mut self, command: Command) -> Answer {
        match self.accepted(command) {
            Ok((id, cycles)) => Answer {
                number: 0,
                id,
                cycles,
            },
            Err(number) => refusal(number),
        }
    }

    /// The answered id and the cycles of a command, or the number that refuses it.
    fn accepted(&mut self, command: Command) -> Result<(u16, u16), u8> {
        match command {
            Command::SetSourcePriority(id, p) => {
                let i = self.source(id)?;
                refuse_if(p == 0 || p > self.top(), 5)?;
                refuse_if(self.sources.pending[i], 9)?;
                self.sources.configured[i] = p;
                Ok((0, 0))
            }
            Command::Mask(id) => {
                let i = self.source(id)?;
                self.sources.masked[i] = true;
                self.sources.renew(i);
                Ok((0, 0))
            }
            Command::Unmask(id) => {
                let i = self.source(id)?;
                self.sources.masked[i] = false;
                Ok((0, self.offer(i)))
            }
            Command::SetCorePriority(core, p) => {
                let k = self.core(core)?;
                refuse_if(p > self.top(), 5)?;
                Ok((0, self.set_core_priority(k, p)))
            }
            Command::Trigger(id) => {
                let i = self.source(id)?;
                if self.sources.pending[i] {
                    let dropped = &mut self.sources.dropped[i];
                    *dropped = dropped.saturating_add(1);
                    return Err(6);
                }
                self.sources.pending[i] = true;
                self.sources.request[i] = self.sources.configured[i];
                Ok((0, self.offer(i)))
            }
            Command::Claim(core) => {
                let k = self.core(core)?;
                refuse_if(!self.cores.filled[k], 7)?;
                let id = self.cores.id[k];
                self.cores.configured[k] = self.cores.priority[k];
                self.cores.empty(k);
                Ok((id, 0))
            }
            Command::Redeliver(id) => {
                let i = self.claimed(id)?;
                self.sources.delivered[i] = false;
                Ok((0, self.offer(i)))
            }
            Command::Complete(id) => {
                let i = self.claimed(id)?;
                self.sources.pending[i] = false;
                self.sources.delivered[i] = false;
                self.sources.request[i] = 0;
                Ok((0, 0))
            }
        }
    }

    fn top(&self) -> u16 {
        (4 << self.n.ilog2()) - 1
    }

    /// The index of the source with this id.
    fn source(&self, id: SourceId) -> Result<usize, u8> {
        refuse_if(id.0 == 0 || id.0 > self.n, 4)?;
        Ok(usize::from(id.0) - 1)
    }

    fn core(&self, core: CoreNumber) -> Result<usize, u8> {
        refuse_if(core.0 >= self.m, 3)?;
        Ok(usize::from(core.0))
    }

    /// The index of the source with this id, of which the request is claimed. In a sound state what is delivered is pending, and an empty box
    /// has id 0.
    fn claimed(&self, id: SourceId) -> Result<usize, u8> {
        let i = self.source(id)?;
        let boxed = || self.cores.id[..usize::from(self.m)].contains(&id.0);
        refuse_if(!self.sources.delivered[i] || boxed(), 8)?;
        Ok(i)
    }

    /// Delivers the request of a source if it is a candidate and above the least core, and counts the cycles.
    fn offer(&mut self, i: usize) -> u16 {
        self.sources.renew(i);
        u16::from(self.sources.is_candidate(i) && self.deliver(i))
    }

    /// Puts a candidate into the box of the least core, if it is above it; what lies there is put back.
    fn deliver(&mut self, i: usize) -> bool {
        let k = self.cores.least(usize::from(self.m));
        let priority = self.sources.request[i];
        if priority <= self.cores.current(k) {
            return false;
        }
        if self.cores.filled[k] {
            self.sources.put_back(self.cores.id[k]);
        }
        self.sources.delivered[i] = true;
        self.sources.renew(i);
        self.cores.fill(k, i as u16 + 1, priority);
        true
    }

    /// Counts the cycles. Apart from the other commands, which then need no registers saved for it.
    #[inline(never)]
    fn set_core_priority(&mut self, k: usize, p: u16) -> u16 {
        let mut cycles = 0;
        for k in 0..usize::from(self.m) {
            if self.cores.filled[k] {
                self.sources.put_back(self.cores.id[k]);
                self.cores.empty(k);
                cycles += 1;
            }
        }
        self.cores.configured[k] = p;
        self.cores.renew(k);
        while let Some(i) = self.sources.highest(usize::from(self.n)) {
            if !self.deliver(i) {
                break;
            }
            cycles += 1;
        }
        cycles
    }

    /// Document 01, "A sound state".
    pub fn is_sound(&self) -> bool {
        let (n, m) = (usize::from(self.n), usize::from(self.m));
        if !(1..=SOURCES).contains(&n) || !(1..=CORES).contains(&m) {
            return false;
        }
        let (sources, cores, top) = (&self.sources, &self.cores, self.top());
        let mut boxed = [false; SOURCES];
        // Of filled boxes the least priority and the greatest covered one; of cores with an empty box the least priority.
        let (mut least_box, mut covered) = (u16::MAX, 0);
        let mut least_free = u16::MAX;
        for k in 0..m {
            if cores.configured[k] > top || cores.dirty[k] {
                return false;
            }
            if cores.filled[k] {
                let (id, priority) = (cores.id[k], cores.priority[k]);
                let Ok(i) = self.source(SourceId(id)) else {
                    return false;
                };
                let delivered = sources.pending[i] && sources.delivered[i];
                if boxed[i] || !delivered || sources.request[i] != priority {
                    return false;
                }
                boxed[i] = true;
                least_box = least_box.min(priority);
                covered = covered.max(cores.configured[k]);
            } else if cores.id[k] != 0 || cores.priority[k] != 0 {
                return false;
            } else {
                least_free = least_free.min(cores.configured[k]);
            }
        }
        // A box is above its own core's priority, since it is above every covered one.
        let below = covered < least_box && covered <= least_free;
        below && self.sources_fit(n, top, least_box.min(least_free)) && self.spares_are_fresh(n, m)
    }

    /// Ranges and blank values of the sources in use, and no candidate above the least core. Without an early answer several are tested at
    /// once.
    fn sources_fit(&self, n: usize, top: u16, least: u16) -> bool {
        let sources = &self.sources;
        let in_range = |p: u16| p.wrapping_sub(1) < top;
        (0..n).fold(true, |fit, i| {
            let (pending, request) = (sources.pending[i], sources.request[i]);
            let blank = !sources.delivered[i] & (request == 0);
            fit & in_range(sources.configured[i])
                & ((pending & in_range(request)) | (!pending & blank))
                & (!sources.is_candidate(i) | (request <= least))
        })
    }

    /// Records past n or m are kept as fresh ones.
    fn spares_are_fresh(&self, n: usize, m: usize) -> bool {
        let (sources, cores) = (&self.sources, &self.cores);
        all(&sources.configured[n..], 1)
            && all(&sources.masked[n..], true)
            && all(&sources.pending[n..], false)
            && all(&sources.delivered[n..], false)
            && all(&sources.request[n..], 0)
            && all(&sources.dropped[n..], 0)
            && all(&cores.configured[m..], 0)
            && all(&cores.filled[m..], false)
            && all(&cores.dirty[m..], false)
            && all(&cores.id[m..], 0)
            && all(&cores.priority[m..], 0)
    }
}

/// Whether all are this one. Without an early answer several are compared at once.
fn all<T: Copy + PartialEq>(items: &[T], one: T) -> bool {
    items.iter().fold(true, |all, &item| all & (item == one))
}

fn refuse_if(refused: bool, number: u8) -> Result<(), u8> {
    if refused {
        Err(number)
    } else {
        Ok(())
    }
}

fn refusal(number: u8) -> Answer {
    Answer {
        number,
        id: 0,
        cycles: 0,
    }
}

/// This model in the reference's trait, for comparisons.
#[derive(Clone, Copy, Debug)]
pub enum Peer {
    /// A list, or a command alone, tests the state first.
    Tested,
    /// Nothing is tested: for sound states.
    Untested,
}

impl Model for Peer {
    type State = Controller;

    fn name(&self) -> String {
        format!("peer, {self:?}")
    }

    fn make(&self, n: u16, m: u16) -> (u8, Controller) {
        let (number, state) = reference::make(n, m);
        (number, Controller::load(&state))
    }

    fn execute(&self, state: &mut Controller, command: Command) -> Answer {
        match self {
            Peer::Tested => state.execute(command),
            Peer::Untested => state.execute_sound(command),
        }
    }

    fn run(&self, state: &mut Controller, commands: &[Command]) -> Vec<Answer> {
        let list: Vec<u8> = commands.iter().flat_map(|&c| encoded(c)).collect();
        let mut answers = vec![0; ANSWER_SIZE * commands.len()];
        match self {
            Peer::Tested => state.run(&list, &mut answers),
            Peer::Untested => state.run_sound(&list, &mut answers),
        }
        answers.chunks_exact(ANSWER_SIZE).map(answer_of).collect()
    }

    fn load(&self, controller: &records::Controller) -> Controller {
        Controller::load(controller)
    }

    fn read(&self, state: &Controller) -> records::Controller {
        state.read()
    }

    /// No part of this model.
    fn highest_in(&self, sources: &[Source]) -> (u8, u16) {
        Reference.highest_in(sources)
    }

    /// No part of this model.
    fn ranges_in(&self, sources: &[Source]) -> (u8, u16) {
        Reference.ranges_in(sources)
    }

    /// No part of this model.
    fn claim_in_place(&self, core: &mut Core) -> (u8, u16) {
        Reference.claim_in_place(core)
    }
}
