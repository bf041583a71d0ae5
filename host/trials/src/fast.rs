//! The model that the library's speed is compared with: plain Rust on a `&mut` state, the same algorithm as the library
//! (one pass for the sound-state test, keys made once a command, the comparator tree by halves, no settling where a command
//! leaves the state at rest), and no needless work. [`Fast`] puts it to the comparisons too.

mod model;

pub use model::Fast;

#[derive(Clone, Copy)]
struct Source {
    configured: u16,
    masked: bool,
    pending: bool,
    delivered: bool,
    priority: u16,
    dropped: u16,
}
#[derive(Clone, Copy)]
struct MessageBox {
    filled: bool,
    dirty: bool,
    source: u16,
    priority: u16,
}
const EMPTY: MessageBox = MessageBox {
    filled: false,
    dirty: false,
    source: 0,
    priority: 0,
};
#[derive(Clone, Copy)]
struct Core {
    configured: u16,
    message: MessageBox,
}
/// A controller, changed in place.
#[derive(Clone)]
pub struct Controller {
    n: u16,
    m: u16,
    sources: [Source; 128],
    cores: [Core; 32],
}
/// A command, with an id or a core and a priority as plain numbers.
#[derive(Clone, Copy)]
#[allow(missing_docs)]
pub enum Command {
    SetSourcePriority(u16, u16),
    Mask(u16),
    Unmask(u16),
    SetCorePriority(u16, u16),
    Trigger(u16),
    Claim(u16),
    Redeliver(u16),
    Complete(u16),
}
/// What a command answers.
#[allow(missing_docs)]
pub struct Outcome {
    pub number: u8,
    pub id: u16,
    pub cycles: u16,
}

fn top_priority(n: u16) -> u16 {
    (1u32 << (n.ilog2() + 2)) as u16 - 1
}
impl Core {
    /// Twice the current priority, one more for an empty box: the least key is the core that a delivery goes to, the first on a tie.
    fn key(&self) -> u16 {
        if self.message.filled {
            2 * self.message.priority
        } else {
            2 * self.configured + 1
        }
    }
}
impl MessageBox {
    fn is_empty(&self) -> bool {
        !self.filled && !self.dirty && self.source == 0 && self.priority == 0
    }
}
impl Source {
    fn candidate(&self) -> bool {
        self.pending && !self.delivered && !self.masked
    }
    fn rank(&self) -> u32 {
        if self.candidate() {
            self.priority as u32 + 1
        } else {
            0
        }
    }
    fn in_range(&self, top: u16) -> bool {
        (1..=top).contains(&self.configured)
            && if self.pending {
                (1..=top).contains(&self.priority)
            } else {
                !self.delivered && self.priority == 0
            }
    }
    fn is_reset(&self) -> bool {
        self.configured == 1
            && self.masked
            && !self.pending
            && !self.delivered
            && self.priority == 0
            && self.dropped == 0
    }
}
fn highest(keys: &[u32]) -> usize {
    match keys {
        [] | [_] => 0,
        [left, right] => usize::from(left < right),
        _ => {
            let half = keys.len() - keys.len() / 2;
            let (front, back) = keys.split_at(half);
            let left = highest(front);
            let right = half + highest(back);
            if keys[left] < keys[right] {
                right
            } else {
                left
            }
        }
    }
}
fn least(keys: &[u16]) -> usize {
    let mut best = 0;
    for k in 1..keys.len() {
        if keys[k] < keys[best] {
            best = k;
        }
    }
    best
}
impl Controller {
    /// A fresh controller; the sizes must be in range.
    pub fn new(n: u16, m: u16) -> Self {
        Controller {
            n,
            m,
            sources: [Source {
                configured: 1,
                masked: true,
                pending: false,
                delivered: false,
                priority: 0,
                dropped: 0,
            }; 128],
            cores: [Core {
                configured: 0,
                message: EMPTY,
            }; 32],
        }
    }
    fn well_formed(&self) -> bool {
        let (n, m) = (self.n as usize, self.m as usize);
        if !(1..=128).contains(&n) || !(1..=32).contains(&m) {
            return false;
        }
        let top = top_priority(self.n);
        let Some(lowest) = self.lowest(n, m, top) else {
            return false;
        };
        self.cores[m..]
            .iter()
            .all(|c| c.configured == 0 && c.message.is_empty())
            && self.sources[..n]
                .iter()
                .all(|r| r.in_range(top) && !(r.candidate() && r.priority > lowest))
            && self.sources[n..].iter().all(|r| r.is_reset())
    }
    /// The least current priority, if all clauses on cores and boxes hold.
    #[inline(always)]
    fn lowest(&self, n: usize, m: usize, top: u16) -> Option<u16> {
        let mut seen = [false; 128];
        // Of filled boxes the least priority and the greatest covered one; of cores without a filled box the least priority.
        let (mut lowest_box, mut covered) = (u16::MAX, 0);
        let mut lowest_free = u16::MAX;
        for c in &self.cores[..m] {
            if c.configured > top {
                return None;
            }
            if c.message.filled {
                let id = c.message.source as usize;
                if id == 0 || id > n || seen[id - 1] {
                    return None;
                }
                seen[id - 1] = true;
                let r = &self.sources[id - 1];
                let named = r.pending && r.delivered && r.priority == c.message.priority;
                if c.message.dirty || !named {
                    return None;
                }
                covered = covered.max(c.configured);
                lowest_box = lowest_box.min(c.message.priority);
            } else if c.message.is_empty() {
                lowest_free = lowest_free.min(c.configured);
            } else {
                return None;
            }
        }
        // A box is above its own core's priority, since it is above every covered one.
        (covered < lowest_box && covered <= lowest_free).then(|| lowest_box.min(lowest_free))
    }
    fn boxed(&self, id: u16) -> bool {
        self.cores[..self.m as usize]
            .iter()
            .any(|c| c.message.filled && c.message.source == id)
    }
    fn claimed(&self, id: u16) -> bool {
        let r = &self.sources[id as usize - 1];
        r.pending && r.delivered && !self.boxed(id)
    }
    fn settle(&mut self) -> u16 {
        let (n, m) = (self.n as usize, self.m as usize);
        let mut cycles = 0;
        let mut core_keys = [0u16; 32];
        for (c, key) in self.cores[..m].iter_mut().zip(&mut core_keys) {
            if c.message.dirty {
                self.sources[c.message.source as usize - 1].delivered = false;
                c.message = EMPTY;
                cycles += 1;
            }
            *key = c.key();
        }
        let mut keys = [0u32; 128];
        for (key, r) in keys.iter_mut().zip(&self.sources[..n]) {
            *key = r.rank();
        }
        loop {
            let at = highest(&keys[..n]);
            let k = least(&core_keys[..m]);
            let current = core_keys[k] / 2;
            if keys[at] <= current as u32 + 1 {
                return cycles;
            }
            let c = &mut self.cores[k];
            if c.message.filled {
                let old = c.message.source as usize - 1;
                self.sources[old].delivered = false;
                keys[old] = self.sources[old].rank();
            }
            let r = &mut self.sources[at];
            r.delivered = true;
            keys[at] = 0;
            c.message = MessageBox {
                filled: true,
                dirty: false,
                source: at as u16 + 1,
                priority: r.priority,
            };
            core_keys[k] = 2 * r.priority;
            cycles += 1;
        }
    }
    fn source(&mut self, id: u16) -> Result<&mut Source, u8> {
        if id == 0 || id > self.n {
            Err(4)
        } else {
            Ok(&mut self.sources[id as usize - 1])
        }
    }
    fn core(&mut self, k: u16) -> Result<&mut Core, u8> {
        if k >= self.m {
            Err(3)
        } else {
            Ok(&mut self.cores[k as usize])
        }
    }
    fn apply(&mut self, c: Command) -> Result<(u16, bool), u8> {
        if !self.well_formed() {
            return Err(1);
        }
        let top = top_priority(self.n);
        match c {
            Command::SetSourcePriority(id, p) => {
                let r = self.source(id)?;
                if p == 0 || p > top {
                    return Err(5);
                }
                if r.pending {
                    return Err(9);
                }
                r.configured = p;
                return Ok((0, true));
            }
            Command::Mask(id) => {
                self.source(id)?.masked = true;
                return Ok((0, true));
            }
            Command::Unmask(id) => self.source(id)?.masked = false,
            Command::SetCorePriority(k, p) => {
                let c = self.core(k)?;
                if p > top {
                    return Err(5);
                }
                c.configured = p;
                for c in &mut self.cores {
                    c.message.dirty = c.message.filled;
                }
            }
            Command::Trigger(id) => {
                let r = self.source(id)?;
                if r.pending {
                    r.dropped = r.dropped.saturating_add(1);
                    return Err(6);
                }
                r.pending = true;
                r.delivered = false;
                r.priority = r.configured;
            }
            Command::Claim(k) => {
                let c = self.core(k)?;
                if !c.message.filled {
                    return Err(7);
                }
                let id = c.message.source;
                *c = Core {
                    configured: c.message.priority,
                    message: EMPTY,
                };
                return Ok((id, true));
            }
            Command::Redeliver(id) => {
                self.source(id)?;
                if !self.claimed(id) {
                    return Err(8);
                }
                self.sources[id as usize - 1].delivered = false;
            }
            Command::Complete(id) => {
                self.source(id)?;
                if !self.claimed(id) {
                    return Err(8);
                }
                let r = &mut self.sources[id as usize - 1];
                r.pending = false;
                r.delivered = false;
                r.priority = 0;
                return Ok((0, true));
            }
        }
        Ok((0, false))
    }
    /// Runs one command whole.
    pub fn execute(&mut self, c: Command) -> Outcome {
        match self.apply(c) {
            Err(number) => Outcome {
                number,
                id: 0,
                cycles: 0,
            },
            Ok((id, rests)) => {
                let cycles = if rests { 0 } else { self.settle() };
                Outcome {
                    number: 0,
                    id,
                    cycles,
                }
            }
        }
    }
}
