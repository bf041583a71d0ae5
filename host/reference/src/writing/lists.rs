//! Runs as a host hands them over: entries of a number, an id or core, and a priority, whatever they
//! hold.
//!
//! - [`Lists`] is an endless sequence of lists that a seed determines: good ones, ones with a value
//!   at the edge of its variable or past it, unreadable ones, and some about as long as a run may be.
//! - [`edges`] are lists made by hand, each for one point.

use crate::random::Random;
use crate::recording::MAX_COMMANDS;
use crate::records::{Command, CoreNumber, SourceId};
use crate::texts;

/// An entry of a list. Its priority can be anything also where the command has none.
#[derive(Clone, Copy, Debug, PartialEq, Eq)]
pub struct Entry {
    /// The command's number; one above 7 names no command.
    pub number: u8,
    /// The id or the core.
    pub at: u16,
    /// The priority.
    pub priority: u16,
}

impl Entry {
    /// The command, if the number names one.
    pub fn command(self) -> Option<Command> {
        let (id, core) = (SourceId(self.at), CoreNumber(self.at));
        Some(match self.number {
            0 => Command::SetSourcePriority(id, self.priority),
            1 => Command::Mask(id),
            2 => Command::Unmask(id),
            3 => Command::SetCorePriority(core, self.priority),
            4 => Command::Trigger(id),
            5 => Command::Claim(core),
            6 => Command::Redeliver(id),
            7 => Command::Complete(id),
            _ => return None,
        })
    }

    /// The entry of a command, with 0 for a priority that it doesn't have.
    pub fn of(command: Command) -> Entry {
        let (number, at, priority) = match command {
            Command::SetSourcePriority(id, p) => (0, id.0, p),
            Command::Mask(id) => (1, id.0, 0),
            Command::Unmask(id) => (2, id.0, 0),
            Command::SetCorePriority(core, p) => (3, core.0, p),
            Command::Trigger(id) => (4, id.0, 0),
            Command::Claim(core) => (5, core.0, 0),
            Command::Redeliver(id) => (6, id.0, 0),
            Command::Complete(id) => (7, id.0, 0),
        };
        Entry {
            number,
            at,
            priority,
        }
    }

    /// Whether the command uses the priority.
    fn sets_priority(self) -> bool {
        self.number == 0 || self.number == 3
    }
}

/// A list, and how many bytes of one more entry follow it, 0 to 4.
#[derive(Clone, Debug, PartialEq, Eq)]
pub struct List {
    /// The whole entries.
    pub entries: Vec<Entry>,
    /// The bytes of a last one that is cut off.
    pub cut: usize,
}

impl List {
    /// A list of whole entries.
    pub fn of(entries: Vec<Entry>) -> List {
        List { entries, cut: 0 }
    }

    /// The run, unless the list is cut or has a number above 7.
    pub fn commands(&self) -> Option<Vec<Command>> {
        let commands = self.entries.iter().map(|entry| entry.command());
        commands.collect::<Option<_>>().filter(|_| self.cut == 0)
    }
}

/// Lists without end, the same for the same seed. Half of them can be written; about one in five
/// hundred is long.
#[derive(Clone, Debug)]
pub struct Lists {
    random: Random,
}

impl Lists {
    /// The lists of a seed.
    pub fn new(seed: u64) -> Lists {
        Lists {
            random: Random::new(seed),
        }
    }
}

impl Iterator for Lists {
    type Item = List;

    fn next(&mut self) -> Option<List> {
        let random = &mut self.random;
        let count = match random.below(512) {
            0 => MAX_COMMANDS - 1 + random.below(4),
            1..16 => random.below(1200),
            _ => random.below(12),
        };
        let commands = texts::commands(random, count);
        let mut list = List::of(commands.into_iter().map(Entry::of).collect());
        for entry in &mut list.entries {
            if !entry.sets_priority() && random.one_in(4) {
                entry.priority = random.any();
            }
        }
        if random.flag() {
            damage(random, &mut list);
        }
        Some(list)
    }
}

/// A value at an edge or past it, a number that names no command, or a cut; sometimes two of these.
fn damage(random: &mut Random, list: &mut List) {
    let kind = random.below(8);
    if let Some(entry) = random.pick_if_any(0..list.entries.len()) {
        let entry = &mut list.entries[entry];
        match kind {
            0 | 1 => entry.at = random.pick(&EDGES_OF_AT),
            2 | 3 => entry.priority = random.pick(&EDGES_OF_PRIORITY),
            4 => (entry.at, entry.priority) = (random.any(), random.any()),
            5 => entry.number = random.pick(&[8, 9, 16, 17, 128, 255]),
            _ => {}
        }
    }
    if kind >= 6 || random.one_in(8) {
        list.cut = 1 + random.below(4);
    }
}

/// The ends of core and arg, and of what 16 bits hold.
const EDGES_OF_AT: [u16; 12] = [0, 1, 31, 32, 33, 63, 127, 128, 255, 256, 257, 65_535];

/// The same of prio.
const EDGES_OF_PRIORITY: [u16; 9] = [0, 1, 255, 256, 510, 511, 512, 513, 65_535];

/// Lists made by hand: the empty one; each command alone with each edge of each argument; 65,535 of a
/// kind and 65,536, whole, cut, and with a last entry that is too large or names no command.
pub fn edges() -> Vec<List> {
    let mut lists = vec![
        List::of(Vec::new()),
        List {
            entries: Vec::new(),
            cut: 1,
        },
    ];
    for number in 0..=8 {
        for at in EDGES_OF_AT {
            for priority in EDGES_OF_PRIORITY {
                let entry = Entry {
                    number,
                    at,
                    priority,
                };
                lists.push(List::of(vec![entry]));
            }
        }
    }
    // The widest text that a command has, and the narrowest.
    let wide = Entry {
        number: 0,
        at: 255,
        priority: 511,
    };
    let narrow = Entry {
        number: 1,
        at: 1,
        priority: 65_535,
    };
    for count in [MAX_COMMANDS - 1, MAX_COMMANDS, MAX_COMMANDS + 1] {
        for entry in [wide, narrow] {
            lists.push(List::of(vec![entry; count]));
        }
    }
    for count in [MAX_COMMANDS, MAX_COMMANDS + 1] {
        let all = vec![narrow; count];
        lists.push(List {
            entries: all.clone(),
            cut: 4,
        });
        for last in [
            Entry { at: 256, ..narrow },
            Entry {
                number: 8,
                ..narrow
            },
        ] {
            let mut entries = all.clone();
            entries[count - 1] = last;
            lists.push(List::of(entries));
        }
    }
    lists
}
