//! Another writer beside this one: on any list and a buffer of any length, the number, the length and
//! every byte of the buffer after the call.
//!
//! - [`Writer`] is what is compared, [`Case`] a list with what is to come of it.
//! - [`Trial`] is a run over lists of all kinds from one seed, with totals by number.

use std::collections::BTreeMap;

use crate::random::Random;
use crate::writing::lists::{List, Lists};
use crate::writing::{write, Unwritable};

/// The number that answers a list which holds no run: it is cut, or names no command.
pub const UNREADABLE: u8 = 255;

/// What a buffer holds before a call.
pub const PATTERN: u8 = 0xc3;

/// Writes a list into a buffer.
pub trait Writer {
    /// The number and, with 0, the length of the text. None if this writer can't be handed such a
    /// list.
    fn write(&self, list: &List, buffer: &mut [u8]) -> Option<(u8, usize)>;
}

/// A list, and its text or the number that refuses it in a buffer of any length.
#[derive(Clone, Debug)]
pub struct Case {
    /// What is handed over.
    pub list: List,
    /// The text, or 15 or 255.
    pub right: Result<Vec<u8>, u8>,
}

impl Case {
    /// What is to come of a list.
    pub fn new(list: List) -> Case {
        let right = match list.commands() {
            Some(commands) => write(&commands).map_err(|_| Unwritable::NUMBER),
            None => Err(UNREADABLE),
        };
        Case { list, right }
    }

    /// The length that a buffer must have. For a list that isn't written into any it is one that no
    /// text of so many entries needs: then the buffer isn't what refuses it.
    pub fn length(&self) -> usize {
        let ample = 64 * (self.list.entries.len() + 4);
        self.right.as_ref().map_or(ample, Vec::len)
    }

    /// The number that answers a buffer of this length.
    pub fn number(&self, room: usize) -> u8 {
        match &self.right {
            Ok(text) if text.len() <= room => 0,
            Ok(_) => Unwritable::NUMBER,
            Err(number) => *number,
        }
    }

    /// Lengths of buffers at the edge and away from it: an exact fit, one byte less, none at all, and
    /// some bytes more.
    pub fn rooms(&self) -> [usize; 4] {
        let length = self.length();
        [length, length.saturating_sub(1), 0, length + 9]
    }

    /// What a writer does otherwise with a buffer of this length, if it does.
    pub fn compare(&self, writer: &impl Writer, room: usize) -> Result<(), String> {
        let mut buffer = vec![PATTERN; room];
        let Some((number, length)) = writer.write(&self.list, &mut buffer) else {
            return Ok(());
        };
        let mut expected = vec![PATTERN; room];
        let number_right = self.number(room);
        let length_right = match &self.right {
            Ok(text) if number_right == 0 => {
                expected[..text.len()].copy_from_slice(text);
                text.len()
            }
            _ => 0,
        };
        let what = format!(
            "{} entries, cut {}, room for {room} bytes",
            self.list.entries.len(),
            self.list.cut
        );
        if (number, length) != (number_right, length_right) {
            return Err(format!(
                "{what}: number {number}, length {length}, not {number_right}, {length_right}"
            ));
        }
        match (0..room).find(|&at| buffer[at] != expected[at]) {
            None => Ok(()),
            Some(at) => {
                let (wrong, right) = (shown(&buffer, at), shown(&expected, at));
                Err(format!("{what}: at byte {at} {wrong}, not {right}"))
            }
        }
    }
}

/// Some bytes around a place.
fn shown(bytes: &[u8], at: usize) -> String {
    let around = &bytes[at.saturating_sub(20)..bytes.len().min(at + 20)];
    format!("'{}'", around.escape_ascii())
}

/// What was compared.
#[derive(Clone, Debug, Default, PartialEq, Eq)]
pub struct Totals {
    /// Calls, by number.
    pub calls: BTreeMap<u8, u64>,
    /// Commands and bytes of the texts written.
    pub commands: u64,
    /// See above.
    pub bytes: u64,
}

/// A run over lists of all kinds, one after another.
#[derive(Clone, Debug)]
pub struct Trial {
    random: Random,
    lists: Lists,
    /// What was compared so far.
    pub totals: Totals,
}

impl Trial {
    /// The trial of a seed.
    pub fn new(seed: u64) -> Trial {
        let mut random = Random::new(seed);
        let lists = Lists::new(random.bits());
        Trial {
            random,
            lists,
            totals: Totals::default(),
        }
    }

    /// Hands the next list to a writer, with a buffer that fits it exactly, or not, or amply.
    pub fn step(&mut self, writer: &impl Writer) -> Result<(), String> {
        let list = self.lists.next().expect("there are always more");
        let case = Case::new(list);
        let room = match self.random.below(8) {
            0 => self.random.below(case.length() + 1),
            1..4 => case.length() + self.random.below(200),
            _ => self.random.pick(&case.rooms()),
        };
        case.compare(writer, room)?;
        let number = case.number(room);
        *self.totals.calls.entry(number).or_default() += 1;
        if number == 0 {
            self.totals.commands += case.list.entries.len() as u64;
            self.totals.bytes += case.length() as u64;
        }
        Ok(())
    }
}
