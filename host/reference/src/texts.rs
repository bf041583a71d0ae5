//! Texts of the bus monitor to try readers on, each determined by a seed.
//!
//! - [`of_commands`] writes a list of commands as a text, in one of the many ways that document 01
//!   leaves open.
//! - [`text`] makes a text of one kind: valid, aimed at a fault, damaged, or with about as many
//!   commands as are taken from one text.
//! - [`Texts`] is an endless sequence of texts of all kinds.
//! - [`edges`] are texts made by hand, each for one point.

mod edges;
mod faults;
mod script;

pub use edges::edges;

use crate::random::Random;
use crate::recording::MAX_COMMANDS;
use crate::records::{Command, CoreNumber, SourceId};
use script::{Script, Word};

/// What a text was made to be.
#[derive(Clone, Copy, Debug, PartialEq, Eq, Hash)]
pub enum Kind {
    /// Read without fault.
    Valid,
    /// Good up to a place of a chosen fault, or of several at one word.
    Aimed,
    /// One of these with bytes or words changed, dropped, doubled or swapped, or cut.
    Damaged,
    /// About as many commands as are taken from one text, then perhaps a fault. There are few of
    /// them, since each is more than a megabyte long.
    Long,
}

/// A text, and the kind and seed that make it again.
#[derive(Clone, Debug, PartialEq, Eq)]
pub struct Text {
    /// How the text was made.
    pub kind: Kind,
    /// What it was made from.
    pub seed: u64,
    /// The text itself.
    pub bytes: Vec<u8>,
}

/// Texts without end, the same for the same seed. One in four is valid, one in four aimed, nearly
/// half are damaged, and about one in two thousand is long.
#[derive(Clone, Debug)]
pub struct Texts {
    random: Random,
}

impl Texts {
    /// The texts of a seed.
    pub fn new(seed: u64) -> Texts {
        Texts {
            random: Random::new(seed),
        }
    }
}

impl Iterator for Texts {
    type Item = Text;

    fn next(&mut self) -> Option<Text> {
        let kind = match self.random.below(2048) {
            0 => Kind::Long,
            1..512 => Kind::Valid,
            512..1024 => Kind::Aimed,
            _ => Kind::Damaged,
        };
        Some(text(kind, self.random.bits()))
    }
}

/// The text of this kind and seed.
pub fn text(kind: Kind, seed: u64) -> Text {
    let random = &mut Random::new(seed);
    let mut words = match kind {
        Kind::Valid => valid(random),
        Kind::Aimed => aimed(random),
        Kind::Damaged if random.flag() => valid(random),
        Kind::Damaged => aimed(random),
        Kind::Long => long(random),
    };
    let damaged = kind == Kind::Damaged;
    let damage = random.below(4);
    if damaged && damage < 2 {
        damage_words(random, &mut words);
    }
    let mut bytes = joined(random, &words);
    if damaged && damage > 0 {
        damage_bytes(random, &mut bytes);
    }
    Text { kind, seed, bytes }
}

/// A valid text from which these commands are taken. Their arguments fit the variables: ids up to
/// 255, cores up to 31, priorities up to 511.
pub fn of_commands(random: &mut Random, commands: &[Command]) -> Vec<u8> {
    let words = words_of(random, commands);
    joined(random, &words)
}

/// Commands whose arguments fit the variables, mostly small ones.
pub fn commands(random: &mut Random, count: usize) -> Vec<Command> {
    (0..count).map(|_| command(random)).collect()
}

fn command(random: &mut Random) -> Command {
    let id = match random.below(4) {
        0 => SourceId(random.within(0..=255)),
        _ => SourceId(random.within(1..=8)),
    };
    let core = match random.below(4) {
        0 => CoreNumber(random.within(0..=31)),
        _ => CoreNumber(random.within(0..=2)),
    };
    let priority = match random.below(4) {
        0 => random.within(0..=511),
        _ => random.within(1..=12),
    };
    match random.below(8) {
        0 => Command::SetSourcePriority(id, priority),
        1 => Command::Mask(id),
        2 => Command::Unmask(id),
        3 => Command::SetCorePriority(core, priority),
        4 => Command::Trigger(id),
        5 => Command::Claim(core),
        6 => Command::Redeliver(id),
        _ => Command::Complete(id),
    }
}

/// The words of a valid text with these commands.
fn words_of(random: &mut Random, commands: &[Command]) -> Vec<Word> {
    let mut script = Script::new(random);
    script.definitions();
    script.commands(commands);
    script.close();
    script.words
}

/// The words of a valid text.
fn valid(random: &mut Random) -> Vec<Word> {
    let count = random.below(5);
    let commands = commands(random, count);
    words_of(random, &commands)
}

/// The words of a text with a fault at a chosen place, or several at one word, and more after it.
fn aimed(random: &mut Random) -> Vec<Word> {
    let count = random.below(3);
    let before = commands(random, count);
    let after = commands(random, 1);
    let mut script = Script::new(random);
    if script.random.one_in(3) {
        script.definitions_with_faults();
    } else {
        script.definitions();
    }
    script.commands(&before);
    if script.stamp_with_faults() {
        script.commands(&after);
        script.close();
    }
    script.words
}

/// The words of a text that goes up to the limit on commands, and mostly to the strobe after it,
/// perhaps with a fault there.
fn long(random: &mut Random) -> Vec<Word> {
    let held = command(random);
    let count = random.pick(&[0, 1, 1, 1, 1, 2]);
    let last = commands(random, count);
    let mut script = Script::new(random);
    script.definitions();
    script.strobes(held, MAX_COMMANDS - 1);
    script.commands(&last);
    if script.stamp_with_faults() {
        script.close();
    }
    script.words
}

/// Words swapped, dropped or doubled.
fn damage_words(random: &mut Random, words: &mut Vec<Word>) {
    let count = words.len();
    let place = place(random, count);
    match random.below(4) {
        0 => words.swap(place, random.below(count)),
        1 => words.swap(place, (place + 1) % count),
        2 => drop(words.remove(place)),
        _ => words.insert(place, words[place].clone()),
    }
}

/// Bytes that mean something somewhere, and some that mean nothing.
const ANY_BYTES: &[u8] = b" \t\r\n#$bBxzXZ01289!~[wireEND\0\x0b\x0c\x1f\x7f\x80\xff";

/// One byte changed, dropped or doubled, or the text cut.
fn damage_bytes(random: &mut Random, bytes: &mut Vec<u8>) {
    if bytes.is_empty() {
        return;
    }
    let place = place(random, bytes.len());
    match random.below(5) {
        0 => bytes[place] = random.pick(ANY_BYTES),
        1 => bytes[place] ^= 1 << random.below(8),
        2 => drop(bytes.remove(place)),
        3 => bytes.insert(place, bytes[place]),
        _ => bytes.truncate(place),
    }
}

/// A place in something of this length, which isn't 0: anywhere, or in the last third, where the
/// stamps are.
fn place(random: &mut Random, length: usize) -> usize {
    match random.flag() {
        true => random.below(length),
        false => length - 1 - random.below(length.div_ceil(3)),
    }
}

/// The words with separators of all four kinds between them, and perhaps around them.
fn joined(random: &mut Random, words: &[Word]) -> Vec<u8> {
    const RUNS: [&[u8]; 8] = [
        b" ", b"\n", b"\t", b"\r", b"\r\n", b"  ", b"\n\n", b" \t\r\n",
    ];
    let usual: &[u8] = random.pick(&RUNS);
    let mut bytes = Vec::new();
    if random.one_in(8) {
        bytes.extend(random.pick(&RUNS));
    }
    for (position, word) in words.iter().enumerate() {
        if position > 0 {
            let other = random.one_in(8);
            bytes.extend(if other { random.pick(&RUNS) } else { usual });
        }
        bytes.extend(word);
    }
    if random.flag() {
        bytes.extend(usual);
    }
    bytes
}
